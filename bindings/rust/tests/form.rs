//! The builder: what it makes is accepted, each limit is told just where the library would refuse, and no handle serves another.

use sigla::{File, Form, Limit, Predicate, Refusal, Span, Statement};

const AT: Span = Span { start: 0, end: 0 };

/// A form with a query, so that it is a file.
fn asked(mut form: Form) -> Vec<u8> {
    let mut query = form.query().expect("there is room");
    let head = query.integer(AT).expect("there is room");
    query.ask(head, vec![]).expect("there is room");
    form.file().expect("it is a file")
}

/// The refusal of a file with one line more, put before the first line of a later kind.
fn one_more(file: &[u8], line: &str) -> Refusal {
    let text = String::from_utf8(file.to_vec()).expect("digits");
    let mut lines: Vec<&str> = text.lines().collect();
    let place = lines.iter().position(|other| other[..2] > line[..2]).unwrap_or(lines.len());
    lines.insert(place, line);
    let file: String = lines.iter().map(|line| format!("{line}\n")).collect();
    match sigla::answer(file.as_bytes()) {
        Err(sigla::Failure::Refused(refusal)) => refusal,
        other => panic!("{other:?}"),
    }
}

#[test]
fn names_types_and_predicates_have_their_limits() {
    let mut form = Form::new(2, 32);
    for i in 0..Form::NAMES {
        assert_eq!(form.name(&format!("n{i}")), Ok(i as u16));
    }
    assert_eq!(form.name("n7"), Ok(7));
    assert_eq!(form.name("more"), Err(Limit::Names));
    assert!(sigla::answer(&asked(form)).is_ok());

    let mut form = Form::new(2, 32);
    let types: Vec<_> = (0..Form::TYPES).map(|_| form.integer().expect("there is room")).collect();
    let ty = types[Form::TYPES - 1];
    assert_eq!(form.string(), Err(Limit::Types));
    for i in 0..Form::PREDICATES {
        let predicate = form.predicate("p", ty, (i % 2 == 0).then_some(ty)).expect("there is room");
        assert_eq!(predicate.number(), i as u32);
    }
    assert_eq!(form.predicate("p", ty, None), Err(Limit::Predicates));
    let file = asked(form);
    assert!(sigla::answer(&file).is_ok());
    assert_eq!(one_more(&file, "0300"), Limit::Types.refusal());
    assert_eq!(one_more(&file, "040000000000"), Limit::Predicates.refusal());
}

#[test]
fn nodes_queries_frames_and_files_have_their_limits() {
    let mut form = Form::new(2, 32);
    let mut query = form.query().expect("there is room");
    let mut last = query.integer(AT).expect("there is room");
    for _ in 1..Form::NODES {
        last = query.arithmetic(AT, vec![last]).expect("there is room");
    }
    assert_eq!(query.integer(AT).expect_err("it is full"), Limit::Nodes);
    query.ask(last, vec![]).expect("there is room");
    let file = form.file().expect("it is a file");
    assert!(sigla::answer(&file).is_ok());
    assert_eq!(one_more(&file, "05000000000000000000"), Limit::Nodes.refusal());

    let mut form = Form::new(2, 32);
    assert_eq!(form.name(&"é".repeat(256)), Err(Limit::Frame));
    assert_eq!(form.name(&"x".repeat(511)), Ok(0));
    for _ in 0..Form::QUERIES {
        let mut query = form.query().expect("there is room");
        let head = query.prefix(AT, "p").expect("there is room");
        query.ask(head, vec![]).expect("there is room");
    }
    assert_eq!(form.query().expect_err("it is full"), Limit::Queries);
    assert!(sigla::answer(&form.file().expect("it is a file")).is_ok());
    assert_eq!(form.file().expect("it is a file").split(|&byte| byte == b'\n').map(<[u8]>::len).max(), Some(1024));

    // 125 fields are 510 bytes of a frame, and 126 are more than 512
    for (fields, fits) in [(125, true), (126, false)] {
        let mut query = Form::new(2, 32);
        let mut query = query.query().expect("there is room");
        let nodes: Vec<_> = (0..fields).map(|_| ("a", query.wildcard(AT).expect("there is room"))).collect();
        assert_eq!(query.record(AT, nodes).is_ok(), fits);
    }

    let mut form = Form::new(2, 32);
    for i in 0..64 {
        form.name(&format!("{i:0511}")).expect("there is room");
    }
    let mut query = form.query().expect("there is room");
    let head = query.integer(AT).expect("there is room");
    query.ask(head, vec![]).expect("there is room");
    assert_eq!(form.file(), Err(Limit::File));
    assert_eq!(Limit::File.refusal(), Refusal::FileTooLong);
}

#[test]
fn what_repeats_is_told() {
    let mut form = Form::new(2, 32);
    let ty = form.bytes().expect("there is room");
    assert_eq!(form.record(&[("a", ty), ("b", ty), ("a", ty)]), Err(Limit::RepeatedField("a".to_string())));
    assert_eq!(form.union(&[("a", 7, ty), ("b", 7, ty)]), Err(Limit::RepeatedDiscriminant(7)));
    assert!(form.union(&[("a", 0, ty), ("a", u32::MAX, ty)]).is_ok());
    assert!(form.record(&[]).is_ok());
    assert!(sigla::answer(&asked(form)).is_ok());
    assert_eq!(Form::new(2, 32).file(), Err(Limit::NoQuery));
}

#[test]
fn no_handle_serves_another() {
    let (mut one, mut two) = (Form::new(2, 32), Form::new(2, 32));
    let ty = one.integer().expect("there is room");
    two.integer().expect("there is room");
    assert_eq!(two.record(&[("a", ty)]), Err(Limit::OtherType));
    assert_eq!(two.union(&[("a", 0, ty)]), Err(Limit::OtherType));
    assert_eq!(two.predicate("p", ty, None), Err(Limit::OtherType));
    let p = one.predicate("p", ty, None).expect("there is room");
    assert_eq!(two.fact(p), Err(Limit::OtherPredicate));
    assert_eq!(one.define(p, ty, None), Err(Limit::OtherPredicate));
    assert_eq!(one.define(Predicate::absent(0), ty, None), Err(Limit::OtherPredicate));

    // the same number in the same place of another form, and of a query that was given up
    let mut other = two.query().expect("there is room");
    let foreign = other.integer(AT).expect("there is room");
    let any = other.wildcard(AT).expect("there is room");
    assert_eq!(other.fact(AT, p, any).expect_err("it is another's"), Limit::OtherPredicate);
    let mut query = one.query().expect("there is room");
    query.integer(AT).expect("there is room");
    assert_eq!(query.value(AT, foreign).expect_err("it is another's"), Limit::OtherNode);
    let given_up = query.integer(AT).expect("there is room");
    let mut query = one.query().expect("there is room");
    query.integer(AT).expect("there is room");
    query.integer(AT).expect("there is room");
    assert_eq!(query.ask(given_up, vec![]), Err(Limit::OtherNode));
}

#[test]
fn a_predicate_may_refer_to_itself() {
    let mut form = Form::new(2, 32);
    let page = form.declare("page").expect("there is room");
    let other = form.declare("other").expect("there is room");
    let (text, next) = (form.string().expect("there is room"), form.fact(page).expect("there is room"));
    let key = form.record(&[("text", text), ("next", next)]).expect("there is room");
    form.define(page, key, None).expect("it was declared");
    let mut query = form.query().expect("there is room");
    let x = query.variable(AT, "x").expect("there is room");
    let pattern = query.record(AT, vec![("next", x)]).expect("there is room");
    let fact = query.fact(AT, page, pattern).expect("there is room");
    let again = query.variable(AT, "x").expect("there is room");
    let head = query.field(AT, "text", again).expect("there is room");
    query.ask(head, vec![Statement::Holds(fact)]).expect("there is room");
    assert_eq!(form.file(), Err(Limit::Undefined("other".to_string())));
    form.define(other, text, Some(key)).expect("it was declared");
    let answer = sigla::answer(&form.file().expect("it is a file")).expect("it is accepted");
    let shown: Vec<String> = answer.queries[0].types.iter().flatten().map(|ty| ty.shown(&form.texts()).to_string()).collect();
    assert_eq!(shown, ["`page`", "{text = a string, next = `page`}", "`page`", "`page`", "a string"]);
}

/// A file with every type, shape and statement, each node with a span of its own.
fn everything() -> Result<Vec<u8>, Limit> {
    let mut form = Form::new(2, 32);
    let (integer, string, bytes) = (form.integer()?, form.string()?, form.bytes()?);
    let far = form.fact(Predicate::absent(u32::MAX))?;
    let record = form.record(&[("a", integer), ("b", string)])?;
    let union = form.union(&[("u", 3, bytes), ("v", 9, far)])?;
    let p = form.predicate("p", record, Some(union))?;
    let mut n = 0;
    let mut at = || {
        n += 2;
        Span::new(n, n + 1)
    };
    let mut q = form.query()?;
    let one = q.integer(at())?;
    let sum = q.arithmetic(at(), vec![one])?;
    let prefix = q.prefix(at(), "pre")?;
    let fuzzy = q.fuzzy(at(), "near", 2)?;
    let either = q.either(at(), vec![prefix, fuzzy])?;
    let pattern = q.record(at(), vec![("a", sum), ("b", either)])?;
    let fact = q.fact(at(), p, pattern)?;
    let bound = q.variable(at(), "x")?;
    let x = q.variable(at(), "x")?;
    let value = q.value(at(), x)?;
    let alternative = q.alternative(at(), "u", value)?;
    let raw = q.bytes(at())?;
    let x = q.variable(at(), "x")?;
    let field = q.field(at(), "b", x)?;
    let text = q.string(at())?;
    let never = q.never(at())?;
    let inner = q.subquery(at(), text, vec![Statement::Denies(never)])?;
    let y = q.variable(at(), "y")?;
    let any = q.wildcard(at())?;
    let unread = q.unread(at())?;
    let statements = vec![
        Statement::Binds(bound, fact),
        Statement::Compares(alternative, raw),
        Statement::Holds(inner),
        Statement::Differs(y, any),
        Statement::Holds(unread),
    ];
    q.ask(field, statements)?;
    form.file()
}

#[test]
fn every_shape_and_statement_is_read_as_it_is_written() {
    let file = everything().expect("there is room");
    let parsed = File::parse(&file).expect("it is a file");
    assert_eq!(parsed.write(), file);
    let kinds: std::collections::HashSet<_> = parsed.queries[0].nodes.iter().map(|node| std::mem::discriminant(&node.shape)).collect();
    assert_eq!(kinds.len(), 17);
    let answer = sigla::answer(&file).expect("it is accepted");
    assert_eq!(answer.queries[0].diagnostics, []);
    assert_eq!(answer.queries[0].types[13], Some(sigla::Ty::String));
    let tree = answer.queries[0].types[9].as_ref().expect("it was looked at").tree(&parsed.texts()).to_string();
    assert_eq!(tree, "union\n  u = 3: bytes\n  v = 9: fact 4294967295 (absent)\n");
}
