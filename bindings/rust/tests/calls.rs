//! The call on the sample query and the sample form, on refusals, and on slices of other lengths.

use sigla::{QUERIES, Refusal, STACK, WORDS, by_query, check, lamp};

const SAMPLE: &[u8] = include_bytes!("../../../samples/infinite.hex");
const FORM: &[u8] = include_bytes!("../../../samples/form.hex");
const DEEPEST: &[u8] = include_bytes!("../../../samples/deepest.hex");

fn lent() -> (Vec<u32>, Vec<u8>) {
    (vec![0xffff_ffff; WORDS], vec![0xff; 65536])
}

#[test]
fn the_sample_is_answered() {
    let (mut work, mut answer) = lent();
    let n = check(SAMPLE, &mut work, &mut answer).expect("the sample is accepted");
    let text: String = answer[..n].iter().map(|&byte| char::from(byte)).collect();
    let hex = |text: &str| -> String { text.bytes().map(|byte| format!("{byte:02x}")).collect() };
    let mut last = text.lines().rev();
    assert_eq!(last.next(), Some("0900000003"));
    assert_eq!(last.next(), Some(format!("0a{}", hex("this pattern would have to contain itself")).as_str()));
    let code = last.next().expect("there are lines");
    assert!(code.starts_with("08") && code.ends_with(&hex("reject/infinite-type")), "{code}");
    assert!(answer[n..].iter().all(|&byte| byte == 0));
    assert!(work.iter().all(|&word| word == 0));
}

#[test]
fn a_refusal_clears_both_slices() {
    for (file, refusal) in [(&b""[..], Refusal::MisplacedKind), (b"\n", Refusal::MalformedLine), (&[b'0'; 65537], Refusal::FileTooLong)] {
        let (mut work, mut answer) = lent();
        assert_eq!(check(file, &mut work, &mut answer), Err(refusal));
        assert!(work.iter().all(|&word| word == 0) && answer.iter().all(|&byte| byte == 0));
    }
}

#[test]
fn slices_decide_the_first_and_the_last_refusal() {
    let (_, mut answer) = lent();
    assert_eq!(check(SAMPLE, &mut vec![7; WORDS - 1], &mut answer), Err(Refusal::WorkTooShort));
    let (mut work, mut answer) = lent();
    let n = check(SAMPLE, &mut work, &mut answer).expect("the sample is accepted");
    assert_eq!(check(SAMPLE, &mut vec![7; WORDS + 3], &mut answer[..n]), Ok(n));
    assert_eq!(check(SAMPLE, &mut vec![7; WORDS], &mut answer[..n - 1]), Err(Refusal::AnswerTooLong));
    assert_eq!(check(SAMPLE, &mut vec![7; WORDS], &mut []), Err(Refusal::AnswerTooLong));
}

/// The lines of a file: those of the schema, and each query's own.
fn taken_apart(file: &[u8]) -> (Vec<u8>, Vec<Vec<u8>>) {
    let (mut schema, mut queries, mut own) = (Vec::new(), Vec::new(), Vec::new());
    for line in file.split_inclusive(|&byte| byte == b'\n') {
        match &line[..2] {
            b"05" => own.extend_from_slice(line),
            b"06" => {
                own.extend_from_slice(line);
                queries.push(std::mem::take(&mut own));
            }
            _ => schema.extend_from_slice(line),
        }
    }
    (schema, queries)
}

#[test]
fn each_query_of_a_form_is_answered_as_if_alone() {
    let (mut work, mut answer) = lent();
    let n = check(FORM, &mut work, &mut answer).expect("the form is accepted");
    let parts: Vec<Vec<u8>> = by_query(&answer[..n]).into_iter().map(<[u8]>::to_vec).collect();
    let (schema, queries) = taken_apart(FORM);
    assert_eq!((parts.len(), queries.len()), (2, 2));
    for (part, query) in parts.iter().zip(&queries) {
        let n = check(&[&schema[..], query].concat(), &mut work, &mut answer).expect("a query alone is accepted");
        assert_eq!(&answer[..n], part);
    }
    assert!(answer.iter().rev().take_while(|&&byte| byte == 0).count() > 0);
}

#[test]
fn a_file_has_64_queries_at_most() {
    let form = |queries: usize| [b"01020020\n".to_vec(), b"05000000000000000000\n060000\n".repeat(queries)].concat();
    let (mut work, mut answer) = lent();
    let n = check(&form(QUERIES), &mut work, &mut answer).expect("as many as allowed");
    assert_eq!(by_query(&answer[..n]), vec![b"07000000\n0900000000\n"; QUERIES]);
    let (mut work, mut answer) = lent();
    assert_eq!(check(&form(QUERIES + 1), &mut work, &mut answer), Err(Refusal::TooManyQueries));
    assert!(work.iter().all(|&word| word == 0) && answer.iter().all(|&byte| byte == 0));
}

#[test]
fn the_stated_stack_suffices() {
    let (mut work, mut answer) = lent();
    let thread = std::thread::Builder::new().stack_size(STACK);
    let thread = thread.spawn(move || check(DEEPEST, &mut work, &mut answer)).expect("a thread can be started");
    assert!(thread.join().expect("the thread ends").is_ok());
}

#[test]
fn a_predicate_number_has_32_bits() {
    // x = p _; x = a fact of 65,536, which is not predicate 0
    let mut form = sigla::Form::new(2, 32);
    let integer = form.integer().expect("there is room");
    let p = form.predicate("p", integer, None).expect("there is room");
    let far = sigla::Predicate::absent(65_536 + p.number());
    let mut query = form.query().expect("there is room");
    let at = sigla::Span::default();
    let mut bound = Vec::new();
    for predicate in [p, far] {
        let left = query.variable(at, "x").expect("there is room");
        let any = query.wildcard(at).expect("there is room");
        let fact = query.fact(at, predicate, any).expect("there is room");
        bound.push(sigla::Statement::Binds(left, fact));
    }
    let head = query.variable(at, "x").expect("there is room");
    query.ask(head, bound).expect("there is room");
    let file = form.file().expect("it is a file");
    let answer = sigla::answer(&file).expect("it is accepted");
    assert_eq!(answer.queries[0].types[5], Some(sigla::Ty::Fact(65_536)));
    assert_eq!(answer.queries[0].diagnostics[0].message.as_deref(), Some("expected `p`, found a fact"));
    assert_eq!(sigla::File::parse(&file).expect("it is a file").write(), file);
}

#[test]
fn a_file_goes_out_and_comes_back() {
    let (mut work, mut narrow) = lent();
    let n = sigla::narrow(FORM, &mut work, &mut narrow).expect("its numbers are small");
    assert_eq!(n + 8, FORM.len());
    assert_eq!(check(&narrow[..n], &mut work, &mut vec![0; 65536]), Err(Refusal::MalformedFrame));
    let mut wide = vec![0xff; 65536];
    let m = sigla::widen(&narrow[..n], &mut work, &mut wide).expect("it is a file of the narrow edition");
    assert_eq!(&wide[..m], FORM);
    let far = String::from_utf8(FORM.to_vec()).expect("digits").replacen("0d00000000", "0d00010000", 1);
    assert_eq!(sigla::narrow(far.as_bytes(), &mut work, &mut wide), Err(Refusal::NumberTooWide));
    assert_eq!(sigla::widen(&narrow[..n], &mut work, &mut wide[..m - 1]), Err(Refusal::AnswerTooLong));
    assert!(work.iter().all(|&word| word == 0) && wide[..m - 1].iter().all(|&byte| byte == 0));
}

#[test]
fn visits_are_tallied() {
    let mut tally = sigla::Tally::default();
    tally.add(999, 5).expect("it is small");
    tally.add(1_001, 7).expect("it is small");
    assert_eq!(tally, sigla::Tally { units: 2, cents: 14, remainder: 0 });
    let full = sigla::Tally { units: u32::MAX, cents: 0, remainder: 999 };
    let mut same = full;
    assert_eq!(same.add(1, 0), Err(Refusal::TallyTooLarge));
    assert_eq!(same, full);
}

#[test]
fn desks_share_a_pool() {
    let mut group = sigla::Group::set_up(1_000, &[400, 200, 100], &[500, 1_000, 100]).expect("it obeys the rules");
    assert_eq!((0..3).map(|desk| group.ceiling(desk)).collect::<Vec<_>>(), [Ok(500), Ok(500), Ok(100)]);
    assert_eq!(group.ceiling(3), Err(Refusal::OutsideTheRules));
    let (mut work, mut answer) = lent();
    group.check(1, SAMPLE, &mut work, &mut answer).expect("three visits are there");
    assert_eq!(group.desks[1].used, 3);
    let mut poor = sigla::Group::set_up(2, &[2], &[2]).expect("it obeys the rules");
    assert_eq!(poor.check(0, SAMPLE, &mut work, &mut answer), Err(Refusal::CeilingPassed));
    assert_eq!((poor.desks[0].used, poor.ceiling(0)), (2, Ok(0)));
    poor.new_day().expect("it obeys the rules");
    assert_eq!(poor.ceiling(0), Ok(2));
    assert_eq!(sigla::Group::set_up(1, &[1], &[0]), Err(Refusal::OutsideTheRules));
    assert_eq!(sigla::Group::set_up(0, &[1 << 28; 16], &[1 << 28; 16]), Err(Refusal::OutsideTheRules));
}

#[test]
fn the_lamp_shows_whether_there_is_a_diagnostic() {
    let (mut work, mut answer) = lent();
    for (file, lit) in [(DEEPEST, None), (FORM, Some(true)), (&b"01020020\n05000000000000000000\n060000\n"[..], Some(false))] {
        let n = check(file, &mut work, &mut answer).expect("the file is accepted");
        let has = answer[..n].split(|&byte| byte == b'\n').any(|line| line.starts_with(b"08"));
        work.fill(u32::MAX);
        assert_eq!(lamp(file, &mut work), Ok(has));
        assert!(work.iter().all(|&word| word == 0));
        assert!(lit.is_none_or(|lit| lit == has));
    }
    work.fill(u32::MAX);
    assert_eq!(lamp(FORM, &mut work[..WORDS - 1]), Err(Refusal::WorkTooShort));
    assert!(work[..WORDS - 1].iter().all(|&word| word == 0));
    assert_eq!(lamp(b"", &mut work), Err(Refusal::MisplacedKind));
}

#[test]
fn the_line_at_fault_is_found() {
    let good = ["01020020", "0278", "0300", "040000000000", "05000000000000000000", "050000000000000000030000", "0600010000"];
    let file = |lines: &[&str]| lines.iter().map(|line| format!("{line}\n")).collect::<String>().into_bytes();
    let good = |place: usize, line: &'static str| {
        let mut lines = good;
        lines[place - 1] = line;
        file(&lines)
    };
    assert_eq!(sigla::answer(&good(7, "060001")).map(|answer| answer.queries.len()), Ok(1));
    for (place, line, number) in [
        (2, "02780", 3),
        (7, "", 3),
        (2, "0102", 4),
        (5, "02", 4),
        (7, "07", 4),
        (5, "0511", 6),
        (2, "02ff", 7),
        (4, "0278", 4),
        (3, "0278", 8),
        (3, "03050000000000000000", 9),
        (4, "040001000000", 9),
        (6, "050000000000000000030009", 9),
        (7, "060007", 9),
    ] {
        let file = good(place, line);
        assert_eq!(check(&file, &mut lent().0, &mut lent().1).map_err(Refusal::number), Err(number), "{line}");
        assert_eq!(sigla::refused_line(&file), Some(place), "{line}");
    }
    assert_eq!(sigla::refused_line(&good(7, "060001")), None);
    assert_eq!(sigla::refused_line(b""), None);
    assert_eq!(sigla::refused_line(b"01020020\n0278"), Some(2));
    assert_eq!(sigla::refused_line(&[b'0'; 65537]), None);
    let form = |queries: usize| [b"01020020\n".to_vec(), b"05000000000000000000\n060000\n".repeat(queries)].concat();
    assert_eq!(sigla::refused_line(&form(QUERIES)), None);
    assert_eq!(sigla::refused_line(&form(QUERIES + 3)), Some(1 + 2 * (QUERIES + 1)));
}
