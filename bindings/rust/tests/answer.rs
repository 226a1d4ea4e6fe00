//! Answers and files, parsed: those of the library, and what is neither.

use sigla::{Answer, Failure, File, Names, NoAnswer, Span, Ty};

const FORM: &[u8] = include_bytes!("../../../samples/form.hex");
const DEEPEST: &[u8] = include_bytes!("../../../samples/deepest.hex");
const INFINITE: &[u8] = include_bytes!("../../../samples/infinite.hex");

#[test]
fn the_form_is_parsed() {
    let answer = sigla::answer(FORM).expect("the form is accepted");
    let shown: Vec<String> = answer.queries[1].diagnostics.iter().map(ToString::to_string).collect();
    assert_eq!(shown, ["35..41: reject/type-mismatch: expected an integer, found a string"]);
    assert!(!answer.is_clean());
    let file = File::parse(FORM).expect("it is a file");
    assert_eq!(file.write(), FORM);
    assert_eq!(answer.queries[0].types[2], Some(Ty::Fact(0)));
    assert_eq!(answer.queries.iter().map(|query| query.visits).collect::<Vec<_>>(), [Some(2), Some(3)]);
    let ty = answer.queries[0].types[1].as_ref().expect("it was looked at");
    assert_eq!(ty.shown(&file.texts()).to_string(), "{pen = a string, pressure = an integer}");
}

#[test]
fn names_written_once_are_parsed_and_may_be_absent() {
    let lines = b"07000000\n0c0000000100000002\n0c0000000300000005\n0900000001\n";
    let answer = Answer::parse(lines).expect("it is an answer");
    assert_eq!(answer.queries[0].once, [Span::new(1, 2), Span::new(3, 5)]);
    assert!(answer.is_clean());
    let form = b"0b0000\n07000000\n0c0000000100000002\n0900000001\n0b0001\n07000000\n0900000001\n";
    let answer = Answer::parse(form).expect("it is an answer");
    assert_eq!(answer.queries.iter().map(|query| query.once.len()).collect::<Vec<_>>(), [1, 0]);
}

#[test]
fn what_is_no_answer_is_told() {
    for (lines, line, what) in [
        (&b"0e\n"[..], 1, "not a line of an answer"),
        (b"0a61\n", 1, "not a line of an answer"),
        (b"07000100\n", 1, "not a line of an answer"),
        (b"070000\n", 1, "not a line of an answer"),
        (b"0700000000\n", 1, "too long"),
        (b"07000000", 1, "no LF"),
        (b"0b0001\n", 1, "another query's number"),
        (b"07000000\n\n", 2, "empty"),
        (b"07000000\n0900000000\n09\n", 3, "not a line of an answer"),
        (b"0C0000000000000000\n", 1, "not hexadecimal"),
        (b"0c00000000000000\n", 1, "not a line of an answer"),
    ] {
        assert_eq!(Answer::parse(lines), Err(NoAnswer { line, what }), "{lines:?}");
    }
    assert_eq!(Failure::from(NoAnswer { line: 3, what: "empty" }).to_string(), "an answer that can't be read, line 3: empty");
}

#[test]
fn a_type_is_nested_as_deep_as_any_answer_and_no_deeper() {
    let nested = |levels: usize| format!("070000{}00\n", "0400010000".repeat(levels - 1));
    assert!(Answer::parse(nested(768).as_bytes()).is_ok());
    assert!(Answer::parse(nested(769).as_bytes()).is_err());
    assert!(Answer::parse(nested(1_000_000).as_bytes()).is_err());
    let answer = sigla::answer(DEEPEST).expect("it is accepted");
    let names = File::parse(DEEPEST).expect("it is a file").texts();
    for ty in answer.queries.iter().flat_map(|query| &query.types).flatten() {
        assert!(!ty.shown(&names).to_string().is_empty() && !ty.tree(&names).to_string().is_empty());
    }
}

/// A small stream of numbers, the same at each run.
struct Numbers(u64);

impl Numbers {
    fn below(&mut self, n: usize) -> usize {
        self.0 ^= self.0 << 13;
        self.0 ^= self.0 >> 7;
        self.0 ^= self.0 << 17;
        (self.0 % n as u64) as usize
    }
}

/// Files and answers with digits and lines changed, left out, doubled: nothing panics, what parses is written again as it was read, and
/// whatever the library answers is parsed.
#[test]
fn damaged_lines_are_no_matter() {
    let mut numbers = Numbers(7);
    let (mut accepted, mut parsed) = (0, 0);
    for file in [FORM, INFINITE, &DEEPEST[..2000]] {
        for _ in 0..4000 {
            let mut bytes = file.to_vec();
            for _ in 0..1 + numbers.below(3) {
                let at = numbers.below(bytes.len());
                match numbers.below(4) {
                    0 => bytes[at] = b"0123456789abcdef\n"[numbers.below(17)],
                    1 => drop(bytes.drain(at..(at + 1 + numbers.below(4)).min(bytes.len()))),
                    2 => bytes.insert(at, b"0123456789abcdef\n"[numbers.below(17)]),
                    _ => bytes = [&bytes[..at], &bytes[numbers.below(bytes.len())..]].concat(),
                }
                if bytes.is_empty() {
                    break;
                }
            }
            match sigla::answer(&bytes) {
                Err(Failure::Unreadable(fault)) => panic!("{fault}"),
                Err(Failure::Refused(_)) => {}
                Ok(answer) => {
                    accepted += 1;
                    let file = File::parse(&bytes).expect("what is accepted is a file");
                    assert_eq!(file.write(), bytes);
                    assert_eq!(file.queries.len(), answer.queries.len());
                }
            }
            if let Ok(file) = File::parse(&bytes) {
                parsed += 1;
                assert_eq!(File::parse(&file.write()), Ok(file));
            }
            let _ = Answer::parse(&bytes);
        }
    }
    assert!(accepted > 100 && parsed > accepted, "{accepted} accepted, {parsed} parsed");
}

/// The texts of a type mismatch are those of the two types as they are shown here.
#[test]
fn types_are_shown_as_messages_show_them() {
    let mut form = sigla::Form::new(2, 32);
    let made = (|| -> Result<(), sigla::Limit> {
        let (integer, string, bytes) = (form.integer()?, form.string()?, form.bytes()?);
        let empty = form.record(&[])?;
        let far = form.fact(sigla::Predicate::absent(900))?;
        let near = form.fact(sigla::Predicate::absent(0))?;
        let record = form.record(&[("a", integer), ("b c", empty)])?;
        let union = form.union(&[("u", 7, string), ("v", 4_000_000_000, record)])?;
        let tys = [integer, string, bytes, empty, far, near, record, union];
        let predicates: Vec<_> = tys.iter().map(|ty| form.predicate("p", *ty, None)).collect::<Result<_, _>>()?;
        for left in &predicates {
            for right in &predicates[..3] {
                let mut query = form.query()?;
                let at = Span::default();
                let mut statements = Vec::new();
                for predicate in [left, right] {
                    let x = query.variable(at, "x")?;
                    let fact = query.fact(at, *predicate, x)?;
                    statements.push(sigla::Statement::Holds(fact));
                }
                let head = query.variable(at, "x")?;
                query.ask(head, statements)?;
            }
        }
        Ok(())
    })();
    made.expect("there is room");
    let names: Names = form.texts();
    let answer = sigla::answer(&form.file().expect("it is a file")).expect("it is accepted");
    let alone = |n: usize| {
        // the type of the key, by the first of two uses
        let query = &answer.queries[3 * n];
        query.types[0].as_ref().expect("it was looked at").shown(&names).to_string()
    };
    let mut told = 0;
    for (k, query) in answer.queries.iter().enumerate() {
        let (left, right) = (k / 3, k % 3);
        if left == right {
            assert_eq!(query.diagnostics, []);
            continue;
        }
        let message = query.diagnostics[0].message.as_deref().expect("it has a text");
        assert_eq!(message, format!("expected {}, found {}", alone(right), alone(left)), "query {k}");
        told += 1;
    }
    assert_eq!(told, 21);
}
