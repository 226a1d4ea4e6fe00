//! Document 01's examples, by the model.

use model::{Answer, Limits, MUTATIONS, answer};

fn file(lines: &[&str]) -> Vec<u8> {
    lines
        .iter()
        .flat_map(|l| format!("{l}\n").into_bytes())
        .collect()
}

fn lines(of: &[&str]) -> Answer {
    Answer::Lines(file(of))
}

fn plain(file: &[u8]) -> Answer {
    answer(file, &Limits::default(), None).answer
}

const M: [&str; 3] = ["01020020", "05000000000000000300", "060000"];

#[test]
fn m() {
    let m = file(&M);
    let lent = |words, bytes| {
        let limits = Limits {
            words,
            bytes,
            ..Limits::default()
        };
        answer(&m, &limits, None).answer
    };
    assert_eq!(plain(&m), lines(&["07000000", "0900000000"]));
    assert_eq!(lent(16_383, 65_536), Answer::Refused(1));
    assert_eq!(lent(16_384, 19), Answer::Refused(12));
    assert_eq!(lent(16_384, 20), lines(&["07000000", "0900000000"]));
}

#[test]
fn whole_case() {
    let case = file(&[
        "01020020",
        "0278",
        "0266",
        "050000000000000001030000",
        "05000000090000000a030000",
        "05000000040000000b0800010001",
        "050000000f00000010030000",
        "0600030000000002",
    ]);
    let want = [
        "070000060000",
        "070001060000",
        "0700020400010001060000",
        "070003060000",
        "08000000040000000b72656a6563742f696e66696e6974652d74797065",
        "0a74686973207061747465726e20776f756c64206861766520746f20636f6e7461696e20697473656c66",
        "0900000003",
    ];
    assert_eq!(plain(&case), lines(&want));
}

#[test]
fn refusals() {
    let refused = |lines: &[&str], number| {
        assert_eq!(plain(&file(lines)), Answer::Refused(number), "{lines:?}");
    };
    assert_eq!(plain(&[b'0'; 65_537]), Answer::Refused(2));
    assert_eq!(plain(b""), Answer::Refused(4));
    assert_eq!(plain(b"\n"), Answer::Refused(3));
    refused(&["0102002"], 3);
    refused(&["0102"], 6);
    refused(&["01020020", "02ff"], 7);
    refused(&["01020020", "0278", "0278"], 8);
    refused(&["01020020", "05000000000000000000", "060001"], 9);
    refused(&["01020020", "0278", "0300", "03040000000000000000"], 10);
    let mut names = vec!["01020020".to_owned()];
    names.extend((0..257).map(|n| format!("02{:04x}", 0x3030 + n % 10 + n / 10 * 256)));
    refused(&names.iter().map(String::as_str).collect::<Vec<_>>(), 5);
}

#[test]
fn names_of_mistakes_differ() {
    let mut names: Vec<&str> = MUTATIONS.iter().map(|m| m.0).collect();
    names.sort_unstable();
    names.dedup();
    assert_eq!(names.len(), MUTATIONS.len());
}
