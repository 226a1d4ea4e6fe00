//! The tool as a person would use it: the samples of samples/notation, texts that are wrong, files of frames and back.

use std::io::Write;
use std::path::PathBuf;
use std::process::{Child, Command, Output, Stdio};

fn start(arguments: &[&str]) -> Child {
    Command::new(env!("CARGO_BIN_EXE_sigla-tool"))
        .args(arguments)
        .stdin(Stdio::piped())
        .stdout(Stdio::piped())
        .stderr(Stdio::piped())
        .spawn()
        .expect("the tool starts")
}

fn tool(arguments: &[&str], input: &[u8]) -> Output {
    let mut child = start(arguments);
    // a command that does not read its input may have ended by now
    let _ = child.stdin.take().expect("it is piped").write_all(input);
    child.wait_with_output().expect("the tool ends")
}

fn samples() -> PathBuf {
    PathBuf::from(env!("CARGO_MANIFEST_DIR")).join("../../samples")
}

fn assembled(name: &str) -> Vec<u8> {
    let path = samples().join(format!("notation/{name}.txt"));
    let done = tool(&["assemble", path.to_str().expect("a path")], b"");
    assert!(done.status.success(), "{name}: {}", String::from_utf8_lossy(&done.stderr));
    done.stdout
}

/// The codes of each query's diagnostics, or the refusal's number.
type Outcome = Result<Vec<Vec<String>>, u8>;

/// What the library says of a file.
fn outcome(file: &[u8]) -> Outcome {
    let codes = |query: &sigla::Typed| query.diagnostics.iter().map(|diagnostic| diagnostic.code.clone()).collect();
    match sigla::answer(file) {
        Ok(answer) => Ok(answer.queries.iter().map(codes).collect()),
        Err(sigla::Failure::Refused(refusal)) => Err(refusal.number()),
        Err(fault) => panic!("{fault}"),
    }
}

/// Each sample with the codes of its queries, or the number by which it is turned down.
fn expected() -> Vec<(&'static str, Outcome)> {
    let clean = || Ok(vec![vec![]]);
    let one = |code: &str| Ok(vec![vec![code.to_string()]]);
    vec![
        ("absent", one("reject/no-value")),
        ("arity", one("reject/union-arity")),
        ("either", clean()),
        ("fact", clean()),
        ("form", Ok(vec![vec![], vec!["reject/type-mismatch".to_string()], vec!["reject/wildcard-in-head".to_string()]])),
        ("infinite", one("reject/infinite-type")),
        ("limit", Ok(vec![vec!["reject/fuzzy-distance".to_string(), "reject/fuzzy-term".to_string()]])),
        ("lines", one("reject/type-mismatch")),
        ("order", one("reject/type-mismatch")),
        ("page", clean()),
        ("queries", Ok(vec![vec![]; 64])),
        ("refused", Err(10)),
        ("rollback", one("reject/type-mismatch")),
        ("shadowed", one("reject/value-shadowed")),
        ("slip", clean()),
        ("subquery", clean()),
        ("union", one("reject/unknown-alternative")),
        ("value", clean()),
    ]
}

#[test]
fn the_samples_are_what_their_comments_say() {
    let mut there: Vec<String> = std::fs::read_dir(samples().join("notation"))
        .expect("the samples are there")
        .map(|entry| entry.expect("an entry").path().file_stem().expect("a name").to_str().expect("text").to_string())
        .collect();
    there.sort();
    assert_eq!(there, expected().iter().map(|sample| sample.0).collect::<Vec<_>>());
    for (name, outcome_of) in expected() {
        let text = std::fs::read_to_string(samples().join(format!("notation/{name}.txt"))).expect("the sample is there");
        assert!(text.starts_with("# "), "{name} has no comment");
        assert_eq!(outcome(&assembled(name)), outcome_of, "{name}");
    }
}

/// The texts of a sample's queries: NAME.txt, or NAME-0.txt and so on.
fn texts(name: &str) -> Vec<PathBuf> {
    let one = samples().join(format!("text/{name}.txt"));
    if one.exists() {
        return vec![one];
    }
    (0..).map(|k| samples().join(format!("text/{name}-{k}.txt"))).take_while(|path| path.exists()).collect()
}

/// A sample's spans are those of its text: a variable stands where its name does, a record in its braces, a fact after its predicate.
#[test]
fn the_samples_are_where_their_texts_say() {
    let mut variables = 0;
    for (name, _) in expected() {
        let file = sigla::File::parse(&assembled(name)).expect("it is a file");
        let names = file.texts();
        for (query, path) in file.queries.iter().zip(texts(name)) {
            let text = std::fs::read_to_string(&path).expect("the text is there");
            let comment = std::fs::read_to_string(samples().join(format!("notation/{name}.txt"))).expect("the sample is there");
            assert!(text.lines().count() > 1 || comment.contains(text.trim_end()), "{name}: the comment has another query");
            for node in &query.nodes {
                let piece = text.get(node.span.start as usize..node.span.end as usize).expect("a piece of the text");
                match &node.shape {
                    sigla::Shape::Variable(x) => {
                        assert_eq!(piece, names.name(*x), "{name}");
                        let around = |at: Option<char>| at.is_none_or(|c| !c.is_alphanumeric());
                        let (before, after) = (&text[..node.span.start as usize], &text[node.span.end as usize..]);
                        assert!(around(before.chars().next_back()) && around(after.chars().next()), "{name}: {piece} in the midst of a word");
                        variables += 1;
                    }
                    sigla::Shape::Record(_) => assert!(piece.starts_with('{') && piece.ends_with('}'), "{name}: {piece}"),
                    sigla::Shape::Fact(p, _) => assert!(names.predicate(*p).is_none_or(|p| piece.starts_with(p)), "{name}: {piece}"),
                    _ => {}
                }
            }
        }
    }
    assert!(variables > 40, "{variables}");
}

#[test]
fn one_query_more_is_too_many() {
    let mut text = std::fs::read_to_string(samples().join("notation/queries.txt")).expect("the sample is there");
    text += "query\n  one = integer\n  head one\n";
    assert_eq!(outcome(&tool(&["assemble", "-"], text.as_bytes()).stdout), Err(13));
}

#[test]
fn what_is_taken_apart_is_put_together_again() {
    let frames = ["deepest.hex", "form.hex", "infinite.hex"].map(|name| std::fs::read(samples().join(name)).expect("the sample is there"));
    let written = expected().into_iter().filter(|sample| sample.0 != "refused").map(|sample| assembled(sample.0));
    for file in frames.into_iter().chain(written) {
        let text = tool(&["disassemble", "-"], &file);
        assert!(text.status.success());
        assert_eq!(tool(&["assemble", "-"], &text.stdout).stdout, file);
    }
    // names that are no words, names of one predicate twice, absent ones
    let odd = "limits 0 0\nname \"\"\nname \"a b\"\nname \"\\u{7}\\\"\\\\\\n\\t\"\nname größe\nname \"9\"\ntype t = fact p\ntype u = fact 9\n\
               predicate p: t\npredicate p: u -> t\nquery\n  a = wildcard\n  b = fact 1 of a\n  c = fact p of b\n  head c\n";
    let file = tool(&["assemble", "-"], odd.as_bytes()).stdout;
    let text = tool(&["disassemble", "-"], &file).stdout;
    assert_eq!(tool(&["assemble", "-"], &text).stdout, file);
    let text = String::from_utf8(text).expect("text");
    for line in ["name \"a b\"", "name größe", "type t0 = fact p", "type t1 = fact 9", "  n1 = fact 1 of n0 @ 0..0", "  n2 = fact p of n1 @ 0..0"] {
        assert!(text.lines().any(|other| other == line), "{line} in {text}");
    }
}

#[test]
fn what_the_notation_has_no_words_for_is_told() {
    for (file, fault) in [
        (&b"01020020\n0278\n0278\n05000000000000000000\n060000\n"[..], "-:3:1: the notation has no words for it; refused (8)"),
        (b"01020020\n050000000000000000030007\n060000\n", "-:2:1: the notation has no words for it; refused (9)"),
        (b"01020020\n05000000000000000000\n060007\n", "-:3:1: the notation has no words for it; refused (9)"),
        (b"01020020\n05000000000000000000\n", "-: the notation has no words for it; refused (4)"),
        (b"01020020\n0300\n0278\n05000000000000000000\n060000\n", "-:3:1: the notation has no words for it; refused (4)"),
        (b"01020020\n0511\n", "-:2:1: not a frame of its kind"),
        (b"0102002\n", "-:1:8: not hexadecimal"),
        (b"01020020\n02zz78\n", "-:2:3: not hexadecimal"),
        (b"01020020\r\n", "-:1:9: not hexadecimal"),
        (b"01020020\n027A\n", "-:2:4: not hexadecimal"),
        (b"01020020\n\n", "-:2:1: empty"),
        (b"01020020\n027x", "-:2:1: no LF"),
    ] {
        let done = tool(&["disassemble", "-"], file);
        assert_eq!(done.status.code(), Some(2));
        assert!(String::from_utf8_lossy(&done.stderr).starts_with(fault), "{}", String::from_utf8_lossy(&done.stderr));
        assert!(done.stdout.is_empty());
    }
}

#[test]
fn a_fault_is_told_with_its_line_and_column() {
    let faults = [
        ("limits 2 32\nquery\n  a = variable x\n  head b\n", "-:4:8: a node that no line of this query before has"),
        ("type t = record { a: u }\n", "-:1:22: a type that no line before has"),
        ("limits 300 1\n", "-:1:8: expected a distance up to 255"),
        ("query\n  a = integer @ 1\n", "-:2:18: expected `..`"),
        ("name \"x\n", "-:1:6: a quoted text without its end, or with an unknown escape"),
        ("name \"\\u41}\"\n", "-:1:6: a quoted text without its end, or with an unknown escape"),
        ("  query\n", "-:1:3: this query has no head"),
        ("query\n  a = integer\nquery\n", "-:1:1: this query has no head"),
        ("query\n  a = integer\n  head a\n  head a\n", "-:4:3: this query has a head already"),
        ("bind a b\n", "-:1:1: a statement outside of a query"),
        ("head a\n", "-:1:1: a head outside of a query"),
        ("a = integer\n", "-:1:1: a node outside of a query"),
        ("query\n a = integer\n a = integer\n", "-:3:2: a label that a node before has"),
        ("type t = integer\ntype t = string\n", "-:2:6: a label that a type before has"),
        ("type t = fact nobody\nlimits 1 1\n", "-:1:15: a predicate that the text does not have; an absent one goes by number"),
        ("query\n a = integer\n b = fact p of a\n", "-:3:11: a predicate that no line before has; an absent one goes by number"),
        ("query\n a = integer\n b = fact 4294967296 of a\n", "-:3:11: expected a predicate's number"),
        ("limits 1 1 1\n", "-:1:12: more than the line should have"),
        ("limits 1 1\n\n limits 1 1\n", "-:3:2: the limits were given before"),
        ("query\n  a = integer\n  head a\n", "-:3:1: the text has no line `limits`"),
        ("  frobnicate\n", "-:1:3: `frobnicate` begins no line and no statement"),
        ("query\n a = integer\n b = subquery a { frob a }\n", "-:3:19: `frob` begins no line and no statement"),
        ("query\n a = $\n", "-:2:6: a character that the notation does not have"),
        ("query\n a = circle\n", "-:2:6: a shape that the notation does not have"),
        ("type t = circle\n", "-:1:10: expected integer, string, bytes, fact, record or union"),
        ("# größe\nname größe \"é\" x\n", "-:2:12: more than the line should have"),
    ];
    for (text, fault) in faults {
        let done = tool(&["assemble", "-"], text.as_bytes());
        assert_eq!((done.status.code(), String::from_utf8_lossy(&done.stderr).trim_end()), (Some(2), fault), "{text}");
        assert!(done.stdout.is_empty());
    }
    assert!(String::from_utf8_lossy(&tool(&["assemble", "-"], b"limits\xff").stderr).contains("not UTF-8 at byte 6"));
}

/// What `show` prints of a sample under its texts.
fn shown(name: &str, more: &[&str]) -> (Option<i32>, String) {
    let sources: Vec<String> = texts(name).iter().map(|path| path.to_str().expect("a path").to_string()).collect();
    let mut arguments = vec!["show", "-"];
    for source in &sources {
        arguments.extend(["--source", source]);
    }
    arguments.extend(more);
    let done = tool(&arguments, &assembled(name));
    assert_eq!(String::from_utf8_lossy(&done.stderr), "");
    let text = String::from_utf8(done.stdout).expect("text");
    assert!(!text.contains('\u{1b}'), "no colour where nobody looks");
    (done.status.code(), text)
}

#[test]
fn a_diagnostic_is_shown_under_its_text() {
    for (name, title, line, text, carets) in [
        ("infinite", "reject/infinite-type: this pattern would have to contain itself\n", "1:13", "1 | x where x = {f = x}\n", "  |             ^^^^^^^\n"),
        ("union", "reject/unknown-alternative: `ballpoint` is not an alternative of this union\n", "1:1", "1 | m.ballpoint where mark m\n", "  | ^^^^^^^^^^^\n"),
        ("lines", "reject/type-mismatch: expected an integer, found a string\n", "3:11", "3 |       n < \"soft\"\n", "  |           ^^^^^^\n"),
        ("absent", "reject/no-value: this predicate has no value\n", "1:1", "1 | f.value where f = #4000000000 _; f.seal\n", "  | ^^^^^^^\n"),
    ] {
        let (status, all) = shown(name, &[]);
        let path = texts(name)[0].to_str().expect("a path").to_string();
        assert_eq!(status, Some(1));
        let wanted = format!("{title} --> {path}:{line}\n  |\n{text}{carets}");
        assert!(all.contains(&wanted), "{wanted}\nin\n{all}");
    }
    let (status, all) = shown("form", &[]);
    assert_eq!(status, Some(1));
    assert!(all.contains("query 1\n") && all.contains("1 | x where sample {pressure = x}; x < \"soft\"\n  |                                    ^^^^^^\n"), "{all}");
    assert!(all.contains("1 | _\n  | ^\n"), "{all}");
}

#[test]
fn nodes_are_shown_with_span_shape_and_type() {
    let (status, all) = shown("fact", &[]);
    assert_eq!(status, Some(0));
    for line in [
        "type t2 = record { pen: t0, pressure: t1 }",
        "predicate sample: t2",
        "  n0  22..23  variable x           a string",
        "  n1  15..24  record { pen = n0 }  {pen = a string, pressure = an integer}",
        "  n2   8..24  fact sample of n1    `sample`",
        "  holds n2",
        "  head n3",
        "2 visits",
    ] {
        assert!(all.lines().any(|other| other == line), "{line}\nin\n{all}");
    }
    let (_, tree) = shown("fact", &["--tree"]);
    assert!(tree.contains("record { pen = n0 }  record\n                                     pen: string\n"), "{tree}");
}

/// A name that would colour the terminal and begin a line of its own.
#[test]
fn control_characters_are_escaped() {
    let text = "limits 1 1\ntype s = string\ntype r = record { \"\\u{1b}[31mred\\n\": s }\npredicate \"\\u{1b}[31mred\\n\": r\nquery\n\
                  a = variable x @ 0..1\n  b = fact \"\\u{1b}[31mred\\n\" of a @ 2..13\n  c = variable x @ 13..14\n\
                  d = field \"\\u{1b}[31mred\\n\" of c @ 13..24\n  e = wildcard @ 0..1\n  f = variable y @ 0..1\n\
                  g = variable x @ 0..1\n  h = alternative \"\\u{1b}[31mred\\n\" of g @ 2..8\n  holds b\n  bind f d\n  holds h\n  head e\n";
    let file = tool(&["assemble", "-"], text.as_bytes());
    assert_eq!(String::from_utf8_lossy(&file.stderr), "");
    let path = std::env::temp_dir().join(format!("sigla-tool-source-{}.txt", std::process::id()));
    std::fs::write(&path, "a \u{1b}[31mred\n").expect("a file can be written");
    let source = path.to_str().expect("a path");
    let shown = [&["show", "-", "--source", source][..], &["show", "-", "--source", source, "--tree"], &["check", "-"]].map(|arguments| {
        let done = tool(arguments, &file.stdout);
        assert_eq!(done.status.code(), Some(1), "{}", String::from_utf8_lossy(&done.stderr));
        String::from_utf8(done.stdout).expect("text")
    });
    std::fs::remove_file(&path).expect("it was written");
    for text in &shown {
        assert!(!text.contains(|c: char| c.is_control() && c != '\n') && !text.contains("red\n\"") && !text.contains("red\n`"), "{text}");
    }
    let [plain, tree, check] = shown;
    let message = "reject/not-a-union: only a union has alternatives; this is {\\u{1b}[31mred\\n = a string}\n";
    let under = "1 | a \\u{1b}[31mred\n  |   ^^^^^^^^^^^\n";
    assert!(plain.contains("variable x                           {\"\\u{1b}[31mred\\n\" = a string}\n"), "{plain}");
    assert!(plain.contains("of n0         `\"\\u{1b}[31mred\\n\"`\n") && plain.contains(message) && plain.contains(under), "{plain}");
    assert!(tree.contains("\n                                                     \"\\u{1b}[31mred\\n\": string\n"), "{tree}");
    assert!(tree.contains(message) && tree.contains(under), "{tree}");
    assert!(check.contains(message.trim_end()), "{check}");
}

#[test]
fn an_answer_from_elsewhere_is_shown() {
    let file = assembled("slip");
    let path = std::env::temp_dir().join(format!("sigla-tool-answer-{}.hex", std::process::id()));
    let mut lines = vec![0; sigla::BYTES];
    let n = sigla::check(&file, &mut vec![0; sigla::WORDS], &mut lines).expect("it is accepted");
    // with the line of a name that is written once, as some editions have it, before the last line
    let mut answer: Vec<&[u8]> = lines[..n].split_inclusive(|&byte| byte == b'\n').filter(|line| !line.starts_with(b"0c")).collect();
    answer.insert(answer.len() - 1, b"0c0000001600000018\n");
    let show = |bytes: &[u8]| {
        std::fs::write(&path, bytes).expect("a file can be written");
        let source = texts("slip")[0].to_str().expect("a path").to_string();
        let done = tool(&["show", "-", "--answer", path.to_str().expect("a path"), "--source", &source], &file);
        std::fs::remove_file(&path).expect("it was written");
        (done.status.code(), String::from_utf8(done.stdout).expect("text"), String::from_utf8(done.stderr).expect("text"))
    };
    let (status, all, _) = show(&answer.concat());
    assert_eq!(status, Some(0));
    assert!(all.contains("written once: nothing else that fits uses this name here\n"), "{all}");
    assert!(all.contains("1 | x where sample {pen = xx}\n  |                       ^^\n"), "{all}");
    let (status, all, _) = show(b"0f0b\n");
    assert_eq!((status, all.as_str()), (Some(3), "-: refused (11): a query needs more than 1,048,576 visits\n"));
    let (status, _, fault) = show(b"07000000\n0900000000\n");
    assert_eq!((status, fault.as_str()), (Some(2), "-: the answer is another file's\n"));
    let (status, _, fault) = show(b"07\n");
    assert_eq!(status, Some(2));
    assert!(fault.ends_with("not an answer, line 1: not a line of an answer\n"), "{fault}");
}

#[test]
fn many_files_are_summed_up() {
    let paths = ["form.hex", "infinite.hex"].map(|name| samples().join(name).to_str().expect("a path").to_string());
    let done = tool(&["check", &paths[0], &paths[1], "-"], b"");
    assert_eq!(done.status.code(), Some(3));
    let text = String::from_utf8_lossy(&done.stdout).to_string();
    let last = "3 files: 0 clean, 2 with diagnostics, 1 turned down, 0 not read\n";
    assert!(text.ends_with(last), "{text}");
    assert!(text.contains("infinite.hex: 1 diagnostic, the first 4..11: reject/infinite-type: this pattern would have to contain itself\n"), "{text}");
    assert!(done.stderr.is_empty(), "no bar where nobody looks");
    for (arguments, input, status) in [
        (&["check", "-"][..], &b"01020020\n05000000000000000000\n060000\n"[..], 0),
        (&["check", &paths[1]], b"", 1),
        (&["check", "-", &paths[1]], b"", 3),
        (&["check", "/nowhere", &paths[1], "-"], b"", 2),
        (&["check"], b"", 2),
    ] {
        assert_eq!(tool(arguments, input).status.code(), Some(status), "{arguments:?}");
    }
}

/// Runs the tool on an input that does not end after these bytes; it is to end all the same.
fn endless(arguments: &[&str], input: &[u8]) -> (Option<i32>, String) {
    let mut child = start(arguments);
    let mut pipe = child.stdin.take().expect("it is piped");
    pipe.write_all(input).expect("the tool reads so much");
    for _ in 0..1000 {
        if child.try_wait().expect("it can be asked").is_some() {
            drop(pipe);
            let done = child.wait_with_output().expect("it has ended");
            return (done.status.code(), String::from_utf8([done.stdout, done.stderr].concat()).expect("text"));
        }
        std::thread::sleep(std::time::Duration::from_millis(10));
    }
    child.kill().expect("it runs");
    panic!("{arguments:?} still reads")
}

#[test]
fn no_more_is_read_than_needed() {
    let refused = "-: refused (2): the file has more than 65,536 bytes\n";
    let summary = "1 file: 0 clean, 0 with diagnostics, 1 turned down, 0 not read\n";
    assert_eq!(endless(&["show", "-"], &[0; 65_537]), (Some(3), refused.to_string()));
    assert_eq!(endless(&["check", "-"], &[0; 65_537]), (Some(3), format!("{refused}{summary}")));
    let long = "-: longer than 1,048,576 bytes\n";
    let blanks = vec![b' '; 1_048_577];
    let form = samples().join("form.hex").to_str().expect("a path").to_string();
    for arguments in [&["assemble", "-"][..], &["disassemble", "-"], &["show", &form, "--source", "-"], &["show", &form, "--answer", "-"]] {
        assert_eq!(endless(arguments, &blanks), (Some(2), long.to_string()), "{arguments:?}");
    }
}

/// A file of good lines that is too long is turned down for its length, by little or by much, and still written as text.
#[test]
fn a_file_that_is_too_long_is_told() {
    let nodes = |count: usize| [&b"01020020\n"[..], &b"05000000000000000000\n".repeat(count), b"060000\n"].concat();
    for count in [3121, 10_000] {
        let file = nodes(count);
        assert!(file.len() > 65_537);
        assert_eq!(sigla::answer(&file).map_err(|fault| fault.to_string()), sigla::answer(&file[..65_537]).map_err(|fault| fault.to_string()));
        let done = tool(&["show", "-"], &file);
        assert_eq!((done.status.code(), done.stdout), (Some(3), b"-: refused (2): the file has more than 65,536 bytes\n".to_vec()));
        let done = tool(&["disassemble", "-"], &file);
        assert_eq!(tool(&["assemble", "-"], &done.stdout).stdout, file);
    }
    // the last byte that is read decides
    assert!(tool(&["show", "-"], &[b'0'; 65_536]).stdout.starts_with(b"-:1: refused (3)"));
    assert!(tool(&["show", "-"], &[b'0'; 65_537]).stdout.starts_with(b"-: refused (2)"));
}

#[test]
fn the_line_at_fault_is_told() {
    let done = tool(&["show", "-"], &assembled("refused"));
    assert_eq!(done.status.code(), Some(3));
    let text = String::from_utf8_lossy(&done.stdout).to_string();
    assert_eq!(text, "-:4: refused (10): a record type repeats a name, or a union type a discriminant\n  03040000000000000000\n");
    let done = tool(&["check", "-"], b"01020020\nfoo\x01\n");
    assert!(String::from_utf8_lossy(&done.stdout).starts_with("-:2: refused (3): "), "{}", String::from_utf8_lossy(&done.stdout));
    let done = tool(&["show", "-"], b"01020020\n");
    assert!(String::from_utf8_lossy(&done.stdout).starts_with("-: refused (4): "));
}

#[test]
fn every_command_explains_itself() {
    for command in ["show", "assemble", "disassemble", "explain", "check", "help", "version"] {
        for arguments in [["help", command], [command, "--help"], [command, "-h"]] {
            let done = tool(&arguments, b"");
            assert!(done.status.success() && done.stdout.starts_with(format!("usage: sigla-tool {command}").as_bytes()), "{arguments:?}");
        }
    }
    for arguments in [&["show"][..], &["show", "-", "--source"], &["show", "-", "--frob"], &["show", "a", "b"], &["assemble"], &["disassemble", "a", "b"]] {
        let done = tool(arguments, b"");
        assert_eq!(done.status.code(), Some(2));
        assert!(String::from_utf8_lossy(&done.stderr).contains(&format!("usage: sigla-tool {}", arguments[0])), "{arguments:?}");
    }
    for number in 1..=18 {
        let done = tool(&["explain", &number.to_string()], b"");
        assert!(done.status.success() && done.stdout.starts_with(format!("refused ({number}): ").as_bytes()), "{number}");
    }
    for what in ["0x0d", "infinite-type", "nyi/bind-unification"] {
        assert!(tool(&["explain", what], b"").status.success(), "{what}");
    }
    for what in ["0", "99", "no-such-code"] {
        assert_eq!(tool(&["explain", what], b"").status.code(), Some(2), "{what}");
    }
    let all = tool(&["explain"], b"");
    assert!(all.status.success() && String::from_utf8_lossy(&all.stdout).contains("  18  the plain solver"));
    assert_eq!(tool(&[], b"").status.code(), Some(2));
    assert_eq!(tool(&["frobnicate"], b"").status.code(), Some(2));
    assert_eq!(tool(&["version"], b"").stdout, format!("sigla-tool {}\n", sigla::VERSION).as_bytes());
}
