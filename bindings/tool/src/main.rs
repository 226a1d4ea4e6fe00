//! Shows, writes and checks files of Sigla queries (docs/FORMAT.md). The check is the library's.

mod explain;
mod notation;
mod show;

use std::env;
use std::fs;
use std::io::{self, IsTerminal, Read, Write};
use std::process::ExitCode;

use sigla::{Answer, Failure, File};

const USAGE: &str = "\
usage: sigla-tool COMMAND ..

  show FILE [OPTION..]     nodes with their types, and diagnostics under the query's text
  assemble FILE            writes the frames of a text in the notation of docs/FORMAT.md
  disassemble FILE         writes a file's frames as text
  explain [NUMBER|CODE]    what a refusal's number or a diagnostic's code means
  check FILE..             types many files, with a summary
  help [COMMAND]           this text, or a command's own
  version                  the version

A FILE of `-` is standard input. The texts, the answers and what `disassemble` reads have 1,048,576 bytes at most. Exit status: 0 where all
is well, 1 where a file has a diagnostic, 3 where a file is turned down, 2 where a command can't be carried out.";

const SHOW: &str = "\
usage: sigla-tool show FILE [--source TEXT].. [--answer ANSWER] [--tree]

Types the file and prints its schema and, query by query, each node with its span, its shape and its type, then the diagnostics and the
names that are written only once. Of a file that is turned down it tells the line at fault.

  --source TEXT      the text that the spans point into, by bytes; for a form one for each query, in their order. A diagnostic is
                     then shown under its line of the text, with carets
  --answer ANSWER    shows this answer, as the program sigla printed it for the file, and types nothing
  --tree             types as trees, a line for each part; without it a long type is cut

Colours are for terminals, where NO_COLOR is not set. Exit status: 0, 1 with a diagnostic, 3 where the file is turned down, 2 for anything
else.";

const ASSEMBLE: &str = "\
usage: sigla-tool assemble FILE

Reads the notation of docs/FORMAT.md, \"A notation for people\", and writes the file of frames to standard output. A fault is told with its
line and column. The file may be one that the check turns down. Exit status: 0, or 2 with a fault.";

const DISASSEMBLE: &str = "\
usage: sigla-tool disassemble FILE

Writes the frames of a file in the notation; assembled again they are the same file, byte for byte. A file that the notation has no words
for, as one that refers to what it does not have, is told. Exit status: 0, or 2 with a fault.";

const EXPLAIN: &str = "\
usage: sigla-tool explain [NUMBER|CODE]

Says what a refusal's number (as after 0f, in decimal, or hexadecimal after 0x) or a diagnostic's code (as in a line 08, with or without
`reject/`) means, and what can be done. Without a word it lists them all. Exit status: 0, or 2 for what is neither.";

const CHECK: &str = "\
usage: sigla-tool check FILE..

Types each file and tells of each that has a diagnostic, with the first one, or is turned down, with the line at fault, and a summary. On a
terminal a bar shows how far it is.
Exit status: 0 where every file is clean, 1 where one has a diagnostic, 3 where one is turned down, 2 where one can't be read; the highest
of 2, 3 and 1, in this order, where several hold.";

const HELP: &str = "\
usage: sigla-tool help [COMMAND]

Prints what a command does, its options and its exit status; `sigla-tool COMMAND --help` does too.";

const VERSION: &str = "\
usage: sigla-tool version

Prints the version, that of the library's header and of the bindings.";

const DIAGNOSED: u8 = 1;
const UNDONE: u8 = 2;
const REFUSED: u8 = 3;

/// The most bytes of a file of frames.
const FRAMES: u64 = sigla::Form::FILE as u64;
/// The most bytes of a text in the notation, of a query's text, of an answer, and of a file that is only written as text.
const TEXT: u64 = 1_048_576;

fn main() -> ExitCode {
    let arguments: Vec<String> = env::args().skip(1).collect();
    let words: Vec<&str> = arguments.iter().map(String::as_str).collect();
    let done = match words[..] {
        ["help"] | ["--help"] | ["-h"] => said(USAGE),
        [command, "--help" | "-h"] | ["help", command] => {
            usage(command).ok_or_else(|| format!("no command {command}\n\n{USAGE}")).and_then(said)
        }
        ["show", ref arguments @ ..] => Show::of(arguments).and_then(|show| show.run()),
        ["assemble", file] => assemble(file),
        ["disassemble", file] => disassemble(file),
        ["explain"] => said(&explain::all()),
        ["explain", what] => explain::explain(what).ok_or_else(|| format!("{what} is no refusal's number and no code")).and_then(|text| said(&text)),
        ["check", ref files @ ..] if !files.is_empty() => check(files),
        ["version"] | ["--version"] | ["-V"] => said(&format!("sigla-tool {}", sigla::VERSION)),
        [command, ..] => Err(usage(command).map_or_else(|| format!("no command {command}\n\n{USAGE}"), str::to_string)),
        [] => Err(USAGE.to_string()),
    };
    match done {
        Ok(status) => ExitCode::from(status),
        Err(fault) => {
            eprintln!("{fault}");
            ExitCode::from(UNDONE)
        }
    }
}

fn usage(command: &str) -> Option<&'static str> {
    let texts = [
        ("show", SHOW),
        ("assemble", ASSEMBLE),
        ("disassemble", DISASSEMBLE),
        ("explain", EXPLAIN),
        ("check", CHECK),
        ("help", HELP),
        ("version", VERSION),
    ];
    texts.iter().find(|text| text.0 == command).map(|text| text.1)
}

/// Prints bytes; a reader that has gone away is no fault.
fn put(bytes: &[u8]) -> Result<u8, String> {
    let mut out = io::stdout().lock();
    match out.write_all(bytes).and_then(|()| out.flush()) {
        Err(fault) if fault.kind() != io::ErrorKind::BrokenPipe => Err(format!("standard output: {fault}")),
        _ => Ok(0),
    }
}

/// Prints a text as lines.
fn said(text: &str) -> Result<u8, String> {
    put(format!("{}\n", text.trim_end_matches('\n')).as_bytes())
}

/// The first bytes of a file.
fn first_bytes(path: &str, most: u64) -> Result<Vec<u8>, String> {
    let mut bytes = Vec::new();
    let got = if path == "-" {
        io::stdin().take(most).read_to_end(&mut bytes)
    } else {
        fs::File::open(path).and_then(|file| file.take(most).read_to_end(&mut bytes))
    };
    got.map(|_| bytes).map_err(|fault| format!("{path}: {fault}"))
}

/// A file of frames for the check. What is longer than a file may be is not read to its end; it is turned down for its length anyway.
fn read_frames(path: &str) -> Result<Vec<u8>, String> {
    first_bytes(path, FRAMES + 1)
}

/// Anything else; a file of frames that is only written as text too, which may be longer.
fn read(path: &str) -> Result<Vec<u8>, String> {
    let bytes = first_bytes(path, TEXT + 1)?;
    if bytes.len() as u64 > TEXT { Err(format!("{path}: longer than 1,048,576 bytes")) } else { Ok(bytes) }
}

fn read_text(path: &str) -> Result<String, String> {
    String::from_utf8(read(path)?).map_err(|fault| format!("{path}: not UTF-8 at byte {}", fault.utf8_error().valid_up_to()))
}

fn is_coloured() -> bool {
    io::stdout().is_terminal() && env::var_os("NO_COLOR").is_none_or(|value| value.is_empty())
}

/// What `show` is asked.
#[derive(Default)]
struct Show {
    file: String,
    answer: Option<String>,
    sources: Vec<String>,
    tree: bool,
}

impl Show {
    fn of(arguments: &[&str]) -> Result<Show, String> {
        let mut show = Show::default();
        let mut rest = arguments.iter();
        while let Some(&word) = rest.next() {
            let mut value = || rest.next().map(|value| value.to_string()).ok_or_else(|| format!("{word} wants a file\n\n{SHOW}"));
            match word {
                "--source" => show.sources.push(value()?),
                "--answer" => show.answer = Some(value()?),
                "--tree" => show.tree = true,
                _ if word.starts_with("--") => return Err(format!("no option {word}\n\n{SHOW}")),
                _ if show.file.is_empty() => show.file = word.to_string(),
                _ => return Err(SHOW.to_string()),
            }
        }
        if show.file.is_empty() { Err(SHOW.to_string()) } else { Ok(show) }
    }

    fn run(&self) -> Result<u8, String> {
        let bytes = read_frames(&self.file)?;
        let sources: Vec<(String, String)> =
            self.sources.iter().map(|path| Ok((path.clone(), read_text(path)?))).collect::<Result<_, String>>()?;
        let answer = match &self.answer {
            Some(path) => given(path)?,
            None => sigla::answer(&bytes),
        };
        let answer = match answer {
            Ok(answer) => answer,
            Err(Failure::Refused(refusal)) => {
                said(&turned_down(&self.file, &bytes, refusal))?;
                return Ok(REFUSED);
            }
            Err(fault) => return Err(format!("{}: {fault}", self.file)),
        };
        let file = File::parse(&bytes).map_err(|fault| no_file(&self.file, &bytes, &fault))?;
        let nodes = file.queries.iter().map(|query| query.nodes.len());
        if !nodes.eq(answer.queries.iter().map(|query| query.types.len())) {
            return Err(format!("{}: the answer is another file's", self.file));
        }
        if sources.len() > file.queries.len() {
            return Err(format!("{}: {} texts for {} queries", self.file, sources.len(), file.queries.len()));
        }
        said(&show::shown(&file, &answer, &sources, self.tree, is_coloured()))?;
        Ok(if answer.is_clean() { 0 } else { DIAGNOSED })
    }
}

/// A refusal, with the line at fault where there is one.
fn turned_down(path: &str, bytes: &[u8], refusal: sigla::Refusal) -> String {
    let Some(number) = sigla::refused_line(bytes) else {
        return format!("{path}: {refusal}");
    };
    let line = String::from_utf8_lossy(bytes.split(|&byte| byte == b'\n').nth(number - 1).unwrap_or(b"")).into_owned();
    let cut: String = line.chars().take(100).map(|c| if c.is_control() { '?' } else { c }).collect();
    let more = if line.chars().count() > 100 { " .." } else { "" };
    format!("{path}:{number}: {refusal}\n  {cut}{more}")
}

/// An answer as the program prints it: its lines, or 0f and a refusal's number.
fn given(path: &str) -> Result<Result<Answer, Failure>, String> {
    let lines = read(path)?;
    let number = lines.strip_prefix(b"0f").and_then(|rest| rest.strip_suffix(b"\n")).and_then(|digits| std::str::from_utf8(digits).ok());
    if let Some(refusal) = number.and_then(|digits| u8::from_str_radix(digits, 16).ok()).and_then(sigla::Refusal::from_number) {
        return Ok(Err(Failure::Refused(refusal)));
    }
    Answer::parse(&lines).map(Ok).map_err(|fault| format!("{path}: not an answer, {fault}"))
}

fn assemble(path: &str) -> Result<u8, String> {
    let file = notation::assemble(&read_text(path)?).map_err(|fault| format!("{path}:{fault}"))?;
    put(&file.write())
}

fn disassemble(path: &str) -> Result<u8, String> {
    let bytes = read(path)?;
    let file = File::parse(&bytes).map_err(|fault| no_file(path, &bytes, &fault))?;
    let text = notation::disassemble(&file);
    match notation::assemble(&text) {
        Ok(again) if again.write() == bytes => said(&text),
        _ => {
            let place = sigla::refused_line(&bytes).map_or(String::new(), |line| format!(":{line}:1"));
            Err(match sigla::answer(&bytes) {
                Err(Failure::Refused(refusal)) => format!("{path}{place}: the notation has no words for it; {refusal}"),
                _ => format!("{path}{place}: the notation has no words for it"),
            })
        }
    }
}

/// What is no file, with its line and the column of the first byte that is no digit, or after the last of an odd number of digits; of
/// another fault column 1.
fn no_file(path: &str, bytes: &[u8], fault: &sigla::NoFile) -> String {
    let line = bytes.split(|&byte| byte == b'\n').nth(fault.line - 1).unwrap_or(b"");
    let digits = line.iter().take_while(|byte| matches!(byte, b'0'..=b'9' | b'a'..=b'f')).count();
    let column = if fault.what == "not hexadecimal" { digits + 1 } else { 1 };
    format!("{path}:{}:{column}: {}", fault.line, fault.what)
}

/// A bar on standard error, if that is a terminal.
struct Bar {
    files: usize,
    shown: bool,
}

impl Bar {
    const WIDTH: usize = 30;

    fn at(&self, done: usize) {
        if self.shown {
            let full = Bar::WIDTH * done / self.files;
            eprint!("\r[{}{}] {done} of {}", "=".repeat(full), " ".repeat(Bar::WIDTH - full), self.files);
        }
    }

    fn clear(&self) {
        if self.shown {
            eprint!("\r{:60}\r", "");
        }
    }
}

/// How many things there are, in words.
fn counted(n: usize, one: &str) -> String {
    if n == 1 { format!("1 {one}") } else { format!("{n} {one}s") }
}

fn check(paths: &[&str]) -> Result<u8, String> {
    let bar = Bar { files: paths.len(), shown: io::stderr().is_terminal() };
    let (mut clean, mut diagnosed, mut refused, mut unread) = (0, 0, 0, 0);
    for (i, path) in paths.iter().enumerate() {
        bar.at(i);
        let outcome = read_frames(path).map(|bytes| {
            let answer = sigla::answer(&bytes);
            (bytes, answer)
        });
        let line = match outcome {
            Err(fault) => {
                unread += 1;
                fault
            }
            Ok((bytes, Err(failure))) => {
                refused += 1;
                match failure {
                    Failure::Refused(refusal) => turned_down(path, &bytes, refusal),
                    fault => format!("{path}: {fault}"),
                }
            }
            Ok((_, Ok(answer))) if answer.is_clean() => {
                clean += 1;
                continue;
            }
            Ok((_, Ok(answer))) => {
                diagnosed += 1;
                let count = answer.queries.iter().map(|query| query.diagnostics.len()).sum();
                let first = answer.queries.iter().flat_map(|query| &query.diagnostics).next().map_or(String::new(), ToString::to_string);
                format!("{path}: {}, the first {}", counted(count, "diagnostic"), notation::visible(&first))
            }
        };
        bar.clear();
        said(&line)?;
    }
    bar.at(paths.len());
    bar.clear();
    said(&format!("{}: {clean} clean, {diagnosed} with diagnostics, {refused} turned down, {unread} not read", counted(paths.len(), "file")))?;
    Ok(match (unread, refused, diagnosed) {
        (0, 0, 0) => 0,
        (0, 0, _) => DIAGNOSED,
        (0, _, _) => REFUSED,
        _ => UNDONE,
    })
}
