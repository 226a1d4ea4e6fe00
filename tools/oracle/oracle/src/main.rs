//! The commands of the judge. `oracle help` lists them.

mod bench;
mod calls;
mod compare;
mod convert;
mod corpus;
mod desks;
mod growth;
mod inspect;
mod lamp;
mod mismatch;
mod names;
mod options;
mod port;
mod printed;
mod record;
mod report;
mod selftest;
mod stack;
mod tally;
mod texts;
mod trials;
mod unused;
mod visits;

use std::io::{Read, Write};
use std::process::ExitCode;

use judge::Limits;
use options::Options;

const HELP: &str = "\
oracle answer [--words N] [--bytes N] [--visits]
    Reads a file on standard input and prints its answer: the lines, or 0f and the refusal's number.
    --words and --bytes are the lengths of the two slices (16384 and 65536).
    --visits prints the line `visits` and each query's number of them on standard error as well.
    A file that the Rust can't hold prints nothing, says why on standard error and ends with status 2.

oracle generate --seed S --count N [--style NAME] [--out DIR]
    Makes files and counts what they are; with --out writes each into DIR. The same seed gives the
    same files.

oracle agree --seed S --count N [--out DIR]
    Holds the judge (first reader, unchanged Rust, counted copy) against the model (second reader,
    second checker, second count) on generated files, with slices and visits around each boundary.
    Ends with status 1 where there is a mismatch.

oracle mutants [--seed S] [--count N] [--usual]
    Switches on each mistake of a list in the model and says which the files tell from the right
    one. Ends with status 1 unless all that are wrong are told, and none that is equal in behaviour.
    --usual runs the files with the program's own slices alone; other lengths and visits can then
    tell nothing. Mistakes in a conversion, a tally and the desks' calls are then tried on as many files, steps
    and events.

oracle compare answers --seed S --count N [--style NAME] [--program P] [--out DIR]
oracle compare reading --seed S --count N [--style NAME] [--out DIR]
oracle compare calls   --seed S --count N [--style NAME] [--out DIR]
oracle compare visits  --seed S --count N [--style NAME] [--program P] [--out DIR]
oracle compare convert --seed S --count N [--style NAME] [--widen P --narrow P] [--out DIR]
oracle compare convert --recorded FILE
oracle compare days    --seed S [--days N] [--events N] [--out DIR]
oracle compare tally   --seed S [--count N] [--out DIR]
oracle compare lamp    --seed S --count N [--style NAME] [--out DIR]
oracle compare names   --seed S --count N [--style NAME] [--program P] [--out DIR]
oracle compare growth  --seed S --count N [--style NAME] [--program P] [--growth P] [--out DIR]
oracle compare inspect --seed S --count N [--style NAME] [--program P] [--model] [--out DIR]
oracle compare texts
oracle compare unused  --seed S --count N [--style NAME] [--program P] [--out DIR]
    Holds the port against the Rust on generated files: the program P (with arguments, if it needs
    some), from standard input to standard output, and the static library in process where it was
    there when oracle was built, with both slices full of ff before each call. Each mismatch is kept
    with both outputs and a smaller file that shows it too, in target/mismatch or DIR. Counts files
    by refusal, code, message text, node shape and statement. Of an accepted form each query's lines are also held
    against what the port answers to that query alone. Ends with status 1 where there is a mismatch.
    In place of --seed and --count: `--bytes-exhaustive FILE` takes each prefix of FILE, FILE without
    each byte, and FILE with each byte changed to each other value; `--short` takes every file of up
    to two bytes, and every line of up to two bytes after a right first line; `--nested` takes a file for
    each recursion, as deep as the limits let it go.
    `--model` holds the model against the Rust, as `agree` does, on these files too.
    Answers are compared without their lines 09 and 0c, which the Rust knows nothing of; visits: the lines 09 alone,
    beside the counted copy; unused: whole answers with both, beside the copy of the Rust that marks entries.
    Convert: each generated file out of the edition of two bytes for a predicate's number and back to it, beside the
    definition (what the file says, read in one edition and written in the other), with slices of all lengths; and
    out and back again. `--widen` and `--narrow` name the two programs. `--recorded` takes a recorded sample of that
    edition, from before cards 6 and 7: each file, widened, is answered as recorded, with its predicate numbers
    widened and the lines 09 left out.
    Days: so many days of so many events (4 of 100,000) at cabinets of 1 to 16 desks, set-ups, ceilings, checks and
    new days, with groups that break the rules between, beside the card's sentences; after each event the group obeys the rules,
    no use passes its cap and no ceiling is under what is left of a share. Tally: as many steps, in runs from zero
    and from other tallies; over each run from zero the sums are held together.
    Names: each file past the reading with all its names renamed at random, but for `value` and the number of
    characters of fuzzy terms; the lines but for 0a must be the same. Growth: each file and one made of it, grown by
    names, types and predicates or changed otherwise; the number beside the card's sentences, and where it is 00
    the same answer of both, by the port and by the Rust. `--growth` names the program of card 14.
    Calls are compared in process alone: random lists of unifications, snapshots and rollbacks over a
    generated schema, with the outcome, the visits left and every binding after each call.
    Texts: every string of up to three bytes, and many of four, through both text tests of the port and the
    Rust's own.
    Inspect: card 12's plain solver at every entry to `unify` from outside it (of a file with very many visits at some),
    beside the log of the counted copy: success and failure as the Rust's `unify`, the bindings over random
    assignments, and all words beside the definition's own run, with slices lent that just suffice and that do not.
    `--program` names the program of card 12, which is asked about one entry of every twentieth file; `--model` takes
    the definition's run in the port's place.
    Lamp: the port's lamp beside the Rust's diagnostics, and beside the port's own full check with an answer slice
    as long as any answer.

oracle bench answers [--seed S] [--count N] [--rounds R] [--style NAME]
oracle bench reading [--seed S] [--count N] [--rounds R] [--style NAME]
oracle bench convert [--rounds R]
oracle bench shapes [--rounds R]
oracle bench messages [--rounds R]
oracle bench forms [--rounds R]
oracle bench texts [--rounds R]
oracle bench lamp [--rounds R]
oracle bench report [--rounds R]
    Times the port's call in process beside the Rust's reading, tree building and `check`, or the port's
    reading beside the judge's reader: N files of each style, the quickest of R rounds of each, as ratios
    (below 1 the port is quicker), by style, by length, and for files that grow in one respect; with
    --style that style alone. Files that the Rust can't hold, and those of refusals 11 and 12, which it
    does not know, are left out. Where the port's time goes: valgrind --tool=callgrind
    --toggle-collect=sigla_check target/release/oracle bench answers --style large --rounds 1, then
    callgrind_annotate (it counts `rep stosb`, with which slices are cleared, by bytes).
    Shapes: files with wide, nested and many types, long chains and a million visits, and where the time goes
    on both sides. Messages: the same for files of 10, 100 and 500 diagnostics and of long messages. Forms: a
    file of up to 64 queries beside the Rust that reads the schema once, and beside as many calls with one
    query each. Lamp: files whose first diagnostic stands before, amid or after a million visits, beside the
    full call. Texts: both text tests on names of 511 bytes beside the Rust's own. Convert: both converters
    beside reading alone (the check of the file without its last line), the definition, and a copy of the file.
    Report: all of these as one page of ratios, and the stack; tools/bench keeps it as docs/BENCH.md.

oracle record [--check]
    Writes crates/replay/stdin, the recorded sample of answers; with --check holds it against the
    generator and the Rust instead.

oracle stack [--most BYTES] [--out FILE]
    The greatest use of stack by the port's call, in process, on a thread whose stack is painted: over the
    files of `--nested`, others that nest shapes of nodes over the deepest types, and the deep styles. Prints
    the files that use most; --out writes the first of them. Ends with status 1 where it is more than --most.

oracle selftest
    Every example of document 01, the text examples of RFC 3629, what card 3 says of several queries, each
    message, and what cards 6, 7 and 8 say of editions, tally and desks.

oracle help
    This text.

The sources are compiled in: building with ORACLE_SRC=FOLDER takes them from another folder docs/src.
";

/// How a command ended: whether all was well, or why it could not be done.
type Done = Result<bool, String>;

fn main() -> ExitCode {
    let given: Vec<String> = std::env::args().skip(1).collect();
    let done = judge::on_large_stack(move || run(&given));
    match done {
        Ok(true) => ExitCode::SUCCESS,
        Ok(false) => ExitCode::FAILURE,
        Err(why) => {
            eprintln!("oracle: {why}");
            ExitCode::from(2)
        }
    }
}

fn run(given: &[String]) -> Done {
    let Some((command, rest)) = given.split_first() else {
        print!("{HELP}");
        return Ok(true);
    };
    match command.as_str() {
        "agree" => trials::agree(rest),
        "answer" => answer(rest),
        "bench" => bench::run(rest),
        "compare" => compare::run(rest),
        "generate" => trials::generate(rest),
        "mutants" => trials::mutants(rest),
        "record" => record::run(rest),
        "selftest" => selftest::run(rest),
        "stack" => stack::run(rest),
        "help" | "--help" => {
            print!("{HELP}");
            Ok(true)
        }
        "--src" => Err("the sources are compiled in; build with ORACLE_SRC=FOLDER".to_owned()),
        other => Err(format!("no command {other:?}; see `oracle help`")),
    }
}

fn answer(given: &[String]) -> Done {
    let options = Options::parse(given, &["words", "bytes"], &["visits"])?;
    let mut limits = Limits::default();
    limits.words = options.number("words")?.unwrap_or(limits.words);
    limits.bytes = options.number("bytes")?.unwrap_or(limits.bytes);

    let mut file = vec![];
    std::io::stdin()
        .read_to_end(&mut file)
        .map_err(|why| format!("standard input: {why}"))?;
    let ran = judge::answer(&file, &limits);
    if options.flag("visits") {
        let visits: Vec<String> = ran.visits.iter().map(u64::to_string).collect();
        eprintln!("visits {}", visits.join(" "));
    }
    let text = printed::printed(&ran.answer)
        .map_err(|why| format!("the Rust can't hold this file: {why}"))?;
    std::io::stdout()
        .write_all(&text)
        .map_err(|why| format!("standard output: {why}"))?;
    Ok(true)
}
