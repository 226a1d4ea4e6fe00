//! What is held against the Rust: the port, as a program or as calls in process, or the model.

use std::io::{Read, Write};
use std::process::{Command, Stdio};

use judge::{Answer, Limits};

use crate::convert::{as_judged, rusts_own};

/// How it is asked for a file's answer.
pub enum Port {
    /// A program from standard input to standard output, with its arguments. It lends the slices
    /// of document 01.
    Program(Vec<String>),
    /// The static library, with slices of any length.
    Library,
    /// No port: the model, so that judge and model can be held together on chosen files too.
    Model,
}

/// What the port gave: as many bytes as can be held against what was expected.
pub type Given = Vec<u8>;

impl Port {
    /// What a program would print: the lines, or 0f and the number.
    pub fn printed(&self, file: &[u8], limits: &Limits) -> Result<Given, String> {
        match self {
            Port::Program(command) => program(command, file),
            Port::Model => Ok(crate::printed::printed(&modelled(file, limits))?),
            Port::Library => {
                let (number, _, mut answer) = library(file, limits);
                if number > 0 {
                    return Ok(crate::printed::printed(&Answer::Refused(number))?);
                }
                let end = answer.iter().position(|byte| *byte == 0);
                answer.truncate(end.unwrap_or(answer.len()));
                Ok(answer)
            }
        }
    }

    pub fn name(&self) -> &'static str {
        match self {
            Port::Program(_) => "program",
            Port::Library => "library",
            Port::Model => "model",
        }
    }

    /// What the port gives for a file, and what it should give where the answer is `expected`; both without the
    /// lines 09 and 0c, which the Rust knows nothing of (`compare visits` and `compare unused` are for them).
    pub fn ask(
        &self,
        file: &[u8],
        limits: &Limits,
        expected: &Answer,
    ) -> Result<(Given, Given), String> {
        match self {
            Port::Program(command) => Ok((
                rusts_own(&program(command, file)?),
                rusts_own(&crate::printed::printed(expected)?),
            )),
            Port::Model => {
                let answer = modelled(file, limits);
                Ok((
                    rusts_own(&crate::printed::printed(&answer)?),
                    rusts_own(&crate::printed::printed(expected)?),
                ))
            }
            Port::Library => {
                let (number, work, answer) = library(file, limits);
                let found = describe(number, &work, &answer);
                let (number, lines) = match expected {
                    Answer::Lines(lines) => (0, &lines[..]),
                    Answer::Refused(number) => (*number, &[][..]),
                    Answer::LeftOut(why) => return Err((*why).to_owned()),
                };
                let mut answer = lines.to_vec();
                answer.resize(limits.bytes, 0);
                let work = vec![0; limits.words];
                let expected = describe(number, &work, &answer);
                Ok((rusts_own(&found), rusts_own(&expected)))
            }
        }
    }
}

fn modelled(file: &[u8], limits: &Limits) -> Answer {
    as_judged(model::answer(file, &trial::as_model(limits), None).answer)
}

/// Runs the program on a file and takes what it prints.
pub fn program(command: &[String], file: &[u8]) -> Result<Vec<u8>, String> {
    let fault = |why: std::io::Error| format!("{}: {why}", command[0]);
    let mut child = Command::new(&command[0])
        .args(&command[1..])
        .stdin(Stdio::piped())
        .stdout(Stdio::piped())
        .stderr(Stdio::null())
        .spawn()
        .map_err(fault)?;
    let mut input = child.stdin.take().expect("piped above");
    let mut output = child.stdout.take().expect("piped above");
    let mut printed = vec![];
    std::thread::scope(|scope| {
        scope.spawn(move || {
            // A program that stops reading early is judged by what it prints.
            let _ = input.write_all(file);
        });
        output.read_to_end(&mut printed)
    })
    .map_err(fault)?;
    let status = child.wait().map_err(fault)?;
    if status.code().is_none() {
        printed.extend_from_slice(format!("ended by {status}\n").as_bytes());
    }
    Ok(printed)
}

/// Calls the library with both slices full of ff, so that bytes it leaves alone are seen.
fn library(file: &[u8], limits: &Limits) -> (u8, Vec<u32>, Vec<u8>) {
    let mut work = vec![u32::MAX; limits.words];
    let mut answer = vec![0xff; limits.bytes];
    let number = linked::check(file, &mut work, &mut answer);
    (number, work, answer)
}

/// The outcome and both slices as text: zeros at the end are told by their count.
pub fn describe(number: u8, work: &[u32], answer: &[u8]) -> Vec<u8> {
    let used = answer
        .iter()
        .rposition(|byte| *byte != 0)
        .map_or(0, |at| at + 1);
    let mut text = format!("outcome {number}\n").into_bytes();
    match work.iter().position(|word| *word != 0) {
        None => text.extend_from_slice(format!("work zero, {} words\n", work.len()).as_bytes()),
        Some(at) => text.extend_from_slice(
            format!(
                "work of {} words has {:08x} at {at}\n",
                work.len(),
                work[at]
            )
            .as_bytes(),
        ),
    }
    text.extend_from_slice(
        format!(
            "answer of {} bytes, {used} to the last not zero:\n",
            answer.len()
        )
        .as_bytes(),
    );
    text.extend_from_slice(&answer[..used]);
    text
}
