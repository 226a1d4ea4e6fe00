//! An answer as the program prints it.

use judge::Answer;

/// The lines, or 0f and the refusal's number; or why the Rust can't hold the file.
pub fn printed(answer: &Answer) -> Result<Vec<u8>, &'static str> {
    match answer {
        Answer::Lines(lines) => Ok(lines.clone()),
        Answer::Refused(number) => Ok(format!("0f{number:02x}\n").into_bytes()),
        Answer::LeftOut(why) => Err(why),
    }
}
