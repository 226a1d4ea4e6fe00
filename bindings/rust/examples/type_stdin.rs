//! Types the file that standard input holds.

use std::io::{self, Read, Write};

fn main() -> io::Result<()> {
    let mut file = Vec::new();
    io::stdin().read_to_end(&mut file)?;
    let mut work = vec![0u32; sigla::WORDS];
    let mut answer = vec![0u8; 65536];
    match sigla::check(&file, &mut work, &mut answer) {
        Ok(n) => io::stdout().write_all(&answer[..n]),
        Err(refusal) => {
            eprintln!("refused: {refusal:?}");
            std::process::exit(1);
        }
    }
}
