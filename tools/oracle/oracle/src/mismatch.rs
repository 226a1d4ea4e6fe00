//! Keeping what a run found wrong.

use std::fs;
use std::path::PathBuf;

/// After so many a run ends: something is wrong with more than a corner.
const MOST: u64 = 50;

/// The folder that mismatches are kept in, where no other is named.
pub fn folder(out: Option<&str>) -> PathBuf {
    let default = concat!(env!("CARGO_MANIFEST_DIR"), "/../target/mismatch");
    PathBuf::from(out.unwrap_or(default))
}

/// The folder of a run's mismatches, and how many there are.
pub struct Mismatches {
    folder: PathBuf,
    pub count: u64,
}

impl Mismatches {
    pub fn new(out: Option<&str>) -> Self {
        Mismatches {
            folder: folder(out),
            count: 0,
        }
    }

    pub fn too_many(&self) -> bool {
        self.count >= MOST
    }

    /// Keeps the parts of one mismatch, each as a file of the name given.
    pub fn keep(&mut self, name: &str, parts: &[(&str, &[u8])]) -> Result<(), String> {
        self.count += 1;
        let folder = self.folder.join(name);
        let kept = || -> std::io::Result<()> {
            fs::create_dir_all(&folder)?;
            for (part, bytes) in parts {
                fs::write(folder.join(part), bytes)?;
            }
            Ok(())
        };
        kept().map_err(|why| format!("{}: {why}", folder.display()))?;
        println!("MISMATCH {name}, kept in {}", folder.display());
        Ok(())
    }
}
