// Finding the folder of sources, and naming its files as modules. Shared by the build scripts.

use std::{env, fs, path::Path, path::PathBuf};

/// The folder that holds the sources, laid out as its INDEX.md says.
///
/// `ORACLE_SRC` names it. Without that it is `shared/docs/src` in the folder above the repository,
/// or in the nearest folder further up that has one (a second working copy may lie deeper).
pub fn folder() -> PathBuf {
    println!("cargo::rerun-if-env-changed=ORACLE_SRC");
    if let Some(named) = env::var_os("ORACLE_SRC") {
        return PathBuf::from(named);
    }
    let start = PathBuf::from(env::var_os("CARGO_MANIFEST_DIR").expect("set by cargo"));
    for above in start.ancestors() {
        let candidate = above.join("shared/docs/src");
        if candidate.is_dir() {
            return candidate;
        }
    }
    stop(&format!(
        "no folder shared/docs/src in any folder above {}",
        start.display()
    ))
}

/// One file of the folder, by its path there.
pub fn find(path: &str) -> PathBuf {
    let folder = folder();
    // The second spelling is how INDEX.md names a file that was sent alone.
    let flat = format!("src--{}.txt", path.replace('/', "--"));
    for candidate in [folder.join(path), folder.join(flat)] {
        if candidate.is_file() {
            println!("cargo::rerun-if-changed={}", candidate.display());
            return candidate
                .canonicalize()
                .expect("an existing file has a path");
        }
    }
    stop(&format!("{} has no {path}", folder.display()))
}

/// The declaration that compiles a file as it is. Its own warnings are not ours to mend.
pub fn module(name: &str, file: &Path) -> String {
    format!(
        "#[allow(warnings)]\n#[path = {:?}]\npub mod {name};\n",
        file
    )
}

/// Writes a file into the build's output folder.
pub fn write(name: &str, text: &str) -> PathBuf {
    let path = PathBuf::from(env::var_os("OUT_DIR").expect("set by cargo")).join(name);
    fs::write(&path, text).expect("the build's output folder can be written");
    path
}

/// Where the sources come from; the sums are those of `sha256sum`.
const ORIGIN: &str = "the public repository boxops-uk/fjord, commit 55e5a5be04 (MIT)";
const SUMS: &str = include_str!("SOURCES");

fn stop(why: &str) -> ! {
    println!("cargo::error=the Rust sources are not there: {why}");
    println!(
        "cargo::error=they are these files of {ORIGIN}, with their sums (sha256sum -c tools/oracle/SOURCES):"
    );
    for line in SUMS.lines() {
        println!("cargo::error=  {line}");
    }
    println!(
        "cargo::error=set ORACLE_SRC to the folder that holds them by these paths, and build again"
    );
    std::process::exit(1)
}
