//! Says what to link: the file that `SIGLA_LIB` names, whatever its name and its folder; without it target/staticlib/libsigla_lib.a at the
//! repository's top (`tools/build sigla_lib`), or the library that `./install` put beside this crate; without those what pkg-config tells of
//! `sigla`. A static library becomes part of the crate, a shared one is looked for again where the program runs. `links = "sigla"` in Cargo.toml lets a configuration of
//! cargo take the place of all this.

use std::env;
use std::ffi::OsStr;
use std::fs;
use std::path::{Path, PathBuf};
use std::process::Command;

/// The name that the library has in the build's own folder: rustc takes a name and a folder, and not every file's name is one that it takes.
const LINKED: &str = "sigla_linked";

/// Where the library stands from this crate's folder on: in the repository, and after `./install`, which writes its own folder here.
const BESIDE: [&str; 2] = ["../../target/staticlib/libsigla_lib.a", "../../../lib/libsigla.a"];

fn main() {
    println!("cargo::rerun-if-changed=build.rs");
    for name in ["SIGLA_LIB", "PKG_CONFIG", "PKG_CONFIG_PATH"] {
        println!("cargo::rerun-if-env-changed={name}");
    }
    if let Err(fault) = found().and_then(|library| link(&library)) {
        println!("cargo::error={fault}");
    }
}

/// The library's file.
fn found() -> Result<PathBuf, String> {
    if let Some(named) = env::var_os("SIGLA_LIB") {
        let path = PathBuf::from(named);
        return if path.is_file() { Ok(path) } else { Err(format!("SIGLA_LIB names {}, which is no file", path.display())) };
    }
    let here = PathBuf::from(env::var_os("CARGO_MANIFEST_DIR").unwrap_or_default());
    if let Some(beside) = BESIDE.iter().map(|place| here.join(place)).find(|path| path.is_file()) {
        return Ok(beside);
    }
    let folders = told_folders().into_iter().map(PathBuf::from);
    let told = folders.flat_map(|folder| ["libsigla.a", "libsigla.so"].map(|name| folder.join(name))).find(|path| path.is_file());
    told.ok_or_else(|| "no libsigla: SIGLA_LIB names none, `tools/build sigla_lib` made none, and pkg-config knows none".to_string())
}

/// The folder that pkg-config tells, if it is there and knows one: as it is written, and as a shell reads it, since some write a blank as `\ `.
fn told_folders() -> Vec<String> {
    let pkg_config = env::var_os("PKG_CONFIG").unwrap_or_else(|| "pkg-config".into());
    let told = Command::new(pkg_config).args(["--variable=libdir", "sigla"]).output();
    let Some(folder) = told.ok().filter(|told| told.status.success()).and_then(|told| String::from_utf8(told.stdout).ok()) else {
        return Vec::new();
    };
    let folder = folder.trim_end_matches('\n');
    vec![folder.to_string(), folder.replace('\\', "")]
}

fn link(library: &Path) -> Result<(), String> {
    let library = fs::canonicalize(library).map_err(|fault| format!("{}: {fault}", library.display()))?;
    println!("cargo::rerun-if-changed={}", library.display());
    let shared = library.extension() != Some(OsStr::new("a"));
    let (kind, end) = if shared { ("dylib", "so") } else { ("static", "a") };
    let folder = PathBuf::from(env::var_os("OUT_DIR").unwrap_or_default());
    let linked = folder.join(format!("lib{LINKED}.{end}"));
    // a file of an earlier run may be a link to another library
    let _ = fs::remove_file(&linked);
    fs::copy(&library, &linked).map_err(|fault| format!("{} can't be copied to {}: {fault}", library.display(), linked.display()))?;
    println!("cargo::rustc-link-search=native={}", folder.display());
    println!("cargo::rustc-link-lib={kind}={LINKED}");
    // for a crate that links C code of its own over the library: DEP_SIGLA_LIBRARY in its build script
    println!("cargo::metadata=library={}", library.display());
    Ok(())
}
