//! Links the port's static libraries where they are there, and tells which of their calls exist.
//!
//! `SIGLA_LIB` names the checker's library, `READING_LIB` the one of the reading, `CALLS_LIB` the one of the
//! calls on the substitution and `TEXT_LIB` the one of the two text tests; without them libsigla_lib.a,
//! libreading_calls.a, libcalls.a and libtext_calls.a in target/staticlib at the repository's top are
//! taken, if they are there.

use std::env;
use std::fs;
use std::path::{Path, PathBuf};

/// Each has a cfg of its own.
const WHOLE: [&str; 3] = ["sigla_check", "sigla_lamp", "sigla_read"];

/// These go together: the cfg `sigla_calls` is for all.
const CALLS: [&str; 8] = [
    "sigla_begin",
    "sigla_fresh",
    "sigla_reserve",
    "sigla_put_field",
    "sigla_new_record",
    "sigla_snapshot",
    "sigla_rollback",
    "sigla_unify",
];

/// Those of the converters, by the cfg `sigla_convert`.
const CONVERT: [&str; 2] = ["sigla_widen", "sigla_narrow"];

/// Those of tally and desks, by the cfg `sigla_desks`.
const DESKS: [&str; 5] = [
    "sigla_tally",
    "sigla_set_up",
    "sigla_ceiling",
    "sigla_new_day",
    "sigla_check_at",
];

/// That of two files, by its own cfg.
const GROWTH: [&str; 1] = ["sigla_growth"];

/// The plain solver's, by its own cfg.
const INSPECT: [&str; 1] = ["sigla_inspect"];

/// These too, by the cfg `sigla_texts`.
const TEXTS: [&str; 2] = ["sigla_characters", "sigla_characters_by_table"];

fn main() {
    let groups = [
        "sigla_calls",
        "sigla_texts",
        "sigla_convert",
        "sigla_desks",
        "sigla_growth",
        "sigla_inspect",
    ];
    for cfg in WHOLE.iter().chain(&groups) {
        println!("cargo::rustc-check-cfg=cfg({cfg})");
    }
    let whole = Library::find("SIGLA_LIB", "libsigla_lib.a");
    let reading = Library::find("READING_LIB", "libreading_calls.a");
    let calls = Library::find("CALLS_LIB", "libcalls.a");
    for library in [&whole, &reading].into_iter().flatten() {
        for call in WHOLE.iter().filter(|call| library.has(call)) {
            println!("cargo::rustc-cfg={call}");
        }
        library.link();
    }

    if let Some(whole) = &whole {
        for (cfg, calls) in [
            ("sigla_convert", &CONVERT[..]),
            ("sigla_desks", &DESKS),
            ("sigla_growth", &GROWTH),
            ("sigla_inspect", &INSPECT),
        ] {
            if calls.iter().all(|call| whole.has(call)) {
                println!("cargo::rustc-cfg={cfg}");
            }
        }
    }

    if let Some(texts) = Library::find("TEXT_LIB", "libtext_calls.a")
        && TEXTS.iter().all(|call| texts.has(call))
    {
        println!("cargo::rustc-cfg=sigla_texts");
        texts.link();
    }

    // Of two libraries with the same call one alone is linked, so that no symbol is there twice. What
    // else an object of the port holds is local to it.
    let of = |library: &Option<Library>| library.as_ref().map_or(0, Library::calls);
    match (of(&whole), of(&calls)) {
        (0, 0) => {}
        (0, all) if all == CALLS.len() => {
            println!("cargo::rustc-cfg=sigla_calls");
            calls.expect("it has the calls").link();
        }
        (all, others) if all == CALLS.len() => {
            println!("cargo::rustc-cfg=sigla_calls");
            if others > 0 {
                println!("cargo::warning=both libraries have the calls; the checker's are taken");
            }
        }
        (some, others) => println!(
            "cargo::warning=the calls are not linked: the checker's library has {some} of {}, the other {others}",
            CALLS.len()
        ),
    }
}

/// A static library that is there.
struct Library {
    path: PathBuf,
    archive: Vec<u8>,
}

impl Library {
    /// The library that a variable names, or the one of this name in target/staticlib.
    fn find(variable: &str, name: &str) -> Option<Library> {
        println!("cargo::rerun-if-env-changed={variable}");
        let named = env::var_os(variable).map(PathBuf::from);
        let top = Path::new(env!("CARGO_MANIFEST_DIR")).join("../../..");
        let path = named
            .clone()
            .unwrap_or_else(|| top.join("target/staticlib").join(name));
        println!("cargo::rerun-if-changed={}", path.display());
        let Ok(archive) = fs::read(&path) else {
            if named.is_some() {
                println!("cargo::error={variable} names no file: {}", path.display());
            }
            return None;
        };
        let path = path.canonicalize().expect("an existing file has a path");
        Some(Library { path, archive })
    }

    /// An archive lists its symbols by name, each closed by a zero byte.
    fn has(&self, call: &str) -> bool {
        let symbol = format!("{call}\0");
        self.archive
            .windows(symbol.len())
            .any(|window| window == symbol.as_bytes())
    }

    fn calls(&self) -> usize {
        CALLS.iter().filter(|call| self.has(call)).count()
    }

    /// The library by its folder and name, so that whoever uses this crate links it too.
    fn link(&self) {
        let folder = self.path.parent().expect("a file stands in a folder");
        let name = self.path.file_stem().and_then(|stem| stem.to_str());
        let Some(name) = name.and_then(|stem| stem.strip_prefix("lib")) else {
            println!("cargo::error=a static library is called libNAME.a");
            return;
        };
        println!("cargo::rustc-link-search=native={}", folder.display());
        println!("cargo::rustc-link-lib=static={name}");
    }
}
