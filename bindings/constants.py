#!/usr/bin/env python3
"""Holds the bindings against the sources: refusals (crates/reading), limits (crates/work), codes (crates/meaning), the calls of the library
(crates/sigla_lib), what the plain solver tells (its specs). Prints what differs. What a refusal says stands in refusals.toml alone:
`constants.py write` puts it where callers read it, and without a word it says which of those places has another text."""

import pathlib
import re
import sys
import textwrap

TOP = pathlib.Path(__file__).resolve().parent.parent
faults = []
if sys.argv[1:] not in ([], ["write"]):
    sys.exit("usage: constants.py [write]")
WRITES = bool(sys.argv[1:])


def text(path):
    return (TOP / path).read_text()


def same(what, ours, theirs):
    if ours != theirs:
        faults.append(f"{what}: {ours} and not {theirs}")


def camel(name):
    """WORK_TOO_SHORT as WorkTooShort."""
    return "".join(part.capitalize() for part in name.split("_"))


def snake(name):
    """WorkTooShort as work_too_short."""
    return re.sub(r"(?<=.)([A-Z])", r"_\1", name).lower()


# ---- What the refusals say


def read_refusals():
    """The entries of refusals.toml, which is read line by line: Python has a reader of TOML only since 3.11."""
    entries = []
    for number, line in enumerate(text("bindings/refusals.toml").splitlines(), 1):
        if line == "[[refusal]]":
            entries.append({})
        elif line and not line.startswith("#"):
            found = re.fullmatch(r'(number) = (\d+)|(name|reason|cure|calls) = "([^"\\]+)"', line)
            if found is None or not entries:
                sys.exit(f"refusals.toml:{number}: what is this?")
            entries[-1][found[1] or found[3]] = int(found[2]) if found[1] else found[4]
    for entry in entries:
        if set(entry) != {"number", "name", "reason", "cure", "calls"}:
            sys.exit(f"refusals.toml: {entry} does not have the five words of an entry")
    return entries


def put(path, pattern, new):
    """The one place of a file that the pattern matches has this text; where it has not, it is written or told."""
    old = text(path)
    found = list(re.finditer(pattern, old, re.M | re.S))
    if len(found) != 1:
        sys.exit(f"{path}: {len(found)} places for {pattern}")
    first, last = found[0].span(1)
    if old[first:last] == new:
        return
    if WRITES:
        (TOP / path).write_text(old[:first] + new + old[last:])
    else:
        faults.append(f"{path} does not say what refusals.toml says (`bindings/constants.py write`)")


def rows(*columns):
    return "".join("| " + " | ".join(map(str, row)) + " |\n" for row in zip(*columns))


def roff(words):
    return words.replace("\\", "\\\\").replace("-", "\\-")


def wrapped(words, width):
    return textwrap.wrap(words, width, break_long_words=False, break_on_hyphens=False)


told = read_refusals()  # in the order in which they are told
by_number = sorted(told, key=lambda entry: entry["number"])
numbers, names, reasons = ([entry[key] for entry in by_number] for key in ("number", "name", "reason"))
screams = [snake(name).upper() for name in names]
put("bindings/c/sigla.h", r"SIGLA_ACCEPTED = 0,\n(.*?)\};",
    ",\n".join(f"    SIGLA_{name} = {number}" for name, number in zip(screams, numbers)) + "\n")
put("bindings/c/sigla.h", r"case SIGLA_ACCEPTED: return \"accepted\";\n(.*?)    default:",
    "".join(f'    case SIGLA_{name}: return "{reason}";\n' for name, reason in zip(screams, reasons)))
put("bindings/rust/src/refusal.rs", r"pub enum Refusal \{\n(.*?)    /// A number that this version",
    "".join(f"    /// {number}: {reason}.\n    {name},\n" for number, name, reason in zip(numbers, names, reasons)))
put("bindings/rust/src/refusal.rs", r"^(const REFUSALS: .*?\];\n)",
    f"const REFUSALS: [(u8, Refusal, &str); {len(told)}] = [\n"
    + "".join(f'    ({number}, Refusal::{name}, "{reason}"),\n' for number, name, reason in zip(numbers, names, reasons)) + "];\n")
put("bindings/python/sigla.py", r"^REASONS[^\n]* = \{\n(.*?)\}", "".join(f'    {number}: "{reason}",\n' for number, reason in zip(numbers, reasons)))
put("bindings/tool/src/explain.rs", r"^(const CURES: .*?\];\n)",
    f"const CURES: [(u8, &str); {len(told)}] = [\n"
    + "".join(f'    ({entry["number"]}, "' + "\\n".join(wrapped(entry["cure"], 120)) + '"),\n' for entry in by_number) + "];\n")
put("README.md", r"^\| number \| the file or the call is turned down because \|\n\|---\|---\|\n((?:\|.*?\n)+)^$", rows(numbers, reasons))
put("docs/FORMAT.md", r"^\| number \| the file or the call is turned down because \|\n\|---\|---\|\n((?:\|.*?\n)+)^$",
    rows([entry["number"] for entry in told], [entry["reason"] for entry in told]))
put("docs/PROMISE.md", r"^\| number \| definition \| the file or the call is turned down because \|\n\|---\|---\|---\|\n((?:\|.*?\n)+)^$",
    rows([entry["number"] for entry in told if entry["number"] != 18], [f"`{snake(entry['name'])}`" for entry in told if entry["number"] != 18],
         [entry["reason"] for entry in told if entry["number"] != 18]))


def entries(words, texts):
    """The entries of a page's ERRORS."""
    return "".join(f".TP\n.BR {word}\n" + "\n".join(wrapped(roff(said + "."), 120)) + "\n" for word, said in zip(words, texts))


given = {"all"}  # the calls whose page lists refusals, and on one page all of them
described = set()  # what the pages of the calls have in their NAME lines
for page in sorted((TOP / "docs/man").glob("*.3")):
    described |= set(re.search(r"^\.SH NAME\n(.*?) \\-", page.read_text(), re.M | re.S)[1].replace("\n", " ").split(", "))
    for calls in re.findall(r'^\.\\" refusals of ([\w ]+)$', page.read_text(), re.M):
        given |= set(calls.split())
        listed = [entry for entry in told if set(calls.split()) & {"all", *entry["calls"].split()}]
        put(f"docs/man/{page.name}", rf'^\.\\" refusals of {calls}\n(.*?)^\.\\" end$', entries(
            [f"{entry['number']} \" (SIGLA_{snake(entry['name']).upper()})\"" for entry in listed], [entry["reason"] for entry in listed]))
same("the man pages, calls with refusals", sorted(given), sorted({"all", *(call for entry in told for call in entry["calls"].split())}))
limit_texts = re.findall(r'case (SIGLA_FORM_\w+): return "(.*?)";', text("bindings/c/sigla_form.h"))[1:]
put("docs/man/sigla_form.3", r'^\.\\" limits of the builder\n(.*?)^\.\\" end$', entries([name for name, _ in limit_texts], [said for _, said in limit_texts]))
headers = "".join(text(f"bindings/c/{name}.h") for name in ("sigla", "sigla_answer", "sigla_form"))
functions = set(re.findall(r"^(?:static inline )?[a-z][\w ]*?[ *](sigla_\w*[a-z])\(", headers, re.M)) - {"sigla_digit", "sigla_take"}
same("the man pages, NAME lines", sorted(described), sorted(functions | {"sigla", "sigla_form"}))

header, crate, python = text("bindings/c/sigla.h"), text("bindings/rust/src/refusal.rs"), text("bindings/python/sigla.py")
tool = text("bindings/tool/src/explain.rs")

# refusals: the variants of the enum in order, from 1
variants = re.findall(r"^    ([A-Z]\w+)(?: = \d+)?,", re.search(r"pub enum Refusal \{(.*?)\}", text("crates/reading/src/lib.rt"), re.S)[1], re.M)
specs = text("crates/sigla_lib/specs/Numbers.antt")
variants += re.findall(r"^inspect_number Inspected\.(\w+) = 18$", specs, re.M)  # the plain solver's own, no refusal of the reading
same("refusals.toml", list(zip(numbers, names)), list(enumerate(variants, 1)))

# codes
codes = sorted(re.findall(r"^as_str \w+ = \"(.*)\"", text("crates/meaning/specs/Diag.antt"), re.M))
same("sigla-tool explain, codes", re.findall(r"^    \(\"([a-z]+/[a-z-]+)\", ", tool, re.M), codes)

# limits
counters = re.search(r"impl Counters \{(.*?)pub fn", text("crates/work/src/lib.rt"), re.S)[1]
limits = {name: int(n.replace("_", "")) for name, n in re.findall(r"pub const ([A-Z_]+): \w+ = ([0-9_]+);", counters)}
defines = {name: int(n) for name, n in re.findall(r"^#define SIGLA_(\w+) (\d+)", header, re.M)}
library, form = text("bindings/rust/src/lib.rs"), text("bindings/rust/src/form.rs")
constants = {name: int(n.replace("_", "")) for name, n in re.findall(r"pub const (\w+): usize = ([0-9_]+);", library)}
of_form = {name: int(n) for name, n in re.findall(r"pub const (\w+): usize = (\d+);", form)}
of_python = {name: int(n) for name, n in re.findall(r"^([A-Z]+) = (\d+)$", python, re.M)}
for name, ours in [("WORDS", "WORDS"), ("BYTES", "ANSWER"), ("QUERIES", "QUERIES")]:
    for where, found in [("sigla.h", defines), ("lib.rs", constants), ("sigla.py", of_python)]:
        same(f"{where}, {name}", found[name], limits[ours])
for name, ours in [("FILE_BYTES", "FILE"), ("FRAME_BYTES", "LINE"), ("NAMES", "NAMES"), ("TYPES", "TYPES"), ("PREDICATES", "PREDICATES"),
                   ("NODES", "NODES"), ("VISITS", "VISITS")]:
    same(f"sigla.h, {name}", defines[name], limits[ours])
same("sigla.h, TYPE_DEPTH", defines["TYPE_DEPTH"], limits["TYPES"] + limits["RECORDS"])
for name, ours in [("NAMES", "NAMES"), ("TYPES", "TYPES"), ("PREDICATES", "PREDICATES"), ("NODES", "NODES"), ("QUERIES", "QUERIES"), ("FRAME", "LINE"),
                   ("FILE", "FILE")]:
    same(f"form.rs, {name}", of_form[name], limits[ours])
for where, found in [("lib.rs", constants), ("sigla.py", of_python)]:
    # (theirs is for their readers of answers too)
    same(f"{where}, STACK is no less than sigla.h's", found["STACK"] >= defines["STACK"], True)

# limits of the builders: C has what memory and slices add, Rust and Python have words for the same
kinds = [name.removeprefix("SIGLA_FORM_").lower() for name, _ in limit_texts]
of_rust = [snake(name) for name in re.findall(r"^    ([A-Z]\w+)(?:\(\w+\))?,", re.search(r"pub enum Limit \{(.*?)\n\}", form, re.S)[1], re.M)]
rows_of_python = re.findall(r'^    "(\w+)": \((\d+), "(.*)"\),$', python.split("LIMITS: ")[1].split("}")[0], re.M)
same("form.rs, limits", of_rust, [kind for kind in kinds if kind in of_rust])
same("sigla_form.h, limits more than in Rust", [kind for kind in kinds if kind not in of_rust], ["broken_text", "not_begun", "no_memory", "no_room"])
same("sigla.py, limits", [kind for kind, _, _ in rows_of_python], [*of_rust, "broken_text"])
same("sigla.py, their texts", [said for _, _, said in rows_of_python], [said for kind, (_, said) in zip(kinds, limit_texts) if kind in [*of_rust, "broken_text"]])
of_builder = {name: int(n) for name, n in zip(("NAMES", "TYPES", "PREDICATES", "NODES", "FRAME", "FILE"), re.search(
    r"^NAMES, TYPES, PREDICATES, NODES, FRAME, FILE = (.*)$", python, re.M)[1].split(", "))}
same("sigla.py, the builder's limits", of_builder, {name: of_form[name] for name in of_builder})

# what the plain solver tells, and the words that its program lends
inspected = re.findall(r"^inspect_told \(?Inspected\.(\w+)(?: n\))? = (\d)$", specs, re.M)
inspected = sorted((int(n), name) for name, n in inspected if name not in variants)
enum = re.search(r"enum sigla_told \{(.*?)\n\}", header, re.S)[1]
same("sigla.h, told", [(int(n), camel(name)) for name, n in re.findall(r"SIGLA_TOLD_(\w+) = (\d+)", enum)], inspected)
solver = text("bindings/rust/src/inspect.rs")
same("inspect.rs, told", [(int(n), name) for n, name in re.findall(r"^        (\d) => Inspected::(\w+)", solver, re.M)], inspected)
words_told = re.findall(r"\"(.*?)\"", re.search(r"^TOLD\b[^=]*= \((.*?)\)", python, re.M)[1])
same("sigla.py, told", [(n, camel(name.replace(" ", "_"))) for n, name in enumerate(words_told)], inspected)
words = int(re.search(r"let mut lent = \[0(?:u32)?; (\d+)\]", text("crates/sigla_inspect/src/main.rt"))[1])
same("sigla.h, LENT_WORDS", defines["LENT_WORDS"], words)
same("inspect.rs, LENT", int(re.search(r"pub const LENT: usize = (\d+);", solver)[1]), words)
same("sigla.py, LENT", of_python["LENT"], words)

# calls
calls = set(re.findall(r"#\[unsafe\(no_mangle\)\]\s*pub extern \"C\" fn (\w+)", text("crates/sigla_lib/src/lib.rt")))
sources = "".join(path.read_text() for path in (TOP / "bindings/rust/src").glob("*.rs"))
same("sigla.h, calls", set(re.findall(r"^uint(?:8|32)_t (sigla_\w+)\(", header, re.M)), calls)
same("the Rust crate, calls", set(re.findall(r"^    fn (sigla_\w+)\(", sources, re.M)), calls)
same("libsigla.map, calls", set(re.findall(r"^    (sigla_\w+);$", text("bindings/c/libsigla.map"), re.M)), calls)
same("sigla.py, calls", set(re.findall(r"_load\(\)\.(sigla_\w+)", python)), calls)

for fault in faults:
    print(fault)
print(f"{len(told)} refusals, {len(codes)} codes, {len(calls)} calls: {'not the sources' if faults else 'as the sources have them'}")
sys.exit(1 if faults else 0)
