// Making the counted copy of ty.rs: the same text with lines that count visits and mark entries, shown
// to be the same text without them. Used by the judge's build script.

/// Every inserted line ends so, and no line of ty.rs does.
const MARK: &str = "// counted";

/// The function headers after which a line is inserted, and what it calls.
///
/// A visit is an entry to one of the first three (document 01). The others are where the Rust
/// writes types and their texts out in full; they are watched so that a file whose types or
/// messages it can't hold is stopped before the machine is.
const ENTRIES: [(&str, &str); 7] = [
    (
        "fn unify(&mut self, got: &Ty, expected: &Ty) -> Result<(), TyError> {",
        "visit()",
    ),
    (
        "fn occurs(&self, var: TyVarId, ty: &Ty) -> bool {",
        "visit()",
    ),
    ("fn orderable(ty: &Ty) -> bool {", "visit()"),
    ("fn zonk(&self, ty: &Ty) -> Ty {", "write_out()"),
    ("fn schema_ty(ty: &PredicateTy) -> Ty {", "write_out()"),
    (
        "fn render(&self, ty: &Ty) -> String {",
        "render(if let Ty::Fact(p) = ty { self.schema.get(*p).and_then(|p| p.name()) } else { None })",
    ),
    (
        "fn name_of(&self, symbol: Symbol) -> &str {",
        "write_name(self.interner.try_resolve(symbol))",
    ),
];

/// The lines of ty.rs around which one is inserted, before it or after it, how often each stands in ty.rs, and what
/// the inserted line says. Card 9: which entry a look-up finds is told by its unknown; the entry that is pushed next
/// was made by the node that looked last. Card 12: an entry to `unify` that no other one is about calls `unify` anew,
/// within the log, before it counts a visit.
const MARKS: [(&str, Place, usize, &str); 10] = [
    (
        "fn unify(&mut self, got: &Ty, expected: &Ty) -> Result<(), TyError> {",
        Place::After,
        1,
        "if crate::entries::begins(got, expected, &self.subst) { let told = self.unify(got, expected); \
         crate::entries::ends(told.is_ok(), &self.subst); return told; }",
    ),
    (
        "if let ExprKind::Var(symbol) = ast.store().kind(side)",
        Place::Before,
        1,
        "if let ExprKind::Var(symbol) = ast.store().kind(side) { crate::marks::look(self.lookup(*symbol), side); }",
    ),
    (
        "let var = match self.lookup(symbol) {",
        Place::Before,
        2,
        "crate::marks::look(self.lookup(symbol), lhs);",
    ),
    (
        "match self.lookup(symbol) {",
        Place::Before,
        1,
        "crate::marks::look(self.lookup(symbol), id);",
    ),
    (
        "self.env.push((*symbol, var));",
        Place::After,
        1,
        "crate::marks::made(var);",
    ),
    (
        "self.env.push((symbol, var));",
        Place::After,
        3,
        "crate::marks::made(var);",
    ),
    (
        "let snapshot = self.snapshot();",
        Place::After,
        2,
        "let marks = crate::marks::count();",
    ),
    (
        "self.rollback(snapshot);",
        Place::After,
        2,
        "crate::marks::back(marks);",
    ),
    (
        "self.env.truncate(scope);",
        Place::Before,
        1,
        "crate::marks::leave(self.env[scope..].iter().map(|entry| entry.1));",
    ),
    (
        "self.infer(ast, head);",
        Place::After,
        1,
        "crate::marks::leave(self.env.iter().map(|entry| entry.1));",
    ),
];

#[derive(PartialEq)]
enum Place {
    Before,
    After,
}

/// ty.rs with the counting lines, or why it could not be made.
pub fn counted(text: &str) -> Result<String, String> {
    if text.lines().any(|line| line.ends_with(MARK)) {
        return Err(format!("a line of ty.rs ends with {MARK:?} already"));
    }
    let mut copy = String::new();
    let mut found = [0; ENTRIES.len()];
    let mut marked = [0; MARKS.len()];
    for line in text.split_inclusive('\n') {
        let at = MARKS.iter().position(|mark| mark.0 == line.trim());
        if let Some(at) = at {
            marked[at] += 1;
            if MARKS[at].1 == Place::Before {
                copy.push_str(&format!("{} {MARK}\n", MARKS[at].3));
            }
        }
        copy.push_str(line);
        if let Some(at) = at
            && MARKS[at].1 == Place::After
        {
            copy.push_str(&format!("{} {MARK}\n", MARKS[at].3));
        }
        for (entry, (header, call)) in ENTRIES.iter().enumerate() {
            if line.trim() == *header {
                found[entry] += 1;
                copy.push_str(&format!("crate::visits::{call}; {MARK}\n"));
            }
        }
    }
    for (times, (header, _)) in found.iter().zip(ENTRIES) {
        if *times != 1 {
            return Err(format!("ty.rs has {times} times, and not once, {header}"));
        }
    }
    for (times, (line, _, expected, _)) in marked.iter().zip(&MARKS) {
        if times != expected {
            return Err(format!("ty.rs has {times} times, and not {expected}, {line}"));
        }
    }
    if without(&copy) != text {
        return Err("the counted copy without its counting lines is not ty.rs".to_owned());
    }
    Ok(copy)
}

/// The text without its counting lines.
fn without(copy: &str) -> String {
    copy.split_inclusive('\n')
        .filter(|line| !line.trim_end_matches('\n').ends_with(MARK))
        .collect()
}
