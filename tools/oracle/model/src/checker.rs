//! The walk of ty.rs over node rows: the same questions in the same order.

use crate::message::{self, Message};
use crate::mutation::{Switch, Wrong};
use crate::reader::{NodeRow, Rows, Stmt, Tree};
use crate::types::{Cells, Part, Ty};
use crate::{ENDLESS, Limits};

/// Why a run ended early.
#[derive(Clone, Copy, Debug, PartialEq, Eq)]
pub enum Stop {
    Visits,
    /// Only a wrong checker gets here.
    Endless,
}

pub type Run<T> = Result<T, Stop>;

/// The fourteen codes that ty.rs reports.
#[derive(Clone, Copy, Debug, PartialEq, Eq)]
pub enum Code {
    BindUnification,
    BindLhs,
    FuzzyDistance,
    FuzzyTerm,
    InfiniteType,
    NoValue,
    NotAUnion,
    TypeMismatch,
    UnknownAlternative,
    UnknownField,
    UnionArity,
    UnresolvedAccess,
    ValueShadowed,
    WildcardInHead,
}

impl Code {
    pub fn as_str(self) -> &'static str {
        match self {
            Code::BindUnification => "nyi/bind-unification",
            Code::BindLhs => "reject/bind-lhs",
            Code::FuzzyDistance => "reject/fuzzy-distance",
            Code::FuzzyTerm => "reject/fuzzy-term",
            Code::InfiniteType => "reject/infinite-type",
            Code::NoValue => "reject/no-value",
            Code::NotAUnion => "reject/not-a-union",
            Code::TypeMismatch => "reject/type-mismatch",
            Code::UnknownAlternative => "reject/unknown-alternative",
            Code::UnknownField => "reject/unknown-field",
            Code::UnionArity => "reject/union-arity",
            Code::UnresolvedAccess => "reject/unresolved-access",
            Code::ValueShadowed => "reject/value-shadowed",
            Code::WildcardInHead => "reject/wildcard-in-head",
        }
    }
}

#[derive(Clone, Copy, Debug)]
pub enum Undo {
    Subst(usize, Option<Ty>),
    Annotation(u16, Option<Ty>),
}

/// A diagnostic: the node, what it says, and its text as of then.
#[derive(Clone, Debug)]
pub struct Report {
    pub node: u16,
    pub message: Message,
    pub text: Vec<u8>,
}

/// A name in scope: its unknown, the node that made the entry, and whether another has found it.
#[derive(Clone, Copy, Debug)]
struct Entry {
    name: u16,
    var: usize,
    maker: u16,
    used: bool,
}

struct Snapshot {
    undo: usize,
    env: usize,
    /// Whether each entry was used.
    used: Vec<bool>,
    unused: usize,
    subst: usize,
    reports: usize,
}

pub struct State<'a> {
    pub tree: &'a Tree,
    pub rows: &'a Rows,
    pub cells: Cells,
    pub subst: Vec<Option<Ty>>,
    env: Vec<Entry>,
    /// The nodes whose entries left unused, in order of leaving.
    pub unused: Vec<u16>,
    pub tys: Vec<Option<Ty>>,
    pub undo: Vec<Undo>,
    pub reports: Vec<Report>,
    /// The bytes of text that an answer may still hold.
    pub text_left: usize,
    pub visits: u64,
    pub most_visits: u64,
    pub depth: usize,
    value: Option<u16>,
    pub wrong: Switch,
}

/// More than a wrong writer leaves uncounted of an answer, so that it too finds whole texts.
const MISCOUNTED: usize = 4_096;

/// Checks a query; the second part is the refusal, if the visits did not suffice. `before`
/// is what the query before left, which only a wrong checker looks at.
pub fn run<'a>(
    tree: &'a Tree,
    rows: &'a Rows,
    before: Option<&State<'a>>,
    limits: &Limits,
    wrong: Switch,
) -> (State<'a>, Option<u8>) {
    let value = tree.texts.iter().position(|text| text == b"value");
    let mut state = State {
        tree,
        rows,
        cells: tree.cells.clone(),
        subst: Vec::new(),
        env: Vec::new(),
        unused: Vec::new(),
        tys: vec![None; rows.nodes.len()],
        undo: Vec::new(),
        reports: Vec::new(),
        text_left: limits.bytes + MISCOUNTED,
        visits: 0,
        most_visits: limits.visits,
        depth: 0,
        value: value.map(|at| at as u16),
        wrong,
    };
    if let Some(before) = before {
        if wrong.on(Wrong::VisitsOverAll) {
            state.visits = before.visits;
        }
        if wrong.on(Wrong::UnknownsOverAll) {
            state.subst = vec![None; before.subst.len()];
        }
        if wrong.on(Wrong::NamesOfBefore) {
            state.cells = before.cells.clone();
            state.subst = before.subst.clone();
            state.env = before.env.clone();
        }
    }
    let stopped = match state.query() {
        Ok(()) => None,
        Err(Stop::Visits) => Some(11),
        Err(Stop::Endless) => Some(ENDLESS),
    };
    if let Some(before) = before
        && wrong.on(Wrong::TypesOfBefore)
    {
        // A type that the earlier query made itself is not there any more.
        let stands = |ty: &Ty| !matches!(ty, Ty::Var(_) | Ty::Record(_) | Ty::Union(_));
        for (ty, old) in state.tys.iter_mut().zip(&before.tys) {
            *ty = ty.or(old.filter(stands));
        }
    }
    (state, stopped)
}

impl<'a> State<'a> {
    fn node(&self, id: u16) -> &'a NodeRow {
        &self.rows.nodes[id as usize]
    }

    fn report(&mut self, id: u16, message: Message) {
        let text = message::text(self, message, self.text_left);
        self.text_left = self.text_left.saturating_sub(text.len());
        self.reports.push(Report {
            node: id,
            message,
            text,
        });
    }

    fn reject(&mut self, id: u16, message: Message) -> Ty {
        self.report(id, message);
        if self.wrong.on(Wrong::RejectedIsUnknown) {
            return self.fresh();
        }
        Ty::Error
    }

    fn fresh(&mut self) -> Ty {
        Ty::Var(self.fresh_var_id())
    }

    fn query(&mut self) -> Run<()> {
        let head = self.rows.head;
        let first = self.wrong.on(Wrong::HeadFirst);
        if first {
            self.head(head)?;
        }
        for stmt in &self.rows.body {
            self.stmt(*stmt)?;
            if self.wrong.on(Wrong::FirstStatementOnly) {
                break;
            }
        }
        if !first {
            self.head(head)?;
        }
        self.leave(0);
        Ok(())
    }

    fn head(&mut self, head: u16) -> Run<()> {
        if self.node(head).shape == 0x04 {
            self.report(head, Message::WildcardHead);
            if self.wrong.on(Wrong::WildcardHeadUntyped) {
                return Ok(());
            }
        }
        self.infer(head).map(|_| ())
    }

    fn stmt(&mut self, stmt: Stmt) -> Run<()> {
        match stmt.tag {
            0 => self.bind(stmt.left, stmt.right),
            1 if self.wrong.on(Wrong::StatementInferred) => self.infer(stmt.left).map(|_| ()),
            1 => self.generator(stmt.left).map(|_| ()),
            2 => {
                let env = self.env.len();
                self.generator(stmt.left)?;
                if self.wrong.on(Wrong::NegationScoped) {
                    self.env.truncate(env);
                }
                Ok(())
            }
            3 => self.deny(stmt.left, stmt.right),
            _ => self.compare(stmt.left, stmt.right),
        }
    }

    /// Which entry a name has.
    fn lookup(&self, name: u16) -> Option<usize> {
        let of = |entry: &Entry| entry.name == name;
        // Equal in behaviour: a name is introduced only where it is not found, so it
        // never stands twice in the environment.
        if self.wrong.on(Wrong::OldestFirst) {
            self.env.iter().position(of)
        } else {
            self.env.iter().rposition(of)
        }
    }

    /// The unknown of the name at a node, made where there is none.
    fn introduce(&mut self, node: u16) -> usize {
        let name = self.node(node).name;
        if let Some(at) = self.lookup(name) {
            let entry = &mut self.env[at];
            if entry.maker != node || self.wrong.on(Wrong::OwnLookMarks) {
                entry.used = true;
            }
            return entry.var;
        }
        self.push(name, node)
    }

    fn push(&mut self, name: u16, maker: u16) -> usize {
        let var = self.fresh_var_id();
        self.env.push(Entry {
            name,
            var,
            maker,
            used: false,
        });
        var
    }

    /// The entries from a number on leave, and those that are unused are noted.
    fn leave(&mut self, from: usize) {
        let unused = self.env[from..].iter().filter(|entry| !entry.used);
        let mut makers: Vec<u16> = unused.map(|entry| entry.maker).collect();
        if self.wrong.on(Wrong::NewestLeavesFirst) {
            makers.reverse();
        }
        self.unused.extend(makers);
        self.env.truncate(from);
    }

    /// What a field's rollback is decided by.
    fn reported(&self) -> usize {
        if self.wrong.on(Wrong::UnusedIsReported) {
            return self.reports.len() + self.unused.len();
        }
        self.reports.len()
    }

    fn compare(&mut self, left: u16, right: u16) -> Run<()> {
        let mut sides = [left, right];
        if self.wrong.on(Wrong::RightIntroducedFirst) {
            sides.reverse();
        }
        if self.wrong.on(Wrong::NotIntroduced) {
            sides = [left; 2];
        }
        for side in sides {
            if self.node(side).shape == 0x03 && !self.wrong.on(Wrong::NoSideIntroduced) {
                self.introduce(side);
            }
        }
        let snapshot = self.snapshot();
        let (l, r) = if self.wrong.on(Wrong::RightInferredFirst) {
            let r = self.infer(right)?;
            (self.infer(left)?, r)
        } else {
            (self.infer(left)?, self.infer(right)?)
        };
        let failed = if self.wrong.on(Wrong::LeftIsFound) {
            self.unify(l, r)?
        } else {
            self.unify(r, l)?
        };
        if let Some(message) = failed {
            if self.wrong.on(Wrong::FailedCompareUndone) {
                self.rollback(snapshot);
            }
            let at = if self.wrong.on(Wrong::MismatchAtLeft) {
                left
            } else {
                right
            };
            self.report(at, message);
            if !self.wrong.on(Wrong::OrderAskedAfterMismatch) {
                return Ok(());
            }
        }
        let asked = if self.wrong.on(Wrong::OrderOfRight) {
            r
        } else {
            l
        };
        if !self.orderable(asked)? {
            let at = if self.wrong.on(Wrong::NoOrderAtRight) {
                right
            } else {
                left
            };
            self.report(at, Message::NoOrder(asked));
        }
        Ok(())
    }

    fn generator(&mut self, id: u16) -> Run<Ty> {
        let node = self.node(id);
        if node.shape != 0x0b || self.wrong.on(Wrong::GeneratorUnifies) {
            return self.infer(id);
        }
        self.deeper(|s| {
            let mut last = if s.wrong.on(Wrong::NoBranchIsUnknown) {
                s.fresh()
            } else {
                Ty::Error
            };
            for (place, &(_, branch)) in node.under.iter().enumerate() {
                let ty = if s.wrong.on(Wrong::BranchesInferred) {
                    s.infer(branch)?
                } else {
                    s.generator(branch)?
                };
                if place == 0 || !s.wrong.on(Wrong::FirstBranchsType) {
                    last = ty;
                }
            }
            s.annotate(id, last);
            Ok(last)
        })
    }

    fn right_side(&mut self, id: u16) -> Run<Ty> {
        if self.wrong.on(Wrong::BoundIsGenerator) {
            self.generator(id)
        } else {
            self.infer(id)
        }
    }

    fn bind(&mut self, left: u16, right: u16) -> Run<()> {
        let node = self.node(left);
        match node.shape {
            0x04 => {
                let ty = self.right_side(right)?;
                match () {
                    _ if self.wrong.on(Wrong::WildcardUntyped) => {}
                    _ if self.wrong.on(Wrong::WildcardUnknown) => {
                        self.infer(left)?;
                    }
                    _ => self.annotate(left, ty),
                }
                Ok(())
            }
            0x03 => self.equate(left, right, Wrong::FailedBindUndone),
            0x08 if self.destructurable(left) => {
                let snapshot = self.snapshot();
                let (pattern, value) = if self.wrong.on(Wrong::ValueBeforePattern) {
                    let value = self.right_side(right)?;
                    (self.infer(left)?, value)
                } else {
                    (self.infer(left)?, self.right_side(right)?)
                };
                let failed = if self.wrong.on(Wrong::PatternIsFound) {
                    self.unify(pattern, value)?
                } else {
                    self.unify(value, pattern)?
                };
                if let Some(message) = failed {
                    if self.wrong.on(Wrong::FailedPatternUndone) {
                        self.rollback(snapshot);
                    }
                    let at = if self.wrong.on(Wrong::PatternBlamed) {
                        left
                    } else {
                        right
                    };
                    self.report(at, message);
                }
                Ok(())
            }
            0x00 | 0x01 | 0x02 | 0x06 => {
                self.report(left, Message::BoundLiteral);
                if self.wrong.on(Wrong::LiteralLeftTyped) {
                    self.infer(left)?;
                }
                if !self.wrong.on(Wrong::RightOfLiteralSkipped) {
                    self.right_side(right)?;
                }
                Ok(())
            }
            0x0f => self.error_left(left, right),
            _ => {
                if node.shape == 0x07 && self.wrong.on(Wrong::FuzzyIsLiteral) {
                    self.report(left, Message::BoundLiteral);
                } else {
                    self.report(left, Message::MatchedPatterns);
                    self.infer(left)?;
                }
                self.right_side(right).map(|_| ())
            }
        }
    }

    /// An error node on the left is silent and stays untyped.
    fn error_left(&mut self, left: u16, right: u16) -> Run<()> {
        if self.wrong.on(Wrong::ErrorLeftReported) {
            self.report(left, Message::MatchedPatterns);
        }
        if self.wrong.on(Wrong::ErrorLeftTyped) {
            self.infer(left)?;
        }
        self.infer(right).map(|_| ())
    }

    /// The variable's arm, which `bind` and `deny` share in all but their mistakes.
    fn equate(&mut self, left: u16, right: u16, undone: Wrong) -> Run<()> {
        let name = self.node(left).name;
        let snapshot = self.snapshot();
        if self.wrong.on(Wrong::RightBeforeVariable) {
            let ty = self.infer(right)?;
            let var = self.introduce(left);
            self.annotate(left, Ty::Var(var));
            if let Some(message) = self.unify(ty, Ty::Var(var))? {
                self.report(right, message);
            }
            return Ok(());
        }
        let var = if self.wrong.on(Wrong::AlwaysNewVariable) {
            self.push(name, left)
        } else {
            self.introduce(left)
        };
        if !self.wrong.on(Wrong::LeftVariableUntyped) {
            self.annotate(left, Ty::Var(var));
        }
        let ty = self.right_side(right)?;
        let failed = if self.wrong.on(Wrong::VariableIsFound) {
            self.unify(Ty::Var(var), ty)?
        } else {
            self.unify(ty, Ty::Var(var))?
        };
        if let Some(message) = failed {
            if self.wrong.on(undone) {
                self.rollback(snapshot);
            }
            let at = if self.wrong.on(Wrong::VariableBlamed) {
                left
            } else {
                right
            };
            self.report(at, message);
        }
        Ok(())
    }

    fn deny(&mut self, left: u16, right: u16) -> Run<()> {
        match self.node(left).shape {
            0x03 => self.equate(left, right, Wrong::FailedDenyUndone),
            0x04 if self.wrong.on(Wrong::DeniedWildcardTyped) => {
                let ty = self.infer(right)?;
                self.annotate(left, ty);
                Ok(())
            }
            0x04 | 0x00 | 0x01 | 0x02 | 0x06 => {
                self.report(left, Message::DeniedLiteral);
                self.infer(right).map(|_| ())
            }
            0x0f => self.error_left(left, right),
            0x08 if self.wrong.on(Wrong::DenyDestructures) => self.bind(left, right),
            _ => {
                self.report(left, Message::DeniedPattern);
                if !self.wrong.on(Wrong::DeniedLeftSkipped) {
                    self.infer(left)?;
                }
                self.infer(right).map(|_| ())
            }
        }
    }

    fn destructurable(&self, id: u16) -> bool {
        self.names_only(id, self.rows.nodes.len())
    }

    /// `fuel` ends the walk where a wrong reader let a node name itself.
    fn names_only(&self, id: u16, fuel: usize) -> bool {
        let node = self.node(id);
        match node.shape {
            0x03 => true,
            0x04 => !self.wrong.on(Wrong::WildcardNotDestructured),
            0x08 if node.under.is_empty() => !self.wrong.on(Wrong::EmptyNotDestructured),
            0x08 if fuel == 0 || self.wrong.on(Wrong::AnyRecordDestructured) => true,
            0x08 if self.wrong.on(Wrong::InnerNotDestructured) => node
                .under
                .iter()
                .all(|&(_, at)| matches!(self.node(at).shape, 0x03 | 0x04)),
            0x08 => node
                .under
                .iter()
                .all(|&(_, at)| self.names_only(at, fuel - 1)),
            0x00..=0x02 => self.wrong.on(Wrong::LiteralsDestructured),
            _ => false,
        }
    }

    fn infer(&mut self, id: u16) -> Run<Ty> {
        let ty = self.deeper(|s| s.shape(id))?;
        self.annotate(id, ty);
        Ok(ty)
    }

    fn shape(&mut self, id: u16) -> Run<Ty> {
        let node = self.node(id);
        let wrong = self.wrong;
        Ok(match node.shape {
            0x00 => Ty::Int,
            0x02 if wrong.on(Wrong::BytesLiteralIsString) => Ty::String,
            0x02 => Ty::Bytes,
            0x01 | 0x06 => Ty::String,
            0x07 => self.fuzzy(id, node),
            0x04 => self.fresh(),
            0x05 if wrong.on(Wrong::NeverIsError) => Ty::Error,
            0x05 => self.fresh(),
            0x03 => Ty::Var(self.introduce(id)),
            0x08 => {
                let mut parts = Vec::new();
                for &(name, value) in &node.under {
                    let ty = self.infer(value)?;
                    parts.push(Part { name, disc: 0, ty });
                }
                if wrong.on(Wrong::RecordsSorted) {
                    parts.sort_by_key(|part| part.name);
                }
                if wrong.on(Wrong::RepeatsDropped) {
                    let mut seen = Vec::new();
                    parts.retain(|part| {
                        let new = !seen.contains(&part.name);
                        seen.push(part.name);
                        new
                    });
                }
                Ty::Record(self.cells.push(&parts))
            }
            0x09 | 0x0a => self.access(id, node)?,
            0x0b => {
                let early = self.fresh_unless(Wrong::UnknownAfterBranches);
                let mut types = Vec::new();
                let result = early.unwrap_or(Ty::Error);
                let mut last = result;
                for &(_, branch) in &node.under {
                    let ty = self.infer(branch)?;
                    types.push((branch, ty));
                    last = ty;
                    if early.is_some() {
                        self.branch(id, branch, ty, result)?;
                    }
                }
                if early.is_none() {
                    let result = self.fresh();
                    for (branch, ty) in types {
                        self.branch(id, branch, ty, result)?;
                    }
                    return Ok(result);
                }
                if wrong.on(Wrong::LastBranchsType) {
                    last
                } else {
                    result
                }
            }
            0x0c => {
                let scope = self.env.len();
                let outer = self.env.clone();
                if wrong.on(Wrong::SubqueryStartsEmpty) {
                    self.env.clear();
                }
                for stmt in &node.body {
                    self.stmt(*stmt)?;
                }
                let head = node.under[0].1;
                if self.node(head).shape == 0x04 && wrong.on(Wrong::WildcardInSubquery) {
                    self.report(head, Message::WildcardHead);
                }
                let ty = if wrong.on(Wrong::SubqueryHeadOutside) {
                    self.env.truncate(scope);
                    self.infer(head)?
                } else {
                    self.infer(head)?
                };
                match () {
                    _ if wrong.on(Wrong::SubqueryKept) => {}
                    _ if wrong.on(Wrong::SubqueryStartsEmpty) => self.env = outer,
                    _ => self.leave(scope),
                }
                ty
            }
            0x0d => {
                let key = node.under[0].1;
                match self.key(node.predicate) {
                    Some(ty) => self.check(key, ty)?,
                    None if wrong.on(Wrong::AbsentKeyInferred) => {
                        self.infer(key)?;
                    }
                    None => {}
                }
                match self.key(node.predicate) {
                    None if wrong.on(Wrong::AbsentFactIsError) => Ty::Error,
                    _ => Ty::Fact(node.predicate),
                }
            }
            0x0e => {
                for &(_, operand) in &node.under {
                    let ty = self.infer(operand)?;
                    if wrong.on(Wrong::OperandsFree) {
                        continue;
                    }
                    let failed = if wrong.on(Wrong::IntIsFound) {
                        self.unify(Ty::Int, ty)?
                    } else {
                        self.unify(ty, Ty::Int)?
                    };
                    if let Some(message) = failed {
                        let at = if wrong.on(Wrong::ArithBlamed) {
                            id
                        } else {
                            operand
                        };
                        self.report(at, message);
                        if wrong.on(Wrong::ArithStops) {
                            return Ok(Ty::Error);
                        }
                    }
                }
                Ty::Int
            }
            0x10 => self.select(id, node)?,
            _ => Ty::Error,
        })
    }

    fn fresh_unless(&mut self, wrong: Wrong) -> Option<Ty> {
        (!self.wrong.on(wrong)).then(|| self.fresh())
    }

    fn branch(&mut self, id: u16, branch: u16, ty: Ty, result: Ty) -> Run<()> {
        let failed = if self.wrong.on(Wrong::BranchIsExpected) {
            self.unify(result, ty)?
        } else {
            self.unify(ty, result)?
        };
        if let Some(message) = failed {
            let at = if self.wrong.on(Wrong::DisjunctionBlamed) {
                id
            } else {
                branch
            };
            self.report(at, message);
        }
        Ok(())
    }

    fn fuzzy(&mut self, id: u16, node: &NodeRow) -> Ty {
        let wrong = self.wrong;
        let most = self.tree.most_distance;
        let far = match () {
            _ if wrong.on(Wrong::DistanceBelow) => node.distance >= most,
            _ => node.distance > most,
        };
        let far = far || node.distance == 0 && !wrong.on(Wrong::DistanceZero);
        // A wrong reader may let a name through that is not there.
        let length = self.tree.characters.get(node.name as usize).copied();
        let long = match () {
            _ if wrong.on(Wrong::TermBelow) => length >= Some(self.tree.most_characters),
            _ => length > Some(self.tree.most_characters),
        };
        if long && wrong.on(Wrong::TermFirst) {
            self.report(id, Message::Term(node.name));
        }
        if far {
            self.report(id, Message::Distance(node.distance));
        }
        if long && !wrong.on(Wrong::TermFirst) && !(far && wrong.on(Wrong::OneFuzzyFault)) {
            self.report(id, Message::Term(node.name));
        }
        Ty::String
    }

    fn key(&self, predicate: u32) -> Option<Ty> {
        let place = match () {
            _ if self.wrong.on(Wrong::FoundByLowHalf) => predicate & 0xffff,
            _ => predicate,
        };
        Some(self.tree.predicates.get(place as usize)?.key)
    }

    /// Whether a key field is called `value`. Only a key that is itself a record counts.
    fn shadows(&self, predicate: u32) -> bool {
        let Some(name) = self.value else {
            return false;
        };
        let mut key = self.key(predicate);
        if let Some(Ty::Fact(other)) = key
            && self.wrong.on(Wrong::ShadowThroughFacts)
        {
            key = self.key(other);
        }
        match key {
            Some(Ty::Record(cell)) => self.cells.named(cell, name).is_some(),
            Some(Ty::Union(cell)) if self.wrong.on(Wrong::ShadowInUnions) => {
                self.cells.named(cell, name).is_some()
            }
            _ => false,
        }
    }

    fn access(&mut self, id: u16, node: &NodeRow) -> Run<Ty> {
        let wrong = self.wrong;
        let by_name = self.value == Some(node.name) && wrong.on(Wrong::KeyCalledValue);
        let base = self.infer(node.under[0].1)?;
        let base = self.repr(base)?;
        if node.shape == 0x0a || by_name {
            return Ok(match base {
                Ty::Error => Ty::Error,
                Ty::Fact(predicate) => {
                    if self.shadows(predicate) && !wrong.on(Wrong::ShadowIgnored) {
                        if wrong.on(Wrong::ShadowTypesKey) {
                            return self.field_of(id, predicate);
                        }
                        return Ok(self.reject(id, Message::Shadowed));
                    }
                    let row = self.tree.predicates.get(predicate as usize);
                    match row.and_then(|row| row.value) {
                        Some(ty) => ty,
                        None if row.is_none() && wrong.on(Wrong::AbsentValueSilent) => Ty::Error,
                        None => self.reject(id, Message::NoValue),
                    }
                }
                Ty::Var(_) => self.unresolved(id),
                Ty::Record(_) if wrong.on(Wrong::ValueOfRecordUnknown) => {
                    self.reject(id, Message::Mistaken(Code::UnknownField))
                }
                _ => self.reject(id, Message::NotAFact(base)),
            });
        }
        let record = match base {
            Ty::Error => return Ok(Ty::Error),
            Ty::Fact(predicate) => match self.key(predicate) {
                Some(ty) => ty,
                None if wrong.on(Wrong::AbsentKeyReported) => {
                    return Ok(self.reject(id, Message::NoField(node.name)));
                }
                None => return Ok(Ty::Error),
            },
            Ty::Record(_) => base,
            Ty::Var(_) => return Ok(self.unresolved(id)),
            Ty::Union(_) if wrong.on(Wrong::UnionsHaveFields) => base,
            _ => return Ok(self.reject(id, Message::NoFields(base))),
        };
        let part = match record {
            Ty::Record(cell) if wrong.on(Wrong::LastFieldRead) => {
                self.cells.last_named(cell, node.name)
            }
            Ty::Record(cell) => self.cells.named(cell, node.name),
            Ty::Fact(other) if wrong.on(Wrong::AccessThroughFacts) => match self.key(other) {
                Some(Ty::Record(cell)) => self.cells.named(cell, node.name),
                _ => None,
            },
            _ => None,
        };
        Ok(match part {
            Some(part) => part.ty,
            None if wrong.on(Wrong::KeyNoRecordMismatch) && !matches!(record, Ty::Record(_)) => {
                self.reject(id, Message::Mistaken(Code::TypeMismatch))
            }
            None => self.reject(id, Message::NoField(node.name)),
        })
    }

    /// Mistake: a shadowed `.value` reads the key's field.
    fn field_of(&mut self, id: u16, predicate: u32) -> Run<Ty> {
        let part = match (self.key(predicate), self.value) {
            (Some(Ty::Record(cell)), Some(name)) => self.cells.named(cell, name),
            _ => None,
        };
        Ok(match part {
            Some(part) => part.ty,
            None => self.reject(id, Message::Shadowed),
        })
    }

    fn unresolved(&mut self, id: u16) -> Ty {
        let ty = self.reject(id, Message::Unresolved);
        if self.wrong.on(Wrong::UnresolvedIsUnknown) {
            return self.fresh();
        }
        ty
    }

    fn select(&mut self, id: u16, node: &NodeRow) -> Run<Ty> {
        let wrong = self.wrong;
        let base = self.infer(node.under[0].1)?;
        let mut base = self.repr(base)?;
        if let Ty::Fact(predicate) = base
            && wrong.on(Wrong::SelectThroughFacts)
        {
            base = self.key(predicate).unwrap_or(base);
        }
        Ok(match base {
            Ty::Error => Ty::Error,
            Ty::Union(cell) => {
                let part = if wrong.on(Wrong::LastAlternativeSelected) {
                    self.cells.last_named(cell, node.name)
                } else {
                    self.cells.named(cell, node.name)
                };
                match part {
                    Some(part) => part.ty,
                    None if wrong.on(Wrong::SelectUnknownField) => {
                        self.reject(id, Message::Mistaken(Code::UnknownField))
                    }
                    None => self.reject(id, Message::NoAlternative(node.name)),
                }
            }
            Ty::Var(_) if wrong.on(Wrong::OpenSelectNoUnion) => {
                self.reject(id, Message::NotAUnion(base))
            }
            Ty::Var(_) => self.unresolved(id),
            _ => self.reject(id, Message::NotAUnion(base)),
        })
    }

    fn check(&mut self, id: u16, expected: Ty) -> Run<()> {
        self.deeper(|s| s.check_resolved(id, expected))
    }

    fn check_resolved(&mut self, id: u16, expected: Ty) -> Run<()> {
        let expected = self.repr(expected)?;
        if expected == Ty::Error && !self.wrong.on(Wrong::CheckedAgainstError) {
            return Ok(());
        }
        let node = self.node(id);
        match (node.shape, expected) {
            (0x04, _) if self.wrong.on(Wrong::CheckedWildcardUnknown) => {
                self.infer_then_unify(id, expected)
            }
            (0x04, _) => {
                self.annotate(id, expected);
                Ok(())
            }
            (0x08, Ty::Record(_)) if self.wrong.on(Wrong::RecordInferred) => {
                self.infer_then_unify(id, expected)
            }
            (0x08, Ty::Record(cell)) => self.check_record(id, node, cell, expected),
            (0x08, Ty::Union(_)) if self.wrong.on(Wrong::UnionInferred) => {
                self.infer_then_unify(id, expected)
            }
            (0x08, Ty::Union(cell)) => self.check_union(id, node, cell, expected),
            (0x0b, _) if self.wrong.on(Wrong::BranchesChecked) => {
                for &(_, branch) in &node.under {
                    self.check(branch, expected)?;
                }
                self.annotate(id, expected);
                Ok(())
            }
            _ => self.infer_then_unify(id, expected),
        }
    }

    fn check_record(&mut self, id: u16, node: &NodeRow, cell: usize, expected: Ty) -> Run<()> {
        let wrong = self.wrong;
        let outside = self.reports.len();
        if wrong.on(Wrong::AllFieldsWanted) && node.under.len() != self.cells.count(cell) {
            self.report(id, Message::Mistaken(Code::TypeMismatch));
            return Ok(());
        }
        for &(name, value) in &node.under {
            let Some(part) = self.cells.named(cell, name) else {
                let at = if wrong.on(Wrong::UnknownFieldAtRecord) {
                    id
                } else {
                    value
                };
                self.report(at, Message::NoField(name));
                if wrong.on(Wrong::UnknownFieldInferred) {
                    self.infer(value)?;
                }
                continue;
            };
            let before = self.reported();
            let snapshot = self.snapshot();
            self.check(value, part.ty)?;
            if self.reported() > before && !wrong.on(Wrong::FieldsNotUndone) {
                self.rollback(snapshot);
            }
        }
        if self.reports.len() > outside && wrong.on(Wrong::FaultyRecordUntyped) {
            return Ok(());
        }
        if !wrong.on(Wrong::CheckedRecordUntyped) {
            self.annotate(id, expected);
        }
        Ok(())
    }

    fn check_union(&mut self, id: u16, node: &NodeRow, cell: usize, expected: Ty) -> Run<()> {
        let wrong = self.wrong;
        let &[(name, value)] = node.under.as_slice() else {
            if wrong.on(Wrong::ArityAboveOne) && node.under.is_empty() {
                self.annotate(id, expected);
                return Ok(());
            }
            let message = if wrong.on(Wrong::ArityMismatch) {
                Message::Mistaken(Code::TypeMismatch)
            } else {
                Message::Arity(node.under.len())
            };
            self.report(id, message);
            if wrong.on(Wrong::ArityVisits) {
                for &(_, value) in &node.under {
                    self.infer(value)?;
                }
            }
            if wrong.on(Wrong::ArityTyped) {
                self.annotate(id, expected);
            }
            return Ok(());
        };
        let part = if wrong.on(Wrong::LastAlternativeChecked) {
            self.cells.last_named(cell, name)
        } else {
            self.cells.named(cell, name)
        };
        let Some(part) = part else {
            match () {
                _ if wrong.on(Wrong::AlternativeAtValue) => {
                    self.report(value, Message::NoAlternative(name));
                }
                _ if wrong.on(Wrong::AlternativeIsField) => {
                    self.report(id, Message::Mistaken(Code::UnknownField))
                }
                _ => self.report(id, Message::NoAlternative(name)),
            }
            if wrong.on(Wrong::UnknownAlternativeTyped) {
                self.annotate(id, expected);
            }
            return Ok(());
        };
        let before = self.reports.len();
        let snapshot = self.snapshot();
        self.check(value, part.ty)?;
        let faulty = self.reports.len() > before;
        if faulty && wrong.on(Wrong::PayloadUndone) {
            self.rollback(snapshot);
        }
        if !(faulty && wrong.on(Wrong::FaultyUnionUntyped)) {
            self.annotate(id, expected);
        }
        Ok(())
    }

    fn infer_then_unify(&mut self, id: u16, expected: Ty) -> Run<()> {
        let wrong = self.wrong;
        let snapshot = self.snapshot();
        let inferred = self.infer(id)?;
        let after = self.snapshot();
        let failed = if wrong.on(Wrong::ExpectedIsFound) {
            self.unify(expected, inferred)?
        } else {
            self.unify(inferred, expected)?
        };
        let Some(message) = failed else {
            return Ok(());
        };
        // Equal in behaviour: a rollback leaves the reports alone, and a report
        // changes nothing that a rollback restores.
        if wrong.on(Wrong::ReportedBeforeRollback) {
            self.report(id, message);
            self.rollback(snapshot);
            return Ok(());
        }
        match () {
            _ if wrong.on(Wrong::InferredKept) => {}
            _ if wrong.on(Wrong::OnlyUnifyUndone) => self.rollback(after),
            _ => self.rollback(snapshot),
        }
        self.report(id, message);
        Ok(())
    }

    fn snapshot(&self) -> Snapshot {
        Snapshot {
            undo: self.undo.len(),
            env: self.env.len(),
            used: self.env.iter().map(|entry| entry.used).collect(),
            unused: self.unused.len(),
            subst: self.subst.len(),
            reports: self.reports.len(),
        }
    }

    fn rollback(&mut self, at: Snapshot) {
        self.unwind(at.undo);
        if self.wrong.on(Wrong::NumbersGivenAgain) {
            self.subst.truncate(at.subst);
        }
        if self.wrong.on(Wrong::ReportsUndone) {
            self.reports.truncate(at.reports);
        }
        if self.wrong.on(Wrong::RolledBackLeave) {
            self.leave(at.env.min(self.env.len()));
        }
        if self.wrong.on(Wrong::UnusedUndone) {
            self.unused.truncate(at.unused);
        }
        if !self.wrong.on(Wrong::EnvironmentKept) {
            self.env.truncate(at.env);
        }
        if !self.wrong.on(Wrong::MarksKept) {
            for (entry, used) in self.env.iter_mut().zip(at.used) {
                entry.used = used;
            }
        }
    }
}
