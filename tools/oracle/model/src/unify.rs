//! Unification over cells: `unify`, `occurs`, `orderable`, and the undo log.
//!
//! Each entry to one of the three is a visit, and the visit past the limit is not made.

use crate::checker::{Code, Run, State, Stop, Undo};
use crate::message::{Difference, Message};
use crate::mutation::Wrong;
use crate::types::Ty;

/// More calls within calls than any right run makes; only wrong ones get here.
const DEEPEST: usize = 4_000;

impl State<'_> {
    pub fn visit(&mut self) -> Run<()> {
        let most = match () {
            _ if self.wrong.on(Wrong::VisitsOneMore) => self.most_visits + 1,
            _ if self.wrong.on(Wrong::VisitsOneLess) => self.most_visits.saturating_sub(1),
            _ => self.most_visits,
        };
        if self.visits >= most {
            return Err(Stop::Visits);
        }
        self.visits += 1;
        Ok(())
    }

    /// Keeps a wrong run from eating the stack.
    pub fn deeper<T>(&mut self, walk: impl FnOnce(&mut Self) -> Run<T>) -> Run<T> {
        if self.depth >= DEEPEST {
            return Err(Stop::Endless);
        }
        self.depth += 1;
        let got = walk(self);
        self.depth -= 1;
        got
    }

    /// The type at the end of a chain of unknowns.
    pub fn repr(&mut self, ty: Ty) -> Run<Ty> {
        let mut at = ty;
        for _ in 0..=self.subst.len() {
            let Ty::Var(var) = at else {
                return Ok(at);
            };
            let Some(next) = self.bound(var) else {
                return Ok(at);
            };
            if self.wrong.on(Wrong::LinksCounted) {
                self.visit()?;
            }
            at = next;
        }
        Err(Stop::Endless)
    }

    fn bound(&self, var: usize) -> Option<Ty> {
        self.subst.get(var).copied().flatten()
    }

    /// Makes two types equal; the answer is what to report, if they are not.
    pub fn unify(&mut self, found: Ty, expected: Ty) -> Run<Option<Message>> {
        if !self.wrong.on(Wrong::UnifyUncounted) {
            self.visit()?;
        }
        self.deeper(|s| s.unify_resolved(found, expected))
    }

    fn unify_resolved(&mut self, found: Ty, expected: Ty) -> Run<Option<Message>> {
        let a = self.repr(found)?;
        let b = self.repr(expected)?;
        if self.wrong.on(Wrong::PoisonAnywhere) && (self.poisoned(a)? || self.poisoned(b)?) {
            return Ok(None);
        }
        match (a, b) {
            (Ty::Error, Ty::Error) => Ok(None),
            (Ty::Error, other) | (other, Ty::Error) => {
                if let Ty::Var(var) = other
                    && !self.wrong.on(Wrong::VarBesideErrorFree)
                {
                    self.set_var(var, Ty::Error);
                }
                Ok(match other {
                    Ty::Int | Ty::String | Ty::Bytes if self.wrong.on(Wrong::ErrorMismatches) => {
                        Some(Message::Mistaken(Code::TypeMismatch))
                    }
                    _ => None,
                })
            }
            (Ty::Var(x), Ty::Var(y)) if x == y && !self.wrong.on(Wrong::SameVarOccurs) => Ok(None),
            (Ty::Var(x), Ty::Var(y)) if self.wrong.on(Wrong::ExpectedBound) => {
                self.bind_var(y, Ty::Var(x))
            }
            (Ty::Var(x), Ty::Var(y)) if self.wrong.on(Wrong::YoungerBound) => {
                self.bind_var(x.max(y), Ty::Var(x.min(y)))
            }
            (Ty::Var(x), Ty::Var(y)) if self.wrong.on(Wrong::VarsWithoutOccurs) => {
                self.set_var(x, Ty::Var(y));
                Ok(None)
            }
            (Ty::Var(var), other) | (other, Ty::Var(var)) => self.bind_var(var, other),
            (found, expected) => self.unify_shapes(found, expected),
        }
    }

    /// Mistake: poison is looked for through the whole type.
    fn poisoned(&mut self, ty: Ty) -> Run<bool> {
        self.deeper(|s| match s.repr(ty)? {
            Ty::Error => Ok(true),
            Ty::Record(cell) | Ty::Union(cell) => {
                for place in 0..s.cells.count(cell) {
                    let part = s.cells.part(cell, place);
                    if s.poisoned(part.ty)? {
                        return Ok(true);
                    }
                }
                Ok(false)
            }
            _ => Ok(false),
        })
    }

    fn unify_shapes(&mut self, found: Ty, expected: Ty) -> Run<Option<Message>> {
        let mismatch = Message::Mismatch { expected, found };
        match (found, expected) {
            (Ty::Int, Ty::Int) | (Ty::String, Ty::String) | (Ty::Bytes, Ty::Bytes) => Ok(None),
            (Ty::String, Ty::Bytes) | (Ty::Bytes, Ty::String)
                if self.wrong.on(Wrong::BytesAreStrings) =>
            {
                Ok(None)
            }
            (Ty::Fact(p), Ty::Fact(q)) => {
                let low = self.wrong.on(Wrong::FactsEqualByLowHalf) && p as u16 == q as u16;
                let same = p == q || low || self.wrong.on(Wrong::FactsAlike);
                Ok((!same).then_some(mismatch))
            }
            (Ty::Record(xs), Ty::Record(ys)) => {
                let undo = self.undo.len();
                let got = self.unify_records(xs, ys)?;
                if got.is_some() && self.wrong.on(Wrong::FailedRecordUndone) {
                    self.unwind(undo);
                }
                Ok(got)
            }
            (Ty::Union(xs), Ty::Union(ys)) => {
                let got = self.unify_unions(xs, ys)?;
                match got {
                    Some(Message::Unions { at, .. })
                        if self.wrong.on(Wrong::GreatestDifference) =>
                    {
                        Ok(Some(self.greatest(xs, ys, at)))
                    }
                    _ => Ok(got),
                }
            }
            _ => Ok(Some(mismatch)),
        }
    }

    fn unify_records(&mut self, xs: usize, ys: usize) -> Run<Option<Message>> {
        let (found, expected) = (self.cells.count(xs), self.cells.count(ys));
        if found != expected && !self.wrong.on(Wrong::CountsIgnored) {
            return Ok(Some(match () {
                _ if self.wrong.on(Wrong::CountIsUnknownField) => {
                    Message::Mistaken(Code::UnknownField)
                }
                _ => records(xs, ys),
            }));
        }
        if self.wrong.on(Wrong::NamesFirst) {
            for place in 0..found {
                let name = self.cells.part(xs, place).name;
                if self.cells.named(ys, name).is_none() {
                    return Ok(Some(Message::NoField(name)));
                }
            }
        }
        for place in 0..found {
            let x = self.cells.part(xs, place);
            let y = match () {
                _ if self.wrong.on(Wrong::FieldsZipped) => (place < expected)
                    .then(|| self.cells.part(ys, place))
                    .filter(|y| y.name == x.name),
                _ if self.wrong.on(Wrong::LastFieldSought) => self.cells.last_named(ys, x.name),
                _ => self.cells.named(ys, x.name),
            };
            let Some(y) = y else {
                return Ok(Some(match () {
                    _ if self.wrong.on(Wrong::AbsentFieldMismatch) => records(xs, ys),
                    _ if self.wrong.on(Wrong::FieldOfExpected) && place < expected => {
                        Message::NoField(self.cells.part(ys, place).name)
                    }
                    _ => Message::NoField(x.name),
                }));
            };
            let got = if self.wrong.on(Wrong::FieldSidesSwapped) {
                self.unify(y.ty, x.ty)?
            } else {
                self.unify(x.ty, y.ty)?
            };
            match got {
                None => {}
                Some(Message::Mismatch { .. }) if self.wrong.on(Wrong::OuterRecordShown) => {
                    return Ok(Some(records(xs, ys)));
                }
                _ => return Ok(got),
            }
        }
        if self.wrong.on(Wrong::SoughtFromBoth) {
            for place in 0..expected {
                let name = self.cells.part(ys, place).name;
                if self.cells.named(xs, name).is_none() {
                    return Ok(Some(Message::NoField(name)));
                }
            }
        }
        Ok(None)
    }

    fn unify_unions(&mut self, xs: usize, ys: usize) -> Run<Option<Message>> {
        if self.wrong.on(Wrong::UnionsZipped) {
            return self.unify_zipped(xs, ys);
        }
        let mut discs: Vec<u32> = Vec::new();
        for part in self.cells.parts(xs).iter().chain(self.cells.parts(ys)) {
            if !discs.contains(&part.disc) {
                discs.push(part.disc);
            }
        }
        match () {
            _ if self.wrong.on(Wrong::DeclarationOrder) => {}
            _ if self.wrong.on(Wrong::SignedDiscriminants) => discs.sort_by_key(|&d| d as i32),
            _ if self.wrong.on(Wrong::FallingDiscriminants) => discs.sort_by_key(|&d| !d),
            _ => discs.sort(),
        }
        let differ = |at| Message::Unions {
            expected: ys,
            found: xs,
            at,
        };
        if self.wrong.on(Wrong::PresenceFirst) && discs.iter().any(|&d| !self.on_both(xs, ys, d)) {
            return Ok(Some(Message::Mistaken(Code::TypeMismatch)));
        }
        for disc in discs {
            let (x, y) = (self.cells.numbered(xs, disc), self.cells.numbered(ys, disc));
            let (Some(x), Some(y)) = (x, y) else {
                if self.wrong.on(Wrong::ExtraAlternativePasses) {
                    continue;
                }
                return Ok(x
                    .or(y)
                    .map(|part| differ(Difference::Absent(part.name, disc))));
            };
            if x.name != y.name && !self.wrong.on(Wrong::UnionNamesFree) {
                return Ok(Some(differ(Difference::Renamed {
                    expected: y.name,
                    found: x.name,
                    disc,
                })));
            }
            // Whatever failed inside, this union differs.
            match self.unify(x.ty, y.ty)? {
                None => {}
                inner if self.wrong.on(Wrong::UnionCodePasses) => return Ok(inner),
                inner @ Some(Message::Unions { .. }) if self.wrong.on(Wrong::InnerUnionShown) => {
                    return Ok(inner);
                }
                Some(_) => return Ok(Some(differ(Difference::Payload(x.name, disc)))),
            }
        }
        Ok(None)
    }

    /// Mistake: the greatest discriminant that is absent or renamed is shown.
    fn greatest(&self, xs: usize, ys: usize, least: Difference) -> Message {
        let mut at = least;
        let mut discs: Vec<u32> = Vec::new();
        for part in self.cells.parts(xs).iter().chain(self.cells.parts(ys)) {
            discs.push(part.disc);
        }
        discs.sort();
        for disc in discs {
            match (self.cells.numbered(xs, disc), self.cells.numbered(ys, disc)) {
                (Some(x), Some(y)) if x.name != y.name => {
                    at = Difference::Renamed {
                        expected: y.name,
                        found: x.name,
                        disc,
                    };
                }
                (Some(part), None) | (None, Some(part)) => {
                    at = Difference::Absent(part.name, disc);
                }
                _ => {}
            }
        }
        Message::Unions {
            expected: ys,
            found: xs,
            at,
        }
    }

    fn on_both(&self, xs: usize, ys: usize, disc: u32) -> bool {
        self.cells.numbered(xs, disc).is_some() && self.cells.numbered(ys, disc).is_some()
    }

    /// Mistake: alternatives are compared by their place.
    fn unify_zipped(&mut self, xs: usize, ys: usize) -> Run<Option<Message>> {
        if self.cells.count(xs) != self.cells.count(ys) {
            return Ok(Some(Message::Mistaken(Code::TypeMismatch)));
        }
        for place in 0..self.cells.count(xs) {
            let (x, y) = (self.cells.part(xs, place), self.cells.part(ys, place));
            if (x.disc, x.name) != (y.disc, y.name) || self.unify(x.ty, y.ty)?.is_some() {
                return Ok(Some(Message::Mistaken(Code::TypeMismatch)));
            }
        }
        Ok(None)
    }

    fn bind_var(&mut self, var: usize, ty: Ty) -> Run<Option<Message>> {
        if !self.wrong.on(Wrong::NoOccurs) && self.occurs(var, ty)? {
            return Ok(Some(Message::Infinite));
        }
        self.set_var(var, ty);
        Ok(None)
    }

    fn occurs(&mut self, var: usize, ty: Ty) -> Run<bool> {
        if !self.wrong.on(Wrong::OccursUncounted) {
            self.visit()?;
        }
        self.deeper(|s| {
            let seen = if s.wrong.on(Wrong::OccursUnresolved) {
                ty
            } else {
                s.repr(ty)?
            };
            match seen {
                Ty::Var(other) => Ok(other == var),
                Ty::Record(cell) | Ty::Union(cell) => {
                    let mut found = false;
                    if s.wrong.on(Wrong::OccursSkipsUnions) && matches!(seen, Ty::Union(_)) {
                        return Ok(false);
                    }
                    for place in 0..s.cells.count(cell) {
                        let part = s.cells.part(cell, place);
                        if s.occurs(var, part.ty)? {
                            found = true;
                            if !s.wrong.on(Wrong::OccursGoesOn) {
                                break;
                            }
                        }
                    }
                    Ok(found)
                }
                _ => Ok(false),
            }
        })
    }

    /// Whether the resolved type has an order. Walked with each part resolved as it is
    /// met, which visits what a walk of the written-out type would.
    pub fn orderable(&mut self, ty: Ty) -> Run<bool> {
        if !self.wrong.on(Wrong::OrderableUncounted) {
            self.visit()?;
        }
        self.deeper(|s| {
            let seen = if s.wrong.on(Wrong::OrderableUnresolved) {
                ty
            } else {
                s.repr(ty)?
            };
            match seen {
                Ty::Fact(_) => Ok(s.wrong.on(Wrong::FactsOrderable)),
                Ty::Var(_) => Ok(!s.wrong.on(Wrong::VarsUnorderable)),
                Ty::Error => Ok(!s.wrong.on(Wrong::ErrorUnorderable)),
                Ty::Union(_) if s.wrong.on(Wrong::UnionsUnorderable) => Ok(false),
                Ty::Record(_) if s.wrong.on(Wrong::RecordsUnorderable) => Ok(false),
                Ty::Bytes if s.wrong.on(Wrong::BytesUnorderable) => Ok(false),
                Ty::Record(cell) | Ty::Union(cell) => {
                    let count = s.cells.count(cell);
                    if count == 0 && s.wrong.on(Wrong::EmptyUnorderable) {
                        return Ok(false);
                    }
                    let mut all = true;
                    for place in 0..count {
                        let part = s.cells.part(cell, place);
                        if !s.orderable(part.ty)? {
                            all = false;
                            if !s.wrong.on(Wrong::OrderableGoesOn) {
                                break;
                            }
                        }
                    }
                    Ok(all)
                }
                _ => Ok(true),
            }
        })
    }

    pub fn fresh_var_id(&mut self) -> usize {
        self.subst.push(None);
        self.subst.len() - 1
    }

    fn set_var(&mut self, var: usize, ty: Ty) {
        // A right run never sets an unknown that it has not made.
        if var >= self.subst.len() {
            self.subst.resize(var + 1, None);
        }
        let before = self.subst[var].replace(ty);
        self.undo.push(Undo::Subst(var, before));
    }

    pub fn annotate(&mut self, node: u16, ty: Ty) {
        let before = self.tys[node as usize].replace(ty);
        self.undo.push(Undo::Annotation(node, before));
    }

    /// Takes back what was written since the log had that length.
    pub fn unwind(&mut self, length: usize) {
        // Equal in behaviour: only a free unknown is set and only an untyped node is
        // annotated, so what stood there before is always nothing.
        let nothing = self.wrong.on(Wrong::UndoneToNothing);
        while self.undo.len() > length {
            match self.undo.pop() {
                Some(Undo::Subst(var, before)) => {
                    if !self.wrong.on(Wrong::BindingsKept)
                        && let Some(slot) = self.subst.get_mut(var)
                    {
                        *slot = before.filter(|_| !nothing);
                    }
                }
                Some(Undo::Annotation(node, before)) if !self.wrong.on(Wrong::AnnotationsKept) => {
                    self.tys[node as usize] = before.filter(|_| !nothing);
                }
                _ => {}
            }
        }
    }
}

/// Two records by their cells, the found one first.
fn records(xs: usize, ys: usize) -> Message {
    Message::Mismatch {
        expected: Ty::Record(ys),
        found: Ty::Record(xs),
    }
}
