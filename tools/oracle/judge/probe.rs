//! A child module of the copies of ty.rs: what the judge needs of their private parts.

use super::*;

/// What a check leaves before its last pass writes every type out.
pub struct Left {
    pub tys: Vec<Option<Ty>>,
    pub subst: Vec<Option<Ty>>,
}

/// `check` up to its last pass.
pub fn walk(
    ast: &Ast,
    schema: &Schema,
    interner: &LocalInterner,
    diagnostics: &mut Diagnostics,
) -> Left {
    let mut checker = Checker {
        schema,
        interner,
        env: vec![],
        subst: vec![],
        tys: vec![None; ast.store().len()],
        undo: vec![],
        diagnostics,
    };
    checker.query(ast, ast.query());
    Left {
        tys: checker.tys,
        subst: checker.subst,
    }
}

/// Why a unification failed, as the Rust's private error says.
#[derive(Debug, Clone, Copy, PartialEq)]
pub enum Failure {
    Mismatch,
    UnionMismatch,
    UnknownField(Symbol),
    Infinite,
}

/// The substitution alone, driven call by call.
pub struct Bench<'a> {
    checker: Checker<'a>,
    /// Undo mark and environment mark of each snapshot taken.
    marks: Vec<(usize, usize)>,
}

impl<'a> Bench<'a> {
    pub fn new(
        schema: &'a Schema,
        interner: &'a LocalInterner,
        diagnostics: &'a mut Diagnostics,
    ) -> Self {
        let checker = Checker {
            schema,
            interner,
            env: vec![],
            subst: vec![],
            tys: vec![],
            undo: vec![],
            diagnostics,
        };
        Bench {
            checker,
            marks: vec![],
        }
    }

    pub fn fresh(&mut self) -> Ty {
        self.checker.fresh_var()
    }

    pub fn unify(&mut self, got: &Ty, expected: &Ty) -> Result<(), Failure> {
        self.checker
            .unify(got, expected)
            .map_err(|error| match error {
                TyError::Mismatch { .. } => Failure::Mismatch,
                TyError::UnionMismatch { .. } => Failure::UnionMismatch,
                TyError::UnknownField(name) => Failure::UnknownField(name),
                TyError::Infinite => Failure::Infinite,
            })
    }

    /// Takes a snapshot; snapshots are numbered from 0 in the order taken.
    pub fn snapshot(&mut self) {
        let Snapshot { undo, env } = self.checker.snapshot();
        self.marks.push((undo, env));
    }

    pub fn rollback(&mut self, to: usize) {
        let (undo, env) = self.marks[to];
        self.checker.rollback(Snapshot { undo, env });
    }

    pub fn bindings(&self) -> &[Option<Ty>] {
        &self.checker.subst
    }
}

/// A declared type as a side of a unification.
pub fn declared(ty: &PredicateTy) -> Ty {
    schema_ty(ty)
}
