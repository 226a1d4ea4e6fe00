//! Types as numbered cells: the schema's come first, then one for each inferred record.

/// A type. Records and unions name their cell; an unknown is a number.
#[derive(Clone, Copy, Debug, PartialEq, Eq)]
pub enum Ty {
    Int,
    String,
    Bytes,
    Fact(u32),
    Record(usize),
    Union(usize),
    Var(usize),
    Error,
}

/// A field of a record, or an alternative of a union (a record leaves `disc` 0).
#[derive(Clone, Copy, Debug)]
pub struct Part {
    pub name: u16,
    pub disc: u32,
    pub ty: Ty,
}

/// The parts of all cells in one row, and where each cell's begin.
#[derive(Clone, Debug, Default)]
pub struct Cells {
    parts: Vec<Part>,
    spans: Vec<(usize, usize)>,
}

impl Cells {
    /// Appends a cell and answers its number.
    pub fn push(&mut self, parts: &[Part]) -> usize {
        self.spans.push((self.parts.len(), parts.len()));
        self.parts.extend_from_slice(parts);
        self.spans.len() - 1
    }

    pub fn parts(&self, cell: usize) -> &[Part] {
        let (from, count) = self.spans[cell];
        &self.parts[from..from + count]
    }

    pub fn count(&self, cell: usize) -> usize {
        self.spans[cell].1
    }

    /// One part, by its place: walks use this so that cells may be added meanwhile.
    pub fn part(&self, cell: usize, place: usize) -> Part {
        self.parts(cell)[place]
    }

    /// The first part of that name, as every look-up of ty.rs takes it.
    pub fn named(&self, cell: usize, name: u16) -> Option<Part> {
        self.parts(cell).iter().copied().find(|p| p.name == name)
    }

    /// The last part of that name: a mistake to be told apart.
    pub fn last_named(&self, cell: usize, name: u16) -> Option<Part> {
        self.parts(cell).iter().copied().rfind(|p| p.name == name)
    }

    /// The part of that discriminant.
    pub fn numbered(&self, cell: usize, disc: u32) -> Option<Part> {
        self.parts(cell).iter().copied().find(|p| p.disc == disc)
    }
}
