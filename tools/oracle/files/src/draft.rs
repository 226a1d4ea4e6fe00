//! A file being drafted: the parts of a tree, and the frames that describe it.

pub enum Shape {
    Int,
    Str,
    Bytes,
    /// A predicate number of 32 bits, which need not exist.
    Fact(u32),
    Record(Vec<(u16, u16)>),
    Union(Vec<(u16, u32, u16)>),
}

pub enum Expr {
    Int,
    Str,
    Bytes,
    Var(u16),
    Wildcard,
    Never,
    Prefix(u16),
    Fuzzy(u16, u8),
    Record(Vec<(u16, u16)>),
    Key(u16, u16),
    Value(u16),
    Disjunction(Vec<u16>),
    Subquery(u16, Vec<Stmt>),
    Fact(u32, u16),
    Arith(Vec<u16>),
    Error,
    Select(u16, u16),
}

#[derive(Clone, Copy)]
pub enum Stmt {
    Bind(u16, u16),
    Implicit(u16),
    Negation(u16),
    Deny(u16, u16),
    Compare(u16, u16),
}

pub struct Draft {
    pub distance: u8,
    pub term: u16,
    pub names: Vec<Vec<u8>>,
    pub types: Vec<Shape>,
    pub predicates: Vec<(u16, u16, Option<u16>)>,
    /// The frames of the queries that are closed; their schema is this draft's.
    pub closed: Vec<Vec<Vec<u8>>>,
    /// The query being drafted.
    pub nodes: Vec<(u32, u32, Expr)>,
    pub head: u16,
    pub body: Vec<Stmt>,
}

impl Draft {
    pub fn new() -> Draft {
        Draft {
            distance: 2,
            term: 0x20,
            names: Vec::new(),
            types: Vec::new(),
            predicates: Vec::new(),
            closed: Vec::new(),
            nodes: Vec::new(),
            head: 0,
            body: Vec::new(),
        }
    }

    /// The number of a name, given if it is not there yet.
    pub fn name(&mut self, text: &str) -> u16 {
        let known = self.names.iter().position(|n| n == text.as_bytes());
        known.unwrap_or_else(|| {
            self.names.push(text.as_bytes().to_vec());
            self.names.len() - 1
        }) as u16
    }

    pub fn ty(&mut self, shape: Shape) -> u16 {
        self.types.push(shape);
        (self.types.len() - 1) as u16
    }

    pub fn predicate(&mut self, name: u16, key: u16, value: Option<u16>) -> u32 {
        self.predicates.push((name, key, value));
        (self.predicates.len() - 1) as u32
    }

    /// Appends a node; its span is its own, so that a diagnostic tells where it stands.
    pub fn node(&mut self, expr: Expr) -> u16 {
        let at = self.nodes.len() as u32;
        self.nodes.push((3 * at, 3 * at + 2, expr));
        at as u16
    }

    pub fn var(&mut self, name: u16) -> u16 {
        self.node(Expr::Var(name))
    }

    pub fn bind(&mut self, left: u16, right: u16) {
        self.body.push(Stmt::Bind(left, right));
    }

    /// `name = name` of two names.
    pub fn equate(&mut self, left: u16, right: u16) {
        let (left, right) = (self.var(left), self.var(right));
        self.bind(left, right);
    }

    /// Ends the query; the next one over the same schema begins.
    pub fn close(&mut self) {
        let frames = self.query_frames();
        self.closed.push(frames);
        self.nodes.clear();
        self.head = 0;
        self.body.clear();
    }

    /// Limits, names, types and predicates.
    pub fn schema_frames(&self) -> Vec<Vec<u8>> {
        let mut frames = vec![limits(self.distance, self.term)];
        frames.extend(self.names.iter().map(|text| name(text)));
        frames.extend(self.types.iter().map(ty));
        for &(name, key, value) in &self.predicates {
            frames.push(predicate(name, key, value));
        }
        frames
    }

    /// The nodes of the query being drafted, and the query.
    fn query_frames(&self) -> Vec<Vec<u8>> {
        let mut frames = Vec::new();
        for (start, end, expr) in &self.nodes {
            frames.push(node(*start, *end, expr));
        }
        frames.push(query(self.head, &self.body));
        frames
    }

    pub fn frames(&self) -> Vec<Vec<u8>> {
        let mut frames = self.schema_frames();
        frames.extend(self.closed.iter().flatten().cloned());
        frames.extend(self.query_frames());
        frames
    }

    /// The frames of the closed queries alone, after the schema's.
    pub fn form_frames(&self) -> Vec<Vec<u8>> {
        let mut frames = self.schema_frames();
        frames.extend(self.closed.iter().flatten().cloned());
        frames
    }

    pub fn bytes(&self) -> Vec<u8> {
        lines(&self.frames())
    }
}

pub fn limits(distance: u8, term: u16) -> Vec<u8> {
    let mut frame = vec![1, distance];
    short(&mut frame, term);
    frame
}

pub fn name(text: &[u8]) -> Vec<u8> {
    [&[2], text].concat()
}

pub fn ty(shape: &Shape) -> Vec<u8> {
    let mut frame = vec![3];
    match shape {
        Shape::Int => frame.push(0),
        Shape::Str => frame.push(1),
        Shape::Bytes => frame.push(2),
        Shape::Fact(predicate) => {
            frame.push(3);
            frame.extend_from_slice(&predicate.to_be_bytes());
        }
        Shape::Record(fields) => {
            frame.push(4);
            pairs(&mut frame, fields);
        }
        Shape::Union(alternatives) => {
            frame.push(5);
            for &(name, disc, ty) in alternatives {
                short(&mut frame, name);
                frame.extend(disc.to_be_bytes());
                short(&mut frame, ty);
            }
        }
    }
    frame
}

pub fn predicate(name: u16, key: u16, value: Option<u16>) -> Vec<u8> {
    let mut frame = vec![4];
    short(&mut frame, name);
    short(&mut frame, key);
    frame.push(value.is_some() as u8);
    if let Some(value) = value {
        short(&mut frame, value);
    }
    frame
}

pub fn node(start: u32, end: u32, expr: &Expr) -> Vec<u8> {
    let mut frame = vec![5];
    frame.extend(start.to_be_bytes());
    frame.extend(end.to_be_bytes());
    frame.push(match expr {
        Expr::Int => 0x00,
        Expr::Str => 0x01,
        Expr::Bytes => 0x02,
        Expr::Var(_) => 0x03,
        Expr::Wildcard => 0x04,
        Expr::Never => 0x05,
        Expr::Prefix(_) => 0x06,
        Expr::Fuzzy(..) => 0x07,
        Expr::Record(_) => 0x08,
        Expr::Key(..) => 0x09,
        Expr::Value(_) => 0x0a,
        Expr::Disjunction(_) => 0x0b,
        Expr::Subquery(..) => 0x0c,
        Expr::Fact(..) => 0x0d,
        Expr::Arith(_) => 0x0e,
        Expr::Error => 0x0f,
        Expr::Select(..) => 0x10,
    });
    match expr {
        Expr::Var(name) | Expr::Prefix(name) => short(&mut frame, *name),
        Expr::Fuzzy(name, distance) => {
            short(&mut frame, *name);
            frame.push(*distance);
        }
        Expr::Record(fields) => pairs(&mut frame, fields),
        Expr::Key(name, base) | Expr::Select(name, base) => {
            pairs(&mut frame, &[(*name, *base)]);
        }
        Expr::Fact(predicate, base) => {
            frame.extend_from_slice(&predicate.to_be_bytes());
            short(&mut frame, *base);
        }
        Expr::Value(base) => short(&mut frame, *base),
        Expr::Disjunction(nodes) | Expr::Arith(nodes) => {
            nodes.iter().for_each(|&node| short(&mut frame, node));
        }
        Expr::Subquery(head, body) => {
            short(&mut frame, *head);
            statements(&mut frame, body);
        }
        _ => {}
    }
    frame
}

pub fn query(head: u16, body: &[Stmt]) -> Vec<u8> {
    let mut frame = vec![6];
    short(&mut frame, head);
    statements(&mut frame, body);
    frame
}

fn statements(frame: &mut Vec<u8>, body: &[Stmt]) {
    for stmt in body {
        let (tag, left, right) = match *stmt {
            Stmt::Bind(left, right) => (0, left, Some(right)),
            Stmt::Implicit(node) => (1, node, None),
            Stmt::Negation(node) => (2, node, None),
            Stmt::Deny(left, right) => (3, left, Some(right)),
            Stmt::Compare(left, right) => (4, left, Some(right)),
        };
        frame.push(tag);
        short(frame, left);
        if let Some(right) = right {
            short(frame, right);
        }
    }
}

fn pairs(frame: &mut Vec<u8>, pairs: &[(u16, u16)]) {
    for &(first, second) in pairs {
        short(frame, first);
        short(frame, second);
    }
}

pub fn short(frame: &mut Vec<u8>, value: u16) {
    frame.extend(value.to_be_bytes());
}

/// One line of digits, closed by LF.
pub fn line(frame: &[u8]) -> Vec<u8> {
    const DIGITS: &[u8; 16] = b"0123456789abcdef";
    let mut line = Vec::with_capacity(2 * frame.len() + 1);
    for byte in frame {
        line.push(DIGITS[*byte as usize >> 4]);
        line.push(DIGITS[*byte as usize & 15]);
    }
    line.push(b'\n');
    line
}

pub fn lines(frames: &[Vec<u8>]) -> Vec<u8> {
    frames.iter().flat_map(|frame| line(frame)).collect()
}
