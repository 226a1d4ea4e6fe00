//! The builder of files.

use std::collections::HashMap;
use std::error::Error;
use std::fmt;
use std::sync::atomic::{AtomicU64, Ordering};

use crate::refusal::Refusal;
use crate::ty::Names;

/// A piece of the query's text, from its start to before its end.
#[derive(Clone, Copy, Debug, Default, PartialEq, Eq, Hash)]
pub struct Span {
    /// Where it starts.
    pub start: u32,
    /// Where it has ended.
    pub end: u32,
}

impl Span {
    /// From `start` to before `end`; the check does not look at them.
    pub fn new(start: u32, end: u32) -> Span {
        Span { start, end }
    }
}

/// A type of the schema of the form that made it.
#[derive(Clone, Copy, Debug, PartialEq, Eq)]
pub struct Type {
    form: u64,
    number: u16,
}

/// A predicate of the form that made it, or a number that no form need have: [`Predicate::absent`].
#[derive(Clone, Copy, Debug, PartialEq, Eq)]
pub struct Predicate {
    form: Option<u64>,
    number: u32,
}

impl Predicate {
    /// A number of 32 bits that need not exist in the file: a fact of it is allowed, and its key is not looked at.
    ///
    /// ```
    /// assert_eq!(sigla::Predicate::absent(4_000_000_000).number(), 4_000_000_000);
    /// ```
    pub fn absent(number: u32) -> Predicate {
        Predicate { form: None, number }
    }

    /// Its number in the file.
    pub fn number(self) -> u32 {
        self.number
    }
}

/// A node of the query that made it. It is used up where it is named:
///
/// ```compile_fail
/// let mut form = sigla::Form::new(2, 32);
/// let mut query = form.query().unwrap();
/// let one = query.integer(sigla::Span::new(0, 1)).unwrap();
/// query.arithmetic(sigla::Span::new(0, 5), vec![one, one]).unwrap();
/// ```
#[derive(Debug)]
pub struct Node {
    query: u64,
    number: u16,
}

impl Node {
    /// Its number in the query: the place of its type in [`crate::Typed::types`].
    pub fn number(&self) -> u16 {
        self.number
    }
}

/// A statement of a query.
#[derive(Debug)]
pub enum Statement {
    /// left = right: a variable or pattern is bound.
    Binds(Node, Node),
    /// A pattern that must hold.
    Holds(Node),
    /// A pattern that must not hold.
    Denies(Node),
    /// Left is different from right.
    Differs(Node, Node),
    /// Left and right are compared by their order.
    Compares(Node, Node),
}

/// What a file's limits would refuse, and handles that are another's.
#[derive(Clone, Debug, PartialEq, Eq)]
#[non_exhaustive]
pub enum Limit {
    /// More than 256 names.
    Names,
    /// More than 256 types.
    Types,
    /// More than 128 predicates.
    Predicates,
    /// More than 512 nodes in a query.
    Nodes,
    /// More than 64 queries.
    Queries,
    /// A frame over 512 bytes.
    Frame,
    /// A file over 65,536 bytes.
    File,
    /// A record type with a name twice.
    RepeatedField(String),
    /// A union type with a discriminant twice.
    RepeatedDiscriminant(u32),
    /// A type of another form.
    OtherType,
    /// A predicate of another form, or one that is defined already.
    OtherPredicate,
    /// A node of another query.
    OtherNode,
    /// A predicate that was declared and never defined.
    Undefined(String),
    /// There is no query.
    NoQuery,
}

impl Limit {
    /// The refusal that such a file would get.
    ///
    /// ```
    /// assert_eq!(sigla::Limit::Queries.refusal(), sigla::Refusal::TooManyQueries);
    /// ```
    pub fn refusal(&self) -> Refusal {
        match self {
            Limit::Names | Limit::Types | Limit::Predicates | Limit::Nodes => Refusal::TooMany,
            Limit::Queries => Refusal::TooManyQueries,
            Limit::Frame => Refusal::MalformedLine,
            Limit::File => Refusal::FileTooLong,
            Limit::RepeatedField(_) | Limit::RepeatedDiscriminant(_) => Refusal::RepeatedKey,
            Limit::OtherType | Limit::OtherPredicate | Limit::OtherNode | Limit::Undefined(_) => Refusal::BadReference,
            Limit::NoQuery => Refusal::MisplacedKind,
        }
    }
}

impl fmt::Display for Limit {
    fn fmt(&self, f: &mut fmt::Formatter<'_>) -> fmt::Result {
        match self {
            Limit::Names => write!(f, "more than {} names", Form::NAMES),
            Limit::Types => write!(f, "more than {} types", Form::TYPES),
            Limit::Predicates => write!(f, "more than {} predicates", Form::PREDICATES),
            Limit::Nodes => write!(f, "more than {} nodes in a query", Form::NODES),
            Limit::Queries => write!(f, "more than {} queries", Form::QUERIES),
            Limit::Frame => write!(f, "a frame of more than {} bytes", Form::FRAME),
            Limit::File => write!(f, "a file of more than {} bytes", Form::FILE),
            Limit::RepeatedField(name) => write!(f, "a record type names `{name}` twice"),
            Limit::RepeatedDiscriminant(disc) => write!(f, "a union type has the discriminant {disc} twice"),
            Limit::OtherType => write!(f, "a type of another form"),
            Limit::OtherPredicate => write!(f, "a predicate of another form, or one that is defined already"),
            Limit::OtherNode => write!(f, "a node of another query"),
            Limit::Undefined(name) => write!(f, "the predicate `{name}` is declared and never defined"),
            Limit::NoQuery => write!(f, "no query"),
        }
    }
}

impl Error for Limit {}

/// Numbers for forms and queries, so that a handle is known by who made it.
static MADE: AtomicU64 = AtomicU64::new(0);

fn mark() -> u64 {
    MADE.fetch_add(1, Ordering::Relaxed)
}

/// A predicate's name, and its key and value once it is defined.
#[derive(Debug)]
struct Stored {
    name: u16,
    types: Option<(Type, Option<Type>)>,
}

/// A file under construction: names, a schema and queries; [`Form::file`] writes it.
///
/// Names are written as texts and numbered here. Types, predicates and nodes are handed out as handles, each of the form or the query that
/// made it; a node's handle is used up where the node is named, so no node is named twice. What the file's limits would refuse is told when
/// it is added, as a [`Limit`], but the file's length, a predicate without types and a form without queries ([`Limit::File`],
/// [`Limit::Undefined`], [`Limit::NoQuery`]) by [`Form::file`]; only visits and the answer's length are known by running the file.
///
/// ```
/// use sigla::{Form, Span, Statement};
///
/// let mut form = Form::new(2, 32);
/// let string = form.string()?;
/// let integer = form.integer()?;
/// let key = form.record(&[("pen", string), ("pressure", integer)])?;
/// let sample = form.predicate("sample", key, None)?;
///
/// // x where sample {pen = x}
/// let mut query = form.query()?;
/// let pen = query.variable(Span::new(22, 23), "x")?;
/// let pattern = query.record(Span::new(15, 24), vec![("pen", pen)])?;
/// let fact = query.fact(Span::new(8, 24), sample, pattern)?;
/// let head = query.variable(Span::new(0, 1), "x")?;
/// query.ask(head, vec![Statement::Holds(fact)])?;
///
/// let answer = sigla::answer(&form.file()?)?;
/// assert_eq!(answer.queries[0].types[0], Some(sigla::Ty::String));
/// # Ok::<(), Box<dyn std::error::Error>>(())
/// ```
#[derive(Debug)]
pub struct Form {
    mark: u64,
    limits: Vec<u8>,
    names: Vec<String>,
    numbers: HashMap<String, u16>,
    types: Vec<Vec<u8>>,
    predicates: Vec<Stored>,
    queries: Vec<Vec<Vec<u8>>>,
}

impl Form {
    /// The most names of a file.
    pub const NAMES: usize = 256;
    /// The most types.
    pub const TYPES: usize = 256;
    /// The most predicates.
    pub const PREDICATES: usize = 128;
    /// The most nodes of a query.
    pub const NODES: usize = 512;
    /// The most queries.
    pub const QUERIES: usize = 64;
    /// The most bytes of a frame.
    pub const FRAME: usize = 512;
    /// The most bytes of a file.
    pub const FILE: usize = 65536;

    /// A form with nothing in it. The limits are the largest distance of a fuzzy term and its largest length in characters.
    pub fn new(distance: u8, characters: u16) -> Form {
        Form {
            mark: mark(),
            limits: [&[1, distance][..], &characters.to_be_bytes()].concat(),
            names: Vec::new(),
            numbers: HashMap::new(),
            types: Vec::new(),
            predicates: Vec::new(),
            queries: Vec::new(),
        }
    }

    /// The number of a name; a new one is added. The other functions take names as texts and call this.
    ///
    /// ```
    /// let mut form = sigla::Form::new(2, 32);
    /// assert_eq!([form.name("x")?, form.name("y")?, form.name("x")?], [0, 1, 0]);
    /// # Ok::<(), sigla::Limit>(())
    /// ```
    pub fn name(&mut self, text: &str) -> Result<u16, Limit> {
        if let Some(&number) = self.numbers.get(text) {
            return Ok(number);
        }
        if self.names.len() == Form::NAMES {
            return Err(Limit::Names);
        }
        if text.len() + 1 > Form::FRAME {
            return Err(Limit::Frame);
        }
        let number = self.names.len() as u16;
        self.names.push(text.to_string());
        self.numbers.insert(text.to_string(), number);
        Ok(number)
    }

    /// The texts of the names, by number.
    pub fn names(&self) -> &[String] {
        &self.names
    }

    /// The texts that the types of its answer are shown with ([`crate::Ty::shown`]).
    pub fn texts(&self) -> Names {
        Names { names: self.names.clone(), predicates: self.predicates.iter().map(|predicate| predicate.name).collect() }
    }

    fn add_type(&mut self, frame: Vec<u8>) -> Result<Type, Limit> {
        let number = add(&mut self.types, Form::TYPES, Limit::Types, frame)?;
        Ok(Type { form: self.mark, number })
    }

    /// A type's number, if it is one of this form's.
    fn type_number(&self, ty: Type) -> Result<[u8; 2], Limit> {
        if ty.form == self.mark { Ok(ty.number.to_be_bytes()) } else { Err(Limit::OtherType) }
    }

    /// A predicate's number, if it is one of this form's or an absent one.
    fn predicate_number(&self, predicate: Predicate) -> Result<[u8; 4], Limit> {
        if predicate.form.is_none_or(|form| form == self.mark) {
            Ok(predicate.number.to_be_bytes())
        } else {
            Err(Limit::OtherPredicate)
        }
    }

    /// The type of integers.
    pub fn integer(&mut self) -> Result<Type, Limit> {
        self.add_type(vec![3, 0])
    }

    /// The type of strings.
    pub fn string(&mut self) -> Result<Type, Limit> {
        self.add_type(vec![3, 1])
    }

    /// The type of bytes.
    pub fn bytes(&mut self) -> Result<Type, Limit> {
        self.add_type(vec![3, 2])
    }

    /// A reference to a stored fact of a predicate, which may be one that is declared and not yet defined.
    pub fn fact(&mut self, predicate: Predicate) -> Result<Type, Limit> {
        let number = self.predicate_number(predicate)?;
        self.add_type([&[3, 3][..], &number].concat())
    }

    /// A record type; no name twice.
    pub fn record(&mut self, fields: &[(&str, Type)]) -> Result<Type, Limit> {
        let mut frame = vec![3, 4];
        for (i, (name, ty)) in fields.iter().enumerate() {
            if fields[..i].iter().any(|(other, _)| other == name) {
                return Err(Limit::RepeatedField(name.to_string()));
            }
            frame.extend(self.name(name)?.to_be_bytes());
            frame.extend(self.type_number(*ty)?);
        }
        self.add_type(frame)
    }

    /// A union type: alternatives with their discriminants, none twice.
    pub fn union(&mut self, alternatives: &[(&str, u32, Type)]) -> Result<Type, Limit> {
        let mut frame = vec![3, 5];
        for (i, (name, disc, ty)) in alternatives.iter().enumerate() {
            if alternatives[..i].iter().any(|(_, other, _)| other == disc) {
                return Err(Limit::RepeatedDiscriminant(*disc));
            }
            frame.extend(self.name(name)?.to_be_bytes());
            frame.extend(disc.to_be_bytes());
            frame.extend(self.type_number(*ty)?);
        }
        self.add_type(frame)
    }

    /// A predicate with the type of its key and, if it stores one, of its value.
    pub fn predicate(&mut self, name: &str, key: Type, value: Option<Type>) -> Result<Predicate, Limit> {
        for ty in [Some(key), value].into_iter().flatten() {
            self.type_number(ty)?;
        }
        let predicate = self.declare(name)?;
        self.define(predicate, key, value)?;
        Ok(predicate)
    }

    /// A predicate whose types come later, by [`Form::define`], since they refer to it.
    ///
    /// ```
    /// use sigla::Form;
    ///
    /// // predicate page {text : string, next : page}
    /// let mut form = Form::new(2, 32);
    /// let page = form.declare("page")?;
    /// let (text, next) = (form.string()?, form.fact(page)?);
    /// let key = form.record(&[("text", text), ("next", next)])?;
    /// form.define(page, key, None)?;
    /// # Ok::<(), sigla::Limit>(())
    /// ```
    pub fn declare(&mut self, name: &str) -> Result<Predicate, Limit> {
        let name = self.name(name)?;
        if self.predicates.len() == Form::PREDICATES {
            return Err(Limit::Predicates);
        }
        self.predicates.push(Stored { name, types: None });
        Ok(Predicate { form: Some(self.mark), number: (self.predicates.len() - 1) as u32 })
    }

    /// The types of a predicate that was declared.
    pub fn define(&mut self, predicate: Predicate, key: Type, value: Option<Type>) -> Result<(), Limit> {
        for ty in [Some(key), value].into_iter().flatten() {
            self.type_number(ty)?;
        }
        match self.predicates.get_mut(predicate.number as usize) {
            Some(stored) if predicate.form == Some(self.mark) && stored.types.is_none() => {
                stored.types = Some((key, value));
                Ok(())
            }
            _ => Err(Limit::OtherPredicate),
        }
    }

    /// A new query. It counts once it asks for something.
    pub fn query(&mut self) -> Result<Query<'_>, Limit> {
        if self.queries.len() == Form::QUERIES {
            return Err(Limit::Queries);
        }
        Ok(Query { form: self, mark: mark(), nodes: Vec::new() })
    }

    /// The file.
    pub fn file(&self) -> Result<Vec<u8>, Limit> {
        if self.queries.is_empty() {
            return Err(Limit::NoQuery);
        }
        let mut file = Vec::new();
        write_line(&mut file, &self.limits);
        for name in &self.names {
            write_line(&mut file, &[&[2], name.as_bytes()].concat());
        }
        for frame in &self.types {
            write_line(&mut file, frame);
        }
        for stored in &self.predicates {
            let undefined = || Limit::Undefined(self.names[usize::from(stored.name)].clone());
            let (key, value) = stored.types.ok_or_else(undefined)?;
            let mut frame = vec![4];
            frame.extend(stored.name.to_be_bytes());
            frame.extend(key.number.to_be_bytes());
            frame.push(u8::from(value.is_some()));
            frame.extend(value.iter().flat_map(|value| value.number.to_be_bytes()));
            write_line(&mut file, &frame);
        }
        for frame in self.queries.iter().flatten() {
            write_line(&mut file, frame);
        }
        if file.len() > Form::FILE { Err(Limit::File) } else { Ok(file) }
    }
}

/// A query under construction: its nodes, from the leaves up.
#[derive(Debug)]
pub struct Query<'f> {
    form: &'f mut Form,
    mark: u64,
    nodes: Vec<Vec<u8>>,
}

impl Query<'_> {
    fn add(&mut self, span: Span, shape: u8, content: &[u8]) -> Result<Node, Limit> {
        let mut frame = vec![5];
        frame.extend(span.start.to_be_bytes());
        frame.extend(span.end.to_be_bytes());
        frame.push(shape);
        frame.extend(content);
        let number = add(&mut self.nodes, Form::NODES, Limit::Nodes, frame)?;
        Ok(Node { query: self.mark, number })
    }

    /// A node's number, if it is one of this query's.
    fn named(&self, node: &Node) -> Result<[u8; 2], Limit> {
        if node.query == self.mark { Ok(node.number.to_be_bytes()) } else { Err(Limit::OtherNode) }
    }

    fn all_named(&self, nodes: &[Node]) -> Result<Vec<u8>, Limit> {
        let mut bytes = Vec::new();
        for node in nodes {
            bytes.extend(self.named(node)?);
        }
        Ok(bytes)
    }

    /// An integer literal; its value is not in the file.
    pub fn integer(&mut self, span: Span) -> Result<Node, Limit> {
        self.add(span, 0x00, &[])
    }

    /// A string literal.
    pub fn string(&mut self, span: Span) -> Result<Node, Limit> {
        self.add(span, 0x01, &[])
    }

    /// A bytes literal.
    pub fn bytes(&mut self, span: Span) -> Result<Node, Limit> {
        self.add(span, 0x02, &[])
    }

    /// A variable; the same name is the same variable, but for queries in brackets.
    pub fn variable(&mut self, span: Span, name: &str) -> Result<Node, Limit> {
        let name = self.form.name(name)?;
        self.add(span, 0x03, &name.to_be_bytes())
    }

    /// The wildcard `_`.
    pub fn wildcard(&mut self, span: Span) -> Result<Node, Limit> {
        self.add(span, 0x04, &[])
    }

    /// `never`, which matches nothing.
    pub fn never(&mut self, span: Span) -> Result<Node, Limit> {
        self.add(span, 0x05, &[])
    }

    /// Strings with this prefix.
    pub fn prefix(&mut self, span: Span, text: &str) -> Result<Node, Limit> {
        let name = self.form.name(text)?;
        self.add(span, 0x06, &name.to_be_bytes())
    }

    /// Strings near this term.
    pub fn fuzzy(&mut self, span: Span, text: &str, distance: u8) -> Result<Node, Limit> {
        let name = self.form.name(text)?.to_be_bytes();
        self.add(span, 0x07, &[name[0], name[1], distance])
    }

    /// A record `{name = node, ..}`.
    pub fn record(&mut self, span: Span, fields: Vec<(&str, Node)>) -> Result<Node, Limit> {
        let mut content = Vec::new();
        for (name, node) in &fields {
            content.extend(self.form.name(name)?.to_be_bytes());
            content.extend(self.named(node)?);
        }
        self.add(span, 0x08, &content)
    }

    /// `node.name`
    pub fn field(&mut self, span: Span, name: &str, node: Node) -> Result<Node, Limit> {
        let name = self.form.name(name)?.to_be_bytes();
        let node = self.named(&node)?;
        self.add(span, 0x09, &[name, node].concat())
    }

    /// `node.value`
    pub fn value(&mut self, span: Span, node: Node) -> Result<Node, Limit> {
        let node = self.named(&node)?;
        self.add(span, 0x0a, &node)
    }

    /// A choice between patterns.
    pub fn either(&mut self, span: Span, nodes: Vec<Node>) -> Result<Node, Limit> {
        let content = self.all_named(&nodes)?;
        self.add(span, 0x0b, &content)
    }

    /// A query in brackets.
    pub fn subquery(&mut self, span: Span, head: Node, statements: Vec<Statement>) -> Result<Node, Limit> {
        let content = self.asked(head, statements)?;
        self.add(span, 0x0c, &content)
    }

    /// A fact of a predicate, with the pattern of its key.
    pub fn fact(&mut self, span: Span, predicate: Predicate, key: Node) -> Result<Node, Limit> {
        let content = [&self.form.predicate_number(predicate)?[..], &self.named(&key)?].concat();
        self.add(span, 0x0d, &content)
    }

    /// Arithmetic on integers.
    pub fn arithmetic(&mut self, span: Span, nodes: Vec<Node>) -> Result<Node, Limit> {
        let content = self.all_named(&nodes)?;
        self.add(span, 0x0e, &content)
    }

    /// A piece of text that could not be read.
    pub fn unread(&mut self, span: Span) -> Result<Node, Limit> {
        self.add(span, 0x0f, &[])
    }

    /// An alternative of a union.
    pub fn alternative(&mut self, span: Span, name: &str, node: Node) -> Result<Node, Limit> {
        let name = self.form.name(name)?.to_be_bytes();
        let node = self.named(&node)?;
        self.add(span, 0x10, &[name, node].concat())
    }

    fn asked(&self, head: Node, statements: Vec<Statement>) -> Result<Vec<u8>, Limit> {
        let mut content = self.named(&head)?.to_vec();
        for statement in &statements {
            let (byte, nodes) = match statement {
                Statement::Binds(left, right) => (0, vec![left, right]),
                Statement::Holds(node) => (1, vec![node]),
                Statement::Denies(node) => (2, vec![node]),
                Statement::Differs(left, right) => (3, vec![left, right]),
                Statement::Compares(left, right) => (4, vec![left, right]),
            };
            content.push(byte);
            for node in nodes {
                content.extend(self.named(node)?);
            }
        }
        Ok(content)
    }

    /// What the query asks for, and its statements. Gives the query's number.
    pub fn ask(self, head: Node, statements: Vec<Statement>) -> Result<usize, Limit> {
        let mut frame = vec![6];
        frame.extend(self.asked(head, statements)?);
        if frame.len() > Form::FRAME {
            return Err(Limit::Frame);
        }
        let number = self.form.queries.len();
        let mut lines = self.nodes;
        lines.push(frame);
        self.form.queries.push(lines);
        Ok(number)
    }
}

fn add(frames: &mut Vec<Vec<u8>>, most: usize, limit: Limit, frame: Vec<u8>) -> Result<u16, Limit> {
    if frames.len() == most {
        return Err(limit);
    }
    if frame.len() > Form::FRAME {
        return Err(Limit::Frame);
    }
    frames.push(frame);
    Ok((frames.len() - 1) as u16)
}

pub(crate) fn write_line(file: &mut Vec<u8>, frame: &[u8]) {
    for byte in frame {
        file.extend(format!("{byte:02x}").bytes());
    }
    file.push(b'\n');
}
