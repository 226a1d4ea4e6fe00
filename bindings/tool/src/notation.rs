//! The text notation of a file: docs/FORMAT.md, "A notation for people".

use std::collections::HashMap;
use std::fmt::{self, Write};

use sigla::{Asked, File, NodeFrame, PredicateFrame, QueryFrames, Shape, Span, StatementFrame, TypeFrame};

/// Where the text is wrong, from line 1 and column 1.
#[derive(Clone, Debug, PartialEq, Eq)]
pub struct Fault {
    pub line: usize,
    pub column: usize,
    pub what: String,
}

impl fmt::Display for Fault {
    fn fmt(&self, f: &mut fmt::Formatter<'_>) -> fmt::Result {
        write!(f, "{}:{}: {}", self.line, self.column, self.what)
    }
}

impl std::error::Error for Fault {}

#[derive(Clone, Debug, PartialEq, Eq)]
enum Token {
    Word(String),
    Quoted(String),
    Number(u64),
    Sign(char),
    Arrow,
    Dots,
}

#[derive(Clone, Debug)]
struct Placed {
    token: Token,
    column: usize,
}

/// The tokens of a line; a comment starts with `#`.
fn tokens(text: &str, line: usize) -> Result<Vec<Placed>, Fault> {
    let chars: Vec<char> = text.chars().collect();
    let mut found = Vec::new();
    let mut i = 0;
    while i < chars.len() {
        let column = i + 1;
        let fault = |what: &str| Fault { line, column, what: what.to_string() };
        let c = chars[i];
        let token = if c == '#' {
            break;
        } else if c.is_whitespace() {
            i += 1;
            continue;
        } else if c == '"' {
            let (text, next) = quoted(&chars, i).ok_or_else(|| fault("a quoted text without its end, or with an unknown escape"))?;
            i = next;
            Token::Quoted(text)
        } else if c.is_ascii_digit() {
            let from = i;
            while i < chars.len() && chars[i].is_ascii_digit() {
                i += 1;
            }
            let digits: String = chars[from..i].iter().collect();
            Token::Number(digits.parse().map_err(|_| fault("a number that is too large"))?)
        } else if c.is_alphabetic() || c == '_' {
            let from = i;
            while i < chars.len() && (chars[i].is_alphanumeric() || chars[i] == '_') {
                i += 1;
            }
            Token::Word(chars[from..i].iter().collect())
        } else if chars[i..].starts_with(&['-', '>']) {
            i += 2;
            Token::Arrow
        } else if chars[i..].starts_with(&['.', '.']) {
            i += 2;
            Token::Dots
        } else if "{}=:,;@".contains(c) {
            i += 1;
            Token::Sign(c)
        } else {
            return Err(fault("a character that the notation does not have"));
        };
        found.push(Placed { token, column });
    }
    Ok(found)
}

/// A quoted text from its first quote on, and what comes after it.
fn quoted(chars: &[char], from: usize) -> Option<(String, usize)> {
    let mut text = String::new();
    let mut i = from + 1;
    loop {
        match *chars.get(i)? {
            '"' => return Some((text, i + 1)),
            '\\' => {
                let (c, length) = match chars.get(i + 1)? {
                    'n' => ('\n', 2),
                    't' => ('\t', 2),
                    '"' => ('"', 2),
                    '\\' => ('\\', 2),
                    'u' if chars.get(i + 2) == Some(&'{') => {
                        let end = i + chars[i..].iter().position(|&c| c == '}')?;
                        let digits: String = chars.get(i + 3..end)?.iter().collect();
                        (char::from_u32(u32::from_str_radix(&digits, 16).ok()?)?, end + 1 - i)
                    }
                    _ => return None,
                };
                text.push(c);
                i += length;
            }
            c => {
                text.push(c);
                i += 1;
            }
        }
    }
}

/// The tokens of a line that are still to be read.
struct Line<'a> {
    number: usize,
    end: usize,
    rest: &'a [Placed],
}

impl<'a> Line<'a> {
    fn fault(&self, what: impl Into<String>) -> Fault {
        let column = self.rest.first().map_or(self.end, |placed| placed.column);
        Fault { line: self.number, column, what: what.into() }
    }

    fn next(&mut self) -> Option<&'a Token> {
        let (first, rest) = self.rest.split_first()?;
        self.rest = rest;
        Some(&first.token)
    }

    fn peek(&self) -> Option<&'a Token> {
        self.rest.first().map(|placed| &placed.token)
    }

    fn is(&mut self, token: &Token) -> bool {
        let is = self.peek() == Some(token);
        if is {
            self.rest = &self.rest[1..];
        }
        is
    }

    fn want(&mut self, token: Token, what: &str) -> Result<(), Fault> {
        if self.is(&token) { Ok(()) } else { Err(self.fault(format!("expected {what}"))) }
    }

    fn sign(&mut self, c: char) -> Result<(), Fault> {
        self.want(Token::Sign(c), &format!("`{c}`"))
    }

    fn word(&mut self, what: &str) -> Result<&'a str, Fault> {
        match self.peek() {
            Some(Token::Word(word)) => {
                self.next();
                Ok(word)
            }
            _ => Err(self.fault(format!("expected {what}"))),
        }
    }

    /// A name: a word or a quoted text.
    fn text(&mut self) -> Result<&'a str, Fault> {
        match self.peek() {
            Some(Token::Word(text) | Token::Quoted(text)) => {
                self.next();
                Ok(text)
            }
            _ => Err(self.fault("expected a name")),
        }
    }

    fn number<T: TryFrom<u64>>(&mut self, what: &str) -> Result<T, Fault> {
        let fault = self.fault(format!("expected {what}"));
        match self.peek() {
            Some(&Token::Number(number)) => {
                let number = T::try_from(number).map_err(|_| fault)?;
                self.next();
                Ok(number)
            }
            _ => Err(fault),
        }
    }

    fn ended(&self) -> Result<(), Fault> {
        if self.rest.is_empty() { Ok(()) } else { Err(self.fault("more than the line should have")) }
    }

    /// Items in braces, between signs.
    fn list<T>(&mut self, between: char, mut item: impl FnMut(&mut Self) -> Result<T, Fault>) -> Result<Vec<T>, Fault> {
        self.sign('{')?;
        let mut items = Vec::new();
        while !self.is(&Token::Sign('}')) {
            if !items.is_empty() {
                self.sign(between)?;
            }
            items.push(item(self)?);
        }
        Ok(items)
    }
}

#[derive(Default)]
struct Assembler {
    file: File,
    limited: bool,
    names: HashMap<String, u16>,
    types: HashMap<String, u16>,
    nodes: HashMap<String, u16>,
    /// Types of facts whose predicate comes later: the type, the predicate's name, and the fault if there is none.
    later: Vec<(usize, String, Fault)>,
    query: Option<Begun>,
}

/// The query that lines are added to.
struct Begun {
    frames: QueryFrames,
    head: Option<u16>,
    /// The fault if it gets no head.
    headless: Fault,
}

/// The number of the next item of a list; a reference has 2 bytes.
fn next_number(length: usize, fault: Fault) -> Result<u16, Fault> {
    u16::try_from(length).map_err(|_| fault)
}

/// The file of a text.
pub fn assemble(text: &str) -> Result<File, Fault> {
    let mut assembler = Assembler::default();
    let mut last = 1;
    for (i, line) in text.lines().enumerate() {
        last = i + 1;
        let placed = tokens(line, last)?;
        if !placed.is_empty() {
            let mut line = Line { number: last, end: line.chars().count() + 1, rest: &placed };
            assembler.line(&mut line)?;
            line.ended()?;
        }
    }
    assembler.end_query()?;
    for (place, name, fault) in std::mem::take(&mut assembler.later) {
        assembler.file.types[place] = TypeFrame::Fact(assembler.predicate_number(&name).ok_or(fault)?);
    }
    if !assembler.limited {
        return Err(Fault { line: last, column: 1, what: "the text has no line `limits`".to_string() });
    }
    Ok(assembler.file)
}

impl Assembler {
    fn name(&mut self, text: &str, line: &Line<'_>) -> Result<u16, Fault> {
        if let Some(&number) = self.names.get(text) {
            return Ok(number);
        }
        let number = next_number(self.file.names.len(), line.fault("more than 65,536 names"))?;
        self.file.names.push(text.to_string());
        self.names.insert(text.to_string(), number);
        Ok(number)
    }

    fn line(&mut self, line: &mut Line<'_>) -> Result<(), Fault> {
        let labelled = line.rest.get(1).is_some_and(|placed| placed.token == Token::Sign('='));
        if labelled {
            return self.node(line);
        }
        let word = match line.peek() {
            Some(Token::Word(word)) => word.as_str(),
            _ => "",
        };
        match word {
            "limits" => {
                let twice = line.fault("the limits were given before");
                line.next();
                if std::mem::replace(&mut self.limited, true) {
                    return Err(twice);
                }
                self.file.distance = line.number("a distance up to 255")?;
                self.file.characters = line.number("a number of characters up to 65535")?;
            }
            "name" => {
                line.next();
                self.text_number(line)?;
            }
            "type" => {
                line.next();
                self.ty(line)?;
            }
            "predicate" => {
                line.next();
                self.predicate(line)?;
            }
            "query" => {
                let headless = line.fault("this query has no head");
                line.next();
                self.end_query()?;
                self.query = Some(Begun { frames: QueryFrames::default(), head: None, headless });
            }
            "head" => {
                let (outside, twice) = (line.fault("a head outside of a query"), line.fault("this query has a head already"));
                line.next();
                if self.query.as_ref().ok_or(outside)?.head.is_some() {
                    return Err(twice);
                }
                let head = self.node_named(line)?;
                if let Some(query) = &mut self.query {
                    query.head = Some(head);
                }
            }
            _ => {
                let outside = line.fault("a statement outside of a query");
                let statement = self.statement(line, self.query.is_none().then_some(outside))?;
                if let Some(query) = &mut self.query {
                    query.frames.asked.statements.push(statement);
                }
            }
        }
        Ok(())
    }

    fn end_query(&mut self) -> Result<(), Fault> {
        if let Some(Begun { mut frames, head, headless }) = self.query.take() {
            frames.asked.head = head.ok_or(headless)?;
            self.file.queries.push(frames);
        }
        self.nodes.clear();
        Ok(())
    }

    /// A statement; where none may stand, the fault.
    fn statement(&mut self, line: &mut Line<'_>, outside: Option<Fault>) -> Result<StatementFrame, Fault> {
        let here = line.fault("");
        let word = line.word("a word that begins a line")?;
        if !["bind", "holds", "deny", "differ", "compare"].contains(&word) {
            return Err(Fault { what: format!("`{word}` begins no line and no statement"), ..here });
        }
        if let Some(fault) = outside {
            return Err(fault);
        }
        let first = self.node_named(line)?;
        Ok(match word {
            "bind" => StatementFrame::Binds(first, self.node_named(line)?),
            "holds" => StatementFrame::Holds(first),
            "deny" => StatementFrame::Denies(first),
            "differ" => StatementFrame::Differs(first, self.node_named(line)?),
            _ => StatementFrame::Compares(first, self.node_named(line)?),
        })
    }

    fn type_named(&mut self, line: &mut Line<'_>) -> Result<u16, Fault> {
        let fault = line.fault("a type that no line before has");
        self.types.get(line.word("a type's label")?).copied().ok_or(fault)
    }

    fn node_named(&mut self, line: &mut Line<'_>) -> Result<u16, Fault> {
        let fault = line.fault("a node that no line of this query before has");
        self.nodes.get(line.word("a node's label")?).copied().ok_or(fault)
    }

    /// The first predicate of a name.
    fn predicate_number(&self, text: &str) -> Option<u32> {
        let name = self.names.get(text).copied()?;
        self.file.predicates.iter().position(|predicate| predicate.name == name).map(|place| place as u32)
    }

    /// By name, the first that has it, or by number.
    fn predicate_named(&mut self, line: &mut Line<'_>) -> Result<u32, Fault> {
        if let Some(&Token::Number(_)) = line.peek() {
            return line.number("a predicate's number");
        }
        let fault = line.fault("a predicate that no line before has; an absent one goes by number");
        let text = line.text()?;
        self.predicate_number(text).ok_or(fault)
    }

    fn ty(&mut self, line: &mut Line<'_>) -> Result<(), Fault> {
        let fault = line.fault("a label that a type before has");
        let label = line.word("a label")?.to_string();
        if self.types.contains_key(&label) {
            return Err(fault);
        }
        let number = next_number(self.file.types.len(), line.fault("more than 65,536 types"))?;
        line.sign('=')?;
        let what = line.fault("expected integer, string, bytes, fact, record or union");
        let frame = match line.word("a type")? {
            "integer" => TypeFrame::Integer,
            "string" => TypeFrame::String,
            "bytes" => TypeFrame::Bytes,
            "fact" => TypeFrame::Fact(match line.peek() {
                Some(Token::Number(_)) => line.number("a predicate's number")?,
                _ => {
                    let fault = line.fault("a predicate that the text does not have; an absent one goes by number");
                    self.later.push((self.file.types.len(), line.text()?.to_string(), fault));
                    0
                }
            }),
            "record" => TypeFrame::Record(line.list(',', |line| {
                let name = self.text_number(line)?;
                line.sign(':')?;
                Ok((name, self.type_named(line)?))
            })?),
            "union" => TypeFrame::Union(line.list(',', |line| {
                let name = self.text_number(line)?;
                line.sign('=')?;
                let disc = line.number("a discriminant")?;
                line.sign(':')?;
                Ok((name, disc, self.type_named(line)?))
            })?),
            _ => return Err(what),
        };
        self.types.insert(label, number);
        self.file.types.push(frame);
        Ok(())
    }

    fn predicate(&mut self, line: &mut Line<'_>) -> Result<(), Fault> {
        let name = self.text_number(line)?;
        line.sign(':')?;
        let key = self.type_named(line)?;
        let value = if line.is(&Token::Arrow) { Some(self.type_named(line)?) } else { None };
        self.file.predicates.push(PredicateFrame { name, key, value });
        Ok(())
    }

    fn node(&mut self, line: &mut Line<'_>) -> Result<(), Fault> {
        let twice = line.fault("a label that a node before has");
        let outside = line.fault("a node outside of a query");
        let many = line.fault("more than 65,536 nodes");
        let label = line.word("a node's label")?.to_string();
        if self.nodes.contains_key(&label) {
            return Err(twice);
        }
        line.sign('=')?;
        let shape = self.shape(line)?;
        let span = if line.is(&Token::Sign('@')) {
            let start = line.number("where the text starts")?;
            line.want(Token::Dots, "`..`")?;
            Span::new(start, line.number("where the text ends")?)
        } else {
            Span::default()
        };
        let nodes = &mut self.query.as_mut().ok_or(outside)?.frames.nodes;
        self.nodes.insert(label, next_number(nodes.len(), many)?);
        nodes.push(NodeFrame { span, shape });
        Ok(())
    }

    fn shape(&mut self, line: &mut Line<'_>) -> Result<Shape, Fault> {
        let unknown = line.fault("a shape that the notation does not have");
        Ok(match line.word("a node's shape")? {
            "integer" => Shape::Integer,
            "string" => Shape::String,
            "bytes" => Shape::Bytes,
            "variable" => Shape::Variable(self.text_number(line)?),
            "wildcard" => Shape::Wildcard,
            "never" => Shape::Never,
            "prefix" => Shape::Prefix(self.text_number(line)?),
            "fuzzy" => Shape::Fuzzy(self.text_number(line)?, line.number("a distance up to 255")?),
            "record" => Shape::Record(line.list(',', |line| {
                let name = self.text_number(line)?;
                line.sign('=')?;
                Ok((name, self.node_named(line)?))
            })?),
            "field" => Shape::Field(self.text_number(line)?, self.of(line)?),
            "value" => Shape::Value(self.of(line)?),
            "either" => Shape::Either(line.list(',', |line| self.node_named(line))?),
            "subquery" => Shape::Subquery(Asked {
                head: self.node_named(line)?,
                statements: line.list(';', |line| self.statement(line, None))?,
            }),
            "fact" => Shape::Fact(self.predicate_named(line)?, self.of(line)?),
            "arithmetic" => Shape::Arithmetic(line.list(',', |line| self.node_named(line))?),
            "unread" => Shape::Unread,
            "alternative" => Shape::Alternative(self.text_number(line)?, self.of(line)?),
            _ => return Err(unknown),
        })
    }

    fn text_number(&mut self, line: &mut Line<'_>) -> Result<u16, Fault> {
        let text = line.text()?;
        self.name(text, line)
    }

    fn of(&mut self, line: &mut Line<'_>) -> Result<u16, Fault> {
        line.want(Token::Word("of".to_string()), "`of`")?;
        self.node_named(line)
    }
}

/// A name as the notation has it.
pub fn spelled(text: &str) -> String {
    let mut chars = text.chars();
    let word = chars.next().is_some_and(|c| c.is_alphabetic() || c == '_') && chars.all(|c| c.is_alphanumeric() || c == '_');
    if word {
        return text.to_string();
    }
    let mut spelled = String::from("\"");
    for c in text.chars() {
        match c {
            '"' => spelled.push_str("\\\""),
            '\\' => spelled.push_str("\\\\"),
            c => put_visible(&mut spelled, c),
        }
    }
    spelled.push('"');
    spelled
}

/// A character, a control character by the notation's escape.
fn put_visible(out: &mut String, c: char) {
    match c {
        '\n' => out.push_str("\\n"),
        '\t' => out.push_str("\\t"),
        c if c.is_control() => write!(out, "\\u{{{:x}}}", u32::from(c)).expect("a string takes all"),
        c => out.push(c),
    }
}

/// A text whose control characters are escaped as in a quoted name.
pub fn visible(text: &str) -> String {
    let mut out = String::new();
    text.chars().for_each(|c| put_visible(&mut out, c));
    out
}

/// The text of a file. Assembled again it is the same file, if its references are to something.
pub fn disassemble(file: &File) -> String {
    let mut out = limits_text(file);
    for name in &file.names {
        out += &format!("name {}\n", spelled(name));
    }
    out += &schema_text(file);
    for query in &file.queries {
        out += "query\n";
        for (i, node) in query.nodes.iter().enumerate() {
            out += &format!("  n{i} = {} @ {}..{}\n", shape_text(file, &node.shape), node.span.start, node.span.end);
        }
        for statement in &query.asked.statements {
            out += &format!("  {}\n", statement_text(statement));
        }
        out += &format!("  head n{}\n", query.asked.head);
    }
    out
}

/// The line of the limits.
pub fn limits_text(file: &File) -> String {
    format!("limits {} {}\n", file.distance, file.characters)
}

/// Types and predicates.
pub fn schema_text(file: &File) -> String {
    let mut out = String::new();
    for (i, ty) in file.types.iter().enumerate() {
        out += &format!("type t{i} = {}\n", type_text(file, ty));
    }
    for predicate in &file.predicates {
        let value = predicate.value.map_or(String::new(), |value| format!(" -> t{value}"));
        out += &format!("predicate {}: t{}{value}\n", name(file, predicate.name), predicate.key);
    }
    out
}

/// A predicate by its name, if it is the first that has it, else by its number.
fn predicate_text(file: &File, number: u32) -> String {
    let named = usize::try_from(number).ok().and_then(|place| file.predicates.get(place)).map(|predicate| predicate.name);
    let first = named.and_then(|name| file.predicates.iter().position(|predicate| predicate.name == name));
    match named {
        Some(called) if first.map(|place| place as u32) == Some(number) => name(file, called),
        _ => number.to_string(),
    }
}

fn name(file: &File, number: u16) -> String {
    file.names.get(usize::from(number)).map_or_else(|| "\"?\"".to_string(), |text| spelled(text))
}

fn listed<T>(items: &[T], between: &str, text: impl Fn(&T) -> String) -> String {
    let texts: Vec<String> = items.iter().map(text).collect();
    if texts.is_empty() { "{}".to_string() } else { format!("{{ {} }}", texts.join(between)) }
}

fn type_text(file: &File, ty: &TypeFrame) -> String {
    match ty {
        TypeFrame::Integer => "integer".to_string(),
        TypeFrame::String => "string".to_string(),
        TypeFrame::Bytes => "bytes".to_string(),
        TypeFrame::Fact(predicate) => format!("fact {}", predicate_text(file, *predicate)),
        TypeFrame::Record(fields) => format!("record {}", listed(fields, ", ", |(n, t)| format!("{}: t{t}", name(file, *n)))),
        TypeFrame::Union(parts) => format!("union {}", listed(parts, ", ", |(n, d, t)| format!("{} = {d}: t{t}", name(file, *n)))),
    }
}

/// A node's shape as the notation has it.
pub fn shape_text(file: &File, shape: &Shape) -> String {
    let nodes = |nodes: &[u16]| listed(nodes, ", ", |n| format!("n{n}"));
    match shape {
        Shape::Integer => "integer".to_string(),
        Shape::String => "string".to_string(),
        Shape::Bytes => "bytes".to_string(),
        Shape::Variable(x) => format!("variable {}", name(file, *x)),
        Shape::Wildcard => "wildcard".to_string(),
        Shape::Never => "never".to_string(),
        Shape::Prefix(x) => format!("prefix {}", name(file, *x)),
        Shape::Fuzzy(x, distance) => format!("fuzzy {} {distance}", name(file, *x)),
        Shape::Record(fields) => format!("record {}", listed(fields, ", ", |(x, n)| format!("{} = n{n}", name(file, *x)))),
        Shape::Field(x, n) => format!("field {} of n{n}", name(file, *x)),
        Shape::Value(n) => format!("value of n{n}"),
        Shape::Either(n) => format!("either {}", nodes(n)),
        Shape::Subquery(asked) => format!("subquery n{} {}", asked.head, listed(&asked.statements, "; ", statement_text)),
        Shape::Fact(predicate, n) => format!("fact {} of n{n}", predicate_text(file, *predicate)),
        Shape::Arithmetic(n) => format!("arithmetic {}", nodes(n)),
        Shape::Unread => "unread".to_string(),
        Shape::Alternative(x, n) => format!("alternative {} of n{n}", name(file, *x)),
    }
}

/// A statement as the notation has it.
pub fn statement_text(statement: &StatementFrame) -> String {
    match statement {
        StatementFrame::Binds(left, right) => format!("bind n{left} n{right}"),
        StatementFrame::Holds(node) => format!("holds n{node}"),
        StatementFrame::Denies(node) => format!("deny n{node}"),
        StatementFrame::Differs(left, right) => format!("differ n{left} n{right}"),
        StatementFrame::Compares(left, right) => format!("compare n{left} n{right}"),
    }
}
