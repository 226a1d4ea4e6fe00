//! The second reader. A frame becomes a row of slots by the tables below, and each
//! refusal is a question to the whole row: 6 while it is cut, then 9, then 10. A query's
//! line closes the rows before it, and the next query begins with none.

use crate::mutation::{Switch, Wrong};
use crate::text;
use crate::types::{Cells, Part, Ty};

/// What one slot of a frame holds, and so how wide it is.
#[derive(Clone, Copy, Debug, PartialEq, Eq)]
enum Slot {
    Byte,
    Short,
    Long,
    Name,
    Type,
    Predicate,
    Node,
    Tag,
}

use Slot::{Byte, Long, Name, Node, Predicate, Short, Tag, Type};

impl Slot {
    /// A predicate's number has as many bytes as the edition gives it.
    fn width(self, predicate: usize) -> usize {
        match self {
            Byte | Tag => 1,
            Long => 4,
            Predicate => predicate,
            Short | Name | Type | Node => 2,
        }
    }
}

/// A frame's slots in order, with their values.
type Row = Vec<(Slot, u32)>;

/// The slots that follow a shape byte: first these once, then those to the end.
struct Layout {
    once: &'static [Slot],
    each: &'static [Slot],
    body: bool,
}

const fn once(once: &'static [Slot]) -> Layout {
    Layout {
        once,
        each: &[],
        body: false,
    }
}

const fn each(each: &'static [Slot]) -> Layout {
    Layout {
        once: &[],
        each,
        body: false,
    }
}

const BODY: Layout = Layout {
    once: &[Node],
    each: &[],
    body: true,
};

const LIMITS: Layout = once(&[Byte, Short]);
const PREDICATE: [Layout; 2] = [once(&[Name, Type, Byte]), once(&[Name, Type, Byte, Type])];
const TYPES: [Layout; 6] = [
    once(&[]),
    once(&[]),
    once(&[]),
    once(&[Predicate]),
    each(&[Name, Type]),
    each(&[Name, Long, Type]),
];
const NODES: [Layout; 17] = [
    once(&[]),
    once(&[]),
    once(&[]),
    once(&[Name]),
    once(&[]),
    once(&[]),
    once(&[Name]),
    once(&[Name, Byte]),
    each(&[Name, Node]),
    once(&[Name, Node]),
    once(&[Node]),
    each(&[Node]),
    BODY,
    once(&[Predicate, Node]),
    each(&[Node]),
    once(&[]),
    once(&[Name, Node]),
];
const STATEMENTS: [&[Slot]; 5] = [
    &[Tag, Node, Node],
    &[Tag, Node],
    &[Tag, Node],
    &[Tag, Node, Node],
    &[Tag, Node, Node],
];

/// Counts of names, types, predicates and nodes.
const MOST: [usize; 4] = [256, 256, 128, 512];

#[derive(Clone, Copy, Debug)]
pub struct Stmt {
    pub tag: u32,
    pub left: u16,
    pub right: u16,
}

/// A node: what ty.rs calls `ExprKind`, with the shape byte kept as it came.
#[derive(Clone, Debug, Default)]
pub struct NodeRow {
    pub start: u32,
    pub end: u32,
    pub shape: u8,
    pub name: u16,
    pub distance: u8,
    pub predicate: u32,
    /// Nodes in frame order, with their names where the shape is a record.
    pub under: Vec<(u16, u16)>,
    pub body: Vec<Stmt>,
}

#[derive(Clone, Copy, Debug)]
pub struct PredicateRow {
    pub name: u16,
    pub key: Ty,
    pub value: Option<Ty>,
}

/// The most queries.
const MOST_QUERIES: usize = 64;

/// One query: its nodes, its head and its statements.
#[derive(Clone, Debug, Default)]
pub struct Rows {
    pub nodes: Vec<NodeRow>,
    pub head: u16,
    pub body: Vec<Stmt>,
}

/// All that a file describes.
#[derive(Clone, Debug, Default)]
pub struct Tree {
    pub most_distance: u8,
    pub most_characters: usize,
    pub texts: Vec<Vec<u8>>,
    pub characters: Vec<usize>,
    pub cells: Cells,
    pub types: Vec<Ty>,
    pub predicates: Vec<PredicateRow>,
    pub queries: Vec<Rows>,
}

struct Reader {
    tree: Tree,
    /// The query that is not closed yet.
    rows: Rows,
    named: Vec<bool>,
    previous: u8,
    predicate_names: Vec<u32>,
    /// The bytes of a predicate's number.
    predicate: usize,
    wrong: Switch,
}

/// The bytes of a predicate's number in the two editions.
pub const NARROW: usize = 2;
pub const WIDE: usize = 4;

/// Reads the lines in order; the first refusal ends it. The tree is what came before that.
pub fn read(file: &[u8], predicate: usize, wrong: Switch) -> (Tree, Option<u8>) {
    let mut reader = Reader {
        tree: Tree::default(),
        rows: Rows::default(),
        named: Vec::new(),
        previous: 0,
        predicate_names: Vec::new(),
        predicate,
        wrong,
    };
    let refused = reader.lines(file).err();
    (reader.tree, refused)
}

/// Refusal 3, and the line's bytes where it does not apply.
fn decode(line: &[u8], wrong: Switch) -> Result<Vec<u8>, u8> {
    let mut digits = match line.strip_suffix(b"\n") {
        Some(digits) => digits,
        None if wrong.on(Wrong::LfMayLack) => line,
        None => return Err(3),
    };
    if wrong.on(Wrong::CrDropped) {
        digits = digits.strip_suffix(b"\r").unwrap_or(digits);
    }
    if wrong.on(Wrong::OddAccepted) && digits.len() > 1 {
        digits = &digits[..digits.len() & !1];
    }
    if wrong.on(Wrong::SpacesDropped) {
        digits = digits.trim_ascii();
    }
    let most = match () {
        _ if wrong.on(Wrong::LineOneMore) => 513,
        _ if wrong.on(Wrong::LineOneLess) => 511,
        _ if wrong.on(Wrong::KindNotInLength) && digits.starts_with(b"02") => 513,
        _ if wrong.on(Wrong::LengthInDigits) => 256,
        _ => 512,
    };
    if digits.is_empty() || digits.len() % 2 == 1 || digits.len() > 2 * most {
        return Err(3);
    }
    digits
        .chunks_exact(2)
        .map(|pair| Some(digit(pair[0], wrong)? << 4 | digit(pair[1], wrong)?))
        .collect::<Option<Vec<u8>>>()
        .ok_or(3)
}

fn digit(byte: u8, wrong: Switch) -> Option<u8> {
    match byte {
        b'0'..=b'9' => Some(byte - b'0'),
        b'a'..=b'f' => Some(byte - b'a' + 10),
        b'A'..=b'F' if wrong.on(Wrong::UpperCase) => Some(byte - b'A' + 10),
        b'g' if wrong.on(Wrong::LetterG) => Some(0),
        b'`' if wrong.on(Wrong::BackQuote) => Some(9),
        b':' if wrong.on(Wrong::Colon) => Some(10),
        _ => None,
    }
}

impl Reader {
    fn lines(&mut self, file: &[u8]) -> Result<(), u8> {
        let wrong = self.wrong;
        if wrong.on(Wrong::LinesDecodedFirst) {
            for line in file.split_inclusive(|&b| b == b'\n') {
                decode(line, wrong)?;
            }
        }
        for line in file.split_inclusive(|&b| b == b'\n') {
            if line == b"\n" && wrong.on(Wrong::EmptyLineSkipped) {
                continue;
            }
            if line == b"\n" && wrong.on(Wrong::LastLfSkipped) && self.previous == 6 {
                continue;
            }
            if wrong.on(Wrong::KindBeforeLine) {
                self.early_kind(line)?;
            }
            let frame = decode(line, wrong)?;
            self.frame(&frame)?;
        }
        if self.previous == 6 {
            return Ok(());
        }
        Err(match () {
            _ if wrong.on(Wrong::NodesLast) && !self.tree.queries.is_empty() => return Ok(()),
            _ if wrong.on(Wrong::MissingQueryIsThree) => 3,
            _ if wrong.on(Wrong::EmptyFileIsThree) && file.is_empty() => 3,
            _ => 4,
        })
    }

    fn frame(&mut self, frame: &[u8]) -> Result<(), u8> {
        let kind = frame[0];
        if self.previous == 6 && self.wrong.on(Wrong::AfterQueryIgnored) {
            return Ok(());
        }
        let placed = self.may_follow(kind);
        if self.wrong.on(Wrong::FiveBeforeFour) && self.full(kind) {
            return Err(5);
        }
        let many = self.many(kind);
        if self.wrong.on(Wrong::ThirteenBeforeFour) {
            many?;
        }
        if !placed {
            return Err(4);
        }
        let over = self.full(kind);
        if over && !self.wrong.on(Wrong::FiveAfterContent) {
            return Err(5);
        }
        if !self.wrong.on(Wrong::ThirteenAfterContent) {
            many?;
        }
        if kind == 2 {
            self.name(&frame[1..], over)?;
        } else {
            let row = match self.cut(frame) {
                Ok(row) => row,
                Err(at) => {
                    // A reader that looks up while it cuts would meet 9 first.
                    if self.wrong.on(Wrong::NineBeforeSix) && !self.references_hold(kind, &at) {
                        return Err(9);
                    }
                    return Err(6);
                }
            };
            if self.wrong.on(Wrong::TenBeforeNine) && self.repeats(frame, &row) {
                return Err(10);
            }
            if !self.references_hold(kind, &row) {
                return Err(9);
            }
            if self.repeats(frame, &row) {
                return Err(10);
            }
            if over {
                return Err(5);
            }
            many?;
            self.keep(kind, &row);
        }
        self.previous = kind;
        Ok(())
    }

    /// Mistake: the kind is looked at before the line is known to be sound.
    fn early_kind(&self, line: &[u8]) -> Result<(), u8> {
        if let [high, low, ..] = line
            && let (Some(high), Some(low)) = (digit(*high, self.wrong), digit(*low, self.wrong))
            && !self.may_follow(high << 4 | low)
        {
            return Err(4);
        }
        Ok(())
    }

    /// Refusal 4: 01 once and first, never falling, 05 alone after 06.
    fn may_follow(&self, kind: u8) -> bool {
        if !(1..=6).contains(&kind) {
            return false;
        }
        match self.previous {
            0 => kind == 1 || self.wrong.on(Wrong::AnyFirstKind),
            1 => kind != 1 || self.wrong.on(Wrong::LimitsTwice),
            6 => match kind {
                5 => !self.wrong.on(Wrong::NothingAfterQuery),
                6 => self.wrong.on(Wrong::QueryTwice),
                1 => self.wrong.on(Wrong::LimitsAfterQuery),
                _ => self.wrong.on(Wrong::SchemaAfterQuery),
            },
            _ if self.wrong.on(Wrong::StrictlyRising) => kind > self.previous,
            4 if kind == 3 && self.wrong.on(Wrong::TypeAfterPredicate) => true,
            3 if kind == 2 && self.wrong.on(Wrong::NameAfterType) => true,
            previous => kind >= previous,
        }
    }

    /// Refusal 13 goes by the kind alone.
    fn many(&self, kind: u8) -> Result<(), u8> {
        let most = match () {
            _ if self.wrong.on(Wrong::QueriesOneMore) => MOST_QUERIES + 1,
            _ if self.wrong.on(Wrong::QueriesOneLess) => MOST_QUERIES - 1,
            _ => MOST_QUERIES,
        };
        let of = match () {
            _ if self.wrong.on(Wrong::ThirteenAtNode) => 5,
            _ => 6,
        };
        if kind < of || self.tree.queries.len() < most {
            return Ok(());
        }
        Err(match () {
            _ if self.wrong.on(Wrong::ThirteenIsFive) => 5,
            _ => 13,
        })
    }

    /// Refusal 5 goes by the kind alone; nodes are counted for each query.
    fn full(&self, kind: u8) -> bool {
        let tree = &self.tree;
        let before: usize = tree.queries.iter().map(|rows| rows.nodes.len()).sum();
        let nodes = match () {
            _ if self.wrong.on(Wrong::NodesOverAll) => before + self.rows.nodes.len(),
            _ => self.rows.nodes.len(),
        };
        let have = [
            tree.texts.len(),
            tree.types.len(),
            tree.predicates.len(),
            nodes,
        ];
        let more = [
            Wrong::NamesOneMore,
            Wrong::TypesOneMore,
            Wrong::PredicatesOneMore,
            Wrong::NodesOneMore,
        ];
        let less = [
            Wrong::NamesOneLess,
            Wrong::TypesOneLess,
            Wrong::PredicatesOneLess,
            Wrong::NodesOneLess,
        ];
        if !(2..=5).contains(&kind) {
            return false;
        }
        let of = kind as usize - 2;
        let most = match () {
            _ if self.wrong.on(more[of]) => MOST[of] + 1,
            _ if self.wrong.on(less[of]) => MOST[of] - 1,
            _ => MOST[of],
        };
        have[of] >= most
    }

    /// Refusals 7 and 8.
    fn name(&mut self, bytes: &[u8], over: bool) -> Result<(), u8> {
        let wrong = self.wrong;
        if wrong.on(Wrong::EmptyNameRefused) && bytes.is_empty() {
            return Err(6);
        }
        let known = !wrong.on(Wrong::NamesMayRepeat)
            && self.tree.texts.iter().any(|text| match () {
                _ if wrong.on(Wrong::NamesFoldCase) => text.eq_ignore_ascii_case(bytes),
                _ if wrong.on(Wrong::NamesByPrefix) => {
                    !text.is_empty() && bytes.starts_with(text.as_slice())
                }
                _ => text == bytes,
            });
        let known = known && !(wrong.on(Wrong::EmptyNameTwice) && bytes.is_empty());
        let numbers = if wrong.on(Wrong::SevenIsEight) {
            (8, 7)
        } else {
            (7, 8)
        };
        // Equal in behaviour: a text that came before is sound, so the order is free.
        if wrong.on(Wrong::EightBeforeSeven) && known {
            return Err(numbers.1);
        }
        let characters = text::characters(bytes, wrong).ok_or(numbers.0)?;
        if known {
            return Err(numbers.1);
        }
        if over {
            return Err(5);
        }
        self.tree.texts.push(bytes.to_vec());
        self.tree.characters.push(characters);
        Ok(())
    }

    /// Refusal 6. The row of slots with their values, or those that came before the
    /// fault.
    fn cut(&self, frame: &[u8]) -> Result<Row, Row> {
        let mut cursor = Cursor {
            frame,
            at: 1,
            row: Vec::new(),
            predicate: self.width_in(frame[0]),
        };
        if self.cut_all(&mut cursor).is_some() {
            Ok(cursor.row)
        } else {
            Err(cursor.row)
        }
    }

    fn width_in(&self, kind: u8) -> usize {
        match kind {
            3 if self.wrong.on(Wrong::TypeReferenceShort) => NARROW,
            5 if self.wrong.on(Wrong::NodeReferenceShort) => NARROW,
            _ => self.predicate,
        }
    }

    fn cut_all(&self, cursor: &mut Cursor) -> Option<()> {
        let wrong = self.wrong;
        let layout = match cursor.frame[0] {
            1 => &LIMITS,
            3 => {
                let shape = cursor.take(Byte)?;
                TYPES.get(shape as usize)?
            }
            4 => match cursor.frame.get(5)? {
                0 => &PREDICATE[0],
                1 => &PREDICATE[1],
                _ if wrong.on(Wrong::FlagNotZero) => &PREDICATE[1],
                _ => return None,
            },
            5 => {
                cursor.all(&[Long, Long])?;
                let shape = cursor.take(Byte)?;
                match NODES.get(shape as usize) {
                    None if wrong.on(Wrong::ShapeElevenIsError) && shape == 0x11 => {
                        return cursor.end();
                    }
                    layout => layout?,
                }
            }
            _ => &BODY,
        };
        cursor.all(layout.once)?;
        if !layout.each.is_empty() {
            while cursor.left() > 0 {
                if wrong.on(Wrong::ListTailIgnored)
                    && cursor.left()
                        < layout
                            .each
                            .iter()
                            .map(|slot| slot.width(cursor.predicate))
                            .sum()
                {
                    return Some(());
                }
                cursor.all(layout.each)?;
            }
        }
        if layout.body {
            while cursor.left() > 0 {
                let tag = cursor.frame[cursor.at] as usize;
                match STATEMENTS.get(tag) {
                    None if wrong.on(Wrong::StatementFiveIsCompare) && tag == 5 => {
                        cursor.all(STATEMENTS[4])?;
                    }
                    slots => cursor.all(slots?)?,
                }
            }
        }
        if wrong.on(Wrong::LongFrameAccepted) && cursor.frame[0] != 1 {
            return Some(());
        }
        if wrong.on(Wrong::LimitsMayBeLonger) && cursor.frame[0] == 1 {
            return Some(());
        }
        cursor.end()
    }

    /// Refusal 9: every name, type and node is an earlier frame's, no node twice.
    fn references_hold(&self, kind: u8, row: &[(Slot, u32)]) -> bool {
        let wrong = self.wrong;
        let tree = &self.tree;
        let mut here = Vec::new();
        for (place, &(slot, value)) in row.iter().enumerate() {
            let value = value as usize;
            let shape = row.get(2).filter(|_| kind == 5).map(|entry| entry.1);
            let good = match slot {
                Name if wrong.on(Wrong::PrefixNameUntested) && shape == Some(6) => true,
                Name if wrong.on(Wrong::PredicateNameUntested) && kind == 4 => true,
                Name => value < tree.texts.len(),
                Type if kind == 3 && wrong.on(Wrong::TypeMayNameItself) => {
                    value <= tree.types.len()
                }
                Type if kind == 4 && wrong.on(Wrong::PredicateTypeStrict) => {
                    value + 1 < tree.types.len()
                }
                Type => value < tree.types.len(),
                Predicate if kind == 3 && wrong.on(Wrong::TypePredicateMustExist) => {
                    value < tree.predicates.len()
                }
                Predicate if kind == 5 && wrong.on(Wrong::NodePredicateMustExist) => {
                    value < tree.predicates.len()
                }
                Node => {
                    let count = self.rows.nodes.len();
                    let before = tree.queries.last().map_or(0, |rows| rows.nodes.len());
                    let earlier = match () {
                        _ if wrong.on(Wrong::OtherQuerysNode) => value < count.max(before),
                        _ if kind == 5 && wrong.on(Wrong::NodeMayNameItself) => value <= count,
                        _ if kind == 6 && wrong.on(Wrong::LastNodeUnnamed) => value + 1 < count,
                        _ => value < count,
                    };
                    let again = match () {
                        _ if wrong.on(Wrong::NamedTwice) => false,
                        _ if wrong.on(Wrong::NamedTwiceInFrame) => self.was_named(value),
                        _ if wrong.on(Wrong::NamedBelowAndByQuery) && kind == 6 => {
                            here.contains(&value)
                        }
                        _ if wrong.on(Wrong::HeadNamedAgain) && kind == 6 && place > 0 => {
                            self.was_named(value) || here[1..].contains(&value)
                        }
                        _ => self.was_named(value) || here.contains(&value),
                    };
                    here.push(value);
                    earlier && !again
                }
                Byte | Short | Long | Tag | Predicate => true,
            };
            if !good {
                return false;
            }
        }
        true
    }

    fn was_named(&self, node: usize) -> bool {
        self.named.get(node).is_some_and(|&named| named)
    }

    /// Refusal 10, and the places where a mistake would see one more.
    fn repeats(&self, frame: &[u8], row: &[(Slot, u32)]) -> bool {
        let wrong = self.wrong;
        let of = |slot: Slot| -> Vec<u32> {
            row.iter()
                .filter(|entry| entry.0 == slot)
                .map(|entry| entry.1)
                .collect()
        };
        match (frame[0], row.first().map(|entry| entry.1)) {
            (3, Some(4)) if !wrong.on(Wrong::FieldsMayRepeat) => twice(of(Name)),
            (3, Some(5)) => {
                if wrong.on(Wrong::AlternativeNamesOnce) && twice(of(Name)) {
                    return true;
                }
                let mut discs = of(Long);
                if wrong.on(Wrong::DiscriminantsShort) {
                    discs.iter_mut().for_each(|disc| *disc &= 0xffff);
                }
                if wrong.on(Wrong::NeighboursCompared) {
                    return discs.windows(2).any(|pair| pair[0] == pair[1]);
                }
                !wrong.on(Wrong::DiscriminantsMayRepeat) && twice(discs)
            }
            (4, _) => {
                wrong.on(Wrong::PredicateNamesOnce)
                    && row
                        .first()
                        .is_some_and(|e| self.predicate_names.contains(&e.1))
            }
            (5, _) => {
                wrong.on(Wrong::NodeFieldsOnce)
                    && row.get(2).is_some_and(|e| e.1 == 8)
                    && twice(of(Name))
            }
            _ => false,
        }
    }

    /// A frame without a fault becomes part of the tree.
    fn keep(&mut self, kind: u8, row: &[(Slot, u32)]) {
        let values: Vec<u32> = row.iter().map(|entry| entry.1).collect();
        for &(slot, value) in row {
            if slot == Node {
                let node = value as usize;
                if self.named.len() <= node {
                    self.named.resize(node + 1, false);
                }
                self.named[node] = true;
            }
        }
        match kind {
            1 => {
                self.tree.most_distance = values[0] as u8;
                self.tree.most_characters = values[1] as usize;
                if self.wrong.on(Wrong::TermLimitOneByte) {
                    self.tree.most_characters &= 0xff;
                }
            }
            3 => self.keep_type(&values),
            4 => {
                self.predicate_names.push(values[0]);
                let name = values[0] as u16;
                let key = self.tree.types[values[1] as usize];
                let value = values.get(3).map(|&at| self.tree.types[at as usize]);
                self.tree.predicates.push(PredicateRow { name, key, value });
            }
            5 => self.keep_node(row),
            _ => {
                self.rows.head = values[0] as u16;
                self.rows.body = statements(&row[1..]);
                if self.names_beyond(row) {
                    self.rows.head = 0;
                    self.rows.body.clear();
                }
                self.tree.queries.push(std::mem::take(&mut self.rows));
                if !self.wrong.on(Wrong::NamedOverAll) {
                    self.named.clear();
                }
            }
        }
    }

    /// Only a wrong reader lets a frame name a node that this query has not.
    fn names_beyond(&self, row: &[(Slot, u32)]) -> bool {
        let count = self.rows.nodes.len();
        let mistaken = self.wrong.on(Wrong::OtherQuerysNode);
        mistaken
            && row
                .iter()
                .any(|&(slot, at)| slot == Node && at as usize >= count)
    }

    fn keep_type(&mut self, values: &[u32]) {
        let own = self.tree.types.len();
        let width = if values[0] == 5 { 3 } else { 2 };
        let parts: Vec<Part> = if values[0] < 4 {
            Vec::new()
        } else {
            values[1..]
                .chunks_exact(width)
                .map(|slots| Part {
                    name: slots[0] as u16,
                    disc: if width == 3 { slots[1] } else { 0 },
                    // Only a wrong reader lets a type name itself; it reads as Error.
                    ty: match slots[width - 1] as usize {
                        at if at == own => Ty::Error,
                        at => self.tree.types[at],
                    },
                })
                .collect()
        };
        let ty = match values[0] {
            0 => Ty::Int,
            1 => Ty::String,
            2 => Ty::Bytes,
            3 if self.wrong.on(Wrong::TypeNumberCut) => Ty::Fact(values[1] & 0xffff),
            3 => Ty::Fact(values[1]),
            4 => Ty::Record(self.tree.cells.push(&parts)),
            _ => Ty::Union(self.tree.cells.push(&parts)),
        };
        self.tree.types.push(ty);
    }

    fn keep_node(&mut self, row: &[(Slot, u32)]) {
        let mut node = NodeRow {
            start: row[0].1,
            end: row[1].1,
            shape: row[2].1 as u8,
            ..NodeRow::default()
        };
        let rest = &row[3..];
        if node.shape == 0x0c {
            node.under.push((0, rest[0].1 as u16));
            node.body = statements(&rest[1..]);
        } else {
            let mut name = 0;
            for &(slot, value) in rest {
                match slot {
                    Name => name = value as u16,
                    Predicate if self.wrong.on(Wrong::NodeNumberCut) => {
                        node.predicate = value & 0xffff;
                    }
                    Predicate => node.predicate = value,
                    Node => node.under.push((name, value as u16)),
                    _ => node.distance = value as u8,
                }
            }
            node.name = name;
        }
        if self.names_beyond(row) {
            // It reads as a literal.
            node = NodeRow::default();
        }
        self.rows.nodes.push(node);
    }
}

/// Cuts a row of tags and nodes into statements.
fn statements(row: &[(Slot, u32)]) -> Vec<Stmt> {
    let mut body: Vec<Stmt> = Vec::new();
    let mut nodes = 0;
    for &(slot, value) in row {
        match (slot, body.last_mut()) {
            (Tag, _) => {
                nodes = 0;
                body.push(Stmt {
                    tag: value,
                    left: 0,
                    right: 0,
                });
            }
            (_, Some(stmt)) => {
                if nodes == 0 {
                    stmt.left = value as u16;
                } else {
                    stmt.right = value as u16;
                }
                nodes += 1;
            }
            (_, None) => {}
        }
    }
    body
}

fn twice(mut values: Vec<u32>) -> bool {
    values.sort_unstable();
    values.windows(2).any(|pair| pair[0] == pair[1])
}

struct Cursor<'a> {
    frame: &'a [u8],
    at: usize,
    row: Row,
    predicate: usize,
}

impl Cursor<'_> {
    fn left(&self) -> usize {
        self.frame.len() - self.at
    }

    fn take(&mut self, slot: Slot) -> Option<u32> {
        let width = slot.width(self.predicate);
        let bytes = self.frame.get(self.at..self.at + width)?;
        let value = bytes.iter().fold(0, |high, &low| high << 8 | low as u32);
        self.at += width;
        self.row.push((slot, value));
        Some(value)
    }

    fn all(&mut self, slots: &[Slot]) -> Option<()> {
        for &slot in slots {
            self.take(slot)?;
        }
        Some(())
    }

    fn end(&self) -> Option<()> {
        (self.left() == 0).then_some(())
    }
}
