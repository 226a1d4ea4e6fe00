//! Writes the answer straight from the bindings and stops where the slice is full, so
//! that a type of exponential length costs no more than the slice.

use crate::ENDLESS;
use crate::checker::{Report, State};
use crate::message::{self, Message};
use crate::mutation::{Switch, Wrong};
use crate::types::{Cells, Ty};

struct Writer<'a> {
    /// The query whose lines are being written.
    state: &'a State<'a>,
    out: Vec<u8>,
    most: usize,
    wrong: Switch,
}

/// Why the writing ended early: the refusal's number.
type Written = Result<(), u8>;

/// The lines of the answer, or refusal 12.
pub fn write(states: &[State], most: usize, wrong: Switch) -> Result<Vec<u8>, u8> {
    let lines = |state: &State| state.tys.len() + 2 * state.reports.len();
    let messages = |state: &State| {
        let lines = state.reports.iter().map(|of| 3 + 2 * of.text.len());
        lines.sum::<usize>()
    };
    let numbered = match () {
        _ if wrong.on(Wrong::NumberedAlone) => true,
        _ if wrong.on(Wrong::Unnumbered) => false,
        _ => states.len() > 1,
    };
    let most = match () {
        _ if wrong.on(Wrong::AnswerOneMore) => most + 1,
        _ if wrong.on(Wrong::AnswerOneLess) => most.saturating_sub(1),
        _ if wrong.on(Wrong::LfsUncounted) => most + states.iter().map(lines).sum::<usize>(),
        _ if wrong.on(Wrong::MessagesUncounted) => {
            most + states.iter().map(messages).sum::<usize>()
        }
        _ if wrong.on(Wrong::NumbersUncounted) && numbered => most + 7 * states.len(),
        _ if wrong.on(Wrong::VisitsLineUncounted) => most + 11 * states.len(),
        _ => most,
    };
    let mut order: Vec<usize> = (0..states.len()).collect();
    match () {
        _ if wrong.on(Wrong::FirstQueryOnly) => order.truncate(1),
        _ if wrong.on(Wrong::LastQueryOnly) => drop(order.drain(..states.len() - 1)),
        _ if wrong.on(Wrong::QueriesBackwards) => order.reverse(),
        _ => {}
    }
    let mut whole = Vec::new();
    for &number in &order {
        let mut writer = Writer {
            state: &states[number],
            out: std::mem::take(&mut whole),
            most,
            wrong,
        };
        if wrong.on(Wrong::LengthByQuery) {
            writer.most = most + writer.out.len();
        }
        let first = number == 0 && wrong.on(Wrong::FirstUnnumbered);
        let late = wrong.on(Wrong::NumberAfter);
        if numbered && !first && !late {
            writer.number(number)?;
        }
        let visits = match () {
            _ if wrong.on(Wrong::VisitsOfTheFile) => {
                states[..=number].iter().map(|state| state.visits).sum()
            }
            _ if wrong.on(Wrong::VisitsLeftTold) => 1_048_576 - states[number].visits,
            _ => states[number].visits,
        };
        let last = number + 1 == states.len();
        let told = match () {
            _ if wrong.on(Wrong::VisitsUntold) => Told::Never,
            _ if wrong.on(Wrong::VisitsToldOnce) && !last => Told::Never,
            _ if wrong.on(Wrong::VisitsToldFirst) => Told::First,
            _ if wrong.on(Wrong::VisitsBeforeReports) => Told::BeforeReports,
            _ => Told::Last,
        };
        if told == Told::First {
            writer.visits(visits)?;
        }
        writer.types()?;
        if told == Told::BeforeReports {
            writer.visits(visits)?;
        }
        if wrong.on(Wrong::UnusedBeforeReports) {
            writer.unused()?;
        }
        if !wrong.on(Wrong::ReportsLast) {
            let from = if wrong.on(Wrong::ReportsOfBefore) {
                0
            } else {
                number
            };
            for state in &states[from..=number] {
                writer.reports(state)?;
            }
        }
        if !wrong.on(Wrong::UnusedUntold) && !wrong.on(Wrong::UnusedBeforeReports) {
            writer.unused()?;
        }
        if told == Told::Last {
            writer.visits(visits)?;
        }
        if numbered && late {
            writer.number(number)?;
        }
        whole = writer.out;
    }
    if wrong.on(Wrong::ReportsLast) {
        for state in states {
            let mut writer = Writer {
                state,
                out: std::mem::take(&mut whole),
                most,
                wrong,
            };
            writer.reports(state)?;
            whole = writer.out;
        }
    }
    Ok(whole)
}

/// Where a query's line of visits stands.
#[derive(Clone, Copy, PartialEq, Eq)]
enum Told {
    Last,
    First,
    BeforeReports,
    Never,
}

impl Writer<'_> {
    /// The line before a query's own.
    fn number(&mut self, query: usize) -> Written {
        let number = match () {
            _ if self.wrong.on(Wrong::NumbersFromOne) => query + 1,
            _ => query,
        };
        self.bytes(&[0x0b])?;
        if self.wrong.on(Wrong::NumberOneByte) {
            self.bytes(&[number as u8])?;
        } else {
            self.short(number as u16)?;
        }
        self.end()
    }

    /// The lines of entries that left unused.
    fn unused(&mut self) -> Written {
        let state = self.state;
        for maker in &state.unused {
            let node = &state.rows.nodes[*maker as usize];
            self.bytes(&[0x0c])?;
            self.bytes(&node.start.to_be_bytes())?;
            self.bytes(&node.end.to_be_bytes())?;
            self.end()?;
        }
        Ok(())
    }

    /// The line after a query's others.
    fn visits(&mut self, visits: u64) -> Written {
        self.bytes(&[9])?;
        let bytes = (visits as u32).to_be_bytes();
        if self.wrong.on(Wrong::VisitsInTwoBytes) {
            self.bytes(&bytes[2..])?;
        } else {
            self.bytes(&bytes)?;
        }
        self.end()
    }

    fn types(&mut self) -> Written {
        let state = self.state;
        for (node, ty) in state.tys.iter().enumerate() {
            self.bytes(&[7])?;
            self.short(node as u16)?;
            match ty {
                None => self.bytes(&[0xff])?,
                Some(ty) => self.ty(*ty, 0)?,
            }
            self.end()?;
        }
        Ok(())
    }

    fn reports(&mut self, of: &State) -> Written {
        let wrong = self.wrong;
        let nodes = &of.rows.nodes;
        let mut reports = of.reports.clone();
        if wrong.on(Wrong::ReportsBySpan) {
            reports.sort_by_key(|report| nodes[report.node as usize].start);
        }
        if wrong.on(Wrong::ReportsOnce) {
            let mut seen = Vec::new();
            reports.retain(|report| {
                let new = !seen.contains(&report.node);
                seen.push(report.node);
                new
            });
        }
        for (place, report) in reports.iter().enumerate() {
            let row = &nodes[report.node as usize];
            let (start, end) = match () {
                _ if wrong.on(Wrong::SpanSwapped) => (row.end, row.start),
                _ if wrong.on(Wrong::SpanLength) => (row.start, row.end.wrapping_sub(row.start)),
                _ => (row.start, row.end),
            };
            self.bytes(&[8])?;
            self.bytes(&start.to_be_bytes())?;
            self.bytes(&end.to_be_bytes())?;
            self.bytes(report.message.code().as_str().as_bytes())?;
            self.end()?;
            match () {
                _ if wrong.on(Wrong::MessagesAfter) => {}
                _ if wrong.on(Wrong::FirstMessageOnly) && place > 0 => {}
                _ => self.message(of, report)?,
            }
        }
        if wrong.on(Wrong::MessagesAfter) {
            for report in &reports {
                self.message(of, report)?;
            }
        }
        Ok(())
    }

    fn message(&mut self, of: &State, report: &Report) -> Written {
        self.bytes(&[0x0a])?;
        match report.message {
            Message::NoOrder(_) if self.wrong.on(Wrong::NoOrderAtEnd) => {
                let text = message::text(of, report.message, self.most);
                self.bytes(&text)?;
            }
            _ => self.bytes(&report.text)?,
        }
        self.end()
    }

    fn bytes(&mut self, bytes: &[u8]) -> Written {
        const DIGITS: &[u8; 16] = b"0123456789abcdef";
        for &byte in bytes {
            self.out.push(DIGITS[byte as usize >> 4]);
            self.out.push(DIGITS[byte as usize & 15]);
        }
        self.fits()
    }

    fn short(&mut self, value: u16) -> Written {
        self.bytes(&value.to_be_bytes())
    }

    fn end(&mut self) -> Written {
        self.out.push(b'\n');
        self.fits()
    }

    fn fits(&self) -> Written {
        if self.out.len() > self.most {
            return Err(12);
        }
        Ok(())
    }

    fn cells(&self) -> &Cells {
        &self.state.cells
    }

    fn ty(&mut self, ty: Ty, depth: usize) -> Written {
        let mut at = ty;
        let mut links = 0;
        while let Ty::Var(var) = at
            && let Some(Some(next)) = self.state.subst.get(var)
            && !self.wrong.on(Wrong::WrittenUnresolved)
            && !(depth > 0 && self.wrong.on(Wrong::InnerUnresolved))
        {
            links += 1;
            if links > self.state.subst.len() {
                return Err(ENDLESS);
            }
            at = *next;
        }
        // Only bindings without an occurs check go deeper than a file can.
        if depth > 2_000 {
            return Err(ENDLESS);
        }
        match at {
            Ty::Int => self.bytes(&[0]),
            Ty::String => self.bytes(&[1]),
            Ty::Bytes => self.bytes(&[2]),
            Ty::Fact(predicate) => {
                self.bytes(&[3])?;
                match () {
                    _ if self.wrong.on(Wrong::NumberWrittenShort) => {
                        self.bytes(&predicate.to_be_bytes()[2..])
                    }
                    _ if self.wrong.on(Wrong::NumberWrittenCut) => {
                        self.bytes(&(predicate & 0xffff).to_be_bytes())
                    }
                    _ => self.bytes(&predicate.to_be_bytes()),
                }
            }
            Ty::Record(cell) => {
                self.bytes(&[4])?;
                self.short(self.cells().count(cell) as u16)?;
                for place in 0..self.cells().count(cell) {
                    let part = self.cells().part(cell, place);
                    self.short(part.name)?;
                    self.ty(part.ty, depth + 1)?;
                }
                Ok(())
            }
            Ty::Union(cell) => {
                let mut order: Vec<usize> = (0..self.cells().count(cell)).collect();
                if self.wrong.on(Wrong::UnionsWrittenSorted) {
                    order.sort_by_key(|&place| self.cells().part(cell, place).disc);
                }
                self.bytes(&[5])?;
                self.short(order.len() as u16)?;
                for place in order {
                    let part = self.cells().part(cell, place);
                    self.short(part.name)?;
                    self.bytes(&part.disc.to_be_bytes())?;
                    self.ty(part.ty, depth + 1)?;
                }
                Ok(())
            }
            Ty::Var(var) => {
                self.bytes(&[6])?;
                self.short(var as u16)
            }
            Ty::Error => self.bytes(&[7]),
        }
    }
}
