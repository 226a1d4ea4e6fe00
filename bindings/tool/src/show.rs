//! A file and its answer, for people.

use std::fmt::Write;

use sigla::{Answer, File, Names, Span, Ty};

use crate::notation;

const RED: &str = "\u{1b}[1;31m";
const YELLOW: &str = "\u{1b}[1;33m";
const BLUE: &str = "\u{1b}[1;34m";
const BOLD: &str = "\u{1b}[1m";
const PLAIN: &str = "\u{1b}[0m";

/// The most characters of a type on a node's line.
const WIDTH: usize = 100;

/// The schema, then each query's nodes with their types, its diagnostics, under the text where there is one, and its names written once.
/// A source is a text with its file's name. Control characters of names, messages and texts are escaped.
pub fn shown(file: &File, answer: &Answer, sources: &[(String, String)], tree: bool, colour: bool) -> String {
    let mut names = file.texts();
    names.names.iter_mut().for_each(|name| *name = notation::spelled(name));
    let mut out = notation::limits_text(file) + &notation::schema_text(file);
    for (k, (query, typed)) in file.queries.iter().zip(&answer.queries).enumerate() {
        let number = if file.queries.len() > 1 { format!(" {k}") } else { String::new() };
        put(&mut out, format_args!("\nquery{number}\n"));
        let spans: Vec<String> = query.nodes.iter().map(|node| format!("{}..{}", node.span.start, node.span.end)).collect();
        let shapes: Vec<String> = query.nodes.iter().map(|node| notation::shape_text(file, &node.shape)).collect();
        let label = query.nodes.len().saturating_sub(1).to_string().len() + 1;
        let span = widest(&spans).min(21);
        let shape = widest(&shapes).min(48);
        for (i, ty) in typed.types.iter().enumerate() {
            let node = format!("n{i}");
            put(&mut out, format_args!("  {node:label$}  {:>span$}  {:shape$}  {}\n", spans[i], shapes[i], type_text(ty.as_ref(), &names, tree)));
            if let (true, Some(ty)) = (tree, ty) {
                for line in ty.tree(&names).to_string().lines().skip(1) {
                    put(&mut out, format_args!("  {:1$}  {line}\n", "", label + 2 + span + 2 + shape));
                }
            }
        }
        for statement in &query.asked.statements {
            put(&mut out, format_args!("  {}\n", notation::statement_text(statement)));
        }
        put(&mut out, format_args!("  head n{}\n", query.asked.head));
        let source = sources.get(k);
        if !typed.diagnostics.is_empty() || !typed.once.is_empty() {
            out.push('\n');
        }
        for diagnostic in &typed.diagnostics {
            let said = Said { colour: RED, title: &diagnostic.code, message: diagnostic.message.as_deref().unwrap_or(""), span: diagnostic.span };
            out += &said.under(source, colour);
        }
        for &span in &typed.once {
            let said = Said { colour: YELLOW, title: "written once", message: "nothing else that fits uses this name here", span };
            out += &said.under(source, colour);
        }
        match typed.visits {
            Some(1) => out += "1 visit\n",
            Some(visits) => put(&mut out, format_args!("{visits} visits\n")),
            None => {}
        }
    }
    out
}

fn put(out: &mut String, text: std::fmt::Arguments<'_>) {
    out.write_fmt(text).expect("a string takes all");
}

fn widest(texts: &[String]) -> usize {
    texts.iter().map(|text| text.chars().count()).max().unwrap_or(0)
}

/// A type on one line, cut where it is long; of a tree its first line.
fn type_text(ty: Option<&Ty>, names: &Names, tree: bool) -> String {
    match ty {
        None => "(not looked at)".to_string(),
        Some(ty) if tree => ty.tree(names).to_string().lines().next().unwrap_or("").to_string(),
        Some(ty) => {
            let text = ty.shown(names).to_string();
            match text.char_indices().nth(WIDTH) {
                Some((end, _)) => format!("{} ..", &text[..end]),
                None => text,
            }
        }
    }
}

/// Something to say about a piece of a query.
struct Said<'a> {
    colour: &'a str,
    title: &'a str,
    message: &'a str,
    span: Span,
}

impl Said<'_> {
    /// As compilers do: the message, the line, carets under the span.
    fn under(&self, source: Option<&(String, String)>, colour: bool) -> String {
        let paint = |code: &'static str| if colour { code } else { "" };
        let own = if colour { self.colour } else { "" };
        let (blue, bold, plain) = (paint(BLUE), paint(BOLD), paint(PLAIN));
        let (title, message) = (notation::visible(self.title), notation::visible(self.message));
        let mut out = format!("{own}{title}{plain}{bold}: {message}{plain}\n");
        let place = source.and_then(|(path, text)| Some((path, Place::of(text, self.span)?)));
        let Some((path, place)) = place else {
            put(&mut out, format_args!("  at {}..{}\n", self.span.start, self.span.end));
            return out;
        };
        let number = place.line.to_string();
        let gap = " ".repeat(number.len());
        put(&mut out, format_args!("{gap}{blue}-->{plain} {path}:{}:{}\n", place.line, place.column));
        put(&mut out, format_args!("{gap} {blue}|{plain}\n"));
        put(&mut out, format_args!("{blue}{number} |{plain} {}\n", place.text));
        put(&mut out, format_args!("{gap} {blue}|{plain} {}{own}{}{plain}{}\n", place.margin, "^".repeat(place.carets), if place.goes_on { " .." } else { "" }));
        out
    }
}

/// Where a span stands in a text: its first line and column, the line as it is shown, what stands before the span there as blanks, and how
/// many characters there it covers, at least one.
#[derive(Debug, PartialEq, Eq)]
struct Place {
    line: usize,
    column: usize,
    text: String,
    margin: String,
    carets: usize,
    goes_on: bool,
}

/// A piece of a line as it is shown: a tab stays one, so that the carets stand where the text does.
fn shown_piece(piece: &str) -> String {
    piece.split('\t').map(notation::visible).collect::<Vec<_>>().join("\t")
}

impl Place {
    /// Nothing where the span does not start at a character of the text, or at its end.
    fn of(source: &str, span: Span) -> Option<Place> {
        let start = usize::try_from(span.start).ok()?;
        let before = source.get(..start)?;
        let from = before.rfind('\n').map_or(0, |i| i + 1);
        let text = source[from..].lines().next().unwrap_or("");
        let margin: String = shown_piece(&before[from..]).chars().map(|c| if c == '\t' { '\t' } else { ' ' }).collect();
        let end = usize::try_from(span.end).ok()?.clamp(start, source.len());
        // the end may stand in the midst of a character, which is then covered
        let end = (end..=source.len()).find(|&end| source.is_char_boundary(end))?;
        let line_end = (from + text.len()).clamp(start, end);
        let carets = shown_piece(&source[start..line_end]).chars().count().max(1);
        let goes_on = source[line_end..end].chars().any(|c| !c.is_whitespace());
        let column = before[from..].chars().count() + 1;
        Some(Place { line: before.matches('\n').count() + 1, column, text: shown_piece(text), margin, carets, goes_on })
    }
}

#[cfg(test)]
mod tests {
    use super::*;

    fn place(source: &str, start: u32, end: u32) -> Option<(usize, usize, String, usize, bool)> {
        Place::of(source, Span::new(start, end)).map(|place| (place.line, place.column, place.text.to_string(), place.carets, place.goes_on))
    }

    #[test]
    fn a_span_is_found_in_its_text() {
        assert_eq!(place("x where y", 8, 9), Some((1, 9, "x where y".to_string(), 1, false)));
        assert_eq!(place("a\nbc d\n", 5, 6), Some((2, 4, "bc d".to_string(), 1, false)));
        assert_eq!(place("é = ß", 5, 7), Some((1, 5, "é = ß".to_string(), 1, false)));
    }

    #[test]
    fn a_span_over_lines_is_cut_and_an_empty_one_is_one_caret() {
        assert_eq!(place("{a = 1,\n b = 2}", 0, 15), Some((1, 1, "{a = 1,".to_string(), 7, true)));
        assert_eq!(place("ab\n", 0, 3), Some((1, 1, "ab".to_string(), 2, false)));
        assert_eq!(place("ab", 1, 1), Some((1, 2, "ab".to_string(), 1, false)));
        assert_eq!(place("ab", 2, 9), Some((1, 3, "ab".to_string(), 1, false)));
        assert_eq!(place("ab", 1, 0), Some((1, 2, "ab".to_string(), 1, false)));
    }

    #[test]
    fn a_span_outside_of_the_text_is_none() {
        assert_eq!(place("ab", 3, 4), None);
        assert_eq!(place("é", 1, 2), None);
        assert_eq!(place("", u32::MAX, u32::MAX), None);
    }

    #[test]
    fn a_control_character_is_as_wide_as_its_escape() {
        assert_eq!(place("a\u{1b}b", 1, 3), Some((1, 2, "a\\u{1b}b".to_string(), 7, false)));
        assert_eq!(Place::of("\u{7}\tx", Span::new(2, 3)).map(|place| place.margin), Some("     \t".to_string()));
        assert_eq!(place("ab\r\nc", 0, 5), Some((1, 1, "ab".to_string(), 2, true)));
    }

    #[test]
    fn a_tab_before_the_span_stays_one() {
        assert_eq!(Place::of("\tx y", Span::new(3, 4)).map(|place| place.margin), Some("\t  ".to_string()));
    }
}
