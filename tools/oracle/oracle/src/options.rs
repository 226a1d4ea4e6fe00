//! Command lines: `--name value`, `--flag`, and words.

use std::collections::BTreeMap;
use std::str::FromStr;

/// What stood after the command.
pub struct Options {
    pub words: Vec<String>,
    named: BTreeMap<String, Option<String>>,
}

impl Options {
    /// `with_value` and `flags` are the names that the command knows.
    pub fn parse(given: &[String], with_value: &[&str], flags: &[&str]) -> Result<Options, String> {
        let mut options = Options {
            words: vec![],
            named: BTreeMap::new(),
        };
        let mut given = given.iter();
        while let Some(word) = given.next() {
            let Some(name) = word.strip_prefix("--") else {
                options.words.push(word.clone());
                continue;
            };
            let value = if flags.contains(&name) {
                None
            } else if with_value.contains(&name) {
                let value = given.next();
                Some(value.ok_or(format!("--{name} needs a value"))?.clone())
            } else {
                return Err(format!("no option --{name} here; see `oracle help`"));
            };
            options.named.insert(name.to_owned(), value);
        }
        Ok(options)
    }

    pub fn flag(&self, name: &str) -> bool {
        self.named.contains_key(name)
    }

    pub fn text(&self, name: &str) -> Option<&str> {
        self.named.get(name)?.as_deref()
    }

    pub fn number<N: FromStr>(&self, name: &str) -> Result<Option<N>, String> {
        let Some(text) = self.text(name) else {
            return Ok(None);
        };
        let number = text.replace('_', "");
        match number.parse() {
            Ok(number) => Ok(Some(number)),
            Err(_) => Err(format!("--{name} needs a number, and {text:?} is none")),
        }
    }

    /// A number that the command can't do without.
    pub fn needed<N: FromStr>(&self, name: &str) -> Result<N, String> {
        self.number(name)?.ok_or(format!("--{name} is missing"))
    }
}
