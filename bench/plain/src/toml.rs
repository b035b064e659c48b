//! A reader of the TOML that policies are written in: headers `[[NAME]]`, and keys whose values are
//! whole numbers, texts without escapes, lists and inline tables. Anything else is refused.

use std::collections::BTreeMap;

pub type Table = BTreeMap<String, Value>;

#[derive(Clone, Debug, PartialEq)]
pub enum Value {
    Integer(i64),
    Text(String),
    Array(Vec<Value>),
    Table(Table),
}

/// The text that is left to read.
struct Reader<'a> {
    text: &'a str,
}

/// The tree of a text, or None where it is refused.
pub fn parse(text: &str) -> Option<Table> {
    let mut reader = Reader { text };
    let mut root = Table::new();
    let mut header: Option<String> = None;
    loop {
        reader.blanks();
        if reader.text.is_empty() {
            return Some(root);
        }
        if reader.eat("[[") {
            let name = reader.key()?;
            reader.eat("]]").then_some(())?;
            let tables = root.entry(name.clone()).or_insert_with(|| Value::Array(Vec::new()));
            let Value::Array(items) = tables else { return None };
            items.push(Value::Table(Table::new()));
            header = Some(name);
        } else {
            let (key, value) = reader.pair()?;
            let table = match &header {
                None => &mut root,
                Some(name) => last_table(root.get_mut(name)?)?,
            };
            if table.insert(key, value).is_some() {
                return None;
            }
        }
        reader.line_end()?;
    }
}

/// The newest table of a list.
fn last_table(value: &mut Value) -> Option<&mut Table> {
    match value {
        Value::Array(items) => match items.last_mut()? {
            Value::Table(table) => Some(table),
            _ => None,
        },
        _ => None,
    }
}

impl<'a> Reader<'a> {
    /// Whether this stands here; then it is passed.
    fn eat(&mut self, what: &str) -> bool {
        match self.text.strip_prefix(what) {
            Some(rest) => {
                self.text = rest;
                true
            }
            None => false,
        }
    }

    /// Passes the characters that belong together, and gives them.
    fn take(&mut self, is_part: impl Fn(char) -> bool) -> &'a str {
        let end = self.text.find(|c: char| !is_part(c)).unwrap_or(self.text.len());
        let (part, rest) = self.text.split_at(end);
        self.text = rest;
        part
    }

    /// Passes spaces and a comment.
    fn gap(&mut self) {
        self.take(|c| c == ' ' || c == '\t');
        if self.eat("#") {
            self.take(|c| c != '\n');
        }
    }

    /// Passes lines without anything.
    fn blanks(&mut self) {
        self.gap();
        while self.eat("\n") || self.eat("\r\n") {
            self.gap();
        }
    }

    fn line_end(&mut self) -> Option<()> {
        self.gap();
        (self.text.is_empty() || self.text.starts_with(['\n', '\r'])).then_some(())
    }

    /// A word of a key or a number.
    fn word(&mut self) -> &'a str {
        self.take(|c| c.is_ascii_alphanumeric() || c == '_' || c == '-')
    }

    fn key(&mut self) -> Option<String> {
        self.gap();
        let word = self.word();
        self.gap();
        (!word.is_empty()).then(|| word.to_string())
    }

    fn pair(&mut self) -> Option<(String, Value)> {
        let key = self.key()?;
        self.eat("=").then_some(())?;
        self.gap();
        Some((key, self.value()?))
    }

    fn value(&mut self) -> Option<Value> {
        if self.eat("\"") {
            let text = self.take(|c| c != '"' && c != '\\' && c != '\n');
            self.eat("\"").then(|| Value::Text(text.to_string()))
        } else if self.eat("[") {
            let mut items = Vec::new();
            self.listed("]", |reader| {
                items.push(reader.value()?);
                Some(())
            })?;
            Some(Value::Array(items))
        } else if self.eat("{") {
            let mut table = Table::new();
            self.listed("}", |reader| {
                let (key, value) = reader.pair()?;
                table.insert(key, value).is_none().then_some(())
            })?;
            Some(Value::Table(table))
        } else {
            integer(self.word()).map(Value::Integer)
        }
    }

    /// Reads items with commas between them, up to the end of a list.
    fn listed(
        &mut self,
        end: &str,
        mut item: impl FnMut(&mut Reader<'a>) -> Option<()>,
    ) -> Option<()> {
        self.blanks();
        while !self.eat(end) {
            item(self)?;
            self.blanks();
            if !self.eat(",") {
                return self.eat(end).then_some(());
            }
            self.blanks();
        }
        Some(())
    }
}

/// A whole number in decimal or hexadecimal digits.
fn integer(word: &str) -> Option<i64> {
    let digits = word.replace('_', "");
    match digits.strip_prefix("0x") {
        Some(digits) => i64::from_str_radix(digits, 16).ok(),
        None => digits.parse().ok(),
    }
}
