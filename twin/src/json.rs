//! A reader for as much JSON as the test data needs: numbers are whole and not
//! negative, and text has no surrogate pairs.

#[derive(Clone, Debug, PartialEq, Eq)]
pub enum Value {
    Null,
    Bool(bool),
    Number(u64),
    Text(String),
    List(Vec<Value>),
    Record(Vec<(String, Value)>),
}

impl Value {
    /// The entry of a record by its name.
    pub fn get(&self, name: &str) -> Option<&Value> {
        match self {
            Value::Record(entries) => {
                entries.iter().find(|(key, _)| key == name).map(|(_, value)| value)
            }
            _ => None,
        }
    }

    pub fn number(&self) -> Option<u64> {
        match self {
            Value::Number(number) => Some(*number),
            _ => None,
        }
    }

    pub fn text(&self) -> Option<&str> {
        match self {
            Value::Text(text) => Some(text),
            _ => None,
        }
    }

    pub fn list(&self) -> Option<&[Value]> {
        match self {
            Value::List(items) => Some(items),
            _ => None,
        }
    }
}

/// The value that a text holds, or the byte at which it is out of form.
pub fn parse(text: &str) -> Result<Value, usize> {
    let mut reader = Reader { text, at: 0 };
    match reader.value() {
        Some(value) if reader.peek().is_none() => Ok(value),
        _ => Err(reader.at),
    }
}

struct Reader<'a> {
    text: &'a str,
    at: usize,
}

impl<'a> Reader<'a> {
    fn rest(&self) -> &'a str {
        &self.text[self.at..]
    }

    /// The next character after white space.
    fn peek(&mut self) -> Option<char> {
        let rest = self.rest();
        self.at += rest.len() - rest.trim_start_matches([' ', '\t', '\n', '\r']).len();
        self.rest().chars().next()
    }

    fn accept(&mut self, word: &str) -> Option<()> {
        self.peek();
        self.rest().starts_with(word).then(|| self.at += word.len())
    }

    fn value(&mut self) -> Option<Value> {
        match self.peek()? {
            '{' => self.items("{", "}", Self::entry).map(Value::Record),
            '[' => self.items("[", "]", Self::value).map(Value::List),
            '"' => self.string().map(Value::Text),
            't' => self.accept("true").map(|()| Value::Bool(true)),
            'f' => self.accept("false").map(|()| Value::Bool(false)),
            'n' => self.accept("null").map(|()| Value::Null),
            _ => self.digits().map(Value::Number),
        }
    }

    fn items<T>(
        &mut self,
        open: &str,
        close: &str,
        item: fn(&mut Self) -> Option<T>,
    ) -> Option<Vec<T>> {
        self.accept(open)?;
        let mut items = Vec::new();
        if self.accept(close).is_some() {
            return Some(items);
        }
        loop {
            items.push(item(self)?);
            if self.accept(close).is_some() {
                return Some(items);
            }
            self.accept(",")?;
        }
    }

    fn entry(&mut self) -> Option<(String, Value)> {
        let name = self.string()?;
        self.accept(":")?;
        Some((name, self.value()?))
    }

    fn digits(&mut self) -> Option<u64> {
        let rest = self.rest();
        let end = rest.find(|c: char| !c.is_ascii_digit()).unwrap_or(rest.len());
        let number = rest[..end].parse().ok()?;
        self.at += end;
        Some(number)
    }

    fn string(&mut self) -> Option<String> {
        self.accept("\"")?;
        let mut text = String::new();
        loop {
            match self.next()? {
                '"' => return Some(text),
                '\\' => text.push(self.escaped()?),
                other => text.push(other),
            }
        }
    }

    fn escaped(&mut self) -> Option<char> {
        match self.next()? {
            'b' => Some('\u{8}'),
            'f' => Some('\u{c}'),
            'n' => Some('\n'),
            'r' => Some('\r'),
            't' => Some('\t'),
            'u' => {
                let code = u32::from_str_radix(self.rest().get(..4)?, 16).ok()?;
                self.at += 4;
                char::from_u32(code)
            }
            same @ ('"' | '\\' | '/') => Some(same),
            _ => None,
        }
    }

    fn next(&mut self) -> Option<char> {
        let next = self.rest().chars().next()?;
        self.at += next.len_utf8();
        Some(next)
    }
}

#[cfg(test)]
mod tests {
    use super::*;

    #[test]
    fn values() {
        let text = r#" {"a": [1, 23 ,{}], "b\n\u0041": null, "c": true, "d": [], "e": ""} "#;
        let value = parse(text).expect("in form");
        let list = value.get("a").and_then(Value::list).expect("a list");
        assert_eq!(list, [Value::Number(1), Value::Number(23), Value::Record(vec![])]);
        assert_eq!(value.get("b\nA"), Some(&Value::Null));
        assert_eq!(value.get("c"), Some(&Value::Bool(true)));
        assert_eq!(value.get("d"), Some(&Value::List(vec![])));
        assert_eq!(value.get("e").and_then(Value::text), Some(""));
        assert_eq!(value.get("f"), None);
    }

    #[test]
    fn out_of_form() {
        for text in ["", "[1", "[1,]", "{\"a\" 1}", "\"a", "\"\\x\"", "nul", "1 2", "-1", "[1]]"] {
            assert!(parse(text).is_err(), "{text}");
        }
    }
}
