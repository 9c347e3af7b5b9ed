//! Reads JSON.

use std::iter::Peekable;
use std::str::Chars;

/// A JSON value. Numbers are those of lines and columns.
#[derive(Clone, Debug, PartialEq)]
pub enum Value {
    Null,
    Bool(bool),
    Number(usize),
    Text(String),
    List(Vec<Value>),
    Object(Vec<(String, Value)>),
}

impl Value {
    /// The value of a text, or None if the text isn't JSON or has a number that isn't natural.
    pub fn of(text: &str) -> Option<Value> {
        let mut reader = Reader(text.chars().peekable());
        let value = reader.value()?;
        reader.blanks();
        reader.0.next().is_none().then_some(value)
    }

    /// The value of an object's key.
    pub fn get(&self, key: &str) -> Option<&Value> {
        match self {
            Value::Object(pairs) => pairs
                .iter()
                .find(|(name, _)| name == key)
                .map(|(_, value)| value),
            _ => None,
        }
    }

    /// The text of an object's key, or the empty text.
    pub fn text(&self, key: &str) -> String {
        match self.get(key) {
            Some(Value::Text(text)) => text.clone(),
            _ => String::new(),
        }
    }

    /// The number of an object's key, or 0.
    pub fn number(&self, key: &str) -> usize {
        match self.get(key) {
            Some(Value::Number(number)) => *number,
            _ => 0,
        }
    }

    /// The list of an object's key, or the empty list.
    pub fn list(&self, key: &str) -> &[Value] {
        match self.get(key) {
            Some(Value::List(values)) => values,
            _ => &[],
        }
    }

    /// The texts in the list of an object's key.
    pub fn texts(&self, key: &str) -> Vec<String> {
        self.list(key)
            .iter()
            .filter_map(|value| match value {
                Value::Text(text) => Some(text.clone()),
                _ => None,
            })
            .collect()
    }
}

// What is left of a text.
struct Reader<'a>(Peekable<Chars<'a>>);

impl Reader<'_> {
    fn blanks(&mut self) {
        while self.0.next_if(char::is_ascii_whitespace).is_some() {}
    }

    fn value(&mut self) -> Option<Value> {
        self.blanks();
        match self.0.peek()? {
            '{' => self.items('{', '}', Reader::pair).map(Value::Object),
            '[' => self.items('[', ']', Reader::value).map(Value::List),
            '"' => self.text().map(Value::Text),
            '0'..='9' => self.number(),
            _ => self.word(),
        }
    }

    // The items between these signs, with commas between them.
    fn items<T>(
        &mut self,
        open: char,
        close: char,
        item: fn(&mut Self) -> Option<T>,
    ) -> Option<Vec<T>> {
        let mut items = Vec::new();
        self.0.next_if_eq(&open)?;
        self.blanks();
        if self.0.next_if_eq(&close).is_some() {
            return Some(items);
        }
        loop {
            items.push(item(self)?);
            self.blanks();
            if self.0.next_if_eq(&close).is_some() {
                return Some(items);
            }
            self.0.next_if_eq(&',')?;
        }
    }

    fn pair(&mut self) -> Option<(String, Value)> {
        self.blanks();
        let key = self.text()?;
        self.blanks();
        self.0.next_if_eq(&':')?;
        Some((key, self.value()?))
    }

    fn number(&mut self) -> Option<Value> {
        let mut digits = String::new();
        while let Some(digit) = self.0.next_if(char::is_ascii_digit) {
            digits.push(digit);
        }
        digits.parse().ok().map(Value::Number)
    }

    fn word(&mut self) -> Option<Value> {
        let mut word = String::new();
        while let Some(letter) = self.0.next_if(char::is_ascii_lowercase) {
            word.push(letter);
        }
        match word.as_str() {
            "null" => Some(Value::Null),
            "true" => Some(Value::Bool(true)),
            "false" => Some(Value::Bool(false)),
            _ => None,
        }
    }

    fn text(&mut self) -> Option<String> {
        let mut text = String::new();
        self.0.next_if_eq(&'"')?;
        loop {
            match self.0.next()? {
                '"' => return Some(text),
                '\\' => text.push(self.escaped()?),
                plain => text.push(plain),
            }
        }
    }

    // The character of an escape, behind its backslash.
    fn escaped(&mut self) -> Option<char> {
        Some(match self.0.next()? {
            'n' => '\n',
            't' => '\t',
            'r' => '\r',
            'b' => '\u{8}',
            'f' => '\u{c}',
            'u' => return self.unicode(),
            same @ ('"' | '\\' | '/') => same,
            _ => return None,
        })
    }

    // The character of an escape by numbers: one, or two that make a pair.
    fn unicode(&mut self) -> Option<char> {
        let first = self.unit()?;
        if !(0xd800..0xdc00).contains(&first) {
            return char::from_u32(first);
        }
        self.0.next_if_eq(&'\\')?;
        self.0.next_if_eq(&'u')?;
        let second = self
            .unit()?
            .checked_sub(0xdc00)
            .filter(|low| *low < 0x400)?;
        char::from_u32(0x10000 + ((first - 0xd800) << 10) + second)
    }

    // A number of four hexadecimal digits.
    fn unit(&mut self) -> Option<u32> {
        let mut unit = 0;
        for _ in 0..4 {
            unit = unit * 16 + self.0.next()?.to_digit(16)?;
        }
        Some(unit)
    }
}

#[cfg(test)]
mod tests {
    use super::Value::{self, Bool, List, Null, Number, Object, Text};

    #[test]
    fn values() {
        let text = r#" {"a": [1, 20, []], "b": {"c": null, "d": true}, "e": {}} "#;
        let inner = Object(vec![("c".into(), Null), ("d".into(), Bool(true))]);
        let whole = Object(vec![
            (
                "a".into(),
                List(vec![Number(1), Number(20), List(Vec::new())]),
            ),
            ("b".into(), inner),
            ("e".into(), Object(Vec::new())),
        ]);
        assert_eq!(Value::of(text), Some(whole));
    }

    #[test]
    fn texts() {
        let text = r#""\"\\\/\n\t\r\b\f \u00e9 é \ud83d\ude00""#;
        let read = "\"\\/\n\t\r\u{8}\u{c} é é 😀";
        assert_eq!(Value::of(text), Some(Text(read.into())));
    }

    #[test]
    fn what_is_not_json() {
        for text in ["", "{", "[1,]", "{\"a\" 1}", "nul", "\"", "\"\\x\"", "1 2"] {
            assert_eq!(Value::of(text), None, "{text}");
        }
        assert_eq!(Value::of("\"\\ud83d\""), None);
    }
}
