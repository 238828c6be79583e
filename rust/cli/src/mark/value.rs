//! JSON read: what this tool writes, and teaching/mistakes.json.

/// A value.
#[derive(Clone, PartialEq, Debug)]
pub enum Value {
    Null,
    Flag(bool),
    Number(f64),
    Text(String),
    List(Vec<Value>),
    Object(Vec<(String, Value)>),
}

impl Value {
    /// The value of a text; none where it is no JSON.
    pub fn parse(text: &str) -> Option<Value> {
        let mut rest = Rest(text.trim_end().as_bytes());
        let value = rest.value(0)?;
        rest.0.is_empty().then_some(value)
    }

    /// A field of an object.
    pub fn field(&self, name: &str) -> Option<&Value> {
        let Value::Object(fields) = self else {
            return None;
        };
        let (_, value) = fields.iter().find(|(field, _)| field == name)?;
        Some(value)
    }

    /// A text.
    pub fn text(&self) -> Option<&str> {
        match self {
            Value::Text(text) => Some(text),
            _ => None,
        }
    }

    /// A list.
    pub fn list(&self) -> Option<&[Value]> {
        match self {
            Value::List(values) => Some(values),
            _ => None,
        }
    }
}

/// The deepest that values stand in each other.
const DEEPEST: u32 = 100;

/// What is left to read.
struct Rest<'a>(&'a [u8]);

impl Rest<'_> {
    fn space(&mut self) {
        self.0 = self.0.trim_ascii_start();
    }

    fn take(&mut self, word: &str) -> Option<()> {
        self.space();
        self.0 = self.0.strip_prefix(word.as_bytes())?;
        Some(())
    }

    fn value(&mut self, depth: u32) -> Option<Value> {
        self.space();
        if depth > DEEPEST {
            return None;
        }
        match self.0.first()? {
            b'n' => self.take("null").map(|()| Value::Null),
            b't' => self.take("true").map(|()| Value::Flag(true)),
            b'f' => self.take("false").map(|()| Value::Flag(false)),
            b'"' => self.text().map(Value::Text),
            b'[' => self.list(depth),
            b'{' => self.object(depth),
            _ => self.number(),
        }
    }

    fn number(&mut self) -> Option<Value> {
        let digit = |c: &u8| c.is_ascii_digit() || b"+-.eE".contains(c);
        let end = self
            .0
            .iter()
            .position(|c| !digit(c))
            .unwrap_or(self.0.len());
        let (digits, rest) = self.0.split_at(end);
        self.0 = rest;
        std::str::from_utf8(digits)
            .ok()?
            .parse()
            .ok()
            .map(Value::Number)
    }

    fn text(&mut self) -> Option<String> {
        self.take("\"")?;
        let mut bytes = Vec::new();
        loop {
            let (first, rest) = self.0.split_first()?;
            self.0 = rest;
            match first {
                b'"' => return String::from_utf8(bytes).ok(),
                b'\\' => {
                    let c = self.escaped()?;
                    bytes.extend_from_slice(c.encode_utf8(&mut [0; 4]).as_bytes());
                }
                byte => bytes.push(*byte),
            }
        }
    }

    fn escaped(&mut self) -> Option<char> {
        let (first, rest) = self.0.split_first()?;
        self.0 = rest;
        Some(match first {
            b'n' => '\n',
            b't' => '\t',
            b'r' => '\r',
            b'u' => {
                let digits = std::str::from_utf8(self.0.get(..4)?).ok()?;
                let code = u32::from_str_radix(digits, 16).ok()?;
                self.0 = &self.0[4..];
                char::from_u32(code).unwrap_or(char::REPLACEMENT_CHARACTER)
            }
            c => char::from(*c),
        })
    }

    fn list(&mut self, depth: u32) -> Option<Value> {
        self.take("[")?;
        let mut values = Vec::new();
        if self.take("]").is_some() {
            return Some(Value::List(values));
        }
        loop {
            values.push(self.value(depth + 1)?);
            if self.take("]").is_some() {
                return Some(Value::List(values));
            }
            self.take(",")?;
        }
    }

    fn object(&mut self, depth: u32) -> Option<Value> {
        self.take("{")?;
        let mut fields = Vec::new();
        if self.take("}").is_some() {
            return Some(Value::Object(fields));
        }
        loop {
            self.space();
            let name = self.text()?;
            self.take(":")?;
            fields.push((name, self.value(depth + 1)?));
            if self.take("}").is_some() {
                return Some(Value::Object(fields));
            }
            self.take(",")?;
        }
    }
}

#[cfg(test)]
mod tests {
    use super::*;

    #[test]
    fn read_back() {
        let text = "{\"a\": [1, null, true, \"b\\\"\\u0041\\n\"], \"c\": {}, \"d\": -2.5e1}\n";
        let value = Value::parse(text).expect("JSON");
        let list = value.field("a").and_then(Value::list).expect("a list");
        assert_eq!(list[0], Value::Number(1.0));
        assert_eq!(list[3].text(), Some("b\"A\n"));
        assert_eq!(value.field("d"), Some(&Value::Number(-25.0)));
        for bad in ["", "{", "[1,]", "{\"a\" 1}", "nul", "1 2", "\"a"] {
            assert_eq!(Value::parse(bad), None, "{bad}");
        }
        assert_eq!(Value::parse(&"[".repeat(1000)), None);
    }
}
