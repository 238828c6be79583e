//! JSON written, for scripts.

use std::fmt::{self, Display, Formatter, Write};

/// A value.
pub enum Json {
    /// None.
    Null,
    /// True or false.
    Flag(bool),
    /// A number.
    Number(u64),
    /// A text.
    Text(String),
    /// A list.
    List(Vec<Json>),
    /// Fields with names, in this order.
    Object(Vec<(&'static str, Json)>),
}

impl From<bool> for Json {
    fn from(x: bool) -> Json {
        Json::Flag(x)
    }
}

impl From<u64> for Json {
    fn from(x: u64) -> Json {
        Json::Number(x)
    }
}

impl From<u32> for Json {
    fn from(x: u32) -> Json {
        Json::Number(x.into())
    }
}

impl From<usize> for Json {
    fn from(x: usize) -> Json {
        Json::Number(x as u64)
    }
}

impl From<&str> for Json {
    fn from(text: &str) -> Json {
        Json::Text(text.to_string())
    }
}

impl From<String> for Json {
    fn from(text: String) -> Json {
        Json::Text(text)
    }
}

impl<T: Into<Json>> From<Option<T>> for Json {
    fn from(value: Option<T>) -> Json {
        value.map_or(Json::Null, Into::into)
    }
}

impl Json {
    /// A list of what can be a value.
    pub fn list<T: Into<Json>>(values: impl IntoIterator<Item = T>) -> Json {
        Json::List(values.into_iter().map(Into::into).collect())
    }
}

impl Display for Json {
    fn fmt(&self, f: &mut Formatter) -> fmt::Result {
        match self {
            Json::Null => f.write_str("null"),
            Json::Flag(x) => write!(f, "{x}"),
            Json::Number(x) => write!(f, "{x}"),
            Json::Text(text) => put_text(text, f),
            Json::List(values) => put_list(values, f),
            Json::Object(fields) => put_object(fields, f),
        }
    }
}

fn put_text(text: &str, f: &mut Formatter) -> fmt::Result {
    f.write_char('"')?;
    for c in text.chars() {
        match c {
            '"' | '\\' => write!(f, "\\{c}")?,
            c if c.is_control() => write!(f, "\\u{:04x}", u32::from(c))?,
            c => f.write_char(c)?,
        }
    }
    f.write_char('"')
}

fn put_list(values: &[Json], f: &mut Formatter) -> fmt::Result {
    f.write_char('[')?;
    for (k, value) in values.iter().enumerate() {
        let comma = if k > 0 { ", " } else { "" };
        write!(f, "{comma}{value}")?;
    }
    f.write_char(']')
}

fn put_object(fields: &[(&'static str, Json)], f: &mut Formatter) -> fmt::Result {
    f.write_char('{')?;
    for (k, (name, value)) in fields.iter().enumerate() {
        f.write_str(if k > 0 { ", " } else { "" })?;
        put_text(name, f)?;
        write!(f, ": {value}")?;
    }
    f.write_char('}')
}

#[cfg(test)]
mod tests {
    use super::*;

    #[test]
    fn values() {
        let value = Json::Object(vec![
            ("none", Json::Null),
            ("flag", true.into()),
            ("number", u64::MAX.into()),
            ("text", "a\"b\\c\nd\u{7f}é".into()),
            ("list", Json::list([1u32, 2])),
            ("empty", Json::List(Vec::new())),
        ]);
        assert_eq!(
            value.to_string(),
            "{\"none\": null, \"flag\": true, \"number\": 18446744073709551615, \
             \"text\": \"a\\\"b\\\\c\\u000ad\\u007fé\", \"list\": [1, 2], \"empty\": []}"
        );
    }
}
