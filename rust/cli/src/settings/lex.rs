//! The lines of a text: headers, and keys with values.

use super::Fault;

/// What a line says.
#[derive(Clone, PartialEq, Eq, Debug)]
pub enum Item {
    /// `[[partition]]`.
    Partition,
    /// `key = value`.
    Pair(String, Value),
}

/// A value.
#[derive(Clone, PartialEq, Eq, Debug)]
pub enum Value {
    /// `true` or `false`.
    Flag(bool),
    /// 4096, 1_000 or 0x1000.
    Number(u64),
    /// A text between double quotes.
    Text(String),
    /// Texts and numbers between brackets, on one line.
    List(Vec<Value>),
}

impl Value {
    /// What kind of value it is, for a sentence.
    pub fn kind(&self) -> &'static str {
        match self {
            Value::Flag(_) => "true or false",
            Value::Number(_) => "a number",
            Value::Text(_) => "a text",
            Value::List(_) => "a list",
        }
    }
}

/// The items of a text, each with its line, and what is wrong.
pub fn items(bytes: &[u8]) -> (Vec<(usize, Item)>, Vec<Fault>) {
    let (mut items, mut faults) = (Vec::new(), Vec::new());
    // some editors begin a text with this mark
    let bytes = bytes.strip_prefix(b"\xEF\xBB\xBF").unwrap_or(bytes);
    for (k, line) in (1..).zip(bytes.split(|&c| c == b'\n')) {
        let item = match std::str::from_utf8(line) {
            Ok(line) => item(without_comment(line).trim()),
            Err(_) => Err("it is not text in UTF-8".into()),
        };
        match item {
            Ok(Some(item)) => items.push((k, item)),
            Ok(None) => {}
            Err(why) => faults.push(Fault { line: k, why }),
        }
    }
    (items, faults)
}

/// A part of a text as a sentence quotes it: what no terminal should get is escaped, and what is long is cut.
pub fn quoted(text: &str) -> String {
    const MOST: usize = 60;
    let shown = text.chars().take(MOST);
    let shown: String = shown
        .map(|c| match c.is_control() {
            true => c.escape_default().to_string(),
            false => c.to_string(),
        })
        .collect();
    match text.chars().nth(MOST) {
        Some(_) => format!("{shown}.."),
        None => shown,
    }
}

/// A line without what follows a # outside of quotes.
fn without_comment(line: &str) -> &str {
    let mut quoted = false;
    for (k, c) in line.char_indices() {
        match c {
            '"' => quoted = !quoted,
            '#' if !quoted => return &line[..k],
            _ => {}
        }
    }
    line
}

fn item(line: &str) -> Result<Option<Item>, String> {
    if line.is_empty() {
        return Ok(None);
    }
    if let Some(rest) = line.strip_prefix('[') {
        let name = rest.strip_prefix('[').and_then(|x| x.strip_suffix("]]"));
        return match name.map(str::trim) {
            Some("partition") => Ok(Some(Item::Partition)),
            _ => Err(format!(
                "'{}' is no header; the only one is [[partition]]",
                quoted(line)
            )),
        };
    }
    let Some((key, text)) = line.split_once('=') else {
        return Err(format!(
            "'{}' is neither key = value nor [[partition]]",
            quoted(line)
        ));
    };
    let key = key.trim();
    let good = |c: char| c.is_ascii_alphanumeric() || c == '-' || c == '_';
    if key.is_empty() || !key.chars().all(good) {
        return Err(format!("'{}' is no key", quoted(key)));
    }
    Ok(Some(Item::Pair(key.into(), value(text.trim())?)))
}

fn value(text: &str) -> Result<Value, String> {
    match text.strip_prefix('[') {
        None => single(text),
        Some(rest) => match rest.strip_suffix(']') {
            Some(inner) => list(inner),
            None => Err("a list ends with ] on the same line".into()),
        },
    }
}

fn list(inner: &str) -> Result<Value, String> {
    let mut parts: Vec<&str> = inner.split(',').map(str::trim).collect();
    // a comma may stand after the last one, and nothing at all in an empty list
    if parts.last() == Some(&"") {
        parts.pop();
    }
    let values: Result<Vec<Value>, String> = parts.into_iter().map(single).collect();
    Ok(Value::List(values?))
}

fn single(text: &str) -> Result<Value, String> {
    match text {
        "true" => return Ok(Value::Flag(true)),
        "false" => return Ok(Value::Flag(false)),
        "" => return Err("a value is missing".into()),
        _ => {}
    }
    if let Some(rest) = text.strip_prefix('"') {
        return match rest.strip_suffix('"') {
            Some(inner) if !inner.contains(['"', '\\']) => Ok(Value::Text(inner.into())),
            _ => Err(format!("{} is no text between double quotes", quoted(text))),
        };
    }
    number(text).map(Value::Number).ok_or_else(|| {
        format!("'{}' is no value: a value is true, false, a number such as 64 or 0x40, a text between double quotes, or a list of these in [ ]", quoted(text))
    })
}

/// A whole number as TOML has it, without a sign: decimal, or hex after 0x, with _ between digits.
fn number(text: &str) -> Option<u64> {
    let (digits, radix) = match text.strip_prefix("0x") {
        Some(digits) => (digits, 16),
        None => (text, 10),
    };
    let lone = digits.starts_with('_') || digits.ends_with('_') || digits.contains("__");
    let leading = radix == 10 && digits.len() > 1 && digits.starts_with('0');
    if lone || leading || !digits.chars().all(|c| c == '_' || c.is_digit(radix)) {
        return None;
    }
    u64::from_str_radix(&digits.replace('_', ""), radix).ok()
}
