//! The known mistakes in words: teaching/mistakes.json.

use super::value::Value;
use std::sync::OnceLock;

const TEXT: &str = include_str!("../../../../teaching/mistakes.json");

/// A known mistake in words.
#[derive(Clone, PartialEq, Eq, Debug)]
pub struct Known {
    pub id: String,
    /// "It counts arrivals".
    pub name: String,
    pub does: String,
    pub right: String,
    pub danger: String,
    /// The must-fail edit of the proved code that makes the same mistake, where there is one.
    pub edit: Option<String>,
    /// What turns that edit away.
    pub promise: Option<String>,
    /// The forms of hand-ins that can show it.
    pub forms: Vec<String>,
    /// The request that it needs.
    pub needs: Option<String>,
}

impl Known {
    /// Its name within a sentence.
    pub fn within(&self) -> String {
        let mut letters = self.name.chars();
        let first = letters.next().map(|c| c.to_lowercase().to_string());
        first.unwrap_or_default() + letters.as_str()
    }
}

/// All of them.
pub fn all() -> &'static [Known] {
    static ALL: OnceLock<Vec<Known>> = OnceLock::new();
    ALL.get_or_init(|| {
        read(TEXT).expect("teaching/mistakes.json is compiled in, and a test reads it")
    })
}

/// The one of an id.
pub fn of(id: &str) -> &'static Known {
    let found = all().iter().find(|known| known.id == id);
    found.expect("a test holds the switches to the file")
}

fn read(text: &str) -> Option<Vec<Known>> {
    let file = Value::parse(text)?;
    let each = file.field("mistakes")?.list()?.iter();
    let each = each.map(|x| {
        let text = |name: &str| x.field(name)?.text().map(String::from);
        Some(Known {
            id: text("id")?,
            name: text("name")?,
            does: text("does")?,
            right: text("right")?,
            danger: text("danger")?,
            edit: text("edit"),
            promise: text("promise"),
            forms: x
                .field("forms")?
                .list()?
                .iter()
                .filter_map(Value::text)
                .map(String::from)
                .collect(),
            needs: text("needs"),
        })
    });
    each.collect()
}

#[cfg(test)]
mod tests {
    use super::*;
    use crate::mark::{hex, mistakes};

    /// The switches are those of the file, in its order, and every sentence is one.
    #[test]
    fn switches_of_the_file() {
        let ids: Vec<&str> = all().iter().map(|known| known.id.as_str()).collect();
        let switches = mistakes::ALL.iter().map(|x| x.id());
        let switches: Vec<&str> = switches.chain(hex::ALL.iter().map(|x| x.id())).collect();
        assert_eq!(ids, switches);
        for known in all() {
            for sentence in [&known.does, &known.right, &known.danger] {
                assert!(sentence.ends_with('.'), "{sentence}");
            }
            assert!(!known.name.ends_with('.') && !known.forms.is_empty());
        }
    }
}
