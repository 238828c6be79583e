//! The words of answers, causes and refusals: those of words/answers.tsv, which says them once for the tool, the page, the headers and README.

use std::sync::OnceLock;

const TEXT: &str = include_str!("../words/answers.tsv");

/// A row: what it is called, and its words.
pub struct Row {
    table: &'static str,
    number: &'static str,
    /// The answer's name, or the constant of a header.
    pub name: &'static str,
    /// The sentence, without its capital letter and its full stop.
    pub words: &'static str,
}

fn rows() -> &'static [Row] {
    static ROWS: OnceLock<Vec<Row>> = OnceLock::new();
    ROWS.get_or_init(|| {
        let lines = TEXT.lines().filter(|line| !line.starts_with('#')).skip(1);
        let of = |line: &'static str| {
            let mut columns = line.split('\t');
            let mut next = || columns.next().unwrap_or_default();
            let (table, number, name, _told, words) = (next(), next(), next(), next(), next());
            Row {
                table,
                number,
                name,
                words,
            }
        };
        lines.map(of).collect()
    })
}

/// The row of a number in a table, where it has one.
pub fn row(table: &str, number: &str) -> Option<&'static Row> {
    rows()
        .iter()
        .find(|row| row.table == table && row.number == number)
}

/// The words of a number in a table. A number that the table lacks is named as one.
pub fn words(table: &str, number: impl ToString) -> &'static str {
    row(table, &number.to_string()).map_or(
        "NO WORDS: the tool and its library are not of the same version",
        |row| row.words,
    )
}

#[cfg(test)]
mod tests {
    use super::*;
    use proved::hex::HexAnswer;
    use proved::Answer;
    use std::collections::HashSet;
    use tools::check::Checked;
    use tools::report::FiguresRefusal;
    use tools::{MakeRefusal, PlainRefusal};

    /// Every line has five columns, no number stands twice in a table, and nothing but a name and what is told may be empty.
    #[test]
    fn rows_of_five() {
        let lines = TEXT.lines().filter(|line| !line.starts_with('#'));
        let lines: Vec<Vec<&str>> = lines.map(|line| line.split('\t').collect()).collect();
        assert_eq!(lines[0], ["table", "number", "name", "told", "words"]);
        let keys: HashSet<_> = rows().iter().map(|row| (row.table, row.number)).collect();
        assert_eq!(keys.len(), lines.len() - 1);
        for line in &lines {
            assert_eq!(line.len(), 5, "{line:?}");
            assert!(!line[0].is_empty() && !line[1].is_empty() && !line[4].is_empty());
            assert!(!line[4].ends_with('.'), "{line:?}");
        }
    }

    fn named(table: &str, number: u32, name: &str) {
        let row = row(table, &number.to_string());
        assert_eq!(row.map(|row| row.name), Some(name), "{table} {number}");
    }

    /// The names are those of the library's answers.
    #[test]
    fn names_of_the_library() {
        for answer in (1..=17).filter_map(Answer::from_number) {
            named("answer", answer.number().into(), &format!("{answer:?}"));
            assert_eq!(answer.to_string(), words("answer", answer.number()));
        }
        let lines = [
            HexAnswer::BadReader,
            HexAnswer::BadImage,
            HexAnswer::NoColon,
            HexAnswer::BadShape,
            HexAnswer::TooLong,
            HexAnswer::BadLength,
            HexAnswer::BadSum,
            HexAnswer::OutOfPlace,
            HexAnswer::Unaligned,
            HexAnswer::Repeated,
            HexAnswer::Crosses,
            HexAnswer::MissingBoard,
            HexAnswer::AfterEnd,
            HexAnswer::Outside,
            HexAnswer::Stored,
            HexAnswer::Passed,
            HexAnswer::Ended,
            HexAnswer::FileTooLong,
        ];
        for answer in lines {
            named("line", answer.number().into(), &format!("{answer:?}"));
            assert_eq!(answer.to_string(), words("line", answer.number()));
        }
        named("line", HexAnswer::BadDigit(1).number().into(), "BadDigit");
        for refusal in [
            MakeRefusal::BadImage,
            MakeRefusal::BadStart,
            MakeRefusal::PastWindow,
            MakeRefusal::ShortOutput,
        ] {
            named("make", refusal.number(), &format!("{refusal:?}"));
            assert_eq!(refusal.to_string(), words("make", refusal.number()));
        }
        for refusal in [FiguresRefusal::TooMany, FiguresRefusal::BadReport] {
            named("figures", refusal.number().into(), &format!("{refusal:?}"));
            assert_eq!(refusal.to_string(), words("figures", refusal.number()));
        }
        named("join", PlainRefusal::NoData.number().into(), "MissingBoard");
        for (found, name) in [
            (Checked::Valid, "Valid"),
            (Checked::Ragged, "Ragged"),
            (Checked::Empty, "Empty"),
            (Checked::OtherFamily(1), "OtherFamily"),
            (Checked::OtherTotal(1), "OtherTotal"),
            (Checked::OtherKind(1), "OtherKind"),
            (Checked::SameNumber(1, 0), "SameNumber"),
            (Checked::Overlap(1, 0), "Overlap"),
            (Checked::Missing(1), "Missing"),
            (Checked::Guarded(1), "Guarded"),
        ] {
            named("check", found.number(), name);
        }
    }

    /// What the Rust crate says of a refusal is what the table says.
    #[test]
    fn words_of_the_library() {
        use proved::{store, tags};
        for refusal in [
            store::Refusal::BadBuffers,
            store::Refusal::BadSettings,
            store::Refusal::BadVersion,
            store::Refusal::BadLength,
            store::Refusal::BadBits,
        ] {
            named("store", refusal.number().into(), &format!("{refusal:?}"));
            assert_eq!(refusal.to_string(), words("store", refusal.number()));
        }
        for refusal in [
            tags::Refusal::BadLength,
            tags::Refusal::BadPlace,
            tags::Refusal::NotBlock,
            tags::Refusal::BadPayload,
            tags::Refusal::ShortTag,
            tags::Refusal::TypedEnd,
            tags::Refusal::PastRoom,
            tags::Refusal::NoRoom,
        ] {
            named("tag", refusal.number().into(), &format!("{refusal:?}"));
            assert_eq!(refusal.to_string(), words("tag", refusal.number()));
        }
    }

    #[test]
    fn no_silent_default() {
        assert!(words("answer", 6).starts_with("NO WORDS"));
        assert!(words("nothing", 1).starts_with("NO WORDS"));
    }
}
