//! words/answers.tsv: README's tables and the comments of the headers say its words.

use std::collections::BTreeMap;
use std::fs;
use std::path::Path;

/// A row of the table.
#[derive(Clone)]
struct Row {
    table: String,
    number: String,
    name: String,
    told: String,
    words: String,
}

fn text(name: &str) -> String {
    let root = Path::new(env!("CARGO_MANIFEST_DIR")).join("../..");
    fs::read_to_string(root.join(name)).expect(name)
}

fn rows(table: &str) -> Vec<Row> {
    let text = text("words/answers.tsv");
    let lines = text.lines().filter(|line| !line.starts_with('#')).skip(1);
    let rows = lines.map(|line| {
        let column: Vec<String> = line.split('\t').map(String::from).collect();
        let [table, number, name, told, words] = column.try_into().expect("five columns");
        Row {
            table,
            number,
            name,
            told,
            words,
        }
    });
    rows.filter(|row| row.table == table).collect()
}

/// Words with one space between them, and without the stars of a comment.
fn plain(text: &str) -> String {
    let words = text.split_whitespace().filter(|word| *word != "*");
    words.collect::<Vec<&str>>().join(" ")
}

/// The constants of an enum of a header: name, number and comment.
fn constants(header: &str, prefix: &str) -> BTreeMap<String, (String, String)> {
    let text = text(&format!("include/{header}"));
    let mut found = BTreeMap::new();
    for part in text.split(&format!("\n    {prefix}")).skip(1) {
        let (name, rest) = part.split_once(" = ").expect("a number");
        let number: String = rest.chars().take_while(char::is_ascii_digit).collect();
        let after = rest[number.len()..].trim_start_matches(',').trim_start();
        let comment = match after.strip_prefix("/*") {
            Some(comment) => plain(comment.split("*/").next().unwrap_or_default()),
            None => String::new(),
        };
        found.insert(format!("{prefix}{name}"), (number, comment));
    }
    found
}

/// BAD_BUFFERS of BadBuffers.
fn constant(name: &str) -> String {
    let mut text = String::new();
    for c in name.chars() {
        if c.is_uppercase() && !text.is_empty() {
            text.push('_');
        }
        text.push(c.to_ascii_uppercase());
    }
    text
}

/// Every row of a table is a constant of its number, whose comment begins with its words; and there is no other constant but those named.
fn held(table: &str, header: &str, prefix: &str, besides: &[&str]) {
    let mut constants = constants(header, prefix);
    for name in besides {
        assert!(
            constants.remove(&format!("{prefix}{name}")).is_some(),
            "{name}"
        );
    }
    for row in rows(table) {
        let name = match row.name.as_str() {
            "ShortTag" => "SHORT".into(),
            name => constant(name),
        };
        let name = format!("{prefix}{name}");
        let (number, comment) = constants.remove(&name).expect(&name);
        assert_eq!(number, row.number, "{name}");
        assert!(comment.starts_with(&row.words), "{name}: {comment}");
    }
    assert!(constants.is_empty(), "{constants:?}");
}

#[test]
fn comments_of_answers_and_refusals() {
    held("answer", "uf2_receiver.h", "UF2_ANSWER_", &[]);
    held("line", "uf2_receiver.h", "UHEX_ANSWER_", &[]);
    held("make", "uf2_tools.h", "UF2_MAKE_", &["DONE"]);
    held("figures", "uf2_tools.h", "UF2_FIGURES_", &[]);
    held("store", "uf2_store.h", "UF2_STORE_", &["DONE"]);
    held("tag", "uf2_tags.h", "UF2_TAG_", &["FOUND"]);
    let besides = ["BAD_BUFFERS", "BAD_SETTINGS"];
    held("check", "uf2_check.h", "UF2_CHECK_", &besides);
    let join = plain(&text("include/uf2_tools.h"));
    for row in rows("join") {
        let words = match row.number.split_once('.') {
            Some(_) => row.words.clone(),
            None => format!("{} {}", row.number, row.words),
        };
        assert!(join.contains(&words), "{words}");
    }
}

/// A cause's comment says which number is tested and what it is tested against.
#[test]
fn comments_of_causes() {
    let header = "uf2_why.h";
    let mut causes = constants(header, "UF2_CAUSE_");
    for row in rows("cause") {
        let (number, comment) = causes.remove(&row.name).expect(&row.name);
        assert_eq!(number, row.number, "{}", row.name);
        assert!(comment.starts_with(&row.told), "{}: {comment}", row.name);
    }
    assert!(causes.is_empty(), "{causes:?}");
    let places = constants(header, "UF2_PLACE_");
    for row in rows("place") {
        let (number, comment) = &places[&row.name];
        let (whole, _) = row.number.split_once('.').unwrap_or((&row.number, ""));
        assert_eq!(number, whole, "{}", row.name);
        assert!(comment.starts_with(&row.told), "{}: {comment}", row.name);
    }
    assert_eq!(places.len(), 3);
}

/// README's tables: number, name and when, twice in a row.
#[test]
fn tables_of_readme() {
    let page = text("README.md");
    let mut found = BTreeMap::new();
    for line in page.lines().filter(|line| line.starts_with("| ")) {
        let cells: Vec<&str> = line.split('|').map(str::trim).collect();
        for cell in cells[1..].chunks(3).filter(|cell| cell.len() == 3) {
            if let Ok(number) = cell[0].parse::<u32>() {
                found.insert(number, (cell[1], cell[2]));
            }
        }
    }
    let known = rows("answer").into_iter().skip(1).chain(rows("line"));
    let known: Vec<Row> = known.collect();
    assert_eq!(found.len(), known.len());
    for row in known {
        let number: u32 = row.number.parse().expect("a number");
        assert_eq!(found[&number], (row.name.as_str(), row.words.as_str()));
    }
}

/// What C says of every reason, which its own test holds to tests/c/words.out, is what Rust says.
#[test]
fn reasons_in_c() {
    use tools::why::Reason;
    let out = text("tests/c/words.out");
    let mut marks = [0; 16];
    (marks[0], marks[15]) = (1, 2);
    let mut passes = 1..;
    let mut lines = out.lines().peekable();
    let mut seen = std::collections::HashSet::new();
    while let Some(line) = lines.next().filter(|line| !line.ends_with(" causes")) {
        let (cause, sentence) = line.split_once(' ').expect(line);
        let cause: u32 = cause.parse().expect(line);
        let numbers = match cause {
            1 | 2 => (0, 0),
            3 => (passes.next().expect("a pass"), 0),
            _ if seen.insert(cause) => (4097, 8193),
            105 => (1, 0),
            802 => (0xe48b_ff56, 0),
            209 => (0xe48b_ff5b, 0xe48b_ff56),
            1104 => (u64::MAX, 0x2008_2000),
            _ if sentence.contains("main RAM") => (0x2000_0000, 0x1200_0000),
            _ if sentence.contains("XIP RAM") => (0x13ff_c000, 0x1200_0000),
            _ => (0x2008_2000, 0x1200_0000),
        };
        let reason = Reason {
            cause,
            got: numbers.0,
            against: numbers.1,
            entry: 3,
            other: 5,
            marks,
        };
        assert_eq!(reason.to_string(), sentence);
    }
    assert_eq!(seen.len(), rows("cause").len());
}

/// The tables of vantorel_words.h are those of words/answers.tsv, row by row; tools/words writes them.
#[test]
fn tables_in_c() {
    let header = text("include/vantorel_words.h");
    let found: Vec<&str> = header
        .lines()
        .filter_map(|line| line.strip_prefix("    X("))
        .map(|line| line.trim_end_matches(" \\").trim_end_matches(')'))
        .collect();
    let tables = [
        "answer", "line", "check", "make", "store", "tag", "figures", "cause",
    ];
    let known: Vec<Row> = tables.into_iter().flat_map(rows).collect();
    assert_eq!(found.len(), known.len());
    for (line, row) in found.into_iter().zip(known) {
        let texts: Vec<&str> = line.split('"').collect();
        assert!(line.starts_with(&format!("{}, ", row.number)), "{line}");
        assert_eq!(
            (texts[1], texts[3]),
            (row.name.as_str(), row.words.as_str())
        );
    }
}

/// The two things that have to be right before a call from C are said wherever it is said that nothing else has to.
#[test]
fn what_has_to_be_checked() {
    for page in ["README.md", "docs/CALLS.md"] {
        let text = plain(&text(page));
        let said =
            "nothing of them has to be checked before a call, in any language. In C two things do";
        let (_, after) = text.split_once(said).expect(page);
        assert!(
            after.contains(
                "no pointer is null, also of an empty slice, and a slice that is written"
            ),
            "{page}"
        );
        assert!(after.contains("overlaps no other of the call"), "{page}");
    }
    // the example for a board lends no array twice
    let text = text("docs/BOARD.md");
    let (_, call) = text.split_once("*result = uf2_accept(").expect("a call");
    let (call, _) = call.split_once(");").expect("its end");
    let lent: Vec<&str> = call.split(',').map(str::trim).collect();
    let rams = [lent[12], lent[14]];
    assert_eq!([lent[13], lent[15]], ["0", "0"]);
    assert_ne!(rams[0], rams[1]);
    // and the one before it, with vantorel.h, lends no slice by hand
    let (_, example) = text.split_once("```c\n").expect("an example");
    let (example, _) = example.split_once("```").expect("its end");
    assert!(example.contains("uf2_take_through(") && !example.contains("uf2_accept("));
}

/// Every header names the parameters of a call alike, and uf2_why.h has all that it cites.
#[test]
fn names_of_parameters() {
    for header in ["uf2_receiver.h", "uf2_tools.h", "uf2_why.h"] {
        let text = text(&format!("include/{header}"));
        for old in ["*main,", "*xip,", "main_len", "xip_len"] {
            assert!(!text.contains(old), "{header}: {old}");
        }
    }
    let why = text("include/uf2_why.h");
    assert!(why.contains("#include \"uf2_receiver.h\"") && why.contains("uint64_t uf2_get64("));
}
