//! `vantorel tags`: the extension tags of each block that has any, and the firmware's version.

use crate::args::{Args, Opt};
use crate::block::{pieces, Block};
use crate::json::Json;
use crate::number::count;
use crate::out::Out;
use crate::{files, End, Outcome};
use proved::tags::{self, kind, Refusal, Tag, Tags};

/// Its page of help.
pub const HELP: &str = "\
vantorel tags FILE.uf2 [--json]

Lists the extension tags of each block that has any: the piece's place in the
file, the block's number, the tag's type, and its contents, as text where they
are text and else in hex; then the firmware's version.

  --json  the same for scripts

Exit status 0 where every piece of the file is a block whose tags can be read, 1
where one is not, 2 for a wrong command line or a file that cannot be read.

    vantorel tags display.uf2

";

/// Its options.
pub const OPTIONS: &[Opt] = &[Opt::Flag("--json")];

/// A tag or a refusal, and the piece of the file that it is in.
struct Found<'a> {
    piece: usize,
    block: Option<u32>,
    tag: Result<Tag<'a>, Refusal>,
}

fn type_name(number: u32) -> &'static str {
    match number {
        kind::VERSION => "version",
        kind::DEVICE => "device",
        kind::PAGE_SIZE => "page size",
        kind::SHA2 => "SHA-2",
        kind::DEVICE_TYPE => "device type",
        _ => "another type",
    }
}

/// Text as it stands, without the zeros that fill it up; none where the bytes are no text.
fn text(bytes: &[u8]) -> Option<&str> {
    let end = bytes.iter().rposition(|&b| b != 0).map_or(0, |k| k + 1);
    let text = std::str::from_utf8(&bytes[..end]).ok()?;
    (!text.is_empty() && !text.contains(char::is_control)).then_some(text)
}

/// The contents of a tag: a text, or the bytes in hex.
fn contents(tag: &Tag) -> String {
    let of_text = matches!(tag.kind, kind::VERSION | kind::DEVICE);
    match text(tag.contents) {
        Some(text) if of_text || text.len() > 4 => format!("{text:?}"),
        _ => hex(tag.contents),
    }
}

fn hex(bytes: &[u8]) -> String {
    let bytes: Vec<String> = bytes.iter().map(|b| format!("{b:02x}")).collect();
    bytes.join(" ")
}

impl Found<'_> {
    fn line(&self) -> String {
        let block = match self.block {
            Some(number) => format!("piece {}, block {number}", self.piece),
            None => format!("piece {}", self.piece),
        };
        match &self.tag {
            Ok(tag) => format!(
                "{block}: {} (0x{:06x}): {}",
                type_name(tag.kind),
                tag.kind,
                contents(tag)
            ),
            Err(why) => format!("{block}: {} {why:?}: {why}", why.number()),
        }
    }

    fn json(&self) -> Json {
        let mut fields = vec![("piece", self.piece.into()), ("block", self.block.into())];
        match &self.tag {
            Ok(tag) => fields.extend([
                ("type", tag.kind.into()),
                ("name", type_name(tag.kind).into()),
                ("text", text(tag.contents).into()),
                ("hex", hex(tag.contents).into()),
            ]),
            Err(why) => fields.extend([
                ("refusal", u32::from(why.number()).into()),
                ("name", format!("{why:?}").into()),
            ]),
        }
        Json::Object(fields)
    }
}

/// The tags of a file, and what is refused.
fn all(file: &[u8]) -> Vec<Found<'_>> {
    let mut found = Vec::new();
    for (piece, bytes) in pieces(file).enumerate() {
        let block = Block::read(bytes).map(|block| block.number);
        found.extend(Tags::new(bytes).map(|tag| Found { piece, block, tag }));
    }
    found
}

/// The versions that the blocks of a file name, each once, in the order of the file.
pub fn versions(file: &[u8]) -> Vec<String> {
    let mut versions = Vec::new();
    for piece in pieces(file) {
        if let Ok(Some(tag)) = tags::find(piece, kind::VERSION) {
            let version = text(tag.contents).map_or_else(|| hex(tag.contents), String::from);
            if !versions.contains(&version) {
                versions.push(version);
            }
        }
    }
    versions
}

/// The versions in words.
pub fn version_words(versions: &[String]) -> String {
    match versions {
        [] => "version: the file names none".into(),
        [version] => format!("version: {version}"),
        many => format!(
            "version: the file names {}: {}",
            many.len(),
            many.join(", ")
        ),
    }
}

/// What was found in a file.
struct Listed<'a> {
    name: &'a str,
    pieces: usize,
    found: Vec<Found<'a>>,
    versions: Vec<String>,
}

impl Listed<'_> {
    fn refused(&self) -> usize {
        self.found.iter().filter(|found| found.tag.is_err()).count()
    }

    fn whole(&self) -> bool {
        self.refused() == 0 && self.pieces > 0
    }

    fn words(&self, out: &mut Out) {
        for found in &self.found {
            out.line(found.line());
        }
        out.line(format_args!(
            "{}: {}, {}",
            files::short(self.name),
            count(self.pieces as u64, "piece"),
            count((self.found.len() - self.refused()) as u64, "tag")
        ));
        out.line(version_words(&self.versions));
        if self.pieces == 0 {
            out.verdict("NOT WHOLE: the file is empty.", false);
        } else if !self.whole() {
            let refused = count(self.refused() as u64, "piece");
            out.verdict(format_args!("NOT WHOLE: of {refused} the tags cannot be read, as said above. Get the file again."), false);
        }
    }

    fn json(&self) -> Json {
        let versions = self.versions.iter().map(String::as_str);
        Json::Object(vec![
            ("file", self.name.into()),
            ("pieces", self.pieces.into()),
            ("tags", Json::list(self.found.iter().map(Found::json))),
            ("versions", Json::list(versions)),
            ("refused", self.refused().into()),
            ("whole", self.whole().into()),
        ])
    }
}

/// Runs the command.
pub fn run(args: &Args, out: &mut Out) -> Outcome {
    let [name] = args.files(["FILE.uf2"])?;
    let file = files::read(name)?;
    let listed = Listed {
        name,
        pieces: pieces(&file).len(),
        found: all(&file),
        versions: versions(&file),
    };
    if args.flag("--json") {
        out.line(listed.json());
    } else {
        listed.words(out);
    }
    Ok(if listed.whole() {
        End::Whole
    } else {
        End::Short
    })
}
