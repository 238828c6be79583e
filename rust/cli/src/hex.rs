//! `vantorel hex`: a Universal Hex file read for one board.

use crate::args::{Args, Opt};
use crate::json::Json;
use crate::number::count;
use crate::out::Out;
use crate::{files, names, End, Outcome, Trouble};
use proved::hex::{Board, HexAnswer, Reader, State};
use std::collections::BTreeMap;
use tools::{JoinRefusal, HEX_FILE_BYTES};

/// Its page of help.
pub const HELP: &str = "\
vantorel hex FILE.hex --board v1|v2 [--bytes N] [--image OUT] [-v] [--json]

Reads a Universal Hex file line by line for one board, and says where it fails,
with the line and the position of a bad digit. Data of this board that lies
outside of the image is left out though the file is read to its end: then the
image is not whole, and this says so.

  --board v1|v2  whose data is read: micro:bit V1 or V2
  --bytes N      the image's length, from 1 to 1M; 256K for v1 and 512K for v2
                 where none is said
  --image OUT    writes the image, with 0xFF where the file stores nothing; not
                 where the file fails
  -v             a line for each line of the file too: its number and the answer
  --json         the same for scripts

Exit status 0 where the file was read to its end and nothing was left out, 1
where not, 2 for a wrong command line or a file that cannot be read or written.

    vantorel hex micropython.hex --board v2 --image v2.bin

";

/// Its options.
pub const OPTIONS: &[Opt] = &[
    Opt::Value("--board"),
    Opt::Value("--bytes"),
    Opt::Output("--image"),
    Opt::Flag("-v"),
    Opt::Flag("--json"),
];

/// Records that were left out and get a line each; the others are counted.
const LISTED: usize = 5;

/// A line that was left out: its number from 1, and where its data would stand.
struct Left {
    line: u64,
    address: Option<u64>,
}

impl Left {
    /// What an address is that no image of the chip's flash has.
    fn region(&self) -> Option<&'static str> {
        match self.address? {
            0x1000_1000..0x1000_2000 => {
                Some("UICR, the chip's own settings, which no image of its flash has")
            }
            0x1000_0000..0x1000_1000 => {
                Some("FICR, what the chip says of itself, which no image of its flash has")
            }
            x if x >= proved::hex::IMAGE_MAX_BYTES as u64 => {
                Some("which no image of the chip's flash has")
            }
            _ => None,
        }
    }
}

/// What came of a file.
struct Read {
    answers: Vec<HexAnswer>,
    left: Vec<Left>,
    image: Vec<u8>,
    ended: bool,
    /// It failed, and it is a plain Intel Hex file.
    plain: bool,
}

impl Read {
    /// The line that failed, from 1, and its answer.
    fn failed(&self) -> Option<(u64, HexAnswer)> {
        let last = *self.answers.last()?;
        last.is_failure()
            .then_some((self.answers.len() as u64, last))
    }

    fn whole(&self) -> bool {
        self.ended && self.left.is_empty()
    }

    /// How many lines had each answer, by its number.
    fn counts(&self) -> BTreeMap<u8, (HexAnswer, u64)> {
        let mut counts = BTreeMap::new();
        for answer in &self.answers {
            counts.entry(answer.number()).or_insert((*answer, 0)).1 += 1;
        }
        counts
    }
}

/// The address of a data record that the reader found good, for a text.
fn address(reader: &Reader, line: &[u8]) -> Option<u64> {
    let digits = std::str::from_utf8(line.get(3..7)?).ok()?;
    let field = u64::from_str_radix(digits, 16).ok()?;
    Some((u64::from(reader.upper) << 16) + field)
}

/// Reads the lines until one fails.
fn read(file: &[u8], board: Board, len: usize) -> Read {
    let mut reader = Reader::new(board);
    let mut read = Read {
        answers: Vec::new(),
        left: Vec::new(),
        image: vec![0xFF; len],
        ended: false,
        plain: false,
    };
    for line in file.split_inclusive(|&c| c == b'\n') {
        let answer = reader.line(line, &mut read.image);
        read.answers.push(answer);
        if answer == HexAnswer::Outside {
            read.left.push(Left {
                line: read.answers.len() as u64,
                address: address(&reader, line),
            });
        }
        if answer.is_failure() {
            read.plain = is_plain(file);
            return read;
        }
    }
    read.ended = reader.state == State::Ended;
    read
}

/// Whether a file is a plain Intel Hex file, as the proved joiner has it.
fn is_plain(file: &[u8]) -> bool {
    let mut output = vec![0; HEX_FILE_BYTES];
    let joined = tools::join(file, file, &mut output);
    matches!(joined, Ok(_) | Err(JoinRefusal::OutputTooLong))
}

fn board(args: &Args) -> Result<Board, Trouble> {
    match args.needed("--board", "v1 or v2")? {
        "v1" | "V1" => Ok(Board::V1),
        "v2" | "V2" => Ok(Board::V2),
        name => args.wrong(format!("--board is v1 or v2, and not '{name}'")),
    }
}

fn len(args: &Args, board: Board) -> Result<usize, Trouble> {
    let len = match args.number("--bytes")? {
        Some(len) => usize::try_from(len).unwrap_or(usize::MAX),
        None if board == Board::V1 => 262_144,
        None => 524_288,
    };
    if len == 0 || len > proved::hex::IMAGE_MAX_BYTES {
        return args.wrong("--bytes wants a number from 1 to 1M");
    }
    Ok(len)
}

/// Runs the command.
pub fn run(args: &Args, out: &mut Out) -> Outcome {
    let board = board(args)?;
    let len = len(args, board)?;
    let [name] = args.files(["FILE.hex"])?;
    let image = args.value("--image");
    let read = read(&files::read(name)?, board, len);
    let image = image.filter(|_| read.ended);
    if let Some(image) = image {
        files::write(image, &read.image)?;
    }
    if args.flag("--json") {
        out.line(json(name, board, &read, args.flag("-v")));
    } else {
        if args.flag("-v") {
            for (k, answer) in (1..).zip(&read.answers) {
                out.line(format_args!("line {k}: {}", names::line(*answer)));
            }
        }
        words(name, board, &read, image, out);
    }
    Ok(if read.whole() { End::Whole } else { End::Short })
}

fn words(name: &str, board: Board, read: &Read, image: Option<&str>, out: &mut Out) {
    out.line(format_args!(
        "{}: {} for board {board:?}, an image of {} bytes",
        files::short(name),
        count(read.answers.len() as u64, "line"),
        read.image.len()
    ));
    for (answer, n) in read.counts().values() {
        let name = format!("{} {}", answer.number(), names::line_name(*answer));
        let place = match answer {
            HexAnswer::BadDigit(position) => format!("at position {position}: "),
            _ => String::new(),
        };
        let meaning = names::line_meaning(*answer);
        out.line(format_args!("  {name:16}{n:7}  {place}{meaning}"));
    }
    for left in read.left.iter().take(LISTED) {
        let at = match (left.address, left.region()) {
            (Some(address), Some(region)) => {
                format!(", for address 0x{address:08x}: {region}")
            }
            (Some(address), None) => format!(", for address 0x{address:08x}"),
            (None, _) => String::new(),
        };
        out.line(format_args!("left out: line {}{at}", left.line));
    }
    if read.left.len() > LISTED {
        out.line(format_args!(
            "left out: and {} more",
            read.left.len() - LISTED
        ));
    }
    if let Some(image) = image {
        out.line(format_args!("written: {image}, the image as it is now"));
    }
    out.verdict(verdict(read), read.whole());
}

/// The last sentence: whether the image is whole.
fn verdict(read: &Read) -> String {
    const BEWARE: &str = "There is no image to flash.";
    const PLAIN: &str = " This is a plain Intel Hex file, of one board: `vantorel join V1.hex V2.hex -o OUT.hex` makes a Universal Hex file of two.";
    match (read.failed(), read.left.len()) {
        (Some((line, answer)), _) => format!(
            "NOT WHOLE: line {line} failed, {}: {}. {BEWARE}{}",
            names::line(answer),
            names::line_meaning(answer),
            if read.plain { PLAIN } else { "" }
        ),
        (None, _) if !read.ended => {
            format!("NOT WHOLE: the file stops before its end record. {BEWARE}")
        }
        (None, 0) => "WHOLE: the file was read to its end, and nothing was left out.".into(),
        (None, n) => format!(
            "NOT WHOLE: the file was read to its end, but {} for this board {} left out, outside of the image{}.",
            count(n as u64, "record"),
            if n == 1 { "was" } else { "were" },
            match read.left.iter().filter(|left| left.region().is_some()).count() {
                0 => String::new(),
                k if k == n => "; no image of the chip's flash has such addresses".into(),
                k => format!("; of {k} of them no image of the chip's flash has the address"),
            }
        ),
    }
}

/// Each line with its answer, where it was asked for.
fn takes(read: &Read, each: bool) -> Option<Json> {
    let takes = (1u64..).zip(&read.answers).map(|(line, answer)| {
        Json::Object(vec![
            ("line", line.into()),
            ("answer", u32::from(answer.number()).into()),
            ("name", names::line_name(*answer).into()),
        ])
    });
    each.then(|| Json::list(takes))
}

fn json(name: &str, board: Board, read: &Read, each: bool) -> Json {
    let answers = read.counts().into_values().map(|(answer, n)| {
        Json::Object(vec![
            ("answer", u32::from(answer.number()).into()),
            ("name", names::line_name(answer).into()),
            ("count", n.into()),
        ])
    });
    let failed = read.failed().map(|(line, answer)| {
        let digit = answer.number() == 22;
        Json::Object(vec![
            ("line", line.into()),
            ("answer", u32::from(answer.number()).into()),
            ("name", names::line_name(answer).into()),
            (
                "position",
                digit.then(|| u32::from(answer.position())).into(),
            ),
        ])
    });
    let left = read.left.iter().map(|left| {
        Json::Object(vec![
            ("line", left.line.into()),
            ("address", left.address.into()),
            ("region", left.region().into()),
        ])
    });
    Json::Object(vec![
        ("file", name.into()),
        ("board", format!("{board:?}").into()),
        ("image_bytes", read.image.len().into()),
        ("lines", read.answers.len().into()),
        ("answers", Json::list(answers)),
        ("left_out", Json::list(left)),
        ("failed", failed.into()),
        ("ended", read.ended.into()),
        ("whole", read.whole().into()),
        ("plain", read.plain.into()),
        ("takes", takes(read, each).into()),
        ("verdict", verdict(read).into()),
    ])
}
