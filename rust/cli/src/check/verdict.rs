//! Whether a file is valid for a board, in words and for scripts. The library decides; here are the words.

use crate::block::{need, pieces, Block};
use crate::board::{Board, Options};
use crate::json::Json;
use crate::number::count;
use crate::{families, names, reason, table, Trouble};
use proved::{Answer, Transfer, ARRIVAL_BYTES};
use std::collections::HashSet;
use tools::check::{check, Checked, Lens};

const PAGE_BYTES: u64 = 256;

/// What the check found, and what follows.
pub struct Verdict {
    found: Checked,
    /// What is wrong, with the pieces named; empty where nothing is.
    fault: String,
    /// What the file's own blocks are, where the rest changes nothing.
    part: Option<Part>,
    /// The number of the block that is named.
    block: Option<u32>,
}

/// Pieces of one family and total that are a valid file by themselves, beside what the board does not take.
struct Part {
    family: u32,
    blocks: usize,
    repeats: usize,
    others: usize,
    refusal: Option<Answer>,
}

/// The piece that is named, and the one that it collides with.
fn named_pieces(found: Checked) -> (Option<usize>, Option<usize>) {
    match found {
        Checked::Valid
        | Checked::BadBuffers
        | Checked::BadSettings
        | Checked::Ragged
        | Checked::Empty
        | Checked::Missing(_) => (None, None),
        Checked::Refused(i, _)
        | Checked::OtherFamily(i)
        | Checked::OtherTotal(i)
        | Checked::OtherKind(i)
        | Checked::Guarded(i) => (Some(i), None),
        Checked::SameNumber(i, j) | Checked::Overlap(i, j) => (Some(i), Some(j)),
    }
}

/// The number and the name of an answer that is given by its number.
fn answered(number: u8) -> String {
    Answer::from_number(number.into()).map_or_else(|| number.to_string(), names::answer)
}

fn lens(board: &Board) -> Lens {
    Lens {
        flash: board.flash.len(),
        main: board.main.len(),
        xip: board.xip.len(),
    }
}

fn check_of(file: &[u8], board: &Board) -> Checked {
    check(&board.settings.bytes(), file, lens(board))
}

/// A piece by its place in the file.
fn piece(file: &[u8], i: usize) -> &[u8] {
    pieces(file).nth(i).unwrap_or_default()
}

/// "piece 40 (block 40)", with what it holds where that is asked for.
fn named(file: &[u8], i: usize, with_address: bool) -> String {
    match Block::read(piece(file, i)) {
        None => format!("piece {i}"),
        Some(block) if block.is_comment() => {
            format!("piece {i} (block {}, a comment)", block.number)
        }
        Some(block) if with_address => {
            let from = u64::from(block.address);
            let to = from + PAGE_BYTES - 1;
            format!(
                "piece {i} (block {}, for 0x{from:08x} to 0x{to:08x})",
                block.number
            )
        }
        Some(block) => format!("piece {i} (block {})", block.number),
    }
}

/// The addresses that two pieces both hold.
fn shared(file: &[u8], i: usize, j: usize) -> String {
    let address = |k| Block::read(piece(file, k)).map_or(0, |block| u64::from(block.address));
    let (a, b) = (address(i), address(j));
    format!("0x{:08x} to 0x{:08x}", a.max(b), a.min(b) + PAGE_BYTES - 1)
}

/// Where the page of a block that is missing would go, if the file lies in one piece.
fn likely(file: &[u8], number: u32) -> String {
    let start = |block: &Block| {
        let before = u64::from(block.number) * PAGE_BYTES;
        u64::from(block.address).checked_sub(before)
    };
    let blocks = pieces(file).filter_map(Block::read);
    let starts: HashSet<_> = blocks
        .filter(|b| !b.is_comment())
        .map(|b| start(&b))
        .collect();
    match starts.iter().next() {
        Some(Some(from)) if starts.len() == 1 => {
            let at = from + u64::from(number) * PAGE_BYTES;
            format!(", which by its neighbours is for 0x{at:08x}")
        }
        _ => String::new(),
    }
}

/// Why the board refuses a piece, as `why` says it.
fn refusal(file: &[u8], board: &Board, i: usize, answer: u8) -> String {
    let why = board.reason(Transfer::Idle, piece(file, i));
    format!(
        "the board refuses {}: {}: {}",
        named(file, i, false),
        answered(answer),
        reason::of(&why)
    )
}

/// What is wrong with a file, with the pieces named.
fn fault(file: &[u8], board: &Board, found: Checked) -> String {
    const AGAIN: &str = "Get the file again.";
    let of = |i| Block::read(piece(file, i));
    match found {
        Checked::Valid | Checked::Guarded(_) => String::new(),
        Checked::BadBuffers => table::words("answer", 1).into(),
        Checked::BadSettings => table::words("answer", 2).into(),
        Checked::Ragged => format!(
            "the file has {} and {} more: it was cut off. {AGAIN}",
            count((file.len() / ARRIVAL_BYTES) as u64, "whole piece"),
            count((file.len() % ARRIVAL_BYTES) as u64, "byte")
        ),
        Checked::Empty => format!("the file has no block. {AGAIN}"),
        Checked::Refused(i, answer) => format!("{}.", refusal(file, board, i, answer)),
        Checked::OtherFamily(i) => {
            let family = |i| of(i).map_or(String::new(), |b| families::words(b.family));
            format!(
                "{} is of the family {}, and piece 0 of {}. The display takes one file at a time.",
                named(file, i, false),
                family(i),
                family(0)
            )
        }
        Checked::OtherTotal(i) => {
            let total = |i| of(i).map_or(0, |b| b.total);
            format!(
                "{} says that the file has {} blocks, and piece 0 says {}. {AGAIN}",
                named(file, i, false),
                total(i),
                total(0)
            )
        }
        Checked::OtherKind(i) => format!(
            "{} and {} are for different memories. {AGAIN}",
            named(file, i, true),
            named(file, 0, true)
        ),
        Checked::SameNumber(i, j) if piece(file, i) == piece(file, j) => {
            format!("{} is piece {j} once more.", named(file, i, false))
        }
        Checked::SameNumber(i, j) => format!(
            "{} and {} have one number. The display takes the one that comes first and drops the other, and is then told that the file is complete. Do not send it: get the file again.",
            named(file, i, true),
            named(file, j, true)
        ),
        Checked::Overlap(i, j) => format!(
            "{} and {} both hold {}. The display would be told that the file is complete, and one of the two pages would be lost. Do not send it: get the file again.",
            named(file, i, false),
            named(file, j, false),
            shared(file, i, j)
        ),
        Checked::Missing(k) => {
            let total = of(0).map_or(0, |b| b.total);
            format!(
                "{} of {total}; block {k} is the first that is missing{}. {AGAIN}",
                count((file.len() / ARRIVAL_BYTES) as u64, "piece"),
                likely(file, k as u32)
            )
        }
    }
}

/// The pieces of one family and total, each once, and how many were there more than once.
fn own(file: &[u8], family: u32, total: u32) -> (Vec<u8>, usize) {
    let mut seen = HashSet::new();
    let (mut bytes, mut repeats) = (Vec::new(), 0);
    let mine = |p: &&[u8]| {
        Block::read(p)
            .is_some_and(|b| b.flags & 0x2000 != 0 && b.family == family && b.total == total)
    };
    for p in pieces(file).filter(mine) {
        if seen.insert(p) {
            bytes.extend_from_slice(p);
        } else {
            repeats += 1;
        }
    }
    (bytes, repeats)
}

/// Every other piece is answered 4 to 11 by a board that receives nothing: how many there are, and the first answer. None where one is not.
fn foreign(
    file: &[u8],
    board: &mut Board,
    family: u32,
    total: u32,
) -> Option<(usize, Option<Answer>)> {
    let settings = board.settings.clone();
    let (mut n, mut first) = (0, None);
    for p in pieces(file) {
        let block = Block::read(p);
        if block.is_some_and(|b| b.flags & 0x2000 != 0 && b.family == family && b.total == total) {
            continue;
        }
        let answer = proved::look(&settings, Transfer::Idle, p, &board.buffers()).answer;
        if !(4..=11).contains(&answer.number()) {
            return None;
        }
        n += 1;
        first = first.or(Some(answer));
    }
    Some((n, first))
}

/// The largest part of a file that is a valid file by itself, where the rest changes nothing: repeats, and what the board does not take.
fn part(file: &[u8], board: &mut Board) -> Option<Part> {
    let mut groups: Vec<(u32, u32)> = Vec::new();
    for block in pieces(file).filter_map(Block::read) {
        let group = (block.family, block.total);
        if block.flags & 0x2000 != 0 && !groups.contains(&group) && groups.len() < 16 {
            groups.push(group);
        }
    }
    let parts = groups.into_iter().filter_map(|(family, total)| {
        let (bytes, repeats) = own(file, family, total);
        if !matches!(
            check_of(&bytes, board),
            Checked::Valid | Checked::Guarded(_)
        ) {
            return None;
        }
        let (others, refusal) = foreign(file, board, family, total)?;
        Some(Part {
            family,
            blocks: bytes.len() / ARRIVAL_BYTES,
            repeats,
            others,
            refusal,
        })
    });
    parts.max_by_key(|part| part.blocks)
}

impl Part {
    fn words(&self) -> String {
        let mut words = format!(
            "The {} of {} are a valid file",
            count(self.blocks as u64, "block"),
            families::words(self.family)
        );
        if self.repeats > 0 {
            let verb = if self.repeats == 1 {
                "changes"
            } else {
                "change"
            };
            let repeats = count(self.repeats as u64, "repeat");
            words += &format!(", with {repeats} that {verb} nothing");
        }
        if let Some(answer) = self.refusal {
            let verb = if self.others == 1 { "is" } else { "are" };
            words += &format!(
                "; {} {verb} refused by this board ({} first)",
                count(self.others as u64, "other piece"),
                names::answer(answer)
            );
        }
        words + ". Sent to this board, it ends as a valid file does."
    }
}

/// What makes a file of this family one that is valid for no board, where something does.
pub fn unfit(file: &[u8], family: u32) -> Result<Option<String>, Trouble> {
    let mut board = Options::widest().board(need(pieces(file)))?;
    if proved::ask(&board.settings, board.flash.len(), family).is_err()
        && family != proved::family::RP2040
    {
        board = Options::for_family(family, board.flash.len()).board(None)?;
    }
    let verdict = Verdict::of(file, &mut board);
    // A file with regions is valid too; `make` writes their digests itself.
    let sound = matches!(verdict.found, Checked::Valid | Checked::Guarded(_));
    Ok((!sound).then(|| verdict.line()))
}

impl Verdict {
    /// Checks a file for a board.
    pub fn of(file: &[u8], board: &mut Board) -> Verdict {
        let found = check_of(file, board);
        let sound = matches!(found, Checked::Valid | Checked::Guarded(_));
        let block = |i| Block::read(piece(file, i)).map(|block| block.number);
        let block = match found {
            Checked::Missing(k) => u32::try_from(k).ok(),
            _ => named_pieces(found).0.and_then(block),
        };
        Verdict {
            found,
            fault: fault(file, board, found),
            part: if sound { None } else { part(file, board) },
            block,
        }
    }

    /// Valid, and with no region.
    pub fn is_valid(&self) -> bool {
        matches!(self.found, Checked::Valid)
    }

    /// What is proved of valid files holds for what is sent of this one.
    pub fn is_covered(&self) -> bool {
        matches!(self.found, Checked::Valid | Checked::Guarded(_)) || self.part.is_some()
    }

    /// The number and the name: "86 Overlap".
    fn name(&self) -> String {
        match self.found {
            Checked::Refused(_, answer) => answered(answer),
            found => {
                let number = found.number();
                let row = table::row("check", &number.to_string());
                format!("{number} {}", row.map_or("UNKNOWN", |row| row.name))
            }
        }
    }

    /// What is wrong, in a line: "86 Overlap: piece 40 ..".
    pub fn line(&self) -> String {
        match self.found {
            Checked::Refused(..) => self.fault.clone(),
            _ => format!("{}: {}", self.name(), self.fault),
        }
    }

    /// What regions leave open.
    pub fn regions(&self) -> Option<&'static str> {
        matches!(self.found, Checked::Guarded(_)).then_some(
            "Its blocks name regions (flag 0x4000). Whether their digests are right was not checked: where they are, every page stands at its address once the file is complete.",
        )
    }

    /// The verdict, in lines.
    pub fn words(&self) -> Vec<String> {
        let mut lines = match self.found {
            Checked::Valid => vec![format!("VALID: {}.", table::words("check", 0))],
            Checked::Guarded(_) => vec![format!("NOT CHECKED WHOLE: {}.", self.name())],
            _ => vec![format!("NOT VALID: {}", self.line())],
        };
        lines.extend(self.regions().map(String::from));
        lines.extend(self.part.as_ref().map(Part::words));
        lines
    }

    /// The same for scripts.
    pub fn json(&self) -> Vec<(&'static str, Json)> {
        vec![
            ("answer", self.found.number().into()),
            ("name", self.name().into()),
            ("piece", named_pieces(self.found).0.into()),
            ("other", named_pieces(self.found).1.into()),
            ("block", self.block.into()),
            ("valid", self.is_valid().into()),
            ("covered", self.is_covered().into()),
            ("verdict", self.words().join(" ").into()),
        ]
    }
}
