//! The blocks that a transfer lacks, and where they would stand.

use crate::block::{Block, WINDOW_START};
use crate::board::Board;
use crate::json::Json;
use crate::number::{count, ranges};
use crate::{names, reason, state};
use proved::{Answer, Kind, Transfer, MAIN_RAM_START, XIP_RAM_START};
use std::collections::HashMap;
use tools::why::Reason;

/// A block that is missing.
pub struct Missing {
    /// Its number.
    pub number: u32,
    /// What the file has of it.
    pub found: Found,
}

/// What the file has of a missing block.
pub enum Found {
    /// Nothing.
    Nothing,
    /// A page, which would stand in the memory from this offset on.
    Page { kind: Kind, at: u64, address: u32 },
    /// A comment, which is counted and not stored.
    Comment,
    /// A block that is refused, and why.
    Refused(Answer, Reason),
}

/// Where the page of a block stands in the memory of its kind.
fn offset(board: &Board, kind: Kind, block: &Block) -> Option<u64> {
    let from = |start: u32| Some(u64::from(block.address.checked_sub(start)?));
    match kind {
        Kind::Flash => {
            let place = proved::ask(&board.settings, board.flash.len(), block.family).ok()?;
            Some(u64::from(place.start) + from(WINDOW_START)?)
        }
        Kind::MainRam => from(MAIN_RAM_START),
        Kind::XipRam => from(XIP_RAM_START),
    }
}

/// What would become of a piece of the file, if it came now.
fn found(board: &mut Board, transfer: Transfer, piece: &[u8], block: &Block) -> Found {
    let settings = board.settings.clone();
    let outcome = proved::look(&settings, transfer, piece, &board.buffers());
    if !outcome.answer.is_accepted() {
        return Found::Refused(outcome.answer, board.reason(transfer, piece));
    }
    let kind = state::kind(transfer);
    match offset(board, kind, block) {
        _ if block.is_comment() => Found::Comment,
        Some(at) => Found::Page {
            kind,
            at,
            address: block.address,
        },
        None => Found::Nothing,
    }
}

/// The blocks of the file that is being received, by their numbers; the first of each.
fn blocks<'a>(
    pieces: impl Iterator<Item = &'a [u8]>,
    transfer: Transfer,
) -> HashMap<u32, (&'a [u8], Block)> {
    let mut blocks = HashMap::new();
    let Transfer::Running { family, total, .. } = transfer else {
        return blocks;
    };
    for piece in pieces {
        if let Some(block) = Block::read(piece) {
            if block.family == family && block.total == total {
                blocks.entry(block.number).or_insert((piece, block));
            }
        }
    }
    blocks
}

/// The blocks that a running transfer lacks: those that its seen map does not mark. What is known of them is what the pieces say.
pub fn missing<'a>(
    pieces: impl Iterator<Item = &'a [u8]>,
    board: &mut Board,
    transfer: Transfer,
) -> Vec<Missing> {
    let Transfer::Running { total, .. } = transfer else {
        return Vec::new();
    };
    let blocks = blocks(pieces, transfer);
    let mut seen = vec![false; total as usize];
    for k in state::marked(&board.seen) {
        if let Some(mark) = seen.get_mut(k as usize) {
            *mark = true;
        }
    }
    (0..total)
        .zip(seen)
        .filter(|(_, seen)| !seen)
        .map(|(number, _)| Missing {
            number,
            found: match blocks.get(&number) {
                None => Found::Nothing,
                Some((piece, block)) => found(board, transfer, piece, block),
            },
        })
        .collect()
}

/// Runs of missing blocks that get a line each; the blocks of the others are counted.
const LISTED: usize = 20;
/// Runs of numbers in a sentence.
const NUMBERED: usize = 8;

/// The missing blocks in lines, those that follow each other and of which the same is said in one. `from` is where blocks come from: "file" or
/// "trace".
pub fn lines(lost: &[Missing], from: &str) -> Vec<String> {
    let runs: Vec<&[Missing]> = lost.chunk_by(|a, b| b.follows(a)).collect();
    let mut lines: Vec<String> = runs
        .iter()
        .take(LISTED)
        .map(|run| line(run, from))
        .collect();
    let more: usize = runs.iter().skip(LISTED).map(|run| run.len()).sum();
    if more > 0 {
        lines.push(format!("missing: and {more} more"));
    }
    lines
}

fn line(run: &[Missing], from: &str) -> String {
    let (first, last) = (&run[0], &run[run.len() - 1]);
    let one = run.len() == 1;
    let blocks = if one {
        format!("missing: block {}", first.number)
    } else {
        format!("missing: blocks {} to {}", first.number, last.number)
    };
    match (&first.found, &last.found) {
        (
            Found::Page { kind, at, address },
            Found::Page {
                at: end,
                address: to,
                ..
            },
        ) => format!(
            "{blocks}, whose {} would stand in {} from 0x{at:08x} to 0x{:08x} ({})",
            if one { "page" } else { "pages" },
            state::memory(*kind),
            end + 255,
            if one {
                format!("address 0x{address:08x}")
            } else {
                format!("addresses 0x{address:08x} to 0x{to:08x}")
            }
        ),
        (Found::Comment, _) if one => {
            format!("{blocks}, a comment, which is counted and stands nowhere")
        }
        (Found::Comment, _) => format!("{blocks}, comments, which are counted and stand nowhere"),
        (Found::Refused(answer, why), _) => format!(
            "{blocks}, which the board refuses: {}: {}",
            names::answer(*answer),
            reason::of(why)
        ),
        _ => format!("{blocks}, which the {from} does not have"),
    }
}

/// How many are missing of a total, and which.
pub fn lacking(lost: &[Missing], total: u32) -> String {
    match lost {
        [block] => format!(
            "1 of {} is missing, block {}",
            count(total.into(), "block"),
            block.number
        ),
        _ => format!(
            "{} of {total} blocks are missing, {}",
            lost.len(),
            numbers(lost)
        ),
    }
}

/// "blocks 3 to 9, 17", the first few runs of them.
fn numbers(lost: &[Missing]) -> String {
    let runs = lost.chunk_by(|a, b| a.number + 1 == b.number);
    let few: usize = runs.take(NUMBERED).map(<[Missing]>::len).sum();
    let text = ranges(lost[..few].iter().map(|block| block.number));
    let blocks = if few == 1 { "block" } else { "blocks" };
    match lost.len() - few {
        0 => format!("{blocks} {text}"),
        more => format!("{blocks} {text} and {more} more"),
    }
}

/// The missing blocks that the file itself does not have, where there are any.
pub fn not_in_file(lost: &[Missing]) -> Option<String> {
    let absent = lost
        .iter()
        .filter(|block| matches!(block.found, Found::Nothing));
    let absent: Vec<Missing> = absent
        .map(|block| Missing {
            number: block.number,
            found: Found::Nothing,
        })
        .collect();
    (!absent.is_empty()).then(|| numbers(&absent))
}

impl Missing {
    /// Does it stand right after another, of which the same is said?
    fn follows(&self, last: &Missing) -> bool {
        let same = match (&last.found, &self.found) {
            (Found::Nothing, Found::Nothing) | (Found::Comment, Found::Comment) => true,
            (
                Found::Page { kind, at, address },
                Found::Page {
                    kind: other,
                    at: next,
                    address: to,
                },
            ) => kind == other && at + 256 == *next && address.checked_add(256) == Some(*to),
            (Found::Refused(a, x), Found::Refused(b, y)) => {
                a == b && reason::of(x) == reason::of(y)
            }
            _ => false,
        };
        same && last.number + 1 == self.number
    }

    /// A missing block for scripts.
    pub fn json(&self) -> Json {
        let (at, address, refused) = match &self.found {
            Found::Nothing | Found::Comment => (None, None, None),
            Found::Page { at, address, .. } => (Some(*at), Some(*address), None),
            Found::Refused(answer, _) => (None, None, Some(u32::from(answer.number()))),
        };
        Json::Object(vec![
            ("block", self.number.into()),
            ("in_file", (!matches!(self.found, Found::Nothing)).into()),
            ("offset", at.into()),
            ("address", address.into()),
            ("refused", refused.into()),
        ])
    }
}
