//! `vantorel load`: a file's blocks played into a board.

mod order;
mod play;
mod stands;
mod tell;

use crate::args::{Args, Opt};
use crate::block::{need, pieces};
use crate::board::{Board, Options};
use crate::check::verdict::Verdict;
use crate::out::Out;
use crate::{files, missing, number, state, End, Outcome, Trouble};
use proved::{Kind, Transfer};
use std::ops::RangeInclusive;

/// Its page of help.
pub const HELP: &str = "\
vantorel load FILE.uf2 [BOARD] [--shuffle SEED] [--repeat K] [--drop K,L-M,..]
    [--image OUT] [--record TRACE] [-v] [--json]

Plays the file's blocks into a board, one after the other, and says what came of
it: the answers by name and how many, why the first arrival that was refused by
each answer was refused, the blocks that are missing and where they would stand,
the sectors erased, the state, and whether the display was told that the file is
complete.

  --shuffle SEED  in an order of chance; the same number gives the same order
  --repeat K      each block K times, one after the other
  --drop K,L-M,.. without the blocks of these numbers
  --image OUT     writes the memory that the file goes to, flash or RAM, as it
                  is afterwards
  --record TRACE  writes a trace of what was sent with the answers, for
                  `vantorel replay`
  -v              a line for each arrival too: its place in the order, the
                  block's number, the answer
  --json          the same for scripts

Exit status 0 where the file was completed, 1 where it was not, 2 for a wrong
command line or a file that cannot be read or written.

    vantorel load blink.uf2 --drop 17

";

/// Its options, beside those of a board.
pub const OPTIONS: &[Opt] = &[
    Opt::Value("--shuffle"),
    Opt::Value("--repeat"),
    Opt::Value("--drop"),
    Opt::Output("--image"),
    Opt::Output("--record"),
    Opt::Flag("-v"),
    Opt::Flag("--json"),
];

/// A number of `--drop`, or all from one to another.
fn dropped_part(text: &str) -> Option<RangeInclusive<u32>> {
    let (first, last) = text.split_once('-').unwrap_or((text, text));
    let (first, last) = (number::parse_u32(first)?, number::parse_u32(last)?);
    (first <= last).then_some(first..=last)
}

/// The numbers of `--drop`, with commas between them.
fn dropped(args: &Args) -> Result<Vec<RangeInclusive<u32>>, Trouble> {
    let Some(text) = args.value("--drop") else {
        return Ok(Vec::new());
    };
    let numbers: Option<Vec<_>> = text.split(',').map(dropped_part).collect();
    match numbers {
        Some(numbers) => Ok(numbers),
        None => args.wrong(format!(
            "--drop wants block numbers with commas between them, such as 3-9,17, and not '{text}'"
        )),
    }
}

fn repeated(args: &Args) -> Result<usize, Trouble> {
    match args.number("--repeat")? {
        None => Ok(1),
        Some(k @ 1..=1000) => Ok(k as usize),
        Some(_) => args.wrong("--repeat wants a number from 1 to 1000"),
    }
}

/// The arrivals of a file: its pieces in the order in which they are sent.
fn arrivals<'a>(args: &Args, file: &'a [u8]) -> Result<Vec<&'a [u8]>, Trouble> {
    let drop = dropped(args)?;
    let pieces: Vec<&[u8]> = pieces(file).collect();
    let kept = match order::without(&pieces, &drop) {
        Ok(kept) => kept,
        Err(k) => return args.wrong(format!("--drop {k}: the file has no block of this number")),
    };
    let mut sent = order::repeated(&kept, repeated(args)?);
    if let Some(seed) = args.number("--shuffle")? {
        order::shuffle(&mut sent, seed);
    }
    Ok(sent)
}

/// The memory that a transfer goes to.
fn memory(board: &Board, transfer: Transfer) -> &[u8] {
    match state::kind(transfer) {
        Kind::Flash => &board.flash,
        Kind::MainRam => &board.main,
        Kind::XipRam => &board.xip,
    }
}

/// Runs the command.
pub fn run(args: &Args, out: &mut Out) -> Outcome {
    let options = Options::read(args)?;
    let [name] = args.files(["FILE.uf2"])?;
    let (image, record) = (args.value("--image"), args.value("--record"));
    let file = files::read(name)?;
    let sent = arrivals(args, &file)?;
    let mut board = options.board(need(pieces(&file)))?;
    let valid = Verdict::of(&file, &mut board.clone());
    let played = play::play(&sent, &mut board);
    let unwritten = stands::unwritten(&file, &board, played.transfer);
    let lost = missing::missing(pieces(&file), &mut board, played.transfer);
    let helps = play::helps(pieces(&file), &mut board.clone(), played.transfer);
    if let Some(image) = image {
        files::write(image, memory(&board, played.transfer))?;
    }
    if let Some(record) = record {
        files::write(record, &play::trace(&sent, &played.outcomes))?;
    }
    let load = tell::Load {
        name,
        pieces: pieces(&file).len(),
        sent: &sent,
        board: &board,
        played: &played,
        lost: &lost,
        valid: &valid,
        unwritten: &unwritten,
        helps,
        image,
        record,
        each: args.flag("-v"),
    };
    if args.flag("--json") {
        out.line(tell::json(&load));
    } else {
        tell::words(&load, out);
    }
    let whole = unwritten.is_empty() && valid.is_covered();
    Ok(match played.transfer {
        Transfer::Done { .. } if whole => End::Whole,
        _ => End::Short,
    })
}
