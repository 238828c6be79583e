//! `vantorel check`: what is in a UF2 file, and whether it is a valid one for a board.

mod contents;
pub mod verdict;

use crate::args::{Args, Opt};
use crate::block::{need, pieces};
use crate::board::{self, Board, Options};
use crate::json::Json;
use crate::number::count;
use crate::out::Out;
use crate::{files, End, Outcome};
use contents::Contents;
use verdict::Verdict;

/// Its page of help.
pub const HELP: &str = "\
vantorel check FILE.uf2 [BOARD] [--json]

Checks a file before it is sent. First it lists what is in the file. Then it
says whether the file is valid for the board: its blocks have the numbers 0 to
n-1 once each, one family, the total n, different addresses, and the board
refuses none of them. It is proved that such a file, sent whole in any order
and with repeats, is answered Completed exactly once, and that every page then
stands at its address.

  --json  the same for scripts

Exit status 0 where the file is valid, 1 where it is not, 2 for a wrong command
line or a file that cannot be read.

    vantorel check blink.uf2

Without any option of a board, the file is checked for one that takes what it
can: Arm and RISC-V, absolute allowed, both RAMs, no partition table, and a flash
as large as the file needs. With one of them it is a board as `load` has it:

";

/// Its options, beside those of a board.
pub const OPTIONS: &[Opt] = &[Opt::Flag("--json")];

/// The board that is said, or one that takes what it can.
fn board_for(args: &Args, file: &[u8]) -> Result<(Board, bool), crate::Trouble> {
    let said = args.says_any(board::OPTIONS);
    let options = if said {
        Options::read(args)?
    } else {
        Options::widest()
    };
    Ok((options.board(need(pieces(file)))?, said))
}

fn json(name: &str, contents: &Contents, board: &Board, verdict: &Verdict) -> Json {
    let mut fields = vec![("file", name.into())];
    fields.extend(contents.json());
    fields.push(("board", board.json()));
    fields.extend(verdict.json());
    Json::Object(fields)
}

/// Runs the command.
pub fn run(args: &Args, out: &mut Out) -> Outcome {
    let [name] = args.files(["FILE.uf2"])?;
    let file = files::read(name)?;
    let (mut board, said) = board_for(args, &file)?;
    let contents = Contents::of(&file);
    let verdict = Verdict::of(&file, &mut board);
    if args.flag("--json") {
        out.line(json(name, &contents, &board, &verdict));
    } else {
        out.line(format_args!(
            "{}: {} of 512 bytes",
            files::short(name),
            count(pieces(&file).len() as u64, "piece")
        ));
        contents.words(out);
        out.line(board.line());
        if !said {
            out.line("(no board was given: this one takes what it can)");
        }
        let mut lines = verdict.words().into_iter();
        out.verdict(lines.next().unwrap_or_default(), verdict.is_valid());
        for line in lines {
            out.line(line);
        }
    }
    Ok(if verdict.is_valid() {
        End::Whole
    } else {
        End::Short
    })
}
