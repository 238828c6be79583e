//! `vantorel join`: one Universal Hex file from two Intel Hex files.

use crate::args::{Args, Opt};
use crate::json::Json;
use crate::number::count;
use crate::out::Out;
use crate::{files, table, End, Outcome};
use tools::{Board, JoinRefusal, PlainRefusal, HEX_FILE_BYTES};

/// Its page of help.
pub const HELP: &str = "\
vantorel join V1.hex V2.hex -o OUT.hex [--json]

Reads an Intel Hex file for micro:bit V1 and one for V2, and writes one
Universal Hex file for both. Where an input is bad it says which file, which
line, and which character, and writes nothing.

  -o OUT.hex  the file to write
  --json      the same for scripts

Exit status 0 where the file was written, 1 where an input is bad or the output
would be too long, 2 for a wrong command line or a file that cannot be read or
written.

    vantorel join blink-v1.hex blink-v2.hex -o blink.hex

";

/// Its options.
pub const OPTIONS: &[Opt] = &[Opt::Output("-o"), Opt::Flag("--json")];

/// What a refusal of a plain file says, in words, at a line counted from 0 of so many.
fn meaning(refusal: PlainRefusal, line: usize, lines: usize) -> &'static str {
    let number = refusal.number();
    if refusal == PlainRefusal::OutOfPlace && line >= lines {
        return table::words("join", "26.end");
    }
    match table::row("join", &number.to_string()) {
        Some(row) => row.words,
        None => table::words("line", number),
    }
}

/// The name of a refusal, as the papers have it of lines, without its position.
fn name(refusal: PlainRefusal) -> &'static str {
    table::row("line", &refusal.number().to_string()).map_or("", |row| row.name)
}

/// Two files and their names.
struct Inputs<'a> {
    names: [&'a str; 2],
    files: [Vec<u8>; 2],
}

impl Inputs<'_> {
    fn index(board: Board) -> usize {
        match board {
            Board::V1 => 0,
            Board::V2 => 1,
        }
    }

    /// How many lines the file of a board has.
    fn lines(&self, board: Board) -> usize {
        let file = &self.files[Inputs::index(board)];
        file.split_inclusive(|&c| c == b'\n').count()
    }

    /// Why nothing is written, in a sentence.
    fn words(&self, refusal: JoinRefusal) -> String {
        let JoinRefusal::Plain {
            board,
            line,
            refusal,
        } = refusal
        else {
            return format!("36 FileTooLong: {}", table::words("join", "36.output"));
        };
        let lines = self.lines(board);
        let place = match refusal {
            PlainRefusal::BadDigit(at) => format!("line {}, position {at}", line + 1),
            _ if line < lines => format!("line {}", line + 1),
            _ => "the end".into(),
        };
        format!(
            "{} {}: {}, the file for {board:?}, at {place}: {}",
            refusal.number(),
            name(refusal),
            self.names[Inputs::index(board)],
            meaning(refusal, line, lines)
        )
    }

    fn json(&self, out: &str, result: Result<usize, JoinRefusal>) -> Json {
        let refusal = result.err().map(|refusal| self.refusal_json(refusal));
        Json::Object(vec![
            ("v1", self.names[0].into()),
            ("v2", self.names[1].into()),
            ("out", out.into()),
            ("written", result.is_ok().into()),
            ("bytes", result.unwrap_or(0).into()),
            ("refusal", refusal.into()),
        ])
    }

    fn refusal_json(&self, refusal: JoinRefusal) -> Json {
        let mut fields = vec![("answer", u32::from(refusal.number()).into())];
        if refusal == JoinRefusal::OutputTooLong {
            fields.push(("name", "FileTooLong".into()));
        }
        if let JoinRefusal::Plain {
            board,
            line,
            refusal,
        } = refusal
        {
            let position = match refusal {
                PlainRefusal::BadDigit(at) => Some(u32::from(at)),
                _ => None,
            };
            fields.extend([
                ("name", name(refusal).into()),
                ("board", format!("{board:?}").into()),
                ("file", self.names[Inputs::index(board)].into()),
                (
                    "line",
                    (line < self.lines(board)).then_some(line + 1).into(),
                ),
                ("position", position.into()),
            ]);
        }
        Json::Object(fields)
    }
}

/// Runs the command.
pub fn run(args: &Args, out: &mut Out) -> Outcome {
    let to = args.needed("-o", "the name of the file to write")?;
    let names = args.files(["V1.hex", "V2.hex"])?;
    let inputs = Inputs {
        names,
        files: [files::read(names[0])?, files::read(names[1])?],
    };
    let mut output = vec![0; HEX_FILE_BYTES];
    let result = tools::join(&inputs.files[0], &inputs.files[1], &mut output);
    if let Ok(len) = result {
        files::write(to, &output[..len])?;
    }
    let json = args.flag("--json");
    if json {
        out.line(inputs.json(to, result));
    }
    match result {
        Ok(len) => {
            if !json {
                let lines = output[..len].iter().filter(|&&c| c == b'\n').count();
                out.line(format_args!(
                    "{}: {len} bytes, {}, for V1 and V2",
                    files::short(to),
                    count(lines as u64, "line")
                ));
            }
            Ok(End::Whole)
        }
        Err(refusal) => {
            out.note(format_args!(
                "nothing was written: {}",
                inputs.words(refusal)
            ));
            Ok(End::Short)
        }
    }
}
