//! Reads the lines of a Universal Hex file from standard input and prints the
//! answer to each. The optional argument names the reader's own board.

use std::env;
use std::ffi::OsString;
use std::io::{self, BufWriter, Read, Write};

use reference::hex::{fresh, line, Answer, Reader, Stand, V1, V2};

const IMAGE_LEN: usize = 262_144;
/// One byte more than a file may have, so that a file too long still shows.
const INPUT_LEN: u64 = 4_194_305;

fn main() -> io::Result<()> {
    let mut output = BufWriter::new(io::stdout().lock());
    match board(env::args_os().nth(1)) {
        Some(own) => run(own, io::stdin().lock(), &mut output)?,
        None => writeln!(output, "board is V1 or V2")?,
    }
    output.flush()
}

fn board(argument: Option<OsString>) -> Option<u16> {
    match argument {
        None => Some(V1),
        Some(name) if name == "V1" => Some(V1),
        Some(name) if name == "V2" => Some(V2),
        Some(_) => None,
    }
}

fn run(own: u16, input: impl Read, mut output: impl Write) -> io::Result<()> {
    let mut file = Vec::new();
    input.take(INPUT_LEN).read_to_end(&mut file)?;
    let mut image = vec![0xFF; IMAGE_LEN];
    let mut reader = fresh(own);
    writeln!(output, "line answer")?;
    for (index, text) in file.split_inclusive(|&byte| byte == b'\n').enumerate() {
        let (next, answer) = line(reader, text, &mut image);
        reader = next;
        writeln!(output, "{index} {}", shown(answer))?;
    }
    print_state(&reader, output)
}

/// The number, and for a 22 the position after it.
fn shown(answer: Answer) -> String {
    match answer {
        Answer {
            number: number @ 22,
            position,
        } => format!("{number} position {position}"),
        Answer { number, .. } => number.to_string(),
    }
}

fn print_state(reader: &Reader, mut output: impl Write) -> io::Result<()> {
    write!(output, "state ")?;
    match reader.stand {
        Stand::Between => write!(output, "between")?,
        Stand::Opened => write!(output, "opened")?,
        Stand::Inside(_) => write!(output, "inside")?,
        Stand::Padded(_) => write!(output, "padded")?,
        Stand::Ended => write!(output, "ended")?,
        Stand::Failed(answer) => write!(output, "failed {}", shown(answer))?,
    }
    let (v1, v2) = (u8::from(reader.gave.v1), u8::from(reader.gave.v2));
    writeln!(output, " offset {} v1 {v1} v2 {v2}", reader.offset)
}
