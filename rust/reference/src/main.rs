//! Reads arrivals from standard input and prints the answer to each.

use std::io::{self, BufReader, BufWriter, Read, Write};

use reference::{
    take, Arch, Entry, Settings, Transfer, ARRIVAL_LEN, MAX_ENTRIES, SECTORS_LEN, SEEN_LEN,
};

const FLASH_LEN: usize = 32_768;

const SETTINGS: Settings = Settings {
    arm: true,
    riscv: false,
    current: Arch::Arm,
    auto_switch: false,
    absolute: true,
    count: 0,
    table: [Entry::EMPTY; MAX_ENTRIES],
};

fn main() -> io::Result<()> {
    run(
        BufReader::new(io::stdin().lock()),
        BufWriter::new(io::stdout().lock()),
    )
}

fn run(mut input: impl Read, mut output: impl Write) -> io::Result<()> {
    let mut flash = vec![0xFF; FLASH_LEN];
    let mut seen = vec![0; SEEN_LEN];
    let mut sectors = vec![0; SECTORS_LEN];
    let mut transfer = Transfer::Idle;
    let mut piece = [0; ARRIVAL_LEN];
    writeln!(output, "arrival answer discarded")?;
    for index in 0u64.. {
        let len = fill(&mut input, &mut piece)?;
        if len == 0 {
            break;
        }
        let arrival = &piece[..len];
        let outcome = take(
            &SETTINGS,
            transfer,
            arrival,
            &mut flash,
            &mut seen,
            &mut sectors,
            &mut [],
            &mut [],
        );
        transfer = outcome.transfer;
        let discarded = u8::from(outcome.discarded);
        writeln!(output, "{index} {} {discarded}", outcome.answer)?;
    }
    let (state, total, count) = match transfer {
        Transfer::Idle => ("idle", 0, 0),
        Transfer::Running { total, count, .. } => ("running", total, count),
        Transfer::Done { total, .. } => ("done", total, total),
    };
    writeln!(output, "state {state} total {total} seen {count}")?;
    output.flush()
}

/// Reads until the piece is full or the input ends, since one read may give
/// less than is to come; the number of bytes read.
fn fill(input: &mut impl Read, piece: &mut [u8]) -> io::Result<usize> {
    let mut len = 0;
    while len < piece.len() {
        match input.read(&mut piece[len..]) {
            Ok(0) => break,
            Ok(n) => len += n,
            Err(e) if e.kind() == io::ErrorKind::Interrupted => {}
            Err(e) => return Err(e),
        }
    }
    Ok(len)
}

#[cfg(test)]
mod tests {
    use super::*;

    /// Gives a few bytes at a time, as a pipe may.
    struct Trickle<'a>(&'a [u8]);

    impl Read for Trickle<'_> {
        fn read(&mut self, buffer: &mut [u8]) -> io::Result<usize> {
            let len = buffer.len().min(7);
            self.0.read(&mut buffer[..len])
        }
    }

    fn printed(input: &[u8]) -> String {
        let (mut at_once, mut trickled) = (Vec::new(), Vec::new());
        run(input, &mut at_once).unwrap();
        run(Trickle(input), &mut trickled).unwrap();
        assert_eq!(at_once, trickled);
        String::from_utf8(at_once).unwrap()
    }

    fn block(number: u32, total: u32, family: u32) -> Vec<u8> {
        let address = 0x1000_0000 + number * 256;
        let header = [
            0x0A32_4655,
            0x9E5D_5157,
            0x2000,
            address,
            256,
            number,
            total,
            family,
        ];
        let mut bytes: Vec<u8> = header.into_iter().flat_map(u32::to_le_bytes).collect();
        bytes.resize(508, 0);
        bytes.extend(0x0AB1_6F30u32.to_le_bytes());
        bytes
    }

    fn arm(number: u32, total: u32) -> Vec<u8> {
        block(number, total, reference::ARM_S)
    }

    #[test]
    fn two_blocks() {
        let input = [arm(0, 2), arm(0, 2), arm(1, 2)].concat();
        let text = "arrival answer discarded\n0 14 0\n1 13 0\n2 15 0\nstate done total 2 seen 2\n";
        assert_eq!(printed(&input), text);
    }

    #[test]
    fn empty_input() {
        let text = "arrival answer discarded\nstate idle total 0 seen 0\n";
        assert_eq!(printed(&[]), text);
    }

    #[test]
    fn running_discarded_and_a_short_last_piece() {
        let mut input = [arm(0, 2), arm(5, 9), arm(6, 9)].concat();
        input.extend(&arm(7, 9)[..511]);
        let text = "arrival answer discarded\n0 14 0\n1 14 1\n2 14 0\n3 1 0\nstate running total 9 seen 2\n";
        assert_eq!(printed(&input), text);
        let text = "arrival answer discarded\n0 1 0\nstate idle total 0 seen 0\n";
        assert_eq!(printed(&[0x55]), text);
    }

    #[test]
    fn its_settings_and_flash() {
        use reference::{ABSOLUTE, ARM_NS, ARM_S, DATA, RISCV, RP2040};
        for (family, answer) in [
            (ABSOLUTE, 14),
            (DATA, 14),
            (ARM_S, 14),
            (RISCV, 8),
            (ARM_NS, 8),
            (RP2040, 8),
        ] {
            let line = format!("\n0 {answer} 0\n");
            assert!(printed(&block(127, 128, family)).contains(&line));
        }
        assert!(printed(&arm(0, 129)).contains("\n0 10 0\n"));
    }
}
