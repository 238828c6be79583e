//! What is right: the proved library's answers, reasons and bytes.

use super::list::{List, Start};
use proved::hex::HexAnswer;
use proved::Buffers;
use tools::why::{explain, Lent, Reason};

/// What a list is about, as bytes of any length.
#[derive(Clone, PartialEq, Eq, Debug)]
pub struct Memory {
    pub settings: Vec<u8>,
    pub transfer: Vec<u8>,
    pub flash: Vec<u8>,
    pub seen: Vec<u8>,
    pub sectors: Vec<u8>,
    pub main: Vec<u8>,
    pub xip: Vec<u8>,
}

/// The buffers that a call may write, by name, in the order in which they are compared.
pub const WRITTEN: [&str; 6] = [
    "transfer",
    "seen map",
    "sector map",
    "flash",
    "main RAM",
    "XIP RAM",
];

impl Memory {
    /// What is lent at the start.
    pub fn of(start: &Start) -> Memory {
        Memory {
            settings: start.settings.clone(),
            transfer: start.transfer.clone(),
            flash: vec![start.fill; start.flash],
            seen: start.seen.clone(),
            sectors: start.sectors.clone(),
            main: vec![0; start.main],
            xip: vec![0; start.xip],
        }
    }

    /// The buffers of [`WRITTEN`].
    pub fn written(&self) -> [&Vec<u8>; 6] {
        [
            &self.transfer,
            &self.seen,
            &self.sectors,
            &self.flash,
            &self.main,
            &self.xip,
        ]
    }

    /// What the proved receiver would answer.
    pub fn look(&mut self, arrival: &[u8]) -> Answer {
        let buffers = Buffers {
            flash: &mut self.flash,
            seen: &mut self.seen,
            sectors: &mut self.sectors,
            main: &mut self.main,
            xip: &mut self.xip,
        };
        Answer::of(proved::bytes::look(
            &self.settings,
            &self.transfer,
            arrival,
            &buffers,
        ))
    }

    /// The arrival, taken by the proved receiver.
    pub fn take(&mut self, arrival: &[u8]) -> Answer {
        let mut buffers = Buffers {
            flash: &mut self.flash,
            seen: &mut self.seen,
            sectors: &mut self.sectors,
            main: &mut self.main,
            xip: &mut self.xip,
        };
        Answer::of(proved::bytes::take(
            &self.settings,
            &mut self.transfer,
            arrival,
            &mut buffers,
        ))
    }

    /// Why the proved receiver would answer as it does.
    pub fn why(&self, arrival: &[u8]) -> Reason {
        let lent = Lent {
            flash: &self.flash,
            seen: &self.seen,
            sectors: &self.sectors,
            main: &self.main,
            xip: &self.xip,
        };
        explain(&self.settings, &self.transfer, arrival, lent).reason
    }

    /// The state that the transfer says.
    pub fn end(&self) -> End {
        let field = |at: usize| {
            let bytes = self.transfer.get(at..at + 4).map(|x| x.try_into().ok());
            bytes.flatten().map_or(0, u32::from_le_bytes)
        };
        match self.transfer.first() {
            Some(1) => End {
                state: State::Running,
                total: field(5),
                count: field(9),
            },
            Some(2) => End {
                state: State::Done,
                total: field(5),
                count: field(5),
            },
            _ => End::IDLE,
        }
    }
}

/// An answer, as a hand-in says it.
#[derive(Clone, Copy, PartialEq, Eq, Debug)]
pub struct Answer {
    pub number: u32,
    /// To an arrival, 1 where a transfer was discarded; to a line, the position of a bad digit.
    pub more: u32,
}

impl Answer {
    /// That of a result of `uf2_take`.
    pub fn of(result: u32) -> Answer {
        match result {
            128..=255 => Answer {
                number: result - 128,
                more: 1,
            },
            _ => Answer {
                number: result,
                more: 0,
            },
        }
    }

    /// That of a line.
    pub fn hex(answer: HexAnswer) -> Answer {
        Answer {
            number: answer.number().into(),
            more: answer.position().into(),
        }
    }

    /// Whether it says that nothing changes.
    pub fn is_refusal(self) -> bool {
        (1..=13).contains(&self.number)
    }
}

/// Where a transfer stands.
#[derive(Clone, Copy, PartialEq, Eq, Debug)]
pub enum State {
    Idle,
    Running,
    Done,
}

impl State {
    /// Its word in the program's last line.
    pub fn word(self) -> &'static str {
        match self {
            State::Idle => "idle",
            State::Running => "running",
            State::Done => "done",
        }
    }
}

/// The state at the end of a list, as the program prints it.
#[derive(Clone, Copy, PartialEq, Eq, Debug)]
pub struct End {
    pub state: State,
    pub total: u32,
    pub count: u32,
}

impl End {
    pub const IDLE: End = End {
        state: State::Idle,
        total: 0,
        count: 0,
    };

    /// The program's last line, after its first word.
    pub fn line(self) -> String {
        format!(
            "{} total {} seen {}",
            self.state.word(),
            self.total,
            self.count
        )
    }
}

/// What came of a list.
#[derive(Clone, PartialEq, Eq, Debug)]
pub struct Played {
    /// The answer to each call.
    pub answers: Vec<Answer>,
    /// Where it stands at the end, as the program's last line says it after its first word; of two boards, the first.
    pub end: String,
    /// The flash, of two boards the first one's, or the image.
    pub contents: Vec<u8>,
}

/// Plays a list by the proved receiver.
pub fn play(list: &List) -> Played {
    let mut boards = list.boards();
    let calls = list.calls();
    let take = |(board, k): (usize, usize)| boards[board].take(&list.arrivals[k]);
    let answers = calls.into_iter().map(take).collect();
    let first = boards.swap_remove(0);
    Played {
        answers,
        end: first.end().line(),
        contents: first.flash,
    }
}
