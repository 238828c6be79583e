//! Which papers a hand-in is asked by. The proved receiver is document 01 with all requests of 02; what a student who has 01 alone answers
//! otherwise is left out of set 01.

use super::list::{get, put, List};
use super::right::Memory;

/// The requests that a set has beside 01.
#[derive(Clone, Copy, PartialEq, Eq, Debug, Default)]
pub struct Set {
    /// Comments are counted.
    pub l3: bool,
    /// RAM, and the order of 10 and 11.
    pub l8: bool,
    /// What stands is kept.
    pub l9: bool,
}

impl Set {
    /// The set of a text such as 01,L3,L9; else the word that is none.
    pub fn parse(text: &str) -> Result<Set, String> {
        let mut set = Set::default();
        for word in text.split(',') {
            match word.to_ascii_uppercase().as_str() {
                "01" => {}
                "L3" => set.l3 = true,
                "L8" => set.l8 = true,
                "L9" => set.l9 = true,
                _ => return Err(word.into()),
            }
        }
        Ok(set)
    }

    /// In words, as it is said.
    pub fn told(self) -> String {
        let more = [(self.l3, "L3"), (self.l8, "L8"), (self.l9, "L9")];
        let more = more.iter().filter(|(on, _)| *on).map(|(_, name)| *name);
        ["01"].into_iter().chain(more).collect::<Vec<_>>().join(",")
    }

    /// Whether it has all of these requests.
    pub fn has(self, needs: &[&str]) -> bool {
        needs.iter().all(|name| match *name {
            "L3" => self.l3,
            "L8" => self.l8,
            "L9" => self.l9,
            _ => false,
        })
    }

    /// Whether an arrival is asked, before it is taken.
    pub fn asks(self, memory: &mut Memory, piece: &[u8]) -> bool {
        if piece.len() != 512 {
            return true;
        }
        let answer = memory.look(piece).number;
        let comment = get(piece, 8) & 1 != 0 && answer > 5;
        if comment && !self.l3 {
            return false;
        }
        if answer == 11 && !self.l8 {
            let mut inside = piece.to_vec();
            put(&mut inside, 12, 0x1000_0000);
            if memory.look(&inside).number == 10 {
                return false;
            }
        }
        // kept: 17, or 15 with nothing stored
        let last = answer == 15 && !comment && get(piece, 8) & 0x4000 != 0;
        let kept = answer == 17 || (last && !stores(memory, piece));
        self.l9 || !kept
    }

    /// The list without the arrivals that are not asked.
    pub fn list(self, list: &List) -> List {
        let mut boards = list.boards();
        let mut arrivals = Vec::new();
        for piece in &list.arrivals {
            if self.asks(&mut boards[0], piece) {
                boards[0].take(piece);
                arrivals.push(piece.clone());
            }
        }
        list.with(arrivals)
    }
}

/// Whether a block that completes a file stores something: a byte or a sector's mark changes.
fn stores(memory: &Memory, piece: &[u8]) -> bool {
    let mut after = memory.clone();
    after.take(piece);
    after.sectors != memory.sectors
        || after.flash != memory.flash
        || after.main != memory.main
        || after.xip != memory.xip
}
