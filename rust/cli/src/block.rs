//! What a block says of itself, for texts and for the size of a board that was not said. No answer is made of it.

use proved::tags::{Refusal, Tags};
use proved::ARRIVAL_BYTES;

/// Where the window of flash begins.
pub const WINDOW_START: u32 = 0x1000_0000;
const WINDOW_END: u32 = 0x1200_0000;
const PAGE_BYTES: u64 = 256;

/// The fields of a block.
#[derive(Clone, Copy, PartialEq, Eq, Debug)]
pub struct Block {
    /// Its flags.
    pub flags: u32,
    /// Where its page goes.
    pub address: u32,
    /// Its number, from 0.
    pub number: u32,
    /// How many blocks its file has.
    pub total: u32,
    /// Its family; no family where flag 0x2000 is clear.
    pub family: u32,
}

impl Block {
    /// The fields of a piece that is a block, as the proved reader of tags has it.
    pub fn read(piece: &[u8]) -> Option<Block> {
        if let Err(Refusal::BadLength | Refusal::NotBlock) = Tags::new(piece).next_tag() {
            return None;
        }
        let field = |at: usize| {
            let bytes = piece.get(at..at + 4)?.try_into().ok()?;
            Some(u32::from_le_bytes(bytes))
        };
        Some(Block {
            flags: field(8)?,
            address: field(12)?,
            number: field(20)?,
            total: field(24)?,
            family: field(28)?,
        })
    }

    /// Whether it is a comment: not for the main flash.
    pub fn is_comment(&self) -> bool {
        self.flags & 1 != 0
    }

    /// How large a flash holds its page, and all the pages that it says its file has; none where its address is not flash's.
    fn need(&self) -> Option<u64> {
        if self.is_comment() || !(WINDOW_START..WINDOW_END).contains(&self.address) {
            return None;
        }
        let end = u64::from(self.address - WINDOW_START) + PAGE_BYTES;
        Some(end.max(u64::from(self.total) * PAGE_BYTES))
    }
}

/// The pieces of a file: each is an arrival, the last one perhaps short.
pub fn pieces(file: &[u8]) -> std::slice::Chunks<'_, u8> {
    file.chunks(ARRIVAL_BYTES)
}

/// How large a flash holds every page of some arrivals; none where no page is for flash.
pub fn need<'a>(arrivals: impl Iterator<Item = &'a [u8]>) -> Option<u64> {
    arrivals
        .filter_map(Block::read)
        .filter_map(|block| block.need())
        .max()
}

#[cfg(test)]
mod tests {
    use super::*;

    fn made(start: u32, pages: usize) -> Vec<u8> {
        let mut file = vec![0; pages * ARRIVAL_BYTES];
        tools::make(&vec![7; pages * 256], 5, start, &mut file).expect("a file");
        file
    }

    #[test]
    fn fields_of_a_block() {
        let file = made(0x1000_0100, 3);
        let blocks: Vec<_> = pieces(&file).map(Block::read).collect();
        assert_eq!(
            blocks[1],
            Some(Block {
                flags: 0x2000,
                address: 0x1000_0200,
                number: 1,
                total: 3,
                family: 5
            })
        );
        assert_eq!(Block::read(&file[..511]), None);
        assert_eq!(Block::read(&[0; 512]), None);
    }

    #[test]
    fn what_a_file_needs() {
        assert_eq!(need(pieces(&made(0x1000_0000, 3))), Some(768));
        assert_eq!(need(pieces(&made(0x1000_1000, 3))), Some(4096 + 768));
        assert_eq!(need(pieces(&made(0x11ff_ff00, 1))), Some(33_554_432));
        assert_eq!(need(pieces(&[0; 600])), None);
    }
}
