//! The pages of a completed file that do not stand in the memory: the library compares each.

use crate::block::{pieces, Block};
use crate::board::Board;
use proved::{Memory, Stand, Transfer};

/// A page that does not stand at its address.
pub struct Unwritten {
    /// The piece's place in the file.
    pub piece: usize,
    /// Its block's number.
    pub number: u32,
    /// Where its page should stand.
    pub address: u32,
}

/// The pages of the file that was completed which do not stand; none where none was.
pub fn unwritten(file: &[u8], board: &Board, transfer: Transfer) -> Vec<Unwritten> {
    let Transfer::Done { family, total, .. } = transfer else {
        return Vec::new();
    };
    let memory = Memory {
        flash: &board.flash,
        main: &board.main,
        xip: &board.xip,
    };
    let differs = |(k, piece): (usize, &[u8])| {
        let block = Block::read(piece)?;
        let of_the_file = block.family == family && block.total == total;
        let told = proved::stands(&board.settings, piece, &memory);
        (of_the_file && told == Ok(Stand::Differs)).then_some(Unwritten {
            piece: k,
            number: block.number,
            address: block.address,
        })
    };
    pieces(file).enumerate().filter_map(differs).collect()
}
