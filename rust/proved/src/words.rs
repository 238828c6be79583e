//! The words of answers. Written by tools/words from words/answers.tsv.

use crate::hex::HexAnswer;
use crate::Answer;

/// What an answer to an arrival says.
pub(crate) fn answer(answer: Answer) -> &'static str {
    match answer {
        Answer::BadBuffers => "the arrival, the flash, a map, a RAM buffer or a plan has a wrong length",
        Answer::BadSettings => "the settings are not good for this flash",
        Answer::BadState => "the transfer's numbers fit no transfer",
        Answer::NotBlock => "no UF2 block: a magic number differs",
        Answer::Container => "flag 0x1000: of a file container, which is not for the board's memory",
        Answer::NoFamily => "flag 0x2000 is clear: the block names no family",
        Answer::NoPlace => "the family has no place in flash, or may not go to RAM",
        Answer::BadPayload => "the payload's size is not 256",
        Answer::BadNumbers => "the total is 0 or more than the place or the RAM holds, or the number is not below the total",
        Answer::BadAddress => "the address is in no window, past the end of the place or the RAM, or in flash no multiple of 256",
        Answer::Finished => "the file was complete already",
        Answer::Again => "a block of this number had come before",
        Answer::Written => "stored, others are missing",
        Answer::Completed => "the last one that was missing: the file is complete",
        Answer::Noted => "a comment (flag 0x1): counted and not stored, others are missing",
        Answer::Kept => "counted and not stored, since the flash has what its region names; others are missing",
    }
}

/// What an answer to a line says.
pub(crate) fn line(answer: HexAnswer) -> &'static str {
    match answer {
        HexAnswer::BadReader => "the reader's numbers fit no reader",
        HexAnswer::BadImage => "the image has a wrong length",
        HexAnswer::NoColon => "the line is empty or does not begin with a colon",
        HexAnswer::BadShape => "the line has under 11, over 521 or an even number of characters",
        HexAnswer::BadDigit(_) => "a character is no hex digit; its position is counted from 0 at the colon",
        HexAnswer::TooLong => "the record says more than 32 data bytes",
        HexAnswer::BadLength => "the record's length is not the one that it says",
        HexAnswer::BadSum => "the record's checksum is wrong",
        HexAnswer::OutOfPlace => "a record of this type or length is not allowed here",
        HexAnswer::Unaligned => "a section begins at an offset that is no multiple of 512",
        HexAnswer::Repeated => "a second section of V1 or of V2",
        HexAnswer::Crosses => "the data runs past the 65,536 bytes that one record 04 reaches",
        HexAnswer::MissingBoard => "the file ends before V1 and V2 each gave a data byte",
        HexAnswer::AfterEnd => "a line after the end of the file",
        HexAnswer::Outside => "data of this board that is not wholly in the image: LEFT OUT",
        HexAnswer::Stored => "data of this board, stored",
        HexAnswer::Passed => "any other good record",
        HexAnswer::Ended => "the end of the file",
        HexAnswer::FileTooLong => "with this line the file is longer than 4,194,304 bytes",
    }
}
