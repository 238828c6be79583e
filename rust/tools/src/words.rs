//! The words of reasons. Written by tools/words from words/answers.tsv. What stands in { } the module `why` fills in.

/// Why an arrival was answered so.
pub(crate) fn cause(number: u32) -> Option<&'static str> {
    Some(match number {
        101 => "the piece has {got bytes}, and a block has {against bytes}",
        102 => "the flash has {got bytes}, which is not whole sectors of {against bytes}",
        103 => "the flash has {got bytes}, less than one sector of {against bytes}",
        104 => "the flash has {got bytes}, more than the {against bytes} that a flash may have",
        105 => "the seen map has {got bytes}, and must have {against bytes}",
        106 => "the sector map has {got bytes}, and must have {against bytes}",
        107 => "the main RAM has {got bytes}, and must have {against bytes}, or none where the board lacks it",
        108 => "the XIP RAM has {got bytes}, and must have {against bytes}, or none where the board lacks it",
        201 => "the settings name a current architecture that they do not enable",
        202 => "the settings say {got} partitions, and a table has at most {against}",
        203 => "partition {entry} has no sectors",
        204 => "partition {entry} ends at byte {got} of the flash, which has only {against bytes}",
        205 => "partition {entry} shares a sector with partition {other}",
        206 => "partition {entry} is linked to partition {got}, which does not stand before it in the table",
        207 => "partition {entry} is linked to partition {got}, which is itself the B partition of another",
        208 => "partition {entry} says {got} user families, and may have at most {against}",
        209 => "partition {entry} has {got family} as a user family, and the families {against hex} to 0xe48bff5b are reserved",
        210 => "the settings have {got bytes}, and must have {against bytes}",
        211 => "partition {entry} has a link of kind {got}, and the kinds are 0 to {against}",
        301 => "the running transfer says that {got} blocks have come, and one that runs has at least {against}",
        302 => "the running transfer says that {got} blocks of {against} have come, and one that runs lacks at least one",
        303 => "the running transfer says a total of {got} blocks, and the most is {against}",
        304 => "the finished transfer says a total of {got} blocks, and the least is {against}",
        305 => "the finished transfer says a total of {got} blocks, and the most is {against}",
        306 => "the transfer has {got bytes}, and must have {against bytes}",
        307 => "the transfer's state or its memory has the number {got}, and the numbers are 0 to {against}",
        401 => "it is no UF2 block: its first magic number is {got hex} and not {against hex}",
        402 => "it is no UF2 block: its second magic number is {got hex} and not {against hex}",
        403 => "it is no UF2 block: its last magic number is {got hex} and not {against hex}",
        501 => "its flags {got hex} have {against flag}: it belongs to a file container, which is not for the board's memory",
        701 => "its flags {got hex} lack {against flag}: the block names no family",
        801 => "the settings do not allow the family {got family}",
        802 => "the family {got family} is of another chip, and never has a place",
        803 => "Arm is not enabled, and the board has no partition table: no place for the family {got family}",
        804 => "RISC-V is not enabled, and the board has no partition table: no place for the family {got family}",
        805 => "the board has no partition table, and then only data, arm-s and riscv have a place: none for the family {got family}",
        806 => "no A partition accepts the family {got family}: {marks}",
        807 => "the family {got family} may not go to RAM: only data, arm-s, riscv, arm-ns and the user families of the partition table may",
        901 => "the payload has {got bytes}, and must have {against}",
        1001 => "the block says that its file has no blocks",
        1002 => "the block says that its file has {got pages} blocks, which take {got bytes}; there is room for {against bytes}",
        1003 => "the block's number is {got}, and its file has only {against} blocks, counted from 0",
        1101 => "the address {got hex} lies before the flash, which begins at {against hex}",
        1102 => "the address {got hex} is no multiple of {against}",
        1103 => "the page at the address {got page hex} would end {got bytes} after the start of its place, which has only {against bytes}",
        1104 => "the page would end at {got hex}, past the end of the RAM at {against hex}",
        1105 => "the address {got hex} lies in no memory of this board: flash's addresses end at {against hex}{got lacks}",
        1201 => "a file was complete already when this block came, number {got} of {against}",
        1301 => "block {got} of {against} had come before",
        1401 => "stored, {got} of {against} blocks have come: it names no region of flash to compare with (flag 0x4000 is clear)",
        1402 => "stored, {got} of {against} blocks have come: it goes to RAM, and only what is in flash is kept",
        1403 => "stored, {got} of {against} blocks have come: the region that it names is not whole sectors",
        1404 => "stored, {got} of {against} blocks have come: the region that it names is empty",
        1405 => "stored, {got} of {against} blocks have come: the region that it names does not lie within its place",
        1406 => "stored, {got} of {against} blocks have come: the region that it names does not hold the block's page",
        1407 => "stored, {got} of {against} blocks have come: the flash holds something else in the region that it names",
        1501 => "the last one that was missing: {got} of {against} blocks have come, and the file is complete",
        1601 => "a comment, counted and not stored: {got} of {against} blocks have come",
        1701 => "counted and not stored, since the flash holds its region already: {got} of {against} blocks have come",
        _ => return None,
    })
}

/// Why a family has its place: ten times the cause, and the pass.
pub(crate) fn place(number: u32) -> Option<&'static str> {
    Some(match number {
        10 => "the whole flash, since the family absolute is allowed",
        20 => "the whole flash, since the board has no partition table",
        31 => "partition {entry}, by pass 1: the first that accepts the family, is not owned by another and is bootable on the current architecture",
        32 => "partition {entry}, by pass 2: the first that accepts the family, is not owned by another and is bootable on the other architecture, to which the board may switch",
        33 => "partition {entry}, by pass 3: the first that accepts the family and is not owned by another",
        34 => "partition {entry}, by pass 4: the first that accepts the family; it is owned by another",
        _ => return None,
    })
}

/// Why an entry does not take a family.
pub(crate) fn mark(number: u32) -> Option<&'static str> {
    Some(match number {
        1 => "partition {entry} is a B partition",
        2 => "partition {entry} does not accept it",
        _ => return None,
    })
}

/// Why no file is made of an image.
pub(crate) fn make(number: u32) -> Option<&'static str> {
    Some(match number {
        50 => "the image is empty, or no whole pages of 256 bytes",
        51 => "the start is not from 0x10000000 up to, not including, 0x12000000, or no multiple of 256",
        52 => "the image runs past 0x12000000",
        53 => "the output has under 512 bytes for each page",
        _ => return None,
    })
}

/// Why a trace is not added to a report.
pub(crate) fn figures(number: u32) -> Option<&'static str> {
    Some(match number {
        70 => "the report's records and the whole pieces of the trace, replayed or not, would pass 4,294,967,295",
        71 => "the counts do not sum to the records, more discards than records, or another length",
        _ => return None,
    })
}

/// Of an address of main RAM that the board lacks.
pub(crate) const LACKS_MAIN: &str = "; it is one of main RAM, which this board lacks";
/// Of an address of XIP RAM that the board lacks.
pub(crate) const LACKS_XIP: &str = "; it is one of XIP RAM, which this board lacks";
