//! Why an arrival was answered so, and why a family has its place or none
//! (02, L6).
//!
//! A walk of its own through the checks, in the papers' order; the first
//! condition that holds is the reason. Every comparison that 01 or 02 writes is
//! one condition, and its number is the row times 100 plus its place in the
//! row. Where a condition is asked of each entry, it is asked of all of them
//! before the next condition is asked of any.

use crate::{
    counted, field, kind_at, marked, md5::md5, window_of, Arch, Block, Entry, Kind, Lent, Link,
    Place, Settings, Transfer, ABSOLUTE, ARM_NS, ARM_S, ARRIVAL_LEN, DATA, DATA_AT, FLAG_CONTAINER,
    FLAG_FAMILY, MAGIC_FIRST, MAGIC_LAST, MAGIC_SECOND, MAIN_LEN, MAX_ENTRIES, MAX_FLASH_LEN,
    MAX_TOTAL, MAX_USERS, PAYLOAD_LEN, RISCV, RP2040, SECTORS_LEN, SECTOR_LEN, SEEN_LEN, WINDOW,
    XIP_LEN,
};

/// The place is the whole flash, as absolute is allowed.
pub const BY_ABSOLUTE: u32 = 1;
/// The place is the whole flash, as there is no table.
pub const BY_NO_TABLE: u32 = 2;
/// The place is an entry's.
pub const BY_ENTRY: u32 = 3;

/// Row 11's condition of an address in no window of this board, which is asked
/// after "below the window" and before the row's others.
pub const NO_WINDOW: u32 = 1105;
/// Row 2's condition of a link that is none.
pub const NO_LINK: u32 = 211;

/// Of settings that come as bytes, the byte of an entry's link where it is no
/// link; the link of the settings themselves isn't asked for there.
pub type NoLinks = [Option<u8>; MAX_ENTRIES];

/// An entry's mark if it is "B of" another.
pub const MARK_B: u8 = 1;
/// An entry's mark if it is an A entry that doesn't accept the family.
pub const MARK_NOT_ACCEPTING: u8 = 2;

/// The reason of an arrival's answer.
#[derive(Clone, Copy, PartialEq, Eq, Debug)]
pub struct Why {
    pub answer: u8,
    pub discarded: bool,
    /// The condition that decided.
    pub cause: u32,
    /// The number tested, and what it is tested against.
    pub got: u64,
    pub against: u64,
    /// The entry at fault in settings, and the one that it shares a sector with.
    pub entry: u8,
    pub other: u8,
    /// For a family that no A entry accepts, what keeps each used entry from it.
    pub marks: [u8; 16],
}

/// The reason why a family has its place, or has none.
#[derive(Clone, Copy, PartialEq, Eq, Debug)]
pub struct WhyPlace {
    /// 0 for a place found, or the refusal.
    pub answer: u8,
    /// The condition that refused, or the rule that found.
    pub cause: u32,
    /// For a place by an entry, the pass that chose it.
    pub got: u64,
    pub against: u64,
    pub entry: u8,
    pub other: u8,
    pub marks: [u8; 16],
}

/// Why taking the arrival would be answered as a look says.
#[allow(clippy::too_many_arguments)]
pub fn why(
    s: &Settings,
    t: Transfer,
    arrival: &[u8],
    flash: &[u8],
    seen: &[u8],
    sectors: &[u8],
    main: &[u8],
    xip: &[u8],
) -> Why {
    let all_links = &[None; MAX_ENTRIES];
    why_of_bytes(s, all_links, t, arrival, flash, seen, sectors, main, xip)
}

/// The same of settings that come as bytes.
#[allow(clippy::too_many_arguments)]
pub fn why_of_bytes(
    s: &Settings,
    no_links: &NoLinks,
    t: Transfer,
    arrival: &[u8],
    flash: &[u8],
    seen: &[u8],
    sectors: &[u8],
    main: &[u8],
    xip: &[u8],
) -> Why {
    let lent = Lent {
        flash,
        seen,
        sectors,
        main,
        xip,
    };
    let (reason, discarded) = match rows_1_to_13(s, no_links, t, arrival, lent) {
        Ok(passed) => (rows_14_to_17(&passed, flash), passed.discards(t)),
        Err(reason) => (reason, false),
    };
    Why {
        answer: reason.answer(),
        discarded,
        cause: reason.cause,
        got: reason.got,
        against: reason.against,
        entry: reason.entry,
        other: reason.other,
        marks: reason.marks,
    }
}

/// Why the family, asked for alone, has its place or none.
pub fn why_place(s: &Settings, flash_len: usize, family: u32) -> WhyPlace {
    why_place_of_bytes(s, &[None; MAX_ENTRIES], flash_len, family)
}

/// The same of settings that come as bytes.
pub fn why_place_of_bytes(
    s: &Settings,
    no_links: &NoLinks,
    flash_len: usize,
    family: u32,
) -> WhyPlace {
    let reason = match place_alone(s, no_links, flash_len, family) {
        Ok(rule) => rule.reason(),
        Err(reason) => reason,
    };
    WhyPlace {
        answer: reason.answer(),
        cause: reason.cause,
        got: reason.got,
        against: reason.against,
        entry: reason.entry,
        other: reason.other,
        marks: reason.marks,
    }
}

/// "A place asked for alone, with settings and a flash length, is refused by 1,
/// 2 or 8, in that order."
fn place_alone(
    s: &Settings,
    no_links: &NoLinks,
    flash_len: usize,
    family: u32,
) -> Result<Rule, Reason> {
    flash_length(flash_len)?;
    row_2(s, no_links, flash_len)?;
    flash_rule(s, family)
}

/// A condition that holds, with all that is told of it.
#[derive(Clone, Copy)]
struct Reason {
    cause: u32,
    got: u64,
    against: u64,
    entry: u8,
    other: u8,
    marks: [u8; 16],
}

/// What a check gives: nothing, or the condition that holds.
type Check = Result<(), Reason>;

impl Reason {
    fn new(cause: u32, got: impl Into<u64>, against: impl Into<u64>) -> Reason {
        Reason {
            cause,
            got: got.into(),
            against: against.into(),
            entry: 0,
            other: 0,
            marks: [0; 16],
        }
    }

    /// The same, about that entry.
    fn of(self, entry: usize) -> Reason {
        Reason {
            entry: entry as u8,
            ..self
        }
    }

    /// A row's number is its answer. The rules that find a place are of no row.
    fn answer(&self) -> u8 {
        (self.cause / 100) as u8
    }
}

/// The reason, if its condition holds.
fn told_if(holds: bool, reason: Reason) -> Check {
    if holds {
        Err(reason)
    } else {
        Ok(())
    }
}

/// A block that rows 1 to 13 let pass.
struct Passed<'a> {
    block: Block<'a>,
    kind: Kind,
    place: Place,
    /// The count of the transfer that it goes on with; with none, the maps are
    /// cleared.
    continued: Option<u32>,
}

impl Passed<'_> {
    /// "1 where the maps are cleared, else count + 1": row 3 keeps it small.
    fn raised(&self) -> u32 {
        self.continued.unwrap_or(0) + 1
    }

    /// "Discarded" is yes in the Running case.
    fn discards(&self, t: Transfer) -> bool {
        self.continued.is_none() && matches!(t, Transfer::Running { .. })
    }
}

fn rows_1_to_13<'a>(
    s: &Settings,
    no_links: &NoLinks,
    t: Transfer,
    arrival: &'a [u8],
    lent: Lent,
) -> Result<Passed<'a>, Reason> {
    row_1(arrival, lent)?;
    row_2(s, no_links, lent.flash.len())?;
    row_3(t)?;
    row_4(arrival)?;
    let block = fields(arrival);
    row_5(&block)?;
    row_7(&block)?;
    let (kind, place) = if block.is_comment() {
        comment(s, t, &block, lent)?
    } else {
        page(s, &block, lent)?
    };
    row_12(t, &block)?;
    let continued = counted(t, block.family, block.total, kind);
    row_13(continued, &block, lent.seen)?;
    Ok(Passed {
        block,
        kind,
        place,
        continued,
    })
}

/// L3 and L8: a comment meets 8 and 10, by the kind that it takes.
fn comment(s: &Settings, t: Transfer, block: &Block, lent: Lent) -> Result<(Kind, Place), Reason> {
    let kind = comment_kind(t, block, lent);
    let place = row_8(s, kind, block.family, lent.flash.len())?;
    row_10(block, place)?;
    Ok((kind, place))
}

/// "A comment with the running transfer's family and total takes its kind,
/// unless that kind's buffer is empty; any other is flash."
fn comment_kind(t: Transfer, block: &Block, lent: Lent) -> Kind {
    let Transfer::Running {
        family,
        total,
        kind,
        ..
    } = t
    else {
        return Kind::Flash;
    };
    if family == block.family && total == block.total && lent.lengths().has(kind) {
        kind
    } else {
        Kind::Flash
    }
}

/// A page in a window meets 8, 9, 10 and 11 in that order; one in no window 8,
/// which is flash's, then 9 and 11, which never lets it pass.
fn page(s: &Settings, block: &Block, lent: Lent) -> Result<(Kind, Place), Reason> {
    let window = kind_at(block.address, lent.lengths());
    let kind = window.unwrap_or(Kind::Flash);
    let place = row_8(s, kind, block.family, lent.flash.len())?;
    row_9(block)?;
    if window.is_none() {
        return Err(in_no_window(block.address));
    }
    row_10(block, place)?;
    row_11(block, kind, place)?;
    Ok((kind, place))
}

/// Row 1: the arrival, the flash, the maps, then L8's buffers.
fn row_1(arrival: &[u8], lent: Lent) -> Check {
    exact_length(101, arrival.len(), ARRIVAL_LEN)?;
    flash_length(lent.flash.len())?;
    exact_length(105, lent.seen.len(), SEEN_LEN)?;
    exact_length(106, lent.sectors.len(), SECTORS_LEN)?;
    ram_length(107, lent.main.len(), MAIN_LEN)?;
    ram_length(108, lent.xip.len(), XIP_LEN)
}

fn exact_length(cause: u32, len: usize, right: usize) -> Check {
    told_if(len != right, Reason::new(cause, len as u64, right as u64))
}

/// "Multiple of 4,096, from 4,096 to 33,554,432."
fn flash_length(len: usize) -> Check {
    let told = |cause, limit: usize| Reason::new(cause, len as u64, limit as u64);
    told_if(!len.is_multiple_of(SECTOR_LEN), told(102, SECTOR_LEN))?;
    told_if(len < SECTOR_LEN, told(103, SECTOR_LEN))?;
    told_if(len > MAX_FLASH_LEN, told(104, MAX_FLASH_LEN))
}

/// "Exactly that length, or empty where the board lacks it."
fn ram_length(cause: u32, len: usize, right: usize) -> Check {
    if len == 0 {
        return Ok(());
    }
    exact_length(cause, len, right)
}

/// Row 2, in the order of "Settings are bad if". A link that is none names no
/// index below its entry's own: it is told where that would be, entry by entry.
fn row_2(s: &Settings, no_links: &NoLinks, flash_len: usize) -> Check {
    told_if(!s.enabled(s.current), Reason::new(201, 0u8, 0u8))?;
    let most = MAX_ENTRIES as u64;
    told_if(u64::from(s.count) > most, Reason::new(202, s.count, most))?;
    let used = s.used();
    each(used, has_no_sectors)?;
    each(used, |k, entry| runs_past(k, entry, flash_len))?;
    each(used, |k, entry| shares_a_sector(k, entry, used))?;
    each(used, |k, entry| {
        is_no_link(k, no_links)?;
        links_not_below(k, entry)
    })?;
    each(used, |k, entry| links_to_b(k, entry, used))?;
    each(used, has_too_many_users)?;
    each(used, has_a_reserved_user)
}

/// One condition, asked of entry after entry.
fn each(used: &[Entry], check: impl Fn(usize, &Entry) -> Check) -> Check {
    let mut entries = used.iter().enumerate();
    entries.try_for_each(|(k, entry)| check(k, entry))
}

/// "Has no sectors."
fn has_no_sectors(k: usize, entry: &Entry) -> Check {
    told_if(entry.sectors == 0, Reason::new(203, 0u8, 0u8).of(k))
}

/// "Runs past the flash": its end in bytes, which 64 bits hold.
fn runs_past(k: usize, entry: &Entry, flash_len: usize) -> Check {
    let end = (u64::from(entry.first) + u64::from(entry.sectors)) * SECTOR_LEN as u64;
    let len = flash_len as u64;
    told_if(end > len, Reason::new(204, end, len).of(k))
}

/// "Shares a sector with another", earlier or later; the first such is told.
fn shares_a_sector(k: usize, entry: &Entry, used: &[Entry]) -> Check {
    let shares = |&j: &usize| j != k && used[j].shares_sector(entry);
    match (0..used.len()).find(shares) {
        None => Ok(()),
        Some(j) => Err(Reason {
            other: j as u8,
            ..Reason::new(205, j as u64, k as u64).of(k)
        }),
    }
}

/// None, owned by and B of are 0, 1 and 2.
fn is_no_link(k: usize, no_links: &NoLinks) -> Check {
    match no_links[k] {
        None => Ok(()),
        Some(byte) => Err(Reason::new(NO_LINK, byte, 2u8).of(k)),
    }
}

fn link_index(entry: &Entry) -> Option<u8> {
    match entry.link {
        Link::None => None,
        Link::OwnedBy(index) | Link::BOf(index) => Some(index),
    }
}

/// "Links to an index not below its own."
fn links_not_below(k: usize, entry: &Entry) -> Check {
    let Some(index) = link_index(entry) else {
        return Ok(());
    };
    let reason = Reason::new(206, index, k as u64).of(k);
    told_if(usize::from(index) >= k, reason)
}

/// "Or to an entry that is B of": every index is below its entry's own by now.
fn links_to_b(k: usize, entry: &Entry, used: &[Entry]) -> Check {
    let Some(index) = link_index(entry) else {
        return Ok(());
    };
    let to_b = used.get(usize::from(index)).is_some_and(Entry::is_b);
    told_if(to_b, Reason::new(207, index, k as u64).of(k))
}

/// "Has more than 4 user families."
fn has_too_many_users(k: usize, entry: &Entry) -> Check {
    let most = MAX_USERS as u64;
    let reason = Reason::new(208, entry.user_count, most).of(k);
    told_if(u64::from(entry.user_count) > most, reason)
}

/// "Has a user family from 0xe48bff56 to 0xe48bff5b": its first such is told.
fn has_a_reserved_user(k: usize, entry: &Entry) -> Check {
    let reserved = |family: &&u32| (RP2040..=ARM_NS).contains(*family);
    match entry.users().iter().find(reserved) {
        None => Ok(()),
        Some(&family) => Err(Reason::new(209, family, RP2040).of(k)),
    }
}

/// Row 3: "Running without 1 <= count < total <= 131,072; Done without 1 <=
/// total <= 131,072", whatever the kind.
fn row_3(t: Transfer) -> Check {
    match t {
        Transfer::Idle => Ok(()),
        Transfer::Running { total, count, .. } => {
            told_if(count < 1, Reason::new(301, count, 1u8))?;
            told_if(count >= total, Reason::new(302, count, total))?;
            told_if(total > MAX_TOTAL, Reason::new(303, total, MAX_TOTAL))
        }
        Transfer::Done { total, .. } => {
            told_if(total < 1, Reason::new(304, total, 1u8))?;
            told_if(total > MAX_TOTAL, Reason::new(305, total, MAX_TOTAL))
        }
    }
}

/// Row 4: "a magic number differs".
fn row_4(arrival: &[u8]) -> Check {
    let magics = [
        (401, 0, MAGIC_FIRST),
        (402, 4, MAGIC_SECOND),
        (403, 508, MAGIC_LAST),
    ];
    magics.into_iter().try_for_each(|(cause, at, magic)| {
        let got = field(arrival, at);
        told_if(got != magic, Reason::new(cause, got, magic))
    })
}

/// The fields of an arrival that passed rows 1 and 4.
fn fields(arrival: &[u8]) -> Block<'_> {
    Block {
        flags: field(arrival, 8),
        address: field(arrival, 12),
        size: field(arrival, 16),
        number: field(arrival, 20),
        total: field(arrival, 24),
        family: field(arrival, 28),
        data: &arrival[DATA_AT],
    }
}

/// Row 5: "flag 0x1000 (also when 0x1 is set)".
fn row_5(block: &Block) -> Check {
    let set = block.flags & FLAG_CONTAINER != 0;
    told_if(set, Reason::new(501, block.flags, FLAG_CONTAINER))
}

/// Row 7: "flag 0x2000 clear". Row 6 is gone with L3.
fn row_7(block: &Block) -> Check {
    let clear = block.flags & FLAG_FAMILY == 0;
    told_if(clear, Reason::new(701, block.flags, FLAG_FAMILY))
}

/// Row 8: the family's place in the kind's buffer; in RAM it is the whole.
fn row_8(s: &Settings, kind: Kind, family: u32, flash_len: usize) -> Result<Place, Reason> {
    match kind {
        Kind::Flash => Ok(flash_rule(s, family)?.place(s, flash_len)),
        Kind::MainRam | Kind::XipRam => {
            ram_rule(s, family)?;
            let (_, len) = window_of(kind);
            Ok(Place { start: 0, len })
        }
    }
}

/// "In RAM only families ..58 to ..5b or a user family of a used entry; others
/// 8." It doesn't matter whether that entry is "B of" another.
fn ram_rule(s: &Settings, family: u32) -> Check {
    let reserved = (DATA..=ARM_NS).contains(&family);
    let is_user = || s.used().iter().any(|entry| entry.users().contains(&family));
    told_if(!reserved && !is_user(), shut_out(807, family))
}

/// The setting or rule that shuts the family out.
fn shut_out(cause: u32, family: u32) -> Reason {
    Reason::new(cause, family, 0u8)
}

/// What gives a family its place in flash.
#[derive(Clone, Copy)]
enum Rule {
    Absolute,
    NoTable,
    Entry { pass: u8, entry: usize },
}

impl Rule {
    fn place(self, s: &Settings, flash_len: usize) -> Place {
        match self {
            Rule::Absolute | Rule::NoTable => Place {
                start: 0,
                len: flash_len,
            },
            // Good settings: both are within the flash.
            Rule::Entry { entry, .. } => Place {
                start: s.table[entry].first as usize * SECTOR_LEN,
                len: s.table[entry].sectors as usize * SECTOR_LEN,
            },
        }
    }

    /// "For a place it names the pass and the entry, or the whole-flash rule."
    fn reason(self) -> Reason {
        match self {
            Rule::Absolute => Reason::new(BY_ABSOLUTE, 0u8, 0u8),
            Rule::NoTable => Reason::new(BY_NO_TABLE, 0u8, 0u8),
            Rule::Entry { pass, entry } => Reason::new(BY_ENTRY, pass, 0u8).of(entry),
        }
    }
}

/// Row 8 in flash: the families that no table is asked for, then the others.
fn flash_rule(s: &Settings, family: u32) -> Result<Rule, Reason> {
    match family {
        ABSOLUTE if s.absolute => Ok(Rule::Absolute),
        ABSOLUTE => Err(shut_out(801, family)),
        RP2040 => Err(shut_out(802, family)),
        _ if s.count == 0 => without_table(s, family),
        _ => by_table(s, family),
    }
}

/// "Count 0, which is no table: data, arm-s (Arm enabled) and riscv (RISC-V
/// enabled) get the whole flash. Others no place."
fn without_table(s: &Settings, family: u32) -> Result<Rule, Reason> {
    match family {
        ARM_S if !s.arm => Err(shut_out(803, family)),
        RISCV if !s.riscv => Err(shut_out(804, family)),
        DATA | ARM_S | RISCV => Ok(Rule::NoTable),
        _ => Err(shut_out(805, family)),
    }
}

/// "Four passes over the table, first to last, ending at the first match; each
/// looks only at A entries that accept the family."
fn by_table(s: &Settings, family: u32) -> Result<Rule, Reason> {
    for pass in 1..=4 {
        for (entry, candidate) in s.used().iter().enumerate() {
            let accepting = !candidate.is_b() && candidate.accepts(family);
            if accepting && pass_takes(pass, s, family, candidate) {
                return Ok(Rule::Entry { pass, entry });
            }
        }
    }
    // Pass 4 takes any, so that no A entry accepts the family.
    Err(Reason {
        marks: marks(s.used()),
        ..shut_out(806, family)
    })
}

/// What the pass asks of an A entry that accepts the family.
fn pass_takes(pass: u8, s: &Settings, family: u32, entry: &Entry) -> bool {
    let unowned = entry.link == Link::None;
    match (pass, s.current) {
        (1, Arch::Arm) => family == ARM_S && unowned && !entry.not_bootable_arm,
        (1, Arch::RiscV) => family == RISCV && unowned && !entry.not_bootable_riscv,
        (2, _) if !s.auto_switch => false,
        (2, Arch::Arm) => s.riscv && family == RISCV && unowned && !entry.not_bootable_riscv,
        (2, Arch::RiscV) => s.arm && family == ARM_S && unowned && !entry.not_bootable_arm,
        (3, _) => unowned,
        _ => true,
    }
}

/// "For each used entry 'B of' or else 'doesn't accept'."
fn marks(used: &[Entry]) -> [u8; 16] {
    let mut marks = [0; 16];
    for (mark, entry) in marks.iter_mut().zip(used) {
        *mark = if entry.is_b() {
            MARK_B
        } else {
            MARK_NOT_ACCEPTING
        };
    }
    marks
}

/// Row 9: "size isn't 256".
fn row_9(block: &Block) -> Check {
    let right = PAYLOAD_LEN as u64;
    let reason = Reason::new(901, block.size, right);
    told_if(u64::from(block.size) != right, reason)
}

/// Row 10: "total 0, total x 256 over the place, or number >= total".
fn row_10(block: &Block, place: Place) -> Check {
    let (total, number) = (block.total, block.number);
    let needed = u64::from(total) * PAYLOAD_LEN as u64;
    let room = place.len as u64;
    told_if(total == 0, Reason::new(1001, total, 0u8))?;
    told_if(needed > room, Reason::new(1002, needed, room))?;
    told_if(number >= total, Reason::new(1003, number, total))
}

/// Row 11, for an address in no window: it is below flash's, or else past its
/// end and in no RAM that is there.
fn in_no_window(address: u32) -> Reason {
    if address < WINDOW {
        return Reason::new(1101, address, WINDOW);
    }
    let window_end = u64::from(WINDOW) + MAX_FLASH_LEN as u64;
    Reason::new(NO_WINDOW, address, window_end)
}

/// Row 11, for an address in the kind's window.
fn row_11(block: &Block, kind: Kind, place: Place) -> Check {
    match kind {
        Kind::Flash => row_11_flash(block.address, place),
        Kind::MainRam | Kind::XipRam => row_11_ram(block.address, kind),
    }
}

/// "Below the window, no multiple of 256, or address - 0x10000000 + 256 over
/// the place." What is below the window is in none, and was told before.
fn row_11_flash(address: u32, place: Place) -> Check {
    let page = PAYLOAD_LEN as u64;
    let room = place.len as u64;
    let ragged = !u64::from(address).is_multiple_of(page);
    told_if(ragged, Reason::new(1102, address, page))?;
    let sum = u64::from(address - WINDOW) + page;
    told_if(sum > room, Reason::new(1103, sum, room))
}

/// "There 11 is only address + 256 past the window's end."
fn row_11_ram(address: u32, kind: Kind) -> Check {
    let (start, len) = window_of(kind);
    let window_end = u64::from(start) + len as u64;
    let page_end = u64::from(address) + PAYLOAD_LEN as u64;
    let reason = Reason::new(1104, page_end, window_end);
    told_if(page_end > window_end, reason)
}

/// Row 12: "transfer Done". The numbers told are the block's own, its total
/// too, though the transfer may have another: L6 asks for none here.
fn row_12(t: Transfer, block: &Block) -> Check {
    let done = matches!(t, Transfer::Done { .. });
    told_if(done, Reason::new(1201, block.number, block.total))
}

/// Row 13: "Running, same family and total, number marked", and by L8 the same
/// kind.
fn row_13(continued: Option<u32>, block: &Block, seen: &[u8]) -> Check {
    let again = continued.is_some() && marked(seen, block.number as usize);
    told_if(again, Reason::new(1301, block.number, block.total))
}

/// Rows 14 to 17: what becomes of a block that nothing refuses. "From 14 on,
/// the raised count and the total."
fn rows_14_to_17(passed: &Passed, flash: &[u8]) -> Reason {
    let (raised, total) = (passed.raised(), passed.block.total);
    let cause = if raised >= total {
        1501
    } else if passed.block.is_comment() {
        1601
    } else {
        row_14(passed, flash).unwrap_or(1701)
    };
    Reason::new(cause, raised, total)
}

/// Row 14: the first of L9's conditions that keeps the page from being kept, in
/// L9's order. "Whole sectors" is one condition of start and length. A region
/// that begins below the window, where no place is, isn't within the place.
fn row_14(passed: &Passed, flash: &[u8]) -> Option<u32> {
    let Some(region) = passed.block.region() else {
        return Some(1401);
    };
    if passed.kind != Kind::Flash {
        return Some(1402);
    }
    let sector = SECTOR_LEN as u64;
    let (start, len) = (u64::from(region.start), u64::from(region.len));
    if !start.is_multiple_of(sector) || !len.is_multiple_of(sector) {
        return Some(1403);
    }
    if len == 0 {
        return Some(1404);
    }
    // All of these are window addresses, of which the place has the first.
    let end = start + len;
    let place_start = u64::from(WINDOW);
    let place_end = place_start + passed.place.len as u64;
    if start < place_start || place_end < end {
        return Some(1405);
    }
    let page_start = u64::from(passed.block.address);
    let page_end = page_start + PAYLOAD_LEN as u64;
    if page_start < start || end < page_end {
        return Some(1406);
    }
    let at = passed.place.start + (start - place_start) as usize;
    let there = &flash[at..at + len as usize];
    (md5(there) != region.digest).then_some(1407)
}
