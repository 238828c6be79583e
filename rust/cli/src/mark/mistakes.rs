//! The known mistakes: a receiver as a student writes it, check by check, with a switch for each mistake. Without a switch it answers as the proved
//! one does (a test compares them). Nothing of it is proved, and no right answer comes from it.

use super::list::{get, List, PAYLOAD};
use super::right::{Answer, End, Memory, Played, State};
use proved::{family, Arch, Entry, Link, Settings, MAIN_RAM_BYTES, SECTOR_BYTES, XIP_RAM_BYTES};

macro_rules! mistakes {
    ($($name:ident $id:literal,)*) => {
        /// A known mistake of a receiver of UF2 blocks.
        #[derive(Clone, Copy, PartialEq, Eq, Debug)]
        pub enum Mistake { $($name),* }

        /// All of them, in the order of mistakes.json.
        pub const ALL: &[Mistake] = &[$(Mistake::$name),*];

        impl Mistake {
            /// Its name in mistakes.json.
            pub fn id(self) -> &'static str {
                match self { $(Mistake::$name => $id),* }
            }
        }
    };
}

mistakes! {
    CountsArrivals "counts-arrivals",
    CountsAgain "counts-again",
    MarksByOrder "marks-by-order",
    StoresByOrder "stores-by-order",
    ErasesEachPage "erases-each-page",
    NeverErases "never-erases",
    SectorsNotCleared "sectors-not-cleared",
    SeenNotCleared "seen-not-cleared",
    NoPlaceDiscards "no-place-discards",
    BadAddressDiscards "bad-address-discards",
    RefusalDiscards "refusal-discards",
    ForeignCounted "foreign-counted",
    AddsIn32Bits "adds-in-32-bits",
    TotalIn32Bits "total-in-32-bits",
    TakesBOf "takes-b-of",
    WholeFlashForPlace "whole-flash-for-place",
    FirstEntryTaken "first-entry-taken",
    RefusesAll "refuses-all",
    OneAnswer "one-answer",
    StoresNothing "stores-nothing",
    StoresFirstOnly "stores-first-only",
    InventedCount "invented-count",
    LastNumberCompletes "last-number-completes",
    BeginsAfterDone "begins-after-done",
    CompletedAgain "completed-again",
    NeverDiscards "never-discards",
    FamilyNotCompared "family-not-compared",
    TotalNotCompared "total-not-compared",
    DiscardedNotTold "discarded-not-told",
    DiscardErases "discard-erases",
    WindowForPlace "window-for-place",
    LastPageRefused "last-page-refused",
    UnalignedTaken "unaligned-taken",
    NumberEqualsTotal "number-equals-total",
    SizeNotChecked "size-not-checked",
    AnyFamily "any-family",
    EndMagicIgnored "end-magic-ignored",
    SecondMagicIgnored "second-magic-ignored",
    ContainerIgnored "container-ignored",
    FamilyFlagIgnored "family-flag-ignored",
    Order4And5 "order-4-5",
    Order5And7 "order-5-7",
    Order7And8 "order-7-8",
    Order8And9 "order-8-9",
    Order9And10 "order-9-10",
    Order10And11 "order-10-11",
    Order11And12 "order-11-12",
    KeepsMemory "keeps-memory",
    BitsLowFirst "bits-low-first",
    CommentRefused "comment-refused",
    CommentStored "comment-stored",
    NumbersFirst "numbers-first",
    RewritesKept "rewrites-kept",
}

/// Which switches are on, and the answer of those that give one of the hand-in's choice.
#[derive(Clone, Copy, PartialEq, Eq, Debug)]
pub struct Switches {
    on: u64,
    /// What is answered by [`Mistake::RefusesAll`] and [`Mistake::OneAnswer`].
    pub answer: u32,
}

impl Switches {
    /// These.
    pub fn of(mistakes: &[Mistake], answer: u32) -> Switches {
        let on = mistakes.iter().fold(0, |on, x| on | 1 << *x as u64);
        Switches { on, answer }
    }

    fn has(self, mistake: Mistake) -> bool {
        self.on >> mistake as u64 & 1 == 1
    }
}

/// A memory and the window of its addresses.
#[derive(Clone, Copy, PartialEq, Eq)]
enum Kind {
    Flash,
    Main,
    Xip,
}

impl Kind {
    fn start(self) -> u64 {
        match self {
            Kind::Flash => 0x1000_0000,
            Kind::Main => proved::MAIN_RAM_START.into(),
            Kind::Xip => proved::XIP_RAM_START.into(),
        }
    }

    fn window(self) -> u64 {
        match self {
            Kind::Flash => 0x200_0000,
            Kind::Main => MAIN_RAM_BYTES as u64,
            Kind::Xip => XIP_RAM_BYTES as u64,
        }
    }
}

/// A transfer.
#[derive(Clone, Copy, PartialEq, Eq)]
struct Transfer {
    state: State,
    family: u32,
    total: u32,
    count: u32,
    kind: Kind,
}

/// The fields of a block.
struct Block {
    flags: u32,
    address: u64,
    size: u32,
    number: u32,
    total: u32,
    family: u32,
}

/// Where a block goes.
#[derive(Clone, Copy)]
struct Room {
    start: u64,
    len: u64,
}

/// The receiver.
pub struct Student {
    on: Switches,
    pub memory: Memory,
    arrivals: u32,
}

/// A number as the transfer's bytes have it.
fn field(bytes: &[u8], at: usize) -> u32 {
    get(bytes, at)
}

impl Student {
    /// One with these switches, at the start of a list.
    pub fn new(on: Switches, memory: Memory) -> Student {
        Student {
            on,
            memory,
            arrivals: 0,
        }
    }

    fn has(&self, mistake: Mistake) -> bool {
        self.on.has(mistake)
    }

    /// An arrival taken.
    pub fn take(&mut self, arrival: &[u8]) -> Answer {
        self.arrivals += 1;
        let number = match self.first_checks(arrival) {
            _ if self.has(Mistake::OneAnswer) => self.on.answer,
            Err(number) => number,
            Ok(transfer) => return self.block(arrival, transfer),
        };
        answered(number, false)
    }

    /// What it says at the end.
    pub fn end(&self) -> End {
        let end = self.memory.end();
        match end.state {
            State::Idle => end,
            _ if self.has(Mistake::InventedCount) => End {
                count: self.arrivals,
                ..end
            },
            _ => end,
        }
    }

    /// Checks 1 to 3.
    fn first_checks(&self, arrival: &[u8]) -> Result<Transfer, u32> {
        let m = &self.memory;
        let ram = |len: usize, whole: usize| len == 0 || len == whole;
        let asked = proved::bytes::ask(&m.settings, m.flash.len(), family::ARM_S, &mut [0; 8]);
        let lengths = arrival.len() == 512 && m.seen.len() == 16_384 && m.sectors.len() == 1024;
        if !lengths
            || asked == 1
            || !ram(m.main.len(), MAIN_RAM_BYTES)
            || !ram(m.xip.len(), XIP_RAM_BYTES)
        {
            return Err(1);
        }
        if asked == 2 {
            return Err(2);
        }
        self.transfer().ok_or(3)
    }

    fn transfer(&self) -> Option<Transfer> {
        let bytes = &self.memory.transfer;
        let idle = Transfer {
            state: State::Idle,
            family: 0,
            total: 0,
            count: 0,
            kind: Kind::Flash,
        };
        if bytes.len() != proved::TRANSFER_BYTES {
            return None;
        }
        let (family, total, count) = (field(bytes, 1), field(bytes, 5), field(bytes, 9));
        let kind = match bytes[13] {
            0 => Some(Kind::Flash),
            1 => Some(Kind::Main),
            2 => Some(Kind::Xip),
            _ => None,
        };
        let state = match bytes[0] {
            0 => return Some(idle),
            1 if (1..total).contains(&count) && total <= 131_072 => State::Running,
            2 if (1..=131_072).contains(&total) => State::Done,
            _ => return None,
        };
        Some(Transfer {
            state,
            family,
            total,
            count,
            kind: kind?,
        })
    }

    fn put_transfer(&mut self, t: Transfer) {
        let state = match t.state {
            State::Idle => 0,
            State::Running => 1,
            State::Done => 2,
        };
        let kind = match t.kind {
            Kind::Flash => 0,
            Kind::Main => 1,
            Kind::Xip => 2,
        };
        let mut bytes = vec![state];
        for x in [t.family, t.total, t.count] {
            bytes.extend_from_slice(&x.to_le_bytes());
        }
        bytes.push(kind);
        self.memory.transfer = bytes;
    }

    /// Checks 4 to 12, and what comes of a block that passes.
    fn block(&mut self, arrival: &[u8], transfer: Transfer) -> Answer {
        let block = Block {
            flags: get(arrival, 8),
            address: get(arrival, 12).into(),
            size: get(arrival, 16),
            number: get(arrival, 20),
            total: get(arrival, 24),
            family: get(arrival, 28),
        };
        let comment = block.flags & 1 != 0;
        if comment
            && self.has(Mistake::CommentRefused)
            && self.is_block(arrival)
            && (block.flags & 0x1000 == 0 || self.has(Mistake::ContainerIgnored))
        {
            return self.refuse(6, transfer);
        }
        let settings = self.settings();
        let (kind, window) = self.kind(&block, transfer);
        let room = self.room(&settings, kind, block.family);
        let some = room.unwrap_or(Room { start: 0, len: 0 });
        let again = if self.has(Mistake::BeginsAfterDone) {
            false
        } else {
            transfer.state == State::Done
        };
        let mut checks = [
            (4, !self.is_block(arrival)),
            (
                5,
                block.flags & 0x1000 != 0 && !self.has(Mistake::ContainerIgnored),
            ),
            (
                7,
                block.flags & 0x2000 == 0 && !self.has(Mistake::FamilyFlagIgnored),
            ),
            (8, room.is_none()),
            (
                9,
                !comment && block.size != 256 && !self.has(Mistake::SizeNotChecked),
            ),
            (10, self.bad_numbers(&block, some)),
            (11, !comment && self.bad_address(&block, kind, some)),
            (12, again),
        ];
        // an address in no window: 11 before 10
        if !window && !comment && !self.has(Mistake::NumbersFirst) {
            checks.swap(5, 6);
        }
        let orders = [
            (Mistake::Order4And5, 0),
            (Mistake::Order5And7, 1),
            (Mistake::Order7And8, 2),
            (Mistake::Order8And9, 3),
            (Mistake::Order9And10, 4),
            (Mistake::Order10And11, 5),
            (Mistake::Order11And12, 6),
        ];
        for (mistake, at) in orders {
            if self.has(mistake) && !(at == 5 && checks[5].0 == 11) {
                checks.swap(at, at + 1);
            }
        }
        match checks.iter().find(|(_, fails)| *fails) {
            Some((12, _))
                if self.has(Mistake::CompletedAgain) && self.same(&block, transfer, kind) =>
            {
                answered(15, false)
            }
            Some((number, _)) => self.refuse(*number, transfer),
            None => self.step(&block, transfer, kind, some, arrival),
        }
    }

    fn settings(&self) -> Settings {
        let bytes = self.memory.settings.as_slice().try_into().ok();
        bytes
            .and_then(Settings::from_bytes)
            .unwrap_or(Settings::ARM)
    }

    fn is_block(&self, arrival: &[u8]) -> bool {
        get(arrival, 0) == 0x0A32_4655
            && (get(arrival, 4) == 0x9E5D_5157 || self.has(Mistake::SecondMagicIgnored))
            && (get(arrival, 508) == 0x0AB1_6F30 || self.has(Mistake::EndMagicIgnored))
    }

    /// A refusal, which should change nothing.
    fn refuse(&mut self, number: u32, t: Transfer) -> Answer {
        let running = t.state == State::Running;
        let discards = (number == 8 && self.has(Mistake::NoPlaceDiscards))
            || (number == 11 && self.has(Mistake::BadAddressDiscards))
            || ((4..=11).contains(&number) && self.has(Mistake::RefusalDiscards));
        if running && discards {
            self.put_transfer(Transfer {
                state: State::Idle,
                family: 0,
                total: 0,
                count: 0,
                kind: Kind::Flash,
            });
        } else if running && number == 8 && self.has(Mistake::ForeignCounted) {
            self.counted(t);
        }
        answered(number, false)
    }

    /// The count raised, and nothing else.
    fn counted(&mut self, t: Transfer) {
        let count = t.count + 1;
        let state = if count >= t.total {
            State::Done
        } else {
            State::Running
        };
        self.put_transfer(Transfer { state, count, ..t });
    }

    /// The memory of a block, and whether its address lies in a window.
    fn kind(&self, block: &Block, t: Transfer) -> (Kind, bool) {
        let lent = |kind: Kind| match kind {
            Kind::Flash => true,
            Kind::Main => !self.memory.main.is_empty(),
            Kind::Xip => !self.memory.xip.is_empty(),
        };
        if block.flags & 1 != 0 {
            let own =
                t.state == State::Running && t.family == block.family && t.total == block.total;
            let kind = if own && lent(t.kind) {
                t.kind
            } else {
                Kind::Flash
            };
            return (kind, true);
        }
        let inside = |kind: &Kind| {
            lent(*kind) && (kind.start()..kind.start() + kind.window()).contains(&block.address)
        };
        let found = [Kind::Flash, Kind::Main, Kind::Xip]
            .into_iter()
            .find(inside);
        (found.unwrap_or(Kind::Flash), found.is_some())
    }

    /// The place of a family in a memory.
    fn room(&self, settings: &Settings, kind: Kind, family: u32) -> Option<Room> {
        let len = self.memory.flash.len() as u64;
        let whole = Room { start: 0, len };
        let found = match kind {
            Kind::Flash => self.place(settings, family, whole),
            Kind::Main | Kind::Xip => {
                let fixed = (family::DATA..=family::ARM_NS).contains(&family);
                let used = &settings.table[..settings.count.min(16).into()];
                let user = used.iter().any(|entry| is_user(entry, family));
                let len = kind.window();
                (fixed || user).then_some(Room { start: 0, len })
            }
        };
        match found {
            Some(_) if kind == Kind::Flash && self.has(Mistake::WholeFlashForPlace) => Some(whole),
            None if self.has(Mistake::AnyFamily) => Some(whole),
            found => found,
        }
    }

    fn place(&self, s: &Settings, family: u32, whole: Room) -> Option<Room> {
        match family {
            family::ABSOLUTE => return s.absolute.then_some(whole),
            family::RP2040 => return None,
            _ => {}
        }
        if s.count == 0 {
            let gets = family == family::DATA
                || (family == family::ARM_S && s.arm)
                || (family == family::RISCV && s.riscv);
            return gets.then_some(whole);
        }
        let used = &s.table[..s.count.min(16).into()];
        let candidate = |e: &&Entry| {
            (self.has(Mistake::TakesBOf) || !matches!(e.link, Link::BOf(_))) && accepts(e, family)
        };
        let passes = 1..=4;
        let mut passes = passes.filter_map(|pass| {
            used.iter()
                .filter(candidate)
                .find(|e| self.allows(pass, s, e, family))
        });
        let entry = passes.next()?;
        Some(Room {
            start: u64::from(entry.first) * SECTOR_BYTES as u64,
            len: u64::from(entry.sectors) * SECTOR_BYTES as u64,
        })
    }

    fn allows(&self, pass: u32, s: &Settings, e: &Entry, family: u32) -> bool {
        let unowned = e.link == Link::Unlinked;
        let image = |arch: Arch| match arch {
            Arch::Arm => (family::ARM_S, e.not_bootable_arm, s.arm),
            Arch::RiscV => (family::RISCV, e.not_bootable_riscv, s.riscv),
        };
        let other = match s.current {
            Arch::Arm => Arch::RiscV,
            Arch::RiscV => Arch::Arm,
        };
        let (own_image, own_marked, _) = image(s.current);
        let (other_image, other_marked, other_on) = image(other);
        match pass {
            _ if self.has(Mistake::FirstEntryTaken) => true,
            1 => family == own_image && unowned && !own_marked,
            2 => s.auto_switch && other_on && family == other_image && unowned && !other_marked,
            3 => unowned,
            _ => true,
        }
    }

    fn bad_numbers(&self, block: &Block, room: Room) -> bool {
        let bytes = match self.has(Mistake::TotalIn32Bits) {
            true => block.total.wrapping_mul(256).into(),
            false => u64::from(block.total) * 256,
        };
        let past = match self.has(Mistake::NumberEqualsTotal) {
            true => block.number > block.total,
            false => block.number >= block.total,
        };
        block.total == 0 || bytes > room.len || past
    }

    fn bad_address(&self, block: &Block, kind: Kind, room: Room) -> bool {
        let start = kind.start();
        let unaligned =
            kind == Kind::Flash && block.address % 256 != 0 && !self.has(Mistake::UnalignedTaken);
        if block.address < start || unaligned {
            return true;
        }
        let end = match self.has(Mistake::AddsIn32Bits) {
            true => (block.address + 256) & 0xFFFF_FFFF,
            false => block.address + 256,
        };
        let len = match self.has(Mistake::WindowForPlace) {
            true => kind.window(),
            false => room.len,
        };
        match self.has(Mistake::LastPageRefused) {
            true => end >= start + len,
            false => end > start + len,
        }
    }

    /// Whether a block goes on with the transfer's file.
    fn same(&self, block: &Block, t: Transfer, kind: Kind) -> bool {
        let any = self.has(Mistake::NeverDiscards);
        (any || self.has(Mistake::FamilyNotCompared) || t.family == block.family)
            && (any || self.has(Mistake::TotalNotCompared) || t.total == block.total)
            && t.kind == kind
    }

    /// Checks 13 to 17.
    fn step(
        &mut self,
        block: &Block,
        t: Transfer,
        kind: Kind,
        room: Room,
        arrival: &[u8],
    ) -> Answer {
        let running = t.state == State::Running;
        let going = running && self.same(block, t, kind);
        if self.has(Mistake::RefusesAll) {
            return self.refuse(self.on.answer, t);
        }
        if going && self.marked(block.number) && !self.has(Mistake::CountsArrivals) {
            if self.has(Mistake::CountsAgain) {
                self.counted(t);
            }
            return answered(13, false);
        }
        let comment = block.flags & 1 != 0;
        let kept = !comment
            && kind == Kind::Flash
            && !self.has(Mistake::RewritesKept)
            && self.stands(block, room, arrival);
        let before = if going { t.count } else { 0 };
        if !going {
            self.clear(running);
        }
        if !kept && (!comment || self.has(Mistake::CommentStored)) {
            self.store(block, kind, room, before, arrival);
        }
        let number = match self.has(Mistake::MarksByOrder) {
            true => before,
            false => block.number,
        };
        self.mark(number);
        let count = before + 1;
        let done = match self.has(Mistake::LastNumberCompletes) {
            true => block.number + 1 == block.total,
            false => count >= block.total,
        };
        self.put_transfer(Transfer {
            state: if done { State::Done } else { State::Running },
            family: block.family,
            total: block.total,
            count: if done { block.total } else { count },
            kind,
        });
        let number = match (done, comment, kept) {
            (true, _, _) => 15,
            (_, true, _) => 16,
            (_, _, true) => 17,
            _ => 14,
        };
        answered(
            number,
            running && !going && !self.has(Mistake::DiscardedNotTold),
        )
    }

    /// What the beginning of a transfer clears.
    fn clear(&mut self, discards: bool) {
        if !self.has(Mistake::SeenNotCleared) {
            self.memory.seen.fill(0);
        }
        if !self.has(Mistake::SectorsNotCleared) {
            self.memory.sectors.fill(0);
        }
        if discards && self.has(Mistake::DiscardErases) {
            self.memory.flash.fill(0xFF);
        }
    }

    fn bit(&self, k: u32) -> u8 {
        match self.has(Mistake::BitsLowFirst) {
            true => 1 << (k % 8),
            false => 0x80 >> (k % 8),
        }
    }

    fn marked(&self, k: u32) -> bool {
        let byte = self.memory.seen.get(k as usize / 8);
        byte.is_some_and(|byte| byte & self.bit(k) != 0)
    }

    fn mark(&mut self, k: u32) {
        let bit = self.bit(k);
        if let Some(byte) = self.memory.seen.get_mut(k as usize / 8) {
            *byte |= bit;
        }
    }

    fn store(&mut self, block: &Block, kind: Kind, room: Room, before: u32, arrival: &[u8]) {
        let first = before == 0;
        if self.has(Mistake::StoresNothing) || (self.has(Mistake::StoresFirstOnly) && !first) {
            return;
        }
        let offset = match self.has(Mistake::StoresByOrder) {
            true => u64::from(before) * 256,
            false => block.address.wrapping_sub(kind.start()),
        };
        let mut at = room.start.wrapping_add(offset) as usize;
        if kind == Kind::Flash {
            if self.has(Mistake::AddsIn32Bits) {
                at %= self.memory.flash.len().max(1);
            }
            if at.saturating_add(256) > self.memory.flash.len() {
                return;
            }
            self.erase(at / SECTOR_BYTES);
        }
        let memory = match kind {
            Kind::Flash => &mut self.memory.flash,
            Kind::Main => &mut self.memory.main,
            Kind::Xip => &mut self.memory.xip,
        };
        if let Some(page) = memory.get_mut(at..at.saturating_add(256)) {
            page.copy_from_slice(&arrival[PAYLOAD]);
        }
    }

    /// A sector erased, where it is not marked.
    fn erase(&mut self, sector: usize) {
        let bit = self.bit(sector as u32);
        let marked = self.memory.sectors[sector / 8] & bit != 0;
        if (!marked || self.has(Mistake::ErasesEachPage)) && !self.has(Mistake::NeverErases) {
            self.memory.flash[sector * SECTOR_BYTES..][..SECTOR_BYTES].fill(0xFF);
        }
        self.memory.sectors[sector / 8] |= bit;
    }

    /// Whether the flash has what the block's region (flag 0x4000) names.
    fn stands(&self, block: &Block, room: Room, arrival: &[u8]) -> bool {
        if block.flags & 0x4000 == 0 {
            return false;
        }
        let (start, len) = (u64::from(get(arrival, 484)), u64::from(get(arrival, 488)));
        let sector = SECTOR_BYTES as u64;
        if start < 0x1000_0000 || len == 0 || len % sector != 0 {
            return false;
        }
        let from = start - 0x1000_0000;
        let around = start <= block.address && block.address + 256 <= start + len;
        if from % sector != 0 || from + len > room.len || !around {
            return false;
        }
        let at = (room.start + from) as usize;
        let bytes = self.memory.flash.get(at..at + len as usize);
        bytes.is_some_and(|bytes| tools::md5(bytes) == arrival[492..508])
    }
}

fn answered(number: u32, discarded: bool) -> Answer {
    let more = discarded.into();
    Answer { number, more }
}

fn is_user(entry: &Entry, family: u32) -> bool {
    let count = usize::from(entry.user_count).min(4);
    entry.users[..count].contains(&family)
}

fn accepts(entry: &Entry, family: u32) -> bool {
    match family {
        family::DATA => entry.data,
        family::ARM_S => entry.arm_s,
        family::RISCV => entry.riscv,
        family::ARM_NS => entry.arm_ns,
        _ => is_user(entry, family),
    }
}

/// Plays a list by a receiver with switches.
pub fn play(list: &List, on: Switches) -> Played {
    let mut students: Vec<Student> = list
        .boards()
        .into_iter()
        .map(|memory| Student::new(on, memory))
        .collect();
    let calls = list.calls();
    let take = |(board, k): (usize, usize)| students[board].take(&list.arrivals[k]);
    let answers = calls.into_iter().map(take).collect();
    let first = students.swap_remove(0);
    Played {
        answers,
        end: first.end().line(),
        contents: first.memory.flash,
    }
}

#[cfg(test)]
mod tests {
    use super::*;
    use crate::mark::diagnose::{self, deviation, Shown};
    use crate::mark::list::Play;
    use crate::mark::set::Set;
    use crate::mark::{cases, chance, hex};

    const EVERY: Set = Set {
        l3: true,
        l8: true,
        l9: true,
    };

    /// Without a switch the model is the proved receiver, in every set and after each call; so is the model of lines.
    #[test]
    fn without_a_switch() {
        let named = cases::all().into_iter().map(|case| case.play);
        let random = (0..4000).map(|k| Play::Uf2(chance::library(7, k, EVERY)));
        let lines = (0..300).map(|k| {
            let (own, lines) = hex::chance(7, k);
            Play::Hex(own, lines)
        });
        for play in named.chain(random).chain(lines) {
            let found = deviation(&play, &[], 8, Shown::Bytes);
            assert_eq!(found, None, "{play:?}");
        }
    }

    /// On set 01 a receiver of document 01 alone does not differ.
    #[test]
    fn document_01_alone() {
        let alone = [
            Mistake::CommentRefused,
            Mistake::NumbersFirst,
            Mistake::RewritesKept,
        ];
        let alone = alone.map(diagnose::Mistake::Uf2);
        for k in 0..4000 {
            let play = Play::Uf2(chance::library(3, k, Set::default()));
            assert_eq!(deviation(&play, &alone, 8, Shown::Bytes), None, "list {k}");
        }
    }

    /// teaching/deviations.txt has each mistake's first deviation in each case that a program can be asked. VANTOREL_WRITE=1 writes it anew.
    #[test]
    fn deviations() {
        let all = ALL.iter().map(|x| diagnose::Mistake::Uf2(*x));
        let all: Vec<diagnose::Mistake> = all
            .chain(hex::ALL.iter().map(|x| diagnose::Mistake::Hex(*x)))
            .collect();
        let cases = cases::all();
        let mut text = String::from("# The first deviation of each known mistake in each named case that a program can be asked: MISTAKE CASE, then `answer ARRIVAL NUMBER MORE`,\n# `state ..` or `page PAGE FIRST-8-BYTES`. A test writes it (VANTOREL_WRITE=1), and the page's model is held to it.\n");
        for mistake in &all {
            for case in &cases {
                let asked = match &case.play {
                    Play::Uf2(list) => list.is_program(),
                    Play::Hex(..) => true,
                };
                let found =
                    deviation(&case.play, &[*mistake], 8, Shown::Contents).filter(|_| asked);
                if let Some(found) = found {
                    text += &format!("{} {} {}\n", mistake.id(), case.id, found.told());
                }
            }
        }
        let path = concat!(env!("CARGO_MANIFEST_DIR"), "/../../teaching/deviations.txt");
        if std::env::var_os("VANTOREL_WRITE").is_some() {
            std::fs::write(path, &text).expect("the file");
        }
        assert!(
            std::fs::read_to_string(path).is_ok_and(|kept| kept == text),
            "VANTOREL_WRITE=1 writes {path}"
        );
    }

    /// Every case shows the mistakes that it names.
    #[test]
    fn what_cases_show() {
        let all = ALL.iter().map(|x| diagnose::Mistake::Uf2(*x));
        let all: Vec<diagnose::Mistake> = all
            .chain(hex::ALL.iter().map(|x| diagnose::Mistake::Hex(*x)))
            .collect();
        let mut wrong = Vec::new();
        for case in cases::all() {
            for mistake in all.iter().filter(|x| case.shows.contains(&x.id())) {
                let memory = *mistake == diagnose::Mistake::Uf2(Mistake::KeepsMemory);
                let mut shown = deviation(&case.play, &[*mistake], 8, Shown::Bytes);
                shown = shown.or_else(|| deviation(&case.play, &[*mistake], 8, Shown::Contents));
                if shown.is_none() && !memory {
                    wrong.push(format!("{} does not show {}", case.id, mistake.id()));
                }
            }
        }
        assert!(wrong.is_empty(), "{wrong:#?}");
    }
}
