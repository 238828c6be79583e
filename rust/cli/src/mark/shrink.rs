//! The smallest list that still fails in the same way.

use super::list::{get, put, text, Fields, List, Play, Start, PAYLOAD};
use crate::block::Block;
use proved::family;
use std::time::{Duration, Instant};

/// The most time for one list.
const TIME: Duration = Duration::from_secs(20);

/// A search for a smaller list.
struct Search<'a> {
    bad: &'a mut dyn FnMut(&Play) -> bool,
    tries: usize,
    most: usize,
    until: Instant,
}

impl Search<'_> {
    fn over(&self) -> bool {
        self.tries >= self.most || Instant::now() > self.until
    }

    fn is_bad(&mut self, play: &Play) -> bool {
        self.tries += 1;
        self.tries <= self.most && (self.bad)(play)
    }

    /// Arrivals left out: a half, a quarter, .. one.
    fn fewer(&mut self, mut play: Play) -> Play {
        let mut parts = 2;
        while play.items().len() >= 2 && !self.over() {
            let items = play.items();
            let size = (items.len() / parts).max(1);
            let without = |from: usize| {
                let to = (from + size).min(items.len());
                let kept = items[..from].iter().chain(&items[to..]);
                play.with(kept.cloned().collect())
            };
            let less: Vec<Play> = (0..items.len()).step_by(size).map(without).collect();
            match less.into_iter().find(|less| self.is_bad(less)) {
                Some(less) => {
                    play = less;
                    parts = (parts - 1).max(2);
                }
                None if size == 1 => break,
                None => parts = (parts * 2).min(play.items().len()),
            }
        }
        if play.items().len() == 1 {
            let none = play.with(Vec::new());
            if self.is_bad(&none) {
                return none;
            }
        }
        play
    }

    /// The first of some lists that is bad, again and again.
    fn simpler(&mut self, mut list: List, moves: impl Fn(&List) -> Vec<List>) -> List {
        'again: while !self.over() {
            for less in moves(&list) {
                if less != list && self.is_bad(&Play::Uf2(less.clone())) {
                    list = less;
                    continue 'again;
                }
            }
            break;
        }
        list
    }
}

/// A smaller list that is bad as well, after at most so many tries, and how many it took.
pub fn shrink(play: Play, most: usize, bad: &mut dyn FnMut(&Play) -> bool) -> (Play, usize) {
    let mut search = Search {
        bad,
        tries: 0,
        most,
        until: Instant::now() + TIME,
    };
    let mut play = play;
    loop {
        let before = play.clone();
        play = search.fewer(play);
        if let Play::Uf2(list) = play {
            let list = search.simpler(list, smaller_files);
            play = Play::Uf2(search.simpler(list, plainer));
        }
        if play == before || search.over() {
            return (play, search.tries);
        }
    }
}

fn blocks(list: &List) -> impl Iterator<Item = Block> + '_ {
    list.arrivals.iter().filter_map(|piece| Block::read(piece))
}

/// Lists with one number left out of one file: the total is one less, and later numbers, with the addresses that follow them, move up.
fn smaller_files(list: &List) -> Vec<List> {
    let mut heads: Vec<(u32, u32)> = blocks(list)
        .map(|block| (block.total, block.family))
        .collect();
    heads.sort_unstable();
    heads.dedup();
    let mut found = Vec::new();
    for (total, family) in heads
        .into_iter()
        .filter(|(total, _)| (2..=131_072).contains(total))
    {
        let own = blocks(list).filter(|block| (block.total, block.family) == (total, family));
        let mut numbers: Vec<u32> = own.map(|block| block.number).collect();
        // a number that no arrival has, and then each that one has
        numbers.sort_unstable_by(|a, b| b.cmp(a));
        numbers.dedup();
        let highest = numbers.first().copied().unwrap_or(0);
        if highest < total - 1 {
            numbers.insert(0, highest + 1);
        }
        let gap = (0..total).find(|number| !numbers.contains(number));
        numbers.extend(gap);
        found.extend(
            numbers
                .into_iter()
                .filter(|number| *number < total)
                .map(|number| without_number(list, total, family, number)),
        );
    }
    found
}

fn without_number(list: &List, total: u32, family: u32, number: u32) -> List {
    let mut arrivals = Vec::new();
    for piece in &list.arrivals {
        let mut piece = piece.clone();
        match Block::read(&piece) {
            Some(block) if block.total == total => {
                if block.family == family && block.number == number {
                    continue;
                }
                put(&mut piece, 24, total - 1);
                let mut now = block.number;
                if block.number > number {
                    now -= 1;
                    put(&mut piece, 20, now);
                    if block.address == 0x1000_0000u32.wrapping_add(block.number.wrapping_mul(256))
                    {
                        put(&mut piece, 12, block.address.wrapping_sub(256));
                    }
                }
                if piece[PAYLOAD] == text("page", block.number, total) {
                    piece[PAYLOAD].copy_from_slice(&text("page", now, total - 1));
                }
            }
            _ => {}
        }
        arrivals.push(piece);
    }
    list.with(arrivals)
}

/// Lists in which something unusual is made usual: of the start, of all blocks, of one arrival.
fn plainer(list: &List) -> Vec<List> {
    let mut found = Vec::new();
    let start = Start::program();
    let mut with = |change: &dyn Fn(&mut Start)| {
        let mut less = list.clone();
        change(&mut less.start);
        found.push(less);
    };
    with(&|s| *s = start.clone());
    with(&|s| s.settings = start.settings.clone());
    with(&|s| s.transfer = start.transfer.clone());
    with(&|s| s.seen = start.seen.clone());
    with(&|s| s.sectors = start.sectors.clone());
    with(&|s| s.flash = start.flash);
    with(&|s| s.fill = start.fill);
    with(&|s| (s.main, s.xip) = (0, 0));
    for at in [12, 28, 8, PAYLOAD.start] {
        let all = list.arrivals.iter().map(|piece| usual(piece, at));
        found.push(list.with(all.collect()));
    }
    for k in 0..list.arrivals.len().min(24) {
        for at in [12, 28, 8, 16, PAYLOAD.start] {
            let mut arrivals = list.arrivals.clone();
            arrivals[k] = usual(&arrivals[k], at);
            found.push(list.with(arrivals));
        }
    }
    found
}

/// A piece in which one field is usual.
fn usual(piece: &[u8], at: usize) -> Vec<u8> {
    let mut piece = piece.to_vec();
    if piece.len() != 512 {
        return piece;
    }
    let (number, total) = (get(&piece, 20), get(&piece, 24));
    let fields = Fields::usual(number, total);
    match at {
        8 => put(&mut piece, 8, 0x2000),
        12 => put(&mut piece, 12, fields.address),
        16 => put(&mut piece, 16, 256),
        28 => put(&mut piece, 28, family::ARM_S),
        _ => piece[PAYLOAD].copy_from_slice(&text("page", number, total)),
    }
    piece
}
