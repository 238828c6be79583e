//! What is in a UF2 file, whatever it is: told from the fields of its blocks, and no answer.

use crate::block::{pieces, Block};
use crate::json::Json;
use crate::number::count;
use crate::out::Out;
use crate::{families, tags};
use proved::ARRIVAL_BYTES;

const PAGE_BYTES: u64 = 256;
const CONTAINER: u32 = 0x1000;
const FAMILY: u32 = 0x2000;
const REGION: u32 = 0x4000;

/// Gaps that are listed; the others are counted.
const LISTED: usize = 5;

/// The pieces of one family and one total.
struct Group {
    /// None where the blocks name no family.
    family: Option<u32>,
    total: u32,
    pieces: u64,
    comments: u64,
    /// The addresses of its data blocks.
    addresses: Vec<u32>,
}

/// Addresses, the first and the last.
type Range = (u64, u64);

/// What is in a file.
pub struct Contents {
    pieces: u64,
    groups: Vec<Group>,
    containers: u64,
    regions: u64,
    strangers: u64,
    cut: usize,
    versions: Vec<String>,
}

impl Group {
    /// The ranges of addresses that its pages fill, in order.
    fn ranges(&self) -> Vec<Range> {
        let mut addresses: Vec<u64> = self.addresses.iter().map(|&at| at.into()).collect();
        addresses.sort_unstable();
        let mut found: Vec<Range> = Vec::new();
        for at in addresses {
            match found.last_mut() {
                Some((_, last)) if at <= *last + 1 => *last = (*last).max(at + PAGE_BYTES - 1),
                _ => found.push((at, at + PAGE_BYTES - 1)),
            }
        }
        found
    }

    fn data(&self) -> String {
        let ranges = self.ranges();
        let (Some(first), Some(last)) = (ranges.first(), ranges.last()) else {
            return "no data".into();
        };
        let gaps: Vec<Range> = gaps(&ranges).collect();
        let listed: Vec<String> = gaps.iter().take(LISTED).map(|gap| span(*gap)).collect();
        let gaps = match gaps.len() {
            0 => " without a gap".into(),
            1 => format!(", a gap at {}", listed[0]),
            n if n <= LISTED => format!(", gaps at {}", listed.join(", ")),
            n => format!(", gaps at {} and {} more", listed.join(", "), n - LISTED),
        };
        format!("data for {}{gaps}", span((first.0, last.1)))
    }

    fn line(&self) -> String {
        let family = match self.family {
            Some(family) => format!("family {}", families::words(family)),
            None => "no family".into(),
        };
        let comments = match self.comments {
            0 => "no comments".into(),
            n => count(n, "comment"),
        };
        format!(
            "{family}: {}, total {}, {}, {comments}",
            count(self.pieces, "piece"),
            self.total,
            self.data()
        )
    }

    fn json(&self) -> Json {
        let list = |ranges: Vec<Range>| {
            Json::list(ranges.into_iter().map(|(from, to)| Json::list([from, to])))
        };
        let ranges = self.ranges();
        let gaps = gaps(&ranges).collect();
        Json::Object(vec![
            ("family", self.family.into()),
            ("pieces", self.pieces.into()),
            ("total", self.total.into()),
            ("comments", self.comments.into()),
            ("ranges", list(ranges)),
            ("gaps", list(gaps)),
        ])
    }
}

/// What lies between ranges that rise.
fn gaps(ranges: &[Range]) -> impl Iterator<Item = Range> + '_ {
    let pairs = ranges.iter().zip(ranges.iter().skip(1));
    pairs.map(|(before, after)| (before.1 + 1, after.0 - 1))
}

fn span((from, to): Range) -> String {
    format!("0x{from:08x} to 0x{to:08x}")
}

impl Contents {
    /// Reads every piece.
    pub fn of(file: &[u8]) -> Contents {
        let mut contents = Contents {
            pieces: pieces(file).len() as u64,
            groups: Vec::new(),
            containers: 0,
            regions: 0,
            strangers: 0,
            cut: file.len() % ARRIVAL_BYTES,
            versions: tags::versions(file),
        };
        for piece in file.chunks_exact(ARRIVAL_BYTES) {
            match Block::read(piece) {
                Some(block) => contents.add(&block),
                None => contents.strangers += 1,
            }
        }
        contents
    }

    fn add(&mut self, block: &Block) {
        if block.flags & CONTAINER != 0 {
            self.containers += 1;
            return;
        }
        self.regions += u64::from(block.flags & REGION != 0);
        let family = (block.flags & FAMILY != 0).then_some(block.family);
        let of = |group: &Group| group.family == family && group.total == block.total;
        let group = match self.groups.iter().position(of) {
            Some(k) => &mut self.groups[k],
            None => {
                self.groups.push(Group {
                    family,
                    total: block.total,
                    pieces: 0,
                    comments: 0,
                    addresses: Vec::new(),
                });
                let last = self.groups.len() - 1;
                &mut self.groups[last]
            }
        };
        group.pieces += 1;
        if block.is_comment() {
            group.comments += 1;
        } else {
            group.addresses.push(block.address);
        }
    }

    /// Prints it.
    pub fn words(&self, out: &mut Out) {
        for group in &self.groups {
            out.line(group.line());
        }
        let others = [
            (self.containers, "of a file container (flag 0x1000)"),
            (self.strangers, "no UF2 block"),
        ];
        for (n, what) in others.into_iter().filter(|(n, _)| *n > 0) {
            let verb = if n == 1 { "is" } else { "are" };
            out.line(format_args!("{} {verb} {what}", count(n, "piece")));
        }
        if self.cut > 0 {
            let whole = self.pieces - 1;
            let cut = count(self.cut as u64, "byte");
            out.line(format_args!(
                "cut off: {} and {cut} more",
                count(whole, "whole piece")
            ));
        }
        let regions = match self.regions {
            0 => "none".into(),
            n => format!("named by {} (flag 0x4000)", count(n, "block")),
        };
        out.line(format_args!(
            "regions: {regions}; {}",
            tags::version_words(&self.versions)
        ));
    }

    /// The same for scripts.
    pub fn json(&self) -> Vec<(&'static str, Json)> {
        vec![
            ("pieces", self.pieces.into()),
            ("families", Json::list(self.groups.iter().map(Group::json))),
            ("containers", self.containers.into()),
            ("no_blocks", self.strangers.into()),
            ("cut_bytes", self.cut.into()),
            ("regions", self.regions.into()),
            (
                "versions",
                Json::list(self.versions.iter().map(String::as_str)),
            ),
        ]
    }
}
