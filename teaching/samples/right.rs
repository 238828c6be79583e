//! A student's receiver in Rust, as document 01's program: arrivals on standard input, a line for each. Its flash goes to the file that VANTOREL_FLASH names.

use std::collections::HashSet;
use std::io::Read;

const FLASH: usize = 32_768;

#[derive(Default)]
struct Receiver {
    state: &'static str,
    family: u32,
    total: u32,
    count: u32,
    seen: HashSet<u32>,
    sectors: HashSet<usize>,
    flash: Vec<u8>,
}

fn field(a: &[u8], at: usize) -> u32 {
    u32::from_le_bytes([a[at], a[at + 1], a[at + 2], a[at + 3]])
}

impl Receiver {
    fn take(&mut self, a: &[u8]) -> (u32, u32) {
        if a.len() != 512 {
            return (1, 0);
        }
        let (flags, address, size, number) = (field(a, 8), field(a, 12), field(a, 16), field(a, 20));
        let (total, family) = (field(a, 24), field(a, 28));
        if field(a, 0) != 0x0A32_4655 || field(a, 4) != 0x9E5D_5157 || field(a, 508) != 0x0AB1_6F30 {
            return (4, 0);
        }
        if flags & 0x1000 != 0 {
            return (5, 0);
        }
        if flags & 1 != 0 {
            return (6, 0);
        }
        if flags & 0x2000 == 0 {
            return (7, 0);
        }
        if !(0xe48b_ff57..=0xe48b_ff59).contains(&family) {
            return (8, 0);
        }
        if size != 256 {
            return (9, 0);
        }
        if total == 0 || u64::from(total) * 256 > FLASH as u64 || number >= total {
            return (10, 0);
        }
        let end = u64::from(address) + 256;
        if address < 0x1000_0000 || address % 256 != 0 || end > 0x1000_0000 + FLASH as u64 {
            return (11, 0);
        }
        if self.state == "done" {
            return (12, 0);
        }
        let running = self.state == "running";
        let same = running && self.family == family && self.total == total;
        if same && self.seen.contains(&number) {
            return (13, 0);
        }
        if !same {
            self.seen.clear();
            self.sectors.clear();
            self.count = 0;
        }
        let at = (address - 0x1000_0000) as usize;
        if self.sectors.insert(at / 4096) {
            self.flash[at / 4096 * 4096..][..4096].fill(0xFF);
        }
        self.flash[at..at + 256].copy_from_slice(&a[32..288]);
        self.seen.insert(number);
        self.count += 1;
        (self.family, self.total) = (family, total);
        self.state = if self.count >= total { "done" } else { "running" };
        let answer = if self.state == "done" { 15 } else { 14 };
        (answer, u32::from(running && !same))
    }
}

fn main() {
    let mut receiver = Receiver { state: "idle", flash: vec![0xFF; FLASH], ..Receiver::default() };
    let mut input = Vec::new();
    std::io::stdin().read_to_end(&mut input).expect("input");
    println!("arrival answer discarded");
    for (k, arrival) in input.chunks(512).enumerate() {
        let (answer, discarded) = receiver.take(arrival);
        println!("{k} {answer} {discarded}");
    }
    println!("state {} total {} seen {}", receiver.state, receiver.total, receiver.count);
    if let Ok(name) = std::env::var("VANTOREL_FLASH") {
        std::fs::write(name, &receiver.flash).expect("the flash");
    }
}
