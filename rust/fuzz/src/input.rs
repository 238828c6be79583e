//! An input read as numbers, picks and bytes. Where it ends, zeros follow: every input says something.

use reference::{ABSOLUTE, ARM_NS, ARM_S, DATA, RISCV, RP2040};

pub struct Input<'a>(pub &'a [u8]);

/// User families that tables may name, beside those of the papers and their neighbours.
const FAMILIES: [u32; 16] = [
    ARM_S,
    ARM_S,
    DATA,
    RISCV,
    ARM_NS,
    ABSOLUTE,
    RP2040,
    0x1234_5678,
    0x1234_5679,
    0,
    3,
    0xe48b_ff55,
    0xe48b_ff5c,
    u32::MAX,
    ARM_S,
    DATA,
];

impl Input<'_> {
    pub fn is_empty(&self) -> bool {
        self.0.is_empty()
    }

    pub fn byte(&mut self) -> u8 {
        let Some((&first, rest)) = self.0.split_first() else {
            return 0;
        };
        self.0 = rest;
        first
    }

    pub fn word16(&mut self) -> u16 {
        u16::from_le_bytes([self.byte(), self.byte()])
    }

    pub fn word(&mut self) -> u32 {
        u32::from_le_bytes([self.byte(), self.byte(), self.byte(), self.byte()])
    }

    pub fn word64(&mut self) -> u64 {
        u64::from(self.word()) | u64::from(self.word()) << 32
    }

    /// As many bytes as there are, up to a number of them.
    pub fn some(&mut self, n: usize) -> &[u8] {
        let (some, rest) = self.0.split_at(n.min(self.0.len()));
        self.0 = rest;
        some
    }

    /// All that is left.
    pub fn rest(&mut self) -> &[u8] {
        self.some(usize::MAX)
    }

    /// One of some choices.
    pub fn of<T: Copy>(&mut self, choices: &[T]) -> T {
        choices[usize::from(self.byte()) % choices.len()]
    }

    /// One of some choices, or after the byte 255 any number.
    pub fn word_of(&mut self, choices: &[u32]) -> u32 {
        match self.byte() {
            255 => self.word(),
            b => choices[usize::from(b) % choices.len()],
        }
    }

    pub fn family(&mut self) -> u32 {
        self.word_of(&FAMILIES)
    }

    /// Mostly the right length; after a byte from 240 on another one, up to a most.
    pub fn length(&mut self, right: usize, most: usize) -> usize {
        let length = match self.byte() {
            240 => 0,
            241 => 1,
            242 => right.wrapping_sub(1),
            243 => right + 1,
            244 => right / 2,
            245 => 2 * right,
            246..=255 => usize::from(self.word16()),
            _ => right,
        };
        if length > most {
            right
        } else {
            length
        }
    }

    /// The length of a flash as a number: of some sectors, at a limit, or any.
    pub fn flash_len(&mut self) -> u64 {
        match self.byte() {
            255 => self.word64(),
            254 => u64::from(self.word()),
            253 => 33_554_432,
            252 => 33_554_432 + 4096,
            251 => 4095,
            250 => 0,
            b => 4096 * (1 + u64::from(b) % 40),
        }
    }
}
