//! Letters that headwords are made of.

use crate::pairs::is_lead;
use crate::random::Random;

/// Letters of one byte and of two.
pub struct Letters {
    one: &'static [u8],
    two: &'static [[u8; 2]],
}

pub const FEW: Letters = Letters {
    one: b"ABCD",
    two: &[],
};
pub const MANY: Letters = Letters {
    one: b"abcdefghijklmnopqrstuvwxyz",
    two: &[],
};
pub const HIGH: Letters = Letters {
    one: &[0x01, 0x41, 0x7F, 0x80, 0x83, 0xA0, 0xFE, 0xFF],
    two: &[],
};
pub const ANY: Letters = Letters {
    one: &ALL_BYTES,
    two: &[],
};
/// A glossary in Shift JIS: letters, half-width kana, and few two-byte characters, most of which
/// differ in the second byte only.
pub const KANA: Letters = Letters {
    one: &[b'A', b'B', 0xB1, 0xDF],
    two: &[
        [0x82, 0x60],
        [0x82, 0xA0],
        [0x82, 0xA2],
        [0x83, 0x41],
        [0x83, 0x82],
        [0xE0, 0x40],
    ],
};
/// Two-byte characters whose second byte is a lead byte, and lead bytes that stand alone or take
/// the byte behind them.
pub const LEADS: Letters = Letters {
    one: &[0x81, 0x9F, b'A'],
    two: &[[0x81, 0x81], [0x81, 0x82], [0x9F, 0x81], [0xFC, 0xE0]],
};
/// The ends of the ranges of lead bytes, and their neighbours.
pub const BOUNDS: Letters = Letters {
    one: &[0x80, 0x81, 0x9F, 0xA0, 0xDF, 0xE0, 0xFC, 0xFD, 0xFF, 0x40],
    two: &[],
};

/// Letters in Shift JIS.
pub const PAIRED: [&Letters; 3] = [&KANA, &LEADS, &BOUNDS];

/// Letters for images that are about something else: few share many fronts.
pub const MIXED: [&Letters; 7] = [&FEW, &FEW, &FEW, &ANY, &KANA, &LEADS, &BOUNDS];

const ALL_BYTES: [u8; 255] = {
    let mut bytes = [0; 255];
    let mut i = 0;
    while i < bytes.len() {
        bytes[i] = i as u8 + 1;
        i += 1;
    }
    bytes
};

impl Letters {
    /// A letter more.
    pub fn put(&self, random: &mut Random, word: &mut Vec<u8>) {
        match random.below(self.one.len() + self.two.len()) {
            i if i < self.one.len() => word.push(self.one[i]),
            i => word.extend_from_slice(&self.two[i - self.one.len()]),
        }
    }

    /// So many bytes, which may end inside a letter.
    pub fn bytes(&self, random: &mut Random, size: usize) -> Vec<u8> {
        let mut bytes = vec![];
        while bytes.len() < size {
            self.put(random, &mut bytes);
        }
        bytes.truncate(size);
        bytes
    }

    /// Whether there are lead bytes among them.
    pub fn has_leads(&self) -> bool {
        !self.two.is_empty() || self.one.iter().any(|byte| is_lead(*byte))
    }
}
