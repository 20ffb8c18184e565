//! Arguments of the calls: lengths, headwords near those of an image, headwords outside
//! their rule.

use crate::letters::{BOUNDS, KANA, LEADS};
use crate::random::Random;
use crate::reader::{BLOCK, MOST_HEADWORD};

/// Every L around 0, 256, the image's and the slice's length, and far ones.
pub fn lengths_to_try(slice: usize, len: usize) -> Vec<usize> {
    let mut list = vec![0, 1, 2, 128, 255, 256, 257, 258, 511, 512, 513];
    for near in [len, slice, slice / BLOCK * BLOCK] {
        for far in [0, 1, 2, 255, 256, 257, 512] {
            list.push(near + far);
            list.push(near.wrapping_sub(far));
        }
    }
    list.extend([
        len + (1 << 16),
        len + (1 << 32),
        (1 << 32) + 256,
        1 << 63,
        usize::MAX,
        usize::MAX - 255,
        usize::MAX - 511,
    ]);
    list.sort();
    list.dedup();
    list
}

/// Headwords that are near those of the image, mostly absent.
pub fn near(random: &mut Random, words: &[Vec<u8>]) -> Vec<u8> {
    let mut word = match words.len() {
        0 => vec![random.byte().max(1)],
        _ => random.pick(words).clone(),
    };
    match random.below(12) {
        // A prefix.
        0 => word.truncate(random.range(1, word.len().max(1))),
        // Continuations.
        1 if word.len() < MOST_HEADWORD => word.push(1),
        2 if word.len() < MOST_HEADWORD => word.push(random.byte().max(1)),
        3 => {
            let size = random.range(word.len(), MOST_HEADWORD.max(word.len()));
            word.resize(size, 0xFF);
        }
        // Neighbours.
        4 => {
            if let Some(last) = word.last_mut() {
                *last = last.wrapping_add(1).max(1);
            }
        }
        5 => {
            if let Some(last) = word.last_mut() {
                *last = last.wrapping_sub(1).max(1);
            }
        }
        // A character of Shift JIS more, or one in the place of the last byte, which may be the
        // second of a pair.
        6 if word.len() + 1 < MOST_HEADWORD => KANA.put(random, &mut word),
        7 if word.len() + 1 < MOST_HEADWORD => LEADS.put(random, &mut word),
        8 | 9 => {
            word.pop();
            BOUNDS.put(random, &mut word);
        }
        // Below and above all.
        10 => word = vec![1],
        _ => word = vec![0xFF; random.range(1, MOST_HEADWORD)],
    }
    word
}

/// Headwords outside their rule; for walk the empty one is good.
pub fn bad(random: &mut Random, words: &[Vec<u8>]) -> Vec<u8> {
    let mut word = match words.len() {
        0 => vec![b'A'],
        _ => random.pick(words).clone(),
    };
    let size = word.len();
    match random.below(9) {
        0 => word.clear(),
        1 => word.resize(MOST_HEADWORD + 1, b'A'),
        2 => word.resize(*random.pick(&[250, 255, 256, 257, 300]), b'A'),
        // Its length is a present one's if only the low byte or two are looked at.
        3 => word.resize(256 + size, b'A'),
        4 => word.resize(65_536 + size, b'A'),
        5 => word.push(0),
        6 => word.insert(random.range(0, size), 0),
        7 => word = vec![0; random.range(1, 249)],
        _ => {
            word.resize(MOST_HEADWORD, b'A');
            word[MOST_HEADWORD - 1] = 0;
        }
    }
    word
}
