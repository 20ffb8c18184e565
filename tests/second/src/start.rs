//! Where a history starts: an empty image, or one that another program could have written.

use crate::both::Change;
use crate::letters::{ANY, KANA, MIXED};
use crate::make::{any_header, cut, entry, headwords, lay_out, plain, put_four, render};
use crate::make::{sketch, some_continue, text, Cut, Fronts, Ground, Kind, Links, Sketch};
use crate::random::Random;
use crate::reader::{at, BLOCK, MOST_HEADWORD, MOST_TEXT};

/// The kinds of starts, each with its name in the report.
pub const STARTS: [(How, &str); 17] = [
    (How::Created, "created empty"),
    (How::Made(Kind::Empty), "no entry: zero index, free blocks"),
    (How::Made(Kind::Plain), "plain"),
    (How::Made(Kind::ShortFronts), "fronts shorter than possible"),
    (How::Made(Kind::LongRuns), "runs far over 1,024 bytes"),
    (How::Made(Kind::LooseChain), "unordered chain"),
    (How::Made(Kind::Slack), "anything behind end marks"),
    (How::Made(Kind::WideIndex), "index longer than needed"),
    (How::Made(Kind::OldBytes), "free blocks with old bytes"),
    (How::Made(Kind::Edges), "longest headwords, full index"),
    (How::Made(Kind::HighBytes), "bytes from 0x80 up"),
    (How::Made(Kind::Pairs), "Shift JIS"),
    (How::Made(Kind::Mixed), "all forms mixed"),
    (How::Made(Kind::Large), "large"),
    (How::LongFronts, "long runs of long fronts"),
    (How::OneBlock, "one block with long fronts"),
    (How::Gaps, "many free stretches"),
];

#[derive(Clone, Copy, Debug, PartialEq, Eq)]
pub enum How {
    Created,
    Made(Kind),
    /// A change cuts such a run into many parts with long index headwords.
    LongFronts,
    /// A long text between its entries makes the index grow by more than D.
    OneBlock,
    /// Best fit has several stretches to choose from.
    Gaps,
}

/// A start: the image's bytes, and a first change where one is wanted. Where it is to be
/// created, the bytes say in which version.
pub struct Start {
    /// Its place in STARTS.
    pub kind: usize,
    pub bytes: Vec<u8>,
    pub opening: Option<Change>,
}

/// How often the starts are taken, by place in STARTS; together 100.
const OFTEN: [usize; 17] = [14, 4, 4, 5, 5, 5, 5, 4, 4, 9, 4, 4, 8, 1, 13, 5, 6];

pub fn start(random: &mut Random) -> Start {
    let mut left = random.below(OFTEN.iter().sum());
    let mut kind = 0;
    while left >= OFTEN[kind] {
        left -= OFTEN[kind];
        kind += 1;
    }
    let mut opening = None;
    let mut sketch = match STARTS[kind].0 {
        How::Created => {
            return Start {
                kind,
                bytes: any_header(random),
                opening,
            }
        }
        How::Made(kind) => sketch(random, kind),
        How::LongFronts => long_fronts(random),
        How::OneBlock => {
            let (sketch, change) = one_block(random);
            opening = Some(change);
            sketch
        }
        How::Gaps => gaps(random),
    };
    // Most may be changed; some are near the update count's end.
    if random.chance(39, 40) {
        sketch.header[at::VERSION] = random.below(16) as u8;
    }
    if random.chance(1, 6) {
        let changes = u32::MAX - random.below(12) as u32;
        put_four(&mut sketch.header, at::UPDATE_COUNT, changes);
    }
    let image = lay_out(random, &sketch);
    Start {
        kind,
        bytes: render(random, image, sketch.ground).bytes,
        opening,
    }
}

/// A stem and ascending headwords that continue it.
fn stemmed(random: &mut Random, stem: usize, number: usize) -> Vec<Vec<u8>> {
    let letters = *random.pick(&MIXED);
    let stem = random.pick(&[&ANY, letters]).bytes(random, stem);
    let mut tails = some_continue(random, number, letters, &[]);
    for tail in &mut tails {
        tail.truncate(MOST_HEADWORD - stem.len());
    }
    tails.dedup();
    tails
        .iter()
        .map(|tail| [&stem[..], tail].concat())
        .collect()
}

fn long_fronts(random: &mut Random) -> Sketch {
    let stem = random.range(150, 240);
    let number = random.range(5, 60);
    let most = *random.pick(&[20, 400, 700, 1_000]);
    let mut list = Vec::new();
    for headword in stemmed(random, stem, number) {
        let size = random.below(most);
        list.push(entry(random, headword, size));
    }
    let long = list[0].headword.clone();
    let way = *random.pick(&[Cut::One, Cut::One, Cut::Bytes(9_000)]);
    let mut runs = cut(random, list, way, Fronts::Longest);
    // Small runs before them in the index, and so in the data area unless it is loose.
    let mut small = Vec::new();
    for i in 0..random.below(12) as u8 {
        let size = random.below(300);
        small.push(entry(random, vec![1, 1 + i], size));
    }
    small.retain(|entry| entry.headword < long);
    let mut all = cut(random, small, Cut::Chance(2), Fronts::Longest);
    all.append(&mut runs);
    let mut sketch = plain(any_header(random), all);
    sketch.free = random.below(6);
    sketch.loose = random.chance(1, 2);
    sketch.links = Links::Any;
    sketch.ground = Ground::Any;
    sketch
}

fn one_block(random: &mut Random) -> (Sketch, Change) {
    let stem = random.pick(&[&ANY, &KANA]).bytes(random, 215);
    let mut list = Vec::new();
    for tail in [b'A', b'Z'] {
        let word = [&stem[..], &[tail]].concat();
        list.push(entry(random, word, 4));
    }
    let runs = cut(random, list, Cut::One, Fronts::Longest);
    let sketch = plain(any_header(random), runs);
    let size = random.range(1_100, MOST_TEXT);
    let change = Change::Insert {
        headword: [&stem[..], b"M"].concat(),
        attribute: 0x80,
        text: text(random, size),
    };
    (sketch, change)
}

fn gaps(random: &mut Random) -> Sketch {
    let number = random.range(6, 24);
    let mut list = Vec::new();
    let letters = *random.pick(&MIXED);
    for headword in headwords(random, number, letters) {
        let most = *random.pick(&[100, 600, 1_000]);
        let size = random.below(most);
        list.push(entry(random, headword, size));
    }
    let runs = cut(random, list, Cut::Chance(2), Fronts::Longest);
    let mut sketch = plain(any_header(random), runs);
    sketch.free = random.range(6, 40);
    sketch.loose = true;
    sketch.links = Links::Any;
    sketch.ground = *random.pick(&[Ground::Any, Ground::OldRuns]);
    sketch
}

/// How many bytes the slice has behind L: none, less than a block, few blocks, or many.
pub fn room(random: &mut Random) -> usize {
    match random.below(10) {
        0 => 0,
        1 => random.range(1, BLOCK - 1),
        2 => BLOCK * random.range(1, 3),
        3 | 4 => random.range(BLOCK, 12 * BLOCK),
        5..=7 => random.range(10 * BLOCK, 50 * BLOCK),
        _ => random.range(50 * BLOCK, 150 * BLOCK),
    }
}
