//! The image of each number: which kind, which damage, what follows behind L. An image
//! depends on the seed and its number alone.

use crate::damage::{flip, Stage, DAMAGES, REGIONS};
use crate::make::{any_identifier, empty_header, giant, lay_out, put_four, put_two};
use crate::make::{render, sketch, Kind, Made, GIANTS, KINDS};
use crate::random::Random;
use crate::reader::{at, Format, Image, BLOCK, FORMATS};

/// What the making of the image says about it.
pub enum Expected {
    /// Accepted, with these values.
    Good(Box<Image>),
    /// Refused with this number.
    Number(u32),
    /// Either.
    Open,
}

/// An image to compare the calls on.
pub struct Case {
    /// Its place in KINDS.
    pub kind: usize,
    /// The format it was made in; a damage may have given it another version.
    pub format: &'static Format,
    /// Kind and damages in words.
    pub story: String,
    /// Places in DAMAGES.
    pub damages: Vec<usize>,
    pub slice: Vec<u8>,
    pub len: usize,
    pub expected: Expected,
    /// Some headwords of the image, as far as it has any.
    pub words: Vec<Vec<u8>>,
    /// A generator for the arguments of the calls.
    pub random: Random,
}

/// The first giant's number, and how far apart they are.
const FIRST_GIANT: u64 = 97;
const GIANT_STEP: u64 = 131;
/// One image in so many is large.
const LARGE_STEP: u64 = 500;

/// Kinds of the small images, each as often as it stands here.
const SMALL: [Kind; 17] = [
    Kind::Empty,
    Kind::Plain,
    Kind::Plain,
    Kind::ShortFronts,
    Kind::LongRuns,
    Kind::LooseChain,
    Kind::Slack,
    Kind::WideIndex,
    Kind::OldBytes,
    Kind::Edges,
    Kind::Edges,
    Kind::HighBytes,
    Kind::Pairs,
    Kind::Mixed,
    Kind::Mixed,
    Kind::Mixed,
    Kind::Mixed,
];

fn place(kind: Kind) -> usize {
    KINDS
        .iter()
        .position(|(other, _)| *other == kind)
        .expect("each kind is listed")
}

/// Image `number` under `seed`.
pub fn case(seed: u64, number: u64) -> Case {
    let mut random = Random::of(seed, number);
    let giants = FIRST_GIANT..FIRST_GIANT + GIANT_STEP * (GIANTS * FORMATS.len()) as u64;
    if giants.contains(&number) && (number - FIRST_GIANT) % GIANT_STEP == 0 {
        // First all in version 4, then all in version 5.
        let which = ((number - FIRST_GIANT) / GIANT_STEP) as usize;
        return a_giant(random, which % GIANTS, &FORMATS[which / GIANTS]);
    }
    let kind = match number % LARGE_STEP {
        250 => Kind::Large,
        _ => *random.pick(&SMALL),
    };
    // Of 20: 7 good, 7 with one damage, 3 with two or three, 2 with bytes damaged by
    // chance, 1 cut, lengthened or filled by chance.
    match random.below(20) {
        0..=6 => good(random, kind),
        7..=13 => damaged(random, kind, 1),
        14..=16 => {
            let times = 2 + random.below(4) / 3;
            damaged(random, kind, times)
        }
        17..=18 => flipped(random, kind),
        _ => match random.below(4) {
            0 => filled(random),
            _ => resized(random, kind),
        },
    }
}

fn make(random: &mut Random, kind: Kind) -> Made {
    let sketch = sketch(random, kind);
    let image = lay_out(random, &sketch);
    render(random, image, sketch.ground)
}

/// Some headwords of the image: first, last, any.
fn words(random: &mut Random, image: &Image) -> Vec<Vec<u8>> {
    let mut words = Vec::new();
    if let (Some(first), Some(last)) = (image.runs.first(), image.runs.last()) {
        words.push(first.entries[0].headword.clone());
        words.push(last.entries[last.entries.len() - 1].headword.clone());
        for _ in 0..3 {
            let run = random.pick(&image.runs);
            words.push(random.pick(&run.entries).headword.clone());
        }
        // A run's first and last headword: neighbours of a bound between runs.
        let run = random.pick(&image.runs);
        words.push(run.entries[0].headword.clone());
        words.push(run.entries[run.entries.len() - 1].headword.clone());
        random.shuffle(&mut words);
    }
    words
}

/// Puts bytes behind L and makes the case.
fn finish(
    mut random: Random,
    kind: Kind,
    story: String,
    damages: Vec<usize>,
    made: Made,
    expected: Expected,
) -> Case {
    let words = words(&mut random, &made.image);
    let format = made.image.format();
    let len = made.bytes.len();
    let mut slice = made.bytes;
    let behind = match random.below(6) {
        0 => random.below(4),
        1 => BLOCK * random.below(4),
        2 => random.below(700),
        _ => 0,
    };
    slice.resize(len + behind, 0);
    if random.chance(3, 4) {
        random.fill(&mut slice[len..]);
    }
    Case {
        kind: place(kind),
        format,
        story,
        damages,
        slice,
        len,
        expected,
        words,
        random,
    }
}

fn good(mut random: Random, kind: Kind) -> Case {
    let made = make(&mut random, kind);
    let expected = Expected::Good(Box::new(made.image.clone()));
    finish(random, kind, "good".to_string(), vec![], made, expected)
}

/// How often another image is tried when one has no place for a damage.
const TRIES: usize = 60;

fn damaged(mut random: Random, kind: Kind, times: usize) -> Case {
    let mut chosen: Vec<usize> = (0..times).map(|_| random.below(DAMAGES.len())).collect();
    chosen.sort();
    chosen.dedup();
    for _ in 0..TRIES {
        // Some damages ask for several runs, free and spare blocks; some for no index.
        let kind = match (kind, random.below(2)) {
            (Kind::Large, _) => kind,
            (_, 0) => Kind::Mixed,
            _ => *random.pick(&SMALL),
        };
        let mut sketch = sketch(&mut random, kind);
        let mut done = Vec::new();
        for i in &chosen {
            if let Stage::Sketch(way) = DAMAGES[*i].stage {
                if way(&mut sketch, &mut random) {
                    done.push(*i);
                }
            }
        }
        let mut image = lay_out(&mut random, &sketch);
        for i in &chosen {
            if let Stage::Values(way) = DAMAGES[*i].stage {
                if way(&mut image, &mut random) {
                    done.push(*i);
                }
            }
        }
        let mut made = render(&mut random, image, sketch.ground);
        for i in &chosen {
            if let Stage::Bytes(way) = DAMAGES[*i].stage {
                if way(&mut made, &mut random) {
                    done.push(*i);
                }
            }
        }
        if done.is_empty() {
            continue;
        }
        let names: Vec<&str> = done.iter().map(|i| DAMAGES[*i].name).collect();
        let expected = match (times, DAMAGES[done[0]].number) {
            (1, 0) => Expected::Good(Box::new(made.image.clone())),
            (1, number) => Expected::Number(number),
            _ => Expected::Open,
        };
        return finish(random, kind, names.join(" + "), done, made, expected);
    }
    good(random, kind)
}

fn flipped(mut random: Random, kind: Kind) -> Case {
    let mut made = make(&mut random, kind);
    let mut names = Vec::new();
    for _ in 0..1 + random.below(6) / 3 {
        let region = random.below(REGIONS.len());
        if flip(&mut made, &mut random, region) {
            names.push(REGIONS[region]);
        }
    }
    let story = format!("by chance: {}", names.join(" + "));
    finish(random, kind, story, vec![], made, Expected::Open)
}

fn resized(mut random: Random, kind: Kind) -> Case {
    let mut made = make(&mut random, kind);
    let blocks = made.bytes.len() / BLOCK;
    let story;
    if random.chance(1, 2) && blocks > 1 {
        let less = random.range(1, (blocks - 1).min(4));
        made.bytes.truncate(BLOCK * (blocks - less));
        story = format!("cut by {} blocks", less);
    } else {
        let more = random.range(1, 4);
        let old = made.bytes.len();
        made.bytes.resize(old + BLOCK * more, 0);
        if random.chance(1, 2) {
            random.fill(&mut made.bytes[old..]);
        }
        story = format!("lengthened by {} blocks", more);
    }
    finish(random, kind, story, vec![], made, Expected::Open)
}

/// Bytes by chance, mostly behind a header that is good by itself.
fn filled(mut random: Random) -> Case {
    let blocks = random.range(1, 12);
    let mut made = make(&mut random, Kind::Empty);
    made.bytes = vec![0; BLOCK * blocks];
    random.fill(&mut made.bytes);
    if random.chance(3, 4) {
        let index_block = random.below(blocks + 1);
        let format = made.image.format();
        let header = empty_header(format, any_identifier(&mut random));
        made.bytes[..BLOCK].copy_from_slice(&header);
        put_two(&mut made.bytes, at::INDEX_BLOCK, index_block as u16);
        put_four(&mut made.bytes, format.nindex2, random.below(3) as u32);
        if random.chance(1, 2) {
            made.bytes[BLOCK..].fill(0);
        }
    }
    let story = "filled by chance".to_string();
    finish(random, Kind::Empty, story, vec![], made, Expected::Open)
}

fn a_giant(mut random: Random, which: usize, format: &Format) -> Case {
    let (made, number) = giant(&mut random, which, format);
    let expected = match number {
        Some(number) => Expected::Number(number),
        None => Expected::Good(Box::new(made.image.clone())),
    };
    let story = format!("giant {}", which);
    finish(random, Kind::Giant, story, vec![], made, expected)
}
