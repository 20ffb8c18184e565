//! Makes images from lists of entries, with options for every unusual form: a sketch says
//! what is wanted, laying it out gives the values, rendering gives the bytes and a map of
//! where each field stands.

use crate::letters::{Letters, ANY, HIGH, MIXED, PAIRED};
use crate::pairs::inside_pair;
use crate::random::Random;
use crate::reader::{at, format, Entry, Format, Header, Image, Run, FORMATS};
use crate::reader::{BLOCK, CHAIN_END, MOST_HEADWORD, MOST_TEXT};
use std::collections::BTreeSet;

/// The kinds of images that are made.
#[derive(Clone, Copy, Debug, PartialEq, Eq)]
pub enum Kind {
    Empty,
    Plain,
    ShortFronts,
    LongRuns,
    LooseChain,
    Slack,
    WideIndex,
    OldBytes,
    Edges,
    HighBytes,
    Pairs,
    Mixed,
    Large,
    Giant,
}

/// Each kind with its name in the report.
pub const KINDS: [(Kind, &str); 14] = [
    (Kind::Empty, "no entry: zero index, free blocks only"),
    (Kind::Plain, "plain: longest fronts, parts of 1,024, zeros"),
    (Kind::ShortFronts, "fronts shorter than possible"),
    (Kind::LongRuns, "runs far over 1,024 bytes"),
    (Kind::LooseChain, "runs in any order, unordered chain"),
    (Kind::Slack, "anything behind end marks, spare blocks"),
    (Kind::WideIndex, "index longer than needed"),
    (Kind::OldBytes, "free blocks with old bytes"),
    (
        Kind::Edges,
        "longest headwords and texts, full runs, full index",
    ),
    (Kind::HighBytes, "bytes from 0x80 up, order unsigned"),
    (Kind::Pairs, "Shift JIS, fronts inside pairs and not"),
    (Kind::Mixed, "all forms mixed"),
    (Kind::Large, "large: hundreds or thousands of blocks"),
    (Kind::Giant, "giant: at the limits of the blocks' numbers"),
];

/// How entries are cut into runs.
#[derive(Clone, Copy, Debug)]
pub enum Cut {
    /// As many entries as encode in so many bytes, count and end marks included.
    Bytes(usize),
    /// 1 to so many entries, by chance.
    Chance(usize),
    /// All in one run.
    One,
}

/// How much of the longest possible shared front is used; Whole is the largest that ends inside
/// no pair.
#[derive(Clone, Copy, Debug)]
pub enum Fronts {
    Longest,
    Whole,
    Any,
    None,
}

/// What the data area holds before runs and links are written; it stays behind end marks,
/// in spare blocks and behind the links of free blocks.
#[derive(Clone, Copy, Debug, PartialEq)]
pub enum Ground {
    Zero,
    Any,
    OldRuns,
}

/// The order of the chain.
#[derive(Clone, Copy, Debug, PartialEq)]
pub enum Links {
    Ascending,
    Descending,
    Any,
}

/// A run that is wanted: its entries, and blocks beyond (or, below 0, under) its need.
#[derive(Clone, Debug)]
pub struct Wanted {
    pub entries: Vec<Entry>,
    pub spare: isize,
}

/// An image that is wanted.
#[derive(Clone, Debug)]
pub struct Sketch {
    pub header: Vec<u8>,
    pub runs: Vec<Wanted>,
    /// Zero bytes that the index has at least behind its elements; 4 is right.
    pub tail: usize,
    pub extra_index: usize,
    pub free: usize,
    /// Runs and free blocks lie in any order.
    pub loose: bool,
    pub links: Links,
    pub ground: Ground,
}

/// Where an index element stands: number, headword, zero byte.
#[derive(Clone, Copy, Debug)]
pub struct ElementAt {
    pub number: usize,
    pub headword: usize,
    pub zero: usize,
}

/// Where an entry's fields stand.
#[derive(Clone, Copy, Debug)]
pub struct EntryAt {
    pub length: usize,
    pub front: usize,
    pub rest: usize,
    pub zero: usize,
    pub attribute: usize,
    pub text: usize,
    pub end: usize,
}

/// Where a run stands: its first byte (the count), its entries, its end marks.
#[derive(Clone, Debug)]
pub struct RunAt {
    pub count: usize,
    pub entries: Vec<EntryAt>,
    pub marks: usize,
}

/// A made image: values, bytes, and where each field stands.
#[derive(Clone, Debug)]
pub struct Made {
    pub image: Image,
    pub bytes: Vec<u8>,
    pub elements: Vec<ElementAt>,
    /// The first byte behind the elements.
    pub tail: usize,
    pub runs: Vec<RunAt>,
    /// The free blocks' first bytes, in the order of the chain.
    pub free: Vec<usize>,
}

impl Made {
    /// The first byte of a data block.
    pub fn block(&self, number: usize) -> usize {
        BLOCK * (1 + self.image.index_blocks + number)
    }
}

/// The header of an empty image. The identifier is looked at for version 5 only: "those eight
/// bytes as one 64-bit number, low byte first".
pub fn empty_header(format: &Format, identifier: u64) -> Vec<u8> {
    let mut header = vec![0; BLOCK];
    header[at::HIGH_VERSION] = format.version;
    put_two(&mut header, at::LWORD, 248);
    put_two(&mut header, at::LJAPA, 3000);
    put_two(&mut header, at::BLOCK_SIZE, 256);
    put_two(&mut header, at::HEADER_SIZE, 256);
    header[at::ATTRLEN] = 1;
    put_two(&mut header, at::EMPTY_BLOCK, 0xFFFF);
    put_four(&mut header, format.empty_block2, CHAIN_END);
    if format.version == 5 {
        header[at::IDENTIFIER..at::IDENTIFIER + 8].copy_from_slice(&identifier.to_le_bytes());
    }
    header
}

/// An identifier: an end of its numbers, or any.
pub fn any_identifier(random: &mut Random) -> u64 {
    let any = random.next();
    *random.pick(&[0, 1, u64::MAX, any, any])
}

/// The header of an empty image of either version.
pub fn any_header(random: &mut Random) -> Vec<u8> {
    empty_header(random.pick(&FORMATS), any_identifier(random))
}

/// The bytes of a header that no refusal names for a reading call, by version as FORMATS
/// stands: titles, the version's low byte, lword, ljapa, index_size to nblock, olenumber and
/// the language numbers, and all behind the counts; in version 5 a byte beside index_blkbit.
const UNTESTED: [[(usize, usize); 7]; 2] = [
    [
        (0, 140),
        (140, 141),
        (142, 146),
        (152, 160),
        (167, 171),
        (172, 182),
        (199, 256),
    ],
    [
        (0, 140),
        (140, 141),
        (142, 146),
        (152, 160),
        (168, 182),
        (183, 184),
        (200, 256),
    ],
];

pub fn put_two(bytes: &mut [u8], offset: usize, number: u16) {
    bytes[offset..offset + 2].copy_from_slice(&number.to_le_bytes());
}

pub fn put_four(bytes: &mut [u8], offset: usize, number: u32) {
    bytes[offset..offset + 4].copy_from_slice(&number.to_le_bytes());
}

/// How many leading bytes two headwords share.
pub fn common(a: &[u8], b: &[u8]) -> usize {
    a.iter().zip(b).take_while(|(a, b)| a == b).count()
}

/// Bytes of the entries in a run, with its count and end marks.
pub fn encoded_size(entries: &[Entry]) -> usize {
    let each = |entry: &Entry| 3 + (entry.headword.len() - entry.front) + 2 + entry.text.len();
    2 + entries.iter().map(each).sum::<usize>() + 2
}

/// Sets each shared front to at most what the entry shares with the one before.
pub fn mend_fronts(entries: &mut [Entry]) {
    for i in 0..entries.len() {
        let longest = match i {
            0 => 0,
            _ => common(&entries[i - 1].headword, &entries[i].headword),
        };
        entries[i].front = entries[i].front.min(longest);
    }
}

/// Cuts entries into runs and chooses their fronts.
pub fn cut(random: &mut Random, entries: Vec<Entry>, cut: Cut, fronts: Fronts) -> Vec<Wanted> {
    let mut runs: Vec<Wanted> = Vec::new();
    let mut size = 0;
    let mut room = 0;
    for mut entry in entries {
        let longest = match runs.last().and_then(|run| run.entries.last()) {
            Some(previous) => common(&previous.headword, &entry.headword),
            None => 0,
        };
        entry.front = match fronts {
            Fronts::Longest => longest,
            Fronts::Whole => longest - inside_pair(&entry.headword, longest) as usize,
            Fronts::Any => random.range(0, longest),
            Fronts::None => 0,
        };
        let need = 5 + entry.headword.len() - entry.front + entry.text.len();
        let fits = match cut {
            Cut::Bytes(most) => size + need <= most,
            Cut::Chance(_) => room > 0,
            Cut::One => true,
        };
        if runs.is_empty() || !fits {
            entry.front = 0;
            size = 4 + 5 + entry.headword.len() + entry.text.len();
            if let Cut::Chance(most) = cut {
                room = random.range(1, most) - 1;
            }
            runs.push(Wanted {
                entries: vec![entry],
                spare: 0,
            });
        } else {
            size += need;
            room = room.saturating_sub(1);
            let run = runs.last_mut().expect("there is a run");
            run.entries.push(entry);
        }
    }
    runs
}

/// Lays a sketch out: sizes of runs and index, places in the data area, chain.
pub fn lay_out(random: &mut Random, sketch: &Sketch) -> Image {
    let mut runs: Vec<Run> = Vec::new();
    for wanted in &sketch.runs {
        let need = encoded_size(&wanted.entries).div_ceil(BLOCK) as isize;
        runs.push(Run {
            block: 0,
            blocks: (need + wanted.spare) as usize,
            entries: wanted.entries.clone(),
        });
    }
    // Pieces of the data area: the runs, then the free blocks, or all of them mixed.
    let mut pieces: Vec<Option<usize>> = (0..runs.len()).map(Some).collect();
    pieces.extend((0..sketch.free).map(|_| None));
    if sketch.loose {
        random.shuffle(&mut pieces);
    }
    let mut chain = Vec::new();
    let mut number = 0;
    for piece in pieces {
        match piece {
            Some(run) => {
                runs[run].block = number;
                number += runs[run].blocks;
            }
            None => {
                chain.push(number);
                number += 1;
            }
        }
    }
    match sketch.links {
        Links::Ascending => {}
        Links::Descending => chain.reverse(),
        Links::Any => random.shuffle(&mut chain),
    }
    let sum = elements_size(&sketch.runs);
    let index_blocks = match sum {
        0 => sketch.extra_index,
        _ => (sum + sketch.tail).div_ceil(BLOCK) + sketch.extra_index,
    };
    Image {
        header: Header {
            bytes: sketch.header.clone(),
        },
        index_blocks,
        data_blocks: number,
        runs,
        chain,
    }
}

/// Bytes of the index elements.
pub fn elements_size(runs: &[Wanted]) -> usize {
    let each = |run: &Wanted| 3 + run.entries[0].headword.len();
    runs.iter().map(each).sum()
}

/// Gives the image bytes; the header's counts are set from the values. Values that break a
/// rule are rendered as they stand.
pub fn render(random: &mut Random, mut image: Image, ground: Ground) -> Made {
    let elements_end: usize = BLOCK
        + image
            .runs
            .iter()
            .map(|run| 3 + run.entries[0].headword.len())
            .sum::<usize>();
    let format = image.format();
    let header = &mut image.header.bytes;
    put_two(header, at::INDEX_BLOCK, image.index_blocks as u16);
    let entries: usize = image.runs.iter().map(|run| run.entries.len()).sum();
    put_four(header, at::NWORD, entries as u32);
    let first = image.chain.first().map_or(CHAIN_END, |first| *first as u32);
    put_four(header, format.empty_block2, first);
    put_four(header, format.nindex2, image.runs.len() as u32);
    let blocks: usize = image.runs.iter().map(|run| run.blocks).sum();
    put_four(header, format.nblock2, blocks as u32);

    let data = BLOCK * (1 + image.index_blocks);
    let size = data + BLOCK * image.data_blocks;
    let mut bytes = image.header.bytes.clone();
    bytes.resize(size, 0);
    lay_ground(random, &image, ground, &mut bytes[data..]);

    let mut elements = Vec::new();
    let mut place = BLOCK;
    let mut runs = Vec::new();
    let mut over = false;
    for run in &image.runs {
        let headword = &run.entries[0].headword;
        put_two(&mut bytes, place, run.block as u16);
        bytes[place + 2..place + 2 + headword.len()].copy_from_slice(headword);
        elements.push(ElementAt {
            number: place,
            headword: place + 2,
            zero: place + 2 + headword.len(),
        });
        bytes[place + 2 + headword.len()] = 0;
        place += 3 + headword.len();
        let start = data + BLOCK * run.block;
        let (encoded, at) = encode(run, start);
        let end = (start + encoded.len()).min(size);
        bytes[start..end].copy_from_slice(&encoded[..end - start]);
        over |= encoded.len() > BLOCK * run.blocks;
        runs.push(at);
    }
    // Where a run was made too short for its entries, they pass its blocks, but leave the
    // other runs as they are.
    if over {
        for run in &image.runs {
            let start = data + BLOCK * run.block;
            let (encoded, _) = encode(run, start);
            let inside = encoded.len().min(BLOCK * run.blocks);
            bytes[start..start + inside].copy_from_slice(&encoded[..inside]);
        }
    }
    let mut free = Vec::new();
    for (i, number) in image.chain.iter().enumerate() {
        let start = data + BLOCK * number;
        let next = image
            .chain
            .get(i + 1)
            .map_or(CHAIN_END, |next| *next as u32);
        put_two(&mut bytes, start, 0);
        put_four(&mut bytes, start + 2, next);
        free.push(start);
    }
    Made {
        image,
        bytes,
        elements,
        tail: elements_end,
        runs,
        free,
    }
}

/// A run's bytes up to and with its end marks, and where they stand from `start` on.
fn encode(run: &Run, start: usize) -> (Vec<u8>, RunAt) {
    let mut bytes = (run.blocks as u16).to_le_bytes().to_vec();
    let mut entries = Vec::new();
    for entry in &run.entries {
        let rest = &entry.headword[entry.front..];
        let length = start + bytes.len();
        bytes.extend_from_slice(&((rest.len() + 2 + entry.text.len()) as u16).to_le_bytes());
        bytes.push(entry.front as u8);
        bytes.extend_from_slice(rest);
        bytes.push(0);
        bytes.push(entry.attribute);
        bytes.extend_from_slice(&entry.text);
        entries.push(EntryAt {
            length,
            front: length + 2,
            rest: length + 3,
            zero: length + 3 + rest.len(),
            attribute: length + 4 + rest.len(),
            text: length + 5 + rest.len(),
            end: length + 5 + rest.len() + entry.text.len(),
        });
    }
    let marks = start + bytes.len();
    bytes.extend_from_slice(&[0, 0]);
    let at = RunAt {
        count: start,
        entries,
        marks,
    };
    (bytes, at)
}

fn lay_ground(random: &mut Random, image: &Image, ground: Ground, data: &mut [u8]) {
    match ground {
        Ground::Zero => {}
        Ground::Any => random.fill(data),
        Ground::OldRuns => {
            // Each block gets a block of some run, as if runs had lain there before.
            for block in data.chunks_mut(BLOCK) {
                if image.runs.is_empty() {
                    random.fill(block);
                    continue;
                }
                let (old, _) = encode(random.pick(&image.runs), 0);
                let from = BLOCK * random.below(old.len().div_ceil(BLOCK));
                let part = &old[from..old.len().min(from + BLOCK)];
                block[..part.len()].copy_from_slice(part);
            }
        }
    }
}

/// Ascending headwords, at most `number`: few letters share many fronts.
pub fn headwords(random: &mut Random, number: usize, letters: &Letters) -> Vec<Vec<u8>> {
    let stem = stem(random, letters);
    some_continue(random, number, letters, &stem)
}

/// Ascending headwords, at most `number`; two in three continue the stem.
pub fn some_continue(
    random: &mut Random,
    number: usize,
    letters: &Letters,
    stem: &[u8],
) -> Vec<Vec<u8>> {
    let mut set = BTreeSet::new();
    let most = match number {
        0..=3 => 2,
        4..=60 => 5,
        _ => 12,
    };
    for _ in 0..number * 2 {
        if set.len() == number {
            break;
        }
        let mut word: Vec<u8> = match random.below(3) {
            0 => vec![],
            _ => stem.to_vec(),
        };
        for _ in 0..random.range(1, most) {
            letters.put(random, &mut word);
        }
        word.truncate(MOST_HEADWORD);
        set.insert(word);
    }
    set.into_iter().collect()
}

/// What most of the headwords begin with: nothing, or so many bytes, which may end inside a pair.
fn stem(random: &mut Random, letters: &Letters) -> Vec<u8> {
    let seldom = if letters.has_leads() { 2 } else { 6 };
    if !random.chance(1, seldom) {
        return vec![];
    }
    let size = *random.pick(&[1, 5, 30, 100, 200, 240]);
    letters.bytes(random, size)
}

pub fn attribute(random: &mut Random) -> u8 {
    match random.below(2) {
        0 => 0x80,
        _ => (random.byte() | 0x80) & !0x10,
    }
}

pub fn text(random: &mut Random, size: usize) -> Vec<u8> {
    let mut text = vec![0; size];
    random.fill(&mut text);
    for byte in &mut text {
        *byte = (*byte).max(1);
    }
    text
}

/// An entry without a shared front.
pub fn entry(random: &mut Random, headword: Vec<u8>, text_size: usize) -> Entry {
    Entry {
        front: 0,
        headword,
        attribute: attribute(random),
        text: text(random, text_size),
    }
}

/// Up to `number` ascending entries of together about `budget` bytes at most.
fn entries(random: &mut Random, number: usize, budget: usize, letters: &Letters) -> Vec<Entry> {
    let most = *random.pick(&[0, 3, 10, 40, 40, 150, 400, 1_100, MOST_TEXT]);
    let mut list = Vec::new();
    let mut sum = 0;
    for headword in headwords(random, number, letters) {
        let mut size = random.range(0, most);
        if random.chance(1, 8) {
            size = *random.pick(&[0, 1, most]);
        }
        sum += headword.len() + size + 5;
        if sum > budget && !list.is_empty() {
            break;
        }
        list.push(entry(random, headword, size));
    }
    list
}

pub fn plain(header: Vec<u8>, runs: Vec<Wanted>) -> Sketch {
    Sketch {
        header,
        runs,
        tail: 4,
        extra_index: 0,
        free: 0,
        loose: false,
        links: Links::Ascending,
        ground: Ground::Zero,
    }
}

/// A valid image of a kind; giants are made by `giant`.
pub fn sketch(random: &mut Random, kind: Kind) -> Sketch {
    let number = *random.pick(&[1, 2, 3, 5, 8, 13, 20, 40]);
    let budget = *random.pick(&[300, 1_000, 2_000, 4_000, 6_500]);
    let few = |random: &mut Random| random.below(5);
    let header = any_header(random);
    let letters = *random.pick(&MIXED);
    let mut sketch = match kind {
        Kind::Empty => {
            let mut sketch = plain(header, vec![]);
            if random.chance(3, 4) {
                sketch.extra_index = few(random);
                sketch.free = random.below(8);
                sketch.links = Links::Any;
                sketch.ground = *random.pick(&[Ground::Zero, Ground::Any]);
            }
            sketch
        }
        Kind::Plain => {
            let list = entries(random, number, budget, letters);
            let mut sketch = plain(
                header,
                cut(random, list, Cut::Bytes(1_024), Fronts::Longest),
            );
            sketch.free = few(random) / 2;
            sketch.loose = true;
            sketch
        }
        Kind::ShortFronts => {
            let list = entries(random, number, budget, letters);
            let fronts = *random.pick(&[Fronts::Any, Fronts::Any, Fronts::None]);
            let way = *random.pick(&[Cut::Bytes(1_024), Cut::Chance(9), Cut::One]);
            plain(header, cut(random, list, way, fronts))
        }
        Kind::LongRuns => {
            let letters = *random.pick(&[&HIGH, letters, letters, letters]);
            let list = entries(random, number * 4, 7_000, letters);
            let way = *random.pick(&[Cut::One, Cut::One, Cut::Bytes(3_000)]);
            let mut sketch = plain(header, cut(random, list, way, Fronts::Longest));
            sketch.free = few(random);
            sketch.loose = true;
            sketch
        }
        Kind::LooseChain => {
            let list = entries(random, number, budget, letters);
            let mut sketch = plain(header, cut(random, list, Cut::Chance(4), Fronts::Longest));
            sketch.free = random.range(2, 9);
            sketch.loose = true;
            sketch.links = *random.pick(&[Links::Descending, Links::Any, Links::Any]);
            sketch
        }
        Kind::Slack => {
            let list = entries(random, number, budget, letters);
            let mut sketch = plain(header, cut(random, list, Cut::Chance(6), Fronts::Longest));
            for run in &mut sketch.runs {
                run.spare = random.below(3) as isize;
            }
            sketch.ground = *random.pick(&[Ground::Any, Ground::OldRuns]);
            sketch
        }
        Kind::WideIndex => {
            let list = entries(random, number, budget, letters);
            let mut sketch = plain(header, cut(random, list, Cut::Chance(3), Fronts::Longest));
            sketch.extra_index = random.range(1, 12);
            sketch.loose = true;
            sketch
        }
        Kind::OldBytes => {
            let list = entries(random, number, budget, letters);
            let mut sketch = plain(
                header,
                cut(random, list, Cut::Bytes(1_024), Fronts::Longest),
            );
            sketch.free = random.range(1, 9);
            sketch.loose = true;
            sketch.ground = Ground::OldRuns;
            sketch
        }
        Kind::Edges => edges(random, header, number, letters),
        Kind::HighBytes => {
            let list = entries(random, number, budget, &HIGH);
            let mut sketch = plain(header, cut(random, list, Cut::Chance(5), Fronts::Longest));
            sketch.free = few(random);
            sketch.loose = true;
            sketch
        }
        Kind::Pairs => {
            let letters = *random.pick(&PAIRED);
            let list = entries(random, number, budget, letters);
            let way = *random.pick(&[Cut::Bytes(1_024), Cut::Chance(9), Cut::One]);
            let fronts = *random.pick(&[Fronts::Longest, Fronts::Whole, Fronts::Any]);
            let mut sketch = plain(header, cut(random, list, way, fronts));
            sketch.free = few(random);
            sketch.loose = true;
            sketch
        }
        Kind::Mixed => {
            let letters = *random.pick(&[&HIGH, letters, letters]);
            let list = entries(random, number, budget, letters);
            let way = *random.pick(&[
                Cut::Bytes(1_024),
                Cut::Bytes(300),
                Cut::Chance(4),
                Cut::Chance(8),
            ]);
            let fronts = *random.pick(&[Fronts::Longest, Fronts::Whole, Fronts::Any]);
            let mut sketch = plain(header, cut(random, list, way, fronts));
            for run in &mut sketch.runs {
                run.spare = random.below(4) as isize / 2;
            }
            mix(random, &mut sketch);
            sketch
        }
        Kind::Large => large(random, header, letters),
        Kind::Giant => unreachable!("made by giant"),
    };
    if random.chance(1, 2) {
        spoil_untested(random, &mut sketch.header);
    }
    sketch
}

fn mix(random: &mut Random, sketch: &mut Sketch) {
    sketch.extra_index = random.below(6) / 3;
    sketch.free = random.below(7);
    sketch.loose = random.chance(3, 4);
    sketch.links = *random.pick(&[Links::Ascending, Links::Descending, Links::Any]);
    sketch.ground = *random.pick(&[Ground::Zero, Ground::Any, Ground::OldRuns]);
}

/// Fills the header bytes that a reading call does not test.
fn spoil_untested(random: &mut Random, header: &mut [u8]) {
    let format = format(header[at::HIGH_VERSION]).expect("version 4 or 5");
    for (from, to) in UNTESTED[format.place()] {
        if random.chance(2, 3) {
            random.fill(&mut header[from..to]);
        }
    }
}

/// Lengthens the last text so that the run's bytes are `over` more than a number of whole
/// blocks; false if no text may be that long.
pub fn fit_run(random: &mut Random, run: &mut Wanted, over: usize) -> bool {
    let size = encoded_size(&run.entries);
    let more = (BLOCK + over - size % BLOCK) % BLOCK;
    let last = run.entries.last_mut().expect("a run has an entry");
    if last.text.len() + more > MOST_TEXT {
        return false;
    }
    let added = text(random, more);
    last.text.extend_from_slice(&added);
    true
}

/// Adds a last run with a headword of such a length that exactly `tail` bytes are left
/// behind the index elements; false if there is none.
pub fn fit_index(random: &mut Random, sketch: &mut Sketch, tail: usize) -> bool {
    let last = sketch.runs.last().and_then(|run| run.entries.last());
    let mut headword = last.map_or(vec![], |entry| entry.headword.clone());
    if headword.len() >= MOST_HEADWORD {
        return false;
    }
    headword.push(random.byte().max(1));
    let sum = elements_size(&sketch.runs) + 3 + headword.len() + tail;
    let more = (BLOCK - sum % BLOCK) % BLOCK;
    if headword.len() + more > MOST_HEADWORD {
        return false;
    }
    let added = text(random, more);
    headword.extend_from_slice(&added);
    let size = random.below(20);
    sketch.runs.push(Wanted {
        entries: vec![entry(random, headword, size)],
        spare: 0,
    });
    sketch.tail = tail;
    sketch.extra_index = 0;
    true
}

/// Headwords of 247 and 248 bytes, texts of 2,999 and 3,000, runs whose end marks are the
/// last bytes or lie across two blocks, an index with exactly four zero bytes.
fn edges(random: &mut Random, header: Vec<u8>, number: usize, letters: &'static Letters) -> Sketch {
    let mut list = entries(random, number.min(8), 1_500, letters);
    if random.chance(1, 2) {
        let letters = *random.pick(&[&ANY, letters]);
        let size = random.range(MOST_HEADWORD - 3, MOST_HEADWORD - 1);
        let stem = letters.bytes(random, size);
        let mut tails = BTreeSet::new();
        for _ in 0..random.range(1, 4) {
            let more = random.range(0, MOST_HEADWORD - size);
            tails.insert(letters.bytes(random, more));
        }
        for tail in tails {
            let text_size = random.below(40);
            list.push(entry(random, [&stem[..], &tail].concat(), text_size));
        }
        list.sort_by(|a, b| a.headword.cmp(&b.headword));
        list.dedup_by(|a, b| a.headword == b.headword);
    }
    if random.chance(1, 3) {
        let at = random.below(list.len());
        let size = random.range(MOST_TEXT - 1, MOST_TEXT);
        list[at].text = text(random, size);
    }
    let way = *random.pick(&[Cut::Bytes(1_024), Cut::Chance(3), Cut::One]);
    let mut sketch = plain(header, cut(random, list, way, Fronts::Longest));
    if random.chance(1, 2) {
        fit_index(random, &mut sketch, 4);
    }
    if random.chance(2, 3) {
        // 0: the end marks are the last bytes; 1: they lie across two blocks;
        // 2 and 3: they stand at the start of a block; 255: one byte is left.
        let over = *random.pick(&[0, 0, 0, 1, 2, 3, 255]);
        for run in &mut sketch.runs {
            fit_run(random, run, over);
        }
    }
    sketch.free = random.below(3);
    sketch.loose = random.chance(1, 2);
    sketch.ground = *random.pick(&[Ground::Zero, Ground::Any]);
    sketch
}

/// Hundreds or thousands of blocks: one long run, many runs, or many free blocks.
fn large(random: &mut Random, header: Vec<u8>, letters: &'static Letters) -> Sketch {
    let letters = *random.pick(&[&HIGH, letters, letters]);
    let number = random.range(300, 2_500);
    let list = entries(random, number, 600_000, letters);
    let way = *random.pick(&[
        Cut::One,
        Cut::One,
        Cut::Bytes(1_024),
        Cut::Bytes(150_000),
        Cut::Chance(3),
        Cut::Chance(60),
    ]);
    let fronts = *random.pick(&[Fronts::Longest, Fronts::Any]);
    let mut sketch = plain(header, cut(random, list, way, fronts));
    mix(random, &mut sketch);
    sketch.free = *random.pick(&[0, 1, 63, 64, 65, 300, 2_000]);
    if sketch.runs.len() < 4 {
        for run in &mut sketch.runs {
            run.spare = random.below(700) as isize;
        }
    }
    sketch
}

/// How many giants there are.
pub const GIANTS: usize = 12;

/// A giant image, whether it is good, and if not its number.
pub fn giant(random: &mut Random, which: usize, format: &Format) -> (Made, Option<u32>) {
    let mut number = None;
    let mut sketch = plain(empty_header(format, any_identifier(random)), vec![]);
    sketch.ground = Ground::Any;
    sketch.links = Links::Any;
    sketch.loose = true;
    let runs = |random: &mut Random, entries: usize, way: Cut| {
        let mut list = Vec::new();
        for i in 0..entries {
            let size = random.below(30);
            list.push(entry(random, format!("w{:05}", i).into_bytes(), size));
        }
        cut(random, list, way, Fronts::Longest)
    };
    match which {
        // D is 65,536, all free.
        0 => sketch.free = 65_536,
        // D is 65,536: runs and free blocks, number 65,535 among them.
        1 => {
            sketch.runs = runs(random, 20_000, Cut::Bytes(1_024));
            fill_up(&mut sketch, 65_536);
        }
        // D is 65,537.
        2 => {
            sketch.runs = runs(random, 20_000, Cut::Bytes(1_024));
            fill_up(&mut sketch, 65_537);
            number = Some(5);
        }
        // 32,767 index blocks.
        3 => {
            sketch.runs = runs(random, 500, Cut::Chance(3));
            sketch.free = 5;
            widen(&mut sketch, 32_767);
        }
        // 32,768 index blocks, all of them there.
        4 => {
            sketch.runs = runs(random, 500, Cut::Chance(3));
            sketch.free = 5;
            widen(&mut sketch, 32_768);
            number = Some(5);
        }
        // One run of 32,767 blocks, most of them unused, and a second of as many.
        5 => {
            sketch.runs = runs(random, 3_000, Cut::One);
            let need = encoded_size(&sketch.runs[0].entries).div_ceil(BLOCK);
            sketch.runs[0].spare = 32_767 - need as isize;
            let last = entry(random, b"x".to_vec(), 5);
            sketch.runs.push(Wanted {
                entries: vec![last],
                spare: 32_766,
            });
            sketch.free = 2;
        }
        // A run of 32,768 blocks: the top bit.
        6 => {
            sketch.runs = runs(random, 300, Cut::One);
            let need = encoded_size(&sketch.runs[0].entries).div_ceil(BLOCK);
            sketch.runs[0].spare = 32_768 - need as isize;
            number = Some(7);
        }
        // 65,536 runs of one block.
        7 => {
            sketch.runs = runs(random, 65_536, Cut::Chance(1));
            sketch.ground = Ground::Zero;
        }
        // D 65,536 and 32,767 index blocks at once.
        8 => {
            sketch.runs = runs(random, 9_000, Cut::Bytes(500));
            fill_up(&mut sketch, 65_536);
            widen(&mut sketch, 32_767);
        }
        // One run full of entries: 3,000 texts of 2,400 bytes.
        9 => {
            let mut list = Vec::new();
            for i in 0..3_000 {
                list.push(entry(random, format!("w{:05}", i).into_bytes(), 2_400));
            }
            sketch.runs = cut(random, list, Cut::One, Fronts::Longest);
        }
        // D 65,536; the last link is 65,536 instead of the end.
        10 => {
            sketch.runs = runs(random, 100, Cut::Bytes(1_024));
            fill_up(&mut sketch, 65_536);
            number = Some(9);
        }
        // D 65,536; the chain comes round at its very end.
        _ => {
            sketch.free = 65_536;
            number = Some(9);
        }
    }
    let image = lay_out(random, &sketch);
    let mut made = render(random, image, sketch.ground);
    match which {
        10 => {
            let last = *made.free.last().expect("there are free blocks");
            put_four(&mut made.bytes, last + 2, 65_536);
        }
        11 => {
            let last = *made.free.last().expect("there are free blocks");
            let to = made.image.chain[random.below(65_536)] as u32;
            put_four(&mut made.bytes, last + 2, to);
        }
        _ => {}
    }
    (made, number)
}

/// Free blocks up to `data_blocks` in all.
fn fill_up(sketch: &mut Sketch, data_blocks: usize) {
    let need = |run: &Wanted| encoded_size(&run.entries).div_ceil(BLOCK);
    let used: usize = sketch.runs.iter().map(need).sum();
    sketch.free = data_blocks - used;
}

/// Index blocks up to `index_blocks` in all.
fn widen(sketch: &mut Sketch, index_blocks: usize) {
    let need = (elements_size(&sketch.runs) + 4).div_ceil(BLOCK);
    sketch.extra_index = index_blocks - need;
}
