//! Cases at the limits of the blocks' numbers, which histories by chance do not reach: each is
//! an image and calls on it, one after the other, with the answer and what must happen.

use crate::both::{Both, Change, Differs};
use crate::calls::{Answer, ABSENT};
use crate::editor::Told;
use crate::make::{any_identifier, cut, empty_header, lay_out, plain, render};
use crate::make::{Cut, Fronts, Wanted};
use crate::random::Random;
use crate::reader::{read, Entry, Format, BLOCK, FORMATS};
use crate::reader::{MOST_BLOCKS, MOST_DATA, MOST_HEADWORD};

/// A call, its answer, and what the second editor must tell of it.
type Call = (Change, u32, fn(&Told) -> bool);

struct Limit {
    name: &'static str,
    runs: Vec<Wanted>,
    /// Index blocks beyond the need.
    extra_index: usize,
    /// Bytes of the image slice behind L.
    room: usize,
    calls: Vec<Call>,
}

/// Runs all cases, each in both versions, and gives their number.
pub fn limits() -> Result<usize, Differs> {
    let cases: [fn() -> Limit; 12] = [
        index_limit,
        data_limit,
        last_number,
        on_the_way,
        past_the_way,
        longest_run_slides,
        longest_run_moved,
        great_growth,
        longest_run_packed,
        longest_run_wide,
        no_run_wide,
        largest_packed,
    ];
    for format in &FORMATS {
        for case in cases {
            let case = case();
            let story = format!("{}, version {}", case.name, format.version);
            run(case, format).map_err(|differs| format!("{}: {}", story, differs))?;
        }
    }
    Ok(cases.len() * FORMATS.len())
}

fn run(case: Limit, format: &Format) -> Result<(), Differs> {
    let mut random = Random::of(1, 1);
    let header = empty_header(format, any_identifier(&mut random));
    let mut sketch = plain(header, case.runs);
    sketch.extra_index = case.extra_index;
    let image = lay_out(&mut random, &sketch);
    let mut slice = render(&mut random, image, sketch.ground).bytes;
    let mut len = slice.len();
    slice.resize(len + case.room, 0xEE);
    let mut both = Both::new(&slice, random);
    for (change, number, happened) in case.calls {
        let mut told = Told::default();
        let answer = both.change(len, slice.len(), &change, &mut told)?;
        let story = || format!("{} ({:?})", change.story(), told);
        if answer.number() != number {
            return Err(format!(
                "{} instead of {}: {}",
                answer.number(),
                number,
                story()
            ));
        }
        if !happened(&told) {
            return Err(format!("not what it is there for: {}", story()));
        }
        if let Answer::Done(new_len) = answer {
            len = new_len;
        }
    }
    let read = read(both.ours.contents(), len);
    match both.check(&read, len)? {
        0 => Ok(()),
        number => Err(format!("the image left is refused: {}", number)),
    }
}

fn entry(headword: &[u8], text: usize) -> Entry {
    Entry {
        front: 0,
        headword: headword.to_vec(),
        attribute: 128,
        text: vec![b't'; text],
    }
}

/// A run of one entry with an empty text, in so many blocks.
fn run_of(headword: &[u8], blocks: usize) -> Wanted {
    Wanted {
        entries: vec![entry(headword, 0)],
        spare: blocks as isize - 1,
    }
}

/// A run of two entries, c and 248 letters c; it has 2 blocks. When c is deleted, the index
/// headword is the longer one.
fn two_c() -> Wanted {
    let list = vec![entry(b"c", 0), entry(&[b'c'; MOST_HEADWORD], 0)];
    Wanted {
        entries: cut(&mut Random::of(1, 1), list, Cut::One, Fronts::Longest)[0]
            .entries
            .clone(),
        spare: 0,
    }
}

fn insert(headword: &[u8], text: usize) -> Change {
    let entry = entry(headword, text);
    Change::Insert {
        headword: entry.headword,
        attribute: entry.attribute,
        text: entry.text,
    }
}

fn delete(headword: &[u8]) -> Change {
    Change::Delete {
        headword: headword.to_vec(),
    }
}

/// The headword of number `i`, of `size` bytes.
fn numbered(i: usize, size: usize) -> Vec<u8> {
    let mut word = format!("{:06}", i).into_bytes();
    word.resize(size, b'h');
    word
}

/// 33,552 elements of 250 bytes, with runs of one block, need 32,766 index blocks; one more,
/// 32,767; then one of 98 bytes fills them but for the four zero bytes.
fn index_limit() -> Limit {
    const RUNS: usize = 33_552;
    let word = |i| numbered(i, 247);
    let mut runs: Vec<Wanted> = (0..RUNS).map(|i| run_of(&word(i), 1)).collect();
    // No entry has room beside this text.
    runs[RUNS - 1].entries[0].text = vec![b't'; 768];
    let last = numbered(RUNS + 1, 95);
    let longer = [&last[..], b"h"].concat();
    let full = |told: &Told| told.growth == 0 && told.index_blocks == MOST_BLOCKS;
    let over = |told: &Told| told.over_index && told.index_blocks == MOST_BLOCKS + 1;
    Limit {
        name: "the index at 32,767 blocks",
        runs,
        extra_index: 0,
        room: BLOCK * 40,
        calls: vec![
            (insert(&word(RUNS), 768), 0, |told| {
                told.growth == 1 && told.moved == 1 && told.index_blocks == MOST_BLOCKS
            }),
            (insert(&word(RUNS + 1), 768), 15, over),
            (insert(&last, 0), 0, full),
            (insert(&longer, 0), 0, full),
            // The longer headword would be the index's.
            (delete(&last), 15, over),
            (insert(b"0", 1_000), 15, over),
            (delete(b"0"), ABSENT, |_| true),
            (insert(&word(5), 100), 0, full),
            // The index does not shrink, and what was given back can be used again; the last
            // headword is a byte longer now.
            (delete(&word(5)), 0, full),
            (delete(&last), 0, full),
            (Change::Optimise, 0, |told| told.given_up > 0),
            (insert(&word(5), 768), 15, over),
            (insert(&numbered(5, 246), 768), 0, full),
        ],
    }
}

/// Two long runs, and a in block 0: a text beside it comes to the last four data blocks.
fn data_limit() -> Limit {
    let over = |told: &Told| told.over_data && told.data_blocks > MOST_DATA;
    let full = |told: &Told| told.data_blocks == MOST_DATA;
    Limit {
        name: "65,536 data blocks",
        runs: vec![run_of(b"a", 1), run_of(b"x", 32_767), run_of(b"y", 32_764)],
        extra_index: 0,
        room: BLOCK * 20,
        calls: vec![
            (insert(b"b", 1_014), 0, |told| {
                told.parts == 2 && told.appended == 1 && told.data_blocks == MOST_DATA
            }),
            (insert(b"c", 0), 15, over),
            (insert(b"a", 300), 15, over),
            (insert(b"a", 30), 0, full),
            (delete(b"a"), 0, full),
            (insert(b"c", 0), 0, full),
            (insert(b"d", 1_000), 15, over),
            (Change::Optimise, 0, full),
            (delete(b"y"), 0, full),
            (Change::Optimise, 0, |told| told.given_up == 32_764),
        ],
    }
}

/// A part of one block comes to block 65,535, whose number is 0xFFFF.
fn last_number() -> Limit {
    let mut first = run_of(b"a", 4);
    first.entries[0].text = vec![b't'; 1_014];
    first.spare = 0;
    Limit {
        name: "a run in block 65,535",
        runs: vec![first, run_of(b"x", 32_767), run_of(b"y", 32_764)],
        extra_index: 0,
        room: BLOCK,
        calls: vec![
            (insert(b"b", 0), 0, |told| {
                told.appended == 1 && told.data_blocks == MOST_DATA
            }),
            (delete(b"a"), 0, |told| told.free_blocks == 4),
            (insert(b"b", 700), 0, |told| told.free_blocks == 2),
        ],
    }
}

/// The index grows by one, and a run of 10 blocks is moved from block 0 behind the last.
fn moving(name: &'static str, last: usize, calls: Vec<Call>) -> Limit {
    Limit {
        name,
        runs: vec![
            run_of(b"A", 10),
            run_of(b"b", 32_767),
            two_c(),
            run_of(b"d", last),
        ],
        extra_index: 0,
        room: BLOCK * 20,
        calls,
    }
}

/// D is 65,527, on the way 65,537, when finished 65,536.
fn on_the_way() -> Limit {
    let finished = |told: &Told| {
        told.data_before == MOST_DATA - 9
            && told.most_data == MOST_DATA + 1
            && told.data_blocks == MOST_DATA
            && told.moved == 1
    };
    let calls: Vec<Call> = vec![(delete(b"c"), 0, finished)];
    moving("65,537 data blocks on the way", 32_748, calls)
}

/// One data block more.
fn past_the_way() -> Limit {
    let refused = |told: &Told| told.over_data && told.data_blocks == MOST_DATA + 1;
    let done = |told: &Told| told.growth == 0 && told.parts == 1;
    let calls: Vec<Call> = vec![(delete(b"c"), 15, refused), (delete(&[b'c'; 248]), 0, done)];
    moving("65,537 data blocks when finished", 32_749, calls)
}

/// A run of 32,767 blocks is moved by one block, over its own old ones.
fn longest_run_slides() -> Limit {
    let moved = |told: &Told| told.moved == 1 && told.overlaid == 1 && told.data_blocks == 32_770;
    Limit {
        name: "a run of 32,767 blocks moved by one",
        runs: vec![run_of(b"A", 32_767), two_c()],
        extra_index: 0,
        room: BLOCK * 8,
        calls: vec![(delete(b"c"), 0, moved)],
    }
}

/// A run of 32,767 blocks is moved behind the last data block.
fn longest_run_moved() -> Limit {
    let moved = |told: &Told| told.moved == 1 && told.data_blocks == MOST_DATA;
    Limit {
        name: "a run of 32,767 blocks moved to the end",
        runs: vec![run_of(b"A", 32_767), run_of(b"b", 1), two_c()],
        extra_index: 0,
        room: BLOCK * 32_768,
        calls: vec![(delete(b"c"), 0, moved)],
    }
}

/// One run of 2,000 entries is cut into as many parts: the index grows by about as many
/// blocks, and 50 runs are moved.
fn great_growth() -> Limit {
    let mut runs: Vec<Wanted> = (0..50)
        .map(|i| run_of(&numbered(i, 6), 1 + i % 3))
        .collect();
    let mut list = Vec::new();
    for i in 0..2_000 {
        let word = [&[b'h'; 242][..], &numbered(i, 6)].concat();
        list.push(entry(&word, 600));
    }
    runs.append(&mut cut(
        &mut Random::of(1, 1),
        list,
        Cut::One,
        Fronts::Longest,
    ));
    Limit {
        name: "the index grows by 1,900 blocks",
        runs,
        extra_index: 0,
        room: BLOCK * 9_000,
        calls: vec![
            (insert(b"i", 0), 0, |told| {
                told.growth > 1_900 && told.moved == 50 && told.parts >= 2_000
            }),
            (delete(b"i"), 0, |_| true),
            (Change::Optimise, 0, |_| true),
        ],
    }
}

/// A run of 32,767 blocks, and index blocks of which one is needed, fill their slice to the last
/// byte.
fn longest_run(name: &'static str, index_blocks: usize, calls: Vec<Call>) -> Limit {
    Limit {
        name,
        runs: vec![run_of(b"a", 32_767)],
        extra_index: index_blocks - 1,
        room: 0,
        calls,
    }
}

/// There is nothing to give up, and no room. "15 is never given by optimise".
fn longest_run_packed() -> Limit {
    let packed = |told: &Told| told.filled && told.data_blocks == 32_767;
    let calls: Vec<Call> = vec![(Change::Optimise, 0, packed)];
    longest_run("a run of 32,767 blocks fills its slice", 1, calls)
}

/// The index gives up all blocks but one.
fn longest_run_wide() -> Limit {
    let packed = |told: &Told| told.full_before && told.given_up == MOST_BLOCKS - 1;
    let calls: Vec<Call> = vec![(Change::Optimise, 0, packed)];
    longest_run("one run and the largest index", MOST_BLOCKS, calls)
}

/// With no run it gives up all, and so do the data blocks.
fn no_run_wide() -> Limit {
    let emptied = |told: &Told| told.filled && told.free_blocks == 32_767;
    let packed = |told: &Told| told.full_before && told.given_up == MOST_BLOCKS + 32_767;
    let calls: Vec<Call> = vec![(delete(b"a"), 0, emptied), (Change::Optimise, 0, packed)];
    longest_run("no run and the largest index", MOST_BLOCKS, calls)
}

/// 33,553 elements of 250 bytes need 32,767 index blocks, and their runs have all of 65,536 data
/// blocks: the largest image, in a slice that it fills.
fn largest_packed() -> Limit {
    const RUNS: usize = 33_553;
    let mut runs: Vec<Wanted> = (0..RUNS).map(|i| run_of(&numbered(i, 247), 1)).collect();
    runs[0].spare = (MOST_DATA - RUNS) as isize;
    let packed = |told: &Told| {
        told.filled && told.index_blocks == MOST_BLOCKS && told.data_blocks == MOST_DATA
    };
    Limit {
        name: "the largest image",
        runs,
        extra_index: 0,
        room: 0,
        calls: vec![(Change::Optimise, 0, packed)],
    }
}
