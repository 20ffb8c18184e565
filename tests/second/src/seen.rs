//! What histories came to: answers by call, and the happenings that must be seen often
//! enough, by what the second editor tells; both by version.

use crate::both::Change;
use crate::calls::{Answer, ABSENT};
use crate::drive::{self, add_each};
use crate::editor::Told;
use crate::reader::{format, Format, FORMATS};
use crate::start::STARTS;

#[derive(Clone, Copy, Debug, PartialEq, Eq)]
pub enum Call {
    Create,
    Check,
    LookUp,
    Walk,
    Insert,
    Delete,
    Optimise,
}

impl Call {
    pub fn of(change: &Change) -> Call {
        match change {
            Change::Insert { .. } => Call::Insert,
            Change::Delete { .. } => Call::Delete,
            Change::Optimise => Call::Optimise,
        }
    }
}

/// The versions that calls are counted by: those of FORMATS, then any other.
const VERSIONS: [&str; 3] = ["4", "5", "other"];

/// A version's place in VERSIONS.
fn version_place(version: u8) -> usize {
    format(version).map_or(FORMATS.len(), Format::place)
}

/// Each call with the answers that must be seen, and no others, of versions 4 and 5 each and of
/// another: 0 done, 100 absent, else the refusal. "15 is never given by optimise".
const CALLS: [(&str, &[u32], &[u32]); 7] = [
    ("create", &[0, 1], &[1, 3]),
    ("check", &[0], &[]),
    ("look up", &[0, ABSENT, 14], &[]),
    ("walk", &[0, ABSENT, 14], &[]),
    (
        "insert",
        &[0, 1, 2, 3, 4, 5, 6, 7, 8, 9, 10, 11, 12, 13, 15],
        &[3],
    ),
    (
        "delete",
        &[0, ABSENT, 1, 2, 3, 4, 5, 6, 7, 8, 9, 10, 11, 12, 15],
        &[3],
    ),
    ("optimise", &[0, 1, 2, 3, 4, 5, 6, 7, 8, 9, 10, 11], &[3]),
];

/// The answers listed for a call at a place of VERSIONS.
fn listed(call: usize, version: usize) -> &'static [u32] {
    let (_, known, other) = CALLS[call];
    match version < FORMATS.len() {
        true => known,
        false => other,
    }
}

/// Answers have places 0 to 15, and 16 for absent.
const ANSWERS: usize = 17;

fn answer_place(number: u32) -> usize {
    match number {
        ABSENT => ANSWERS - 1,
        _ => number as usize,
    }
}

/// A changing call that was answered.
struct Seen<'a> {
    call: Call,
    number: u32,
    told: &'a Told,
}

impl Seen<'_> {
    fn done(&self, call: Call) -> bool {
        self.call == call && self.number == 0
    }

    fn placed(&self) -> bool {
        self.done(Call::Insert) || self.done(Call::Delete)
    }

    fn index_shrank(&self) -> bool {
        self.done(Call::Optimise) && self.told.index_blocks < self.told.index_before
    }
}

/// A happening: its name, how often 1,000 histories of a version must show it, and whether a
/// call did.
type Wanted = (&'static str, u64, fn(&Seen) -> bool);

const WANTED: &[Wanted] = &[
    ("entry added", 2_000, |s| {
        s.done(Call::Insert) && !s.told.replaced
    }),
    ("entry replaced", 1_000, |s| {
        s.done(Call::Insert) && s.told.replaced
    }),
    ("list cut in two", 500, |s| s.placed() && s.told.parts == 2),
    ("list cut in three or more", 200, |s| {
        s.placed() && s.told.parts > 2
    }),
    ("new first headword in the index", 200, |s| {
        s.done(Call::Insert) && s.told.at_first && !s.told.replaced && s.told.old_blocks > 0
    }),
    ("run's first headword deleted", 500, |s| {
        s.done(Call::Delete) && s.told.at_first && s.told.parts > 0
    }),
    ("run emptied", 400, |s| {
        s.done(Call::Delete) && s.told.parts == 0
    }),
    ("file emptied", 50, |s| {
        s.done(Call::Delete) && s.told.free_blocks == s.told.data_blocks
    }),
    ("index grows by one", 300, |s| {
        s.placed() && s.told.growth == 1
    }),
    ("index grows by several", 50, |s| {
        s.placed() && s.told.growth > 1
    }),
    ("index grows on a deletion", 15, |s| {
        s.done(Call::Delete) && s.told.growth > 0
    }),
    ("D 0, below g", 100, |s| {
        s.placed() && s.told.growth > 0 && s.told.data_before == 0
    }),
    ("D not 0, below g", 6, |s| {
        s.placed() && s.told.data_before > 0 && s.told.data_before < s.told.growth
    }),
    ("run moved", 150, |s| s.placed() && s.told.moved == 1),
    ("several runs moved", 15, |s| s.placed() && s.told.moved > 1),
    ("moved over moved runs' old blocks", 10, |s| {
        s.placed() && s.told.overlaid > 0
    }),
    ("placed in a stretch", 2_000, |s| {
        s.placed() && s.told.fitted > 0
    }),
    ("equal stretches, the lowest taken", 500, |s| {
        s.placed() && s.told.ties > 0
    }),
    ("placed after the last block", 500, |s| {
        s.placed() && s.told.appended > 0
    }),
    ("free blocks before it too few", 100, |s| {
        s.placed() && s.told.behind_free > 0
    }),
    ("slice filled to its end", 50, |s| {
        s.placed() && s.told.filled
    }),
    ("insertion that the slice cannot hold", 300, |s| {
        s.call == Call::Insert && s.told.over_slice
    }),
    ("deletion that the slice cannot hold", 3, |s| {
        s.call == Call::Delete && s.told.over_slice
    }),
    ("optimised, blocks given up", 300, |s| {
        s.done(Call::Optimise) && s.told.given_up > 0
    }),
    ("optimised, nothing to give up", 100, |s| {
        s.done(Call::Optimise) && s.told.given_up == 0
    }),
    ("optimised without an entry", 10, |s| {
        s.done(Call::Optimise) && s.told.index_blocks == 0
    }),
    ("optimised, index larger than needed", 140, |s| {
        s.index_shrank()
    }),
    ("optimised, index blocks but no run", 35, |s| {
        s.index_shrank() && s.told.index_blocks == 0
    }),
    ("full slice optimised", 190, |s| {
        s.done(Call::Optimise) && s.told.full_before
    }),
    ("full slice optimised, index larger than needed", 28, |s| {
        s.index_shrank() && s.told.full_before
    }),
    ("full slice optimised, no run", 18, |s| {
        s.done(Call::Optimise) && s.told.full_before && s.told.index_blocks == 0
    }),
    ("full slice optimised, nothing to give up", 48, |s| {
        s.done(Call::Optimise) && s.told.filled
    }),
    ("update count goes to 0", 30, |s| s.told.wrapped),
    ("front shorter than the common one", 1_000, |s| {
        s.placed() && s.told.shorter > 0
    }),
    ("common front ends with a lone lead byte", 300, |s| {
        s.placed() && s.told.behind_lone > 0
    }),
    ("front behind a lead byte, the second of a pair", 500, |s| {
        s.placed() && s.told.behind_second > 0
    }),
    ("headword that ends with a lone lead byte", 600, |s| {
        s.done(Call::Insert) && s.told.lone_lead
    }),
    ("more parts than with common fronts", 8, |s| {
        s.placed() && s.told.more_parts
    }),
    ("cut elsewhere than with common fronts", 8, |s| {
        s.placed() && s.told.other_parts
    }),
    ("front inside a pair, kept by optimise", 35, |s| {
        s.done(Call::Optimise) && s.told.kept_inside > 0
    }),
    ("front inside a pair, kept in another run", 300, |s| {
        s.placed() && s.told.kept_inside > 0
    }),
    ("front inside a pair, written anew and shorter", 70, |s| {
        s.placed() && s.told.mended > 0
    }),
];

/// Counts by version, as FORMATS stands.
type ByVersion = [u64; FORMATS.len()];

pub struct Tally {
    pub histories: ByVersion,
    pub calls: u64,
    /// By version, call and answer.
    answers: [[[u64; ANSWERS]; CALLS.len()]; VERSIONS.len()],
    /// By place in WANTED.
    wanted: Vec<ByVersion>,
    /// By place in STARTS.
    starts: Vec<ByVersion>,
}

impl drive::Tally for Tally {
    fn new() -> Tally {
        Tally {
            histories: [0; FORMATS.len()],
            calls: 0,
            answers: [[[0; ANSWERS]; CALLS.len()]; VERSIONS.len()],
            wanted: vec![[0; FORMATS.len()]; WANTED.len()],
            starts: vec![[0; FORMATS.len()]; STARTS.len()],
        }
    }

    fn add(&mut self, other: &Tally) {
        add_each(&mut self.histories, &other.histories);
        self.calls += other.calls;
        let (ours, theirs) = (self.answers.as_flattened_mut(), &other.answers);
        add_each(
            ours.as_flattened_mut(),
            theirs.as_flattened().as_flattened(),
        );
        add_each(self.wanted.as_flattened_mut(), other.wanted.as_flattened());
        add_each(self.starts.as_flattened_mut(), other.starts.as_flattened());
    }
}

impl Tally {
    /// A history of a version that begins at a place of STARTS.
    pub fn begin(&mut self, version: u8, start: usize) {
        let version = version_place(version);
        self.histories[version] += 1;
        self.starts[start][version] += 1;
    }

    pub fn all_histories(&self) -> u64 {
        self.histories.iter().sum()
    }

    /// A call on a file of a version.
    pub fn count_number(&mut self, call: Call, version: u8, number: u32) {
        self.calls += 1;
        self.answers[version_place(version)][call as usize][answer_place(number)] += 1;
    }

    pub fn count(&mut self, call: Call, version: u8, answer: &Answer<usize>, told: &Told) {
        let number = answer.number();
        self.count_number(call, version, number);
        let Some(format) = format(version) else {
            return;
        };
        let seen = Seen { call, number, told };
        for (counts, (_, _, happened)) in self.wanted.iter_mut().zip(WANTED) {
            counts[format.place()] += happened(&seen) as u64;
        }
    }

    /// Each answer that is listed and was not seen, or was seen and is not listed.
    pub fn other_answers(&self) -> Vec<String> {
        let mut other = Vec::new();
        for (version, calls) in self.answers.iter().enumerate() {
            for (call, answers) in calls.iter().enumerate() {
                for number in (0..ANSWERS as u32 - 1).chain([ABSENT]) {
                    let is_seen = answers[answer_place(number)] > 0;
                    let what = match (listed(call, version).contains(&number), is_seen) {
                        (true, false) => "NOT SEEN",
                        (false, true) => "NOT TO BE SEEN",
                        _ => continue,
                    };
                    let (name, version) = (CALLS[call].0, VERSIONS[version]);
                    other.push(format!(
                        "{what}: {name} answers {number}, version {version}"
                    ));
                }
            }
        }
        other
    }

    /// How often a happening must be seen in each version.
    fn least(&self, of_thousand: u64) -> ByVersion {
        self.histories
            .map(|count| (of_thousand * count / 1_000).max(1))
    }

    /// Prints what was not seen, or too seldom for so many histories, and answers that are not
    /// listed.
    pub fn amiss(&self) -> bool {
        let mut amiss = false;
        for line in self.other_answers() {
            println!("{}", line);
            amiss = true;
        }
        for (format, count) in FORMATS.iter().zip(&self.histories) {
            // Half of them are of each version.
            if count * 5 < self.all_histories() * 2 {
                println!("TOO SELDOM: histories of version {}", format.version);
                amiss = true;
            }
        }
        for ((name, least, _), counts) in WANTED.iter().zip(&self.wanted) {
            for ((format, count), least) in FORMATS.iter().zip(counts).zip(self.least(*least)) {
                if *count < least {
                    println!(
                        "TOO SELDOM: {}, version {}: {} times, not {}",
                        name, format.version, count, least
                    );
                    amiss = true;
                }
            }
        }
        for ((_, name), counts) in STARTS.iter().zip(&self.starts) {
            for (format, count) in FORMATS.iter().zip(counts) {
                if *count == 0 {
                    println!("NOT SEEN: start {}, version {}", name, format.version);
                    amiss = true;
                }
            }
        }
        amiss
    }

    pub fn print(&self) {
        println!("How often each answer was seen (0 done or found, absent, else the refusal):");
        print!("{:>10}{:>9}", "", "version");
        for place in 0..ANSWERS - 1 {
            print!("{:>7}", place);
        }
        println!("{:>8}", "absent");
        for call in 0..CALLS.len() {
            for (version, calls) in self.answers.iter().enumerate() {
                if listed(call, version).is_empty() {
                    continue;
                }
                print!("{:>10}{:>9}", CALLS[call].0, VERSIONS[version]);
                for count in &calls[call][..ANSWERS - 1] {
                    print!("{:>7}", count);
                }
                println!("{:>8}", calls[call][ANSWERS - 1]);
            }
        }
        println!();
        println!("What happened in version 4 and in version 5, each with how often it must:");
        for ((name, least, _), counts) in WANTED.iter().zip(&self.wanted) {
            for (count, least) in counts.iter().zip(self.least(*least)) {
                print!("{:>8}{:>8}", count, least);
            }
            println!("  {}", name);
        }
        println!();
        println!("Starts in version 4 and in version 5:");
        for ((_, name), counts) in STARTS.iter().zip(&self.starts) {
            println!("{:>8}{:>8}  {}", counts[0], counts[1], name);
        }
        println!();
        let [four, five] = self.histories;
        println!("Histories of version 4: {}, of version 5: {}", four, five);
    }
}
