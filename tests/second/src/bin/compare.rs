//! Compares the engine's check, look up and walk with the second reader.
//!
//! compare [SEED] [IMAGES] [SECONDS] [FIRST]
//!
//! Compares the images FIRST (0) to FIRST + IMAGES (200,000) under SEED (1), for SECONDS
//! (600) at most. Image, arguments and slices depend on the seed and the image's number
//! alone, so `compare SEED 1 60 NUMBER` repeats one image. Ends with status 1 at a
//! difference, if a number that must be seen in each version was not (not asked where FIRST is
//! given), or if images were left over.

use second::both::{Both, Differs};
use second::calls::{self, Answer, Read, ABSENT};
use second::cases::{case, Case, Expected};
use second::damage::DAMAGES;
use second::drive::{self, add_each, drive, Found, Plan};
use second::make::{Kind, KINDS};
use second::pairs::cuts_pair;
use second::random::Random;
use second::reader::{read, Entry, FORMATS, MOST_HEADWORD, MOST_TEXT};
use second::words::{bad, lengths_to_try, near};

/// The calls compared; those that change an image are compared by `histories`.
const CALLS: [&str; 3] = ["check", "look up", "walk"];
const CHECK: usize = 0;
const LOOK_UP: usize = 1;
const WALK: usize = 2;

/// The answers that each call must be seen to give: 0 done, 100 absent, else the refusal.
/// 2, 11, 13 and 15 can be given by insert, delete and optimise only.
const MUST: [&[u32]; CALLS.len()] = [
    &[0, 1, 3, 4, 5, 6, 7, 8, 9, 10],
    &[0, ABSENT, 1, 3, 4, 5, 6, 7, 8, 9, 10, 12, 14],
    &[0, ABSENT, 1, 3, 4, 5, 6, 7, 8, 9, 10, 12, 14],
];
/// Numbers that no reading call can give.
const ONLY_CHANGING: [u32; 4] = [2, 11, 13, 15];

/// Answers have places 0 to 15, and 16 for absent.
const ANSWERS: usize = 17;

fn answer_place(number: u32) -> usize {
    match number {
        ABSENT => ANSWERS - 1,
        _ => number as usize,
    }
}

#[derive(Clone)]
struct Tally {
    images: u64,
    calls: u64,
    bytes: u64,
    /// By kind, version made in, call and answer.
    seen: Vec<[[[u64; ANSWERS]; CALLS.len()]; FORMATS.len()]>,
    /// By kind and version made in: images, accepted ones, accepted among those made good, and
    /// accepted with a stored front that ends inside a pair.
    kinds: Vec<[[u64; 4]; FORMATS.len()]>,
    /// By version made in and call: answers 0 about an entry with such a front.
    in_pairs: [[u64; CALLS.len()]; FORMATS.len()],
    /// By damage and version made in: images that have it alone, and with others.
    damages: Vec<[[u64; 2]; FORMATS.len()]>,
    longest_run: usize,
    most_blocks: usize,
}

impl drive::Tally for Tally {
    fn new() -> Tally {
        Tally {
            images: 0,
            calls: 0,
            bytes: 0,
            seen: vec![[[[0; ANSWERS]; CALLS.len()]; FORMATS.len()]; KINDS.len()],
            kinds: vec![[[0; 4]; FORMATS.len()]; KINDS.len()],
            in_pairs: [[0; CALLS.len()]; FORMATS.len()],
            damages: vec![[[0; 2]; FORMATS.len()]; DAMAGES.len()],
            longest_run: 0,
            most_blocks: 0,
        }
    }

    fn add(&mut self, other: &Tally) {
        self.images += other.images;
        self.calls += other.calls;
        self.bytes += other.bytes;
        for (ours, theirs) in self.seen.iter_mut().zip(&other.seen) {
            add_each(
                ours.as_flattened_mut().as_flattened_mut(),
                theirs.as_flattened().as_flattened(),
            );
        }
        for (ours, theirs) in self.kinds.iter_mut().zip(&other.kinds) {
            add_each(ours.as_flattened_mut(), theirs.as_flattened());
        }
        add_each(
            self.in_pairs.as_flattened_mut(),
            other.in_pairs.as_flattened(),
        );
        for (ours, theirs) in self.damages.iter_mut().zip(&other.damages) {
            add_each(ours.as_flattened_mut(), theirs.as_flattened());
        }
        self.longest_run = self.longest_run.max(other.longest_run);
        self.most_blocks = self.most_blocks.max(other.most_blocks);
    }
}

impl Tally {
    /// How often a call gave the answer at a place on images made in a version.
    fn answered(&self, version: usize, call: usize, place: usize) -> u64 {
        let each =
            |kind: &[[[u64; ANSWERS]; CALLS.len()]; FORMATS.len()]| kind[version][call][place];
        self.seen.iter().map(each).sum()
    }

    /// The images made in a version, as `kinds` counts them.
    fn of_version(&self, version: usize) -> [u64; 4] {
        let mut sum = [0; 4];
        for kind in &self.kinds {
            add_each(&mut sum, &kind[version]);
        }
        sum
    }
}

/// One image under comparison.
struct Bench<'a> {
    both: Both,
    random: Random,
    kind: usize,
    version: usize,
    /// A stored front of the image ends inside a pair.
    cuts_pair: bool,
    tally: &'a mut Tally,
}

impl Bench<'_> {
    fn count(&mut self, call: usize, number: u32) {
        self.tally.calls += 1;
        self.tally.seen[self.kind][self.version][call][answer_place(number)] += 1;
    }

    fn count_pair(&mut self, call: usize, answer: Answer<&Entry>) {
        if let Answer::Done(entry) = answer {
            self.tally.in_pairs[self.version][call] += cuts_pair(entry) as u64;
        }
    }

    fn check(&mut self, read: &Read, len: usize) -> Result<(), Differs> {
        let number = self.both.check(read, len)?;
        self.count(CHECK, number);
        self.tally.in_pairs[self.version][CHECK] += (self.cuts_pair && number == 0) as u64;
        Ok(())
    }

    fn look_up(
        &mut self,
        read: &Read,
        len: usize,
        word: &[u8],
        text_size: usize,
    ) -> Result<(), Differs> {
        let number = self.both.look_up(read, len, word, text_size)?;
        self.count(LOOK_UP, number);
        if self.cuts_pair {
            self.count_pair(LOOK_UP, calls::look_up(read, word, text_size));
        }
        Ok(())
    }

    fn walk(
        &mut self,
        read: &Read,
        len: usize,
        word: &[u8],
        above: u8,
        sizes: (usize, usize),
    ) -> Result<(), Differs> {
        let number = self.both.walk(read, len, word, above, sizes)?;
        self.count(WALK, number);
        if self.cuts_pair {
            self.count_pair(WALK, calls::walk(read, word, above != 0, sizes.0, sizes.1));
        }
        Ok(())
    }

    /// Look up with the text slice long enough, exact, one byte short, empty.
    fn look_up_sizes(&mut self, read: &Read, len: usize, word: &[u8]) -> Result<(), Differs> {
        match calls::look_up(read, word, usize::MAX) {
            Answer::Done(entry) => {
                let size = entry.text.len();
                self.look_up(read, len, word, size)?;
                if size > 0 {
                    self.look_up(read, len, word, size - 1)?;
                }
                let more = *self.random.pick(&[0, size + 1, MOST_TEXT, MOST_TEXT + 70]);
                self.look_up(read, len, word, more)
            }
            _ => {
                let size = *self.random.pick(&[0, 1, 50, MOST_TEXT]);
                self.look_up(read, len, word, size)
            }
        }
    }

    /// Walk with the output slices long enough, exact, each one byte short, empty.
    fn walk_sizes(
        &mut self,
        read: &Read,
        len: usize,
        word: &[u8],
        above: u8,
    ) -> Result<(), Differs> {
        let Answer::Done(entry) = calls::walk(read, word, above != 0, usize::MAX, usize::MAX)
        else {
            let sizes = *self
                .random
                .pick(&[(0, 0), (0, 9), (MOST_HEADWORD, MOST_TEXT)]);
            return self.walk(read, len, word, above, sizes);
        };
        let (size, text) = (entry.headword.len(), entry.text.len());
        self.walk(read, len, word, above, (size, text))?;
        match self.random.below(5) {
            0 => self.walk(read, len, word, above, (size - 1, text)),
            1 if text > 0 => self.walk(read, len, word, above, (size, text - 1)),
            2 => self.walk(read, len, word, above, (size + 3, text + 5)),
            3 => {
                let short = *self.random.pick(&[
                    (0, 0),
                    (0, MOST_TEXT),
                    (MOST_HEADWORD, 0),
                    (size - 1, MOST_TEXT),
                    (size - 1, text.saturating_sub(1)),
                ]);
                self.walk(read, len, word, above, short)
            }
            _ => self.walk(read, len, word, above, (MOST_HEADWORD, MOST_TEXT)),
        }
    }
}

/// All calls on one image.
fn compare_case(case: Case, tally: &mut Tally) -> Result<(), Differs> {
    let Case {
        kind,
        slice,
        len,
        words,
        mut random,
        ..
    } = case;
    let version = case.format.place();
    let result = read(&slice, len);
    tally.images += 1;
    tally.bytes += slice.len() as u64;
    tally.kinds[kind][version][0] += 1;
    tally.kinds[kind][version][1] += result.is_ok() as u64;
    match case.expected {
        Expected::Good(image) => match &result {
            Ok(values) if *values == *image => tally.kinds[kind][version][2] += 1,
            Ok(_) => return Err("the second reader reads other values than made".to_string()),
            Err(number) => {
                return Err(format!(
                    "the second reader refuses a good image: {}",
                    number
                ))
            }
        },
        Expected::Number(number) => {
            if result.as_ref().err() != Some(&number) {
                return Err(format!(
                    "the second reader answers {} instead of {}",
                    calls::check(&result).number(),
                    number
                ));
            }
        }
        Expected::Open => {}
    }
    for damage in &case.damages {
        tally.damages[*damage][version][(case.damages.len() > 1) as usize] += 1;
    }
    let mut has_cut = false;
    if let Ok(image) = &result {
        has_cut = image.entries().any(cuts_pair);
        tally.kinds[kind][version][3] += has_cut as u64;
        let longest = image.runs.iter().map(|run| run.blocks).max().unwrap_or(0);
        tally.longest_run = tally.longest_run.max(longest);
        tally.most_blocks = tally.most_blocks.max(image.data_blocks);
    }

    let mut bench = Bench {
        both: Both::new(&slice, Random::of(random.next(), 1)),
        random: Random::of(random.next(), 0),
        kind,
        version,
        cuts_pair: has_cut,
        tally,
    };
    let big = slice.len() > 1 << 20;

    // Check, at every L to try; the two other calls at some of them.
    let mut lengths = lengths_to_try(slice.len(), len);
    if big {
        lengths.retain(|l| *l == len || *l > slice.len() || random.chance(1, 8));
    }
    let asked = random.below(lengths.len());
    for (i, l) in lengths.iter().enumerate() {
        let other;
        let at_l = if *l == len {
            &result
        } else {
            other = read(&slice, *l);
            &other
        };
        bench.check(at_l, *l)?;
        if i == asked {
            let word = near(&mut random, &words);
            let above = random.byte() & 1;
            bench.look_up(at_l, *l, &word, MOST_TEXT)?;
            bench.walk(at_l, *l, &word, above, (MOST_HEADWORD, MOST_TEXT))?;
        }
    }

    // "above: 0 means not below, anything else above".
    let aboves = [0, 0, 0, 0, 1, 1, 2, 0x80, 0xFE, 0xFF];
    if result.is_err() {
        // The image's number comes before those of arguments and outputs.
        for word in [
            near(&mut random, &words),
            bad(&mut random, &words),
            words.first().cloned().unwrap_or_default(),
        ] {
            let above = *random.pick(&aboves);
            let sizes = *random.pick(&[(MOST_HEADWORD, MOST_TEXT), (0, 0), (5, 5)]);
            bench.look_up(&result, len, &word, sizes.1)?;
            bench.walk(&result, len, &word, above, sizes)?;
        }
        return Ok(());
    }
    for word in words.iter().take(3) {
        let above = *random.pick(&aboves);
        bench.look_up_sizes(&result, len, word)?;
        bench.walk_sizes(&result, len, word, above)?;
    }
    for _ in 0..3 {
        let word = near(&mut random, &words);
        let above = *random.pick(&aboves);
        bench.look_up_sizes(&result, len, &word)?;
        bench.walk_sizes(&result, len, &word, above)?;
    }
    for _ in 0..2 {
        let word = bad(&mut random, &words);
        let above = *random.pick(&aboves);
        bench.look_up_sizes(&result, len, &word)?;
        bench.walk_sizes(&result, len, &word, above)?;
    }
    let above = *random.pick(&aboves);
    bench.walk_sizes(&result, len, &[], above)?;
    if let Some(last) = words.iter().max() {
        bench.walk_sizes(&result, len, last, 1)?;
    }
    // From the start to past the last.
    if !big && random.chance(1, 16) {
        let mut word = Vec::new();
        for _ in 0..200 {
            bench.walk(&result, len, &word, 1, (MOST_HEADWORD, MOST_TEXT))?;
            match calls::walk(&result, &word, true, MOST_HEADWORD, MOST_TEXT) {
                Answer::Done(entry) => word = entry.headword.clone(),
                _ => break,
            }
        }
    }
    Ok(())
}

fn report(plan: &Plan, found: &Found) {
    let case = case(plan.seed, found.number);
    println!("DIFFERENCE: seed {}, image {}", plan.seed, found.number);
    let (name, version) = (KINDS[case.kind].1, case.format.version);
    println!("  kind: {}, made in version {}", name, version);
    println!("  image: {}", case.story);
    println!("  L {}, slice of {} bytes", case.len, case.slice.len());
    println!("  {}", found.differs);
    println!("  {}", plan.again(found.number));
    drive::print_slice(plan, found.number, &case.slice);
}

fn main() {
    let plan = Plan::read("compare", "image", 200_000);
    let one = |number, tally: &mut Tally| compare_case(case(plan.seed, number), tally);
    let outcome = drive(&plan, one, |found| report(&plan, found));
    let total = &outcome.total;
    print_tables(total);
    println!(
        "seed {}, images {} to {}: {} compared in {:.1} s, {:.0} a second, {} MB",
        plan.seed,
        plan.first,
        plan.first + plan.cases,
        total.images,
        outcome.elapsed,
        total.images as f64 / outcome.elapsed,
        total.bytes >> 20
    );
    for (version, format) in FORMATS.iter().enumerate() {
        let [images, accepted, _, cut] = total.of_version(version);
        println!(
            "version {}: {} images, {} accepted, {} of these with a stored front inside a pair",
            format.version, images, accepted, cut
        );
        let [check, look_up, walk] = total.in_pairs[version];
        println!(
            "  answers about such fronts: check {}, look up {}, walk {}",
            check, look_up, walk
        );
    }
    println!(
        "longest accepted run {} blocks, most data blocks {}",
        total.longest_run, total.most_blocks
    );
    let mut wrong = false;
    if let Some(found) = &outcome.found {
        report(&plan, found);
        wrong = true;
    }
    if outcome.late {
        println!("the limit of {} s was reached", plan.seconds);
    }
    if total.images < plan.cases {
        println!("{} images wanted, {} compared", plan.cases, total.images);
        wrong = true;
    }
    if outcome.found.is_none() && plan.whole && missing(total) {
        wrong = true;
    }
    println!(
        "{} images, {} calls compared, {} differences",
        total.images,
        total.calls,
        outcome.found.is_some() as u32
    );
    std::process::exit(wrong as i32);
}

/// Prints what must have been seen in each version and was not.
fn missing(total: &Tally) -> bool {
    let mut missing = false;
    for (version, format) in FORMATS.iter().enumerate() {
        for said in missing_in(total, version) {
            println!("{}, version {}", said, format.version);
            missing = true;
        }
    }
    missing
}

fn missing_in(total: &Tally, version: usize) -> Vec<String> {
    let mut missing = Vec::new();
    for (call, must) in MUST.iter().enumerate() {
        for number in *must {
            if total.answered(version, call, answer_place(*number)) == 0 {
                missing.push(format!("NOT SEEN: {} answers {}", CALLS[call], number));
            }
        }
    }
    for ((kind, name), counts) in KINDS.iter().zip(&total.kinds) {
        // About 7 in 20 images of a kind are made good.
        let [made, accepted, good, cut] = counts[version];
        if good == 0 || accepted * 10 < made {
            missing.push(format!("TOO FEW ACCEPTED: {}", name));
        }
        // Giants have headwords of letters and digits alone.
        if !matches!(kind, Kind::Empty | Kind::Giant) && cut * 20 < accepted {
            missing.push(format!("TOO FEW WITH A FRONT INSIDE A PAIR: {}", name));
        }
    }
    for (call, count) in CALLS.iter().zip(&total.in_pairs[version]) {
        if *count == 0 {
            missing.push(format!("NOT SEEN: {} about a front inside a pair", call));
        }
    }
    // Half of them are of each version.
    if total.of_version(version)[0] * 5 < total.images * 2 {
        missing.push("TOO FEW: images".to_string());
    }
    for (damage, seen) in DAMAGES.iter().zip(&total.damages) {
        if seen[version][0] == 0 {
            missing.push(format!("NOT SEEN: {}", damage.name));
        }
    }
    missing
}

fn print_tables(total: &Tally) {
    print_answers(total);
    print_kinds(total);
    println!("By damage: its number, images of version 4 and 5 with it alone, with others:");
    for (damage, seen) in DAMAGES.iter().zip(&total.damages) {
        println!(
            "{:>4}{:>7}{:>7}{:>7}  {}",
            damage.number,
            seen[0][0],
            seen[1][0],
            seen[0][1] + seen[1][1],
            damage.name
        );
    }
    println!();
}

fn print_answers(total: &Tally) {
    println!("How often each answer was seen (0 done or found, absent, else the refusal):");
    print!("{:>8}", "answer");
    for call in CALLS {
        for format in &FORMATS {
            print!("{:>12}", format!("{} {}", call, format.version));
        }
    }
    println!();
    for place in 0..ANSWERS {
        if place == ANSWERS - 1 {
            print!("{:>8}", "absent");
        } else {
            print!("{:>8}", place);
        }
        for call in 0..CALLS.len() {
            for version in 0..FORMATS.len() {
                print!("{:>12}", total.answered(version, call, place));
            }
        }
        if ONLY_CHANGING.contains(&(place as u32)) {
            print!("  (calls that change an image only)");
        }
        println!();
    }
    println!();
}

fn print_kinds(total: &Tally) {
    println!("By kind of image: images of version 4 and 5, accepted ones, accepted ones with a");
    println!("stored front inside a pair, then calls by answer:");
    print!("{:>51}", "");
    for head in ["4", "5", "acc. 4", "acc. 5", "pair 4", "pair 5"] {
        print!("{:>7}", head);
    }
    for place in 0..ANSWERS - 1 {
        if !ONLY_CHANGING.contains(&(place as u32)) {
            print!("{:>8}", place);
        }
    }
    println!("{:>8}", "absent");
    for (kind, (_, name)) in KINDS.iter().enumerate() {
        let [four, five] = total.kinds[kind];
        print!("{:>51}", name);
        for column in [0, 1, 3] {
            print!("{:>7}{:>7}", four[column], five[column]);
        }
        for place in 0..ANSWERS {
            if !ONLY_CHANGING.contains(&(place as u32)) {
                let calls = total.seen[kind].as_flattened();
                let seen: u64 = calls.iter().map(|call| call[place]).sum();
                print!("{:>8}", seen);
            }
        }
        println!();
    }
    println!();
}
