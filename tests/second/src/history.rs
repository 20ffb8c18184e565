//! A history of calls on one image slice, by the engine and by the second editor. Beside them
//! a sorted list is fed the calls and their refusals, and the image's entries must be its.

use crate::both::{hex, Both, Change, Differs};
use crate::calls::{Answer, Read};
use crate::cases::case;
use crate::editor::{cut, encoded_size, run_concerned, Told, PART};
use crate::engine::Lent;
use crate::letters::{Letters, ANY, BOUNDS, FEW, HIGH, KANA, LEADS, MANY};
use crate::make::{any_identifier, attribute, text};
use crate::random::Random;
use crate::reader::{at, read, Entry, Run, BLOCK, MOST_HEADWORD, MOST_TEXT};
use crate::seen::{Call, Tally};
use crate::start::{room, start, How, STARTS};
use crate::words::{bad, lengths_to_try, near};
use std::collections::BTreeMap;

pub struct History<'a> {
    both: Both,
    len: usize,
    /// The image at present, as the second reader reads it.
    read: Read,
    /// Its entries in headword order, by the calls alone.
    list: BTreeMap<Vec<u8>, (u8, Vec<u8>)>,
    random: Random,
    taste: Taste,
    tally: &'a mut Tally,
    /// The calls so far in words.
    log: Vec<String>,
}

/// What a history's headwords and texts are like.
struct Taste {
    stem: Vec<u8>,
    letters: &'static Letters,
    most_tail: usize,
    most_text: usize,
    /// Deletions among 10 calls, beside those by chance.
    deleting: usize,
}

fn taste(random: &mut Random, words: &[Vec<u8>]) -> Taste {
    let size = *random.pick(&[0, 0, 0, 3, 60, 200, 244]);
    let letters = *random.pick(&[&FEW, &FEW, &MANY, &HIGH, &KANA, &LEADS, &BOUNDS]);
    // It may end inside a pair.
    let mut stem = random.pick(&[&ANY, letters]).bytes(random, size);
    // The stem of a headword that is there.
    if !words.is_empty() && random.chance(1, 2) {
        stem = random.pick(words).clone();
        stem.truncate(size);
    }
    Taste {
        stem,
        letters,
        most_tail: *random.pick(&[1, 2, 3, 4, 10]),
        most_text: *random.pick(&[5, 40, 40, 200, 400, 900, MOST_TEXT]),
        deleting: *random.pick(&[0, 0, 0, 2, 4]),
    }
}

/// What a history came to when it ended in a difference.
pub struct Ended {
    pub differs: Differs,
    /// The image slice before the last call, and L.
    pub slice: Vec<u8>,
    pub len: usize,
    pub log: Vec<String>,
}

/// History `number` under `seed`; it depends on these two alone.
pub fn history(seed: u64, number: u64, tally: &mut Tally) -> Result<(), Box<Ended>> {
    let mut random = Random::of(seed, number);
    let start = start(&mut random);
    let version = start.bytes[at::HIGH_VERSION];
    tally.begin(version, start.kind);
    let created = STARTS[start.kind].0 == How::Created;
    let len = start.bytes.len();
    let mut slice = start.bytes;
    slice.resize(len + room(&mut random), 0);
    random.fill(&mut slice[if created { 0 } else { len }..]);
    let image = match created {
        true => Err(0),
        false => read(&slice, len),
    };
    let mut history = History::new(&slice, len, image, random, tally);
    let result = history.run(created.then_some(version), start.opening);
    result.map_err(|(differs, before)| {
        Box::new(Ended {
            differs,
            slice: before.contents().to_vec(),
            len: history.len,
            log: history.log,
        })
    })
}

impl History<'_> {
    pub fn new<'a>(
        slice: &[u8],
        len: usize,
        read: Read,
        mut random: Random,
        tally: &'a mut Tally,
    ) -> History<'a> {
        let mut list = BTreeMap::new();
        if let Ok(image) = &read {
            for entry in image.entries() {
                list.insert(
                    entry.headword.clone(),
                    (entry.attribute, entry.text.clone()),
                );
            }
        }
        let words: Vec<Vec<u8>> = list.keys().take(50).cloned().collect();
        History {
            both: Both::new(slice, Random::of(random.next(), 1)),
            len,
            read,
            list,
            taste: taste(&mut random, &words),
            random,
            tally,
            log: vec![],
        }
    }

    /// All calls, after a creation where a version is given for it; a difference comes with the
    /// image slice before the call.
    fn run(&mut self, created: Option<u8>, opening: Option<Change>) -> Result<(), (Differs, Lent)> {
        if let Some(version) = created {
            self.watched(|history| history.create(version))?;
        } else if let Err(number) = &self.read {
            let differs = format!("the start is refused: {}", number);
            return Err((differs, self.both.ours.clone()));
        }
        if let Some(change) = opening {
            self.watched(|history| history.change(change))?;
        }
        let calls = match self.both.ours.size() {
            0..=100_000 => self.random.range(10, 60),
            _ => self.random.range(10, 20),
        };
        for _ in 0..calls {
            self.watched(|history| history.step())?;
        }
        // Some are emptied, one entry after the other, and go on.
        if self.list.len() <= 25 && self.random.chance(1, 3) {
            while let Some(headword) = self.word_in_list() {
                let left = self.list.len();
                self.watched(|history| history.change(Change::Delete { headword }))?;
                if self.list.len() == left {
                    break;
                }
            }
            for _ in 0..self.random.below(6) {
                self.watched(|history| history.step())?;
            }
        }
        Ok(())
    }

    fn watched(
        &mut self,
        step: impl FnOnce(&mut Self) -> Result<(), Differs>,
    ) -> Result<(), (Differs, Lent)> {
        let before = self.both.ours.clone();
        step(self).map_err(|differs| (differs, before))
    }

    fn step(&mut self) -> Result<(), Differs> {
        if self.random.below(10) < self.taste.deleting {
            return self.delete_one();
        }
        match self.random.below(100) {
            0..=27 => self.insert_new(),
            28..=35 => self.replace(),
            36..=45 => self.insert_fitted(),
            46..=49 => self.insert_tight(),
            50..=51 => self.insert_again(),
            52..=65 => self.delete_one(),
            66..=71 => self.delete_first(),
            72..=74 => self.delete_absent(),
            75..=78 => self.change(Change::Optimise),
            79 => self.optimise_full(),
            80..=82 => self.look_up(),
            83..=85 => self.walk(),
            86..=87 => self.check(),
            88 => self.create_elsewhere(),
            89..=91 => self.bad_argument(),
            92..=93 => self.bad_slices(),
            94..=95 => self.only_for_reading(),
            96..=97 => self.damaged(),
            _ => self.other_image(),
        }
    }

    /// The high version byte of the image.
    fn version(&self) -> u8 {
        self.both.ours.contents()[at::HIGH_VERSION]
    }

    fn create(&mut self, version: u8) -> Result<(), Differs> {
        let ident = any_identifier(&mut self.random);
        self.log.push(format!(
            "create, version {}, identifier {:#x}",
            version, ident
        ));
        let answer = self.both.create(version, ident)?;
        let number = answer.number();
        self.tally.count_number(Call::Create, version, number);
        match answer {
            Answer::Done(len) => self.len = len,
            _ => return Err("create is refused".to_string()),
        }
        self.read = read(self.both.ours.contents(), self.len);
        self.in_step()
    }

    /// Create on another slice, one under 256 bytes too, in any version.
    fn create_elsewhere(&mut self) -> Result<(), Differs> {
        let size = *self.random.pick(&[0, 1, 140, 255, 256, 257, 511, 512, 700]);
        let mut slice = vec![0; size];
        self.random.fill(&mut slice);
        let any = self.random.byte();
        let version = *self.random.pick(&[4, 4, 5, 5, 3, 6, 0x85, any]);
        let ident = any_identifier(&mut self.random);
        self.log.push("create on another slice".to_string());
        let mut both = Both::new(&slice, Random::of(self.random.next(), 3));
        let number = both.create(version, ident)?.number();
        self.tally.count_number(Call::Create, version, number);
        Ok(())
    }

    /// A change with good slices.
    fn change(&mut self, change: Change) -> Result<(), Differs> {
        let size = self.both.ours.size();
        let more = match self.random.below(4) {
            0 => self.random.below(600),
            _ => 0,
        };
        self.change_with(self.len, size + more, change)
    }

    fn change_with(&mut self, len: usize, work: usize, change: Change) -> Result<(), Differs> {
        self.log.push(change.story());
        let before = self.both.ours.clone();
        let mut told = Told::default();
        let answer = self.both.change(len, work, &change, &mut told)?;
        self.tally
            .count(Call::of(&change), self.version(), &answer, &told);
        let Answer::Done(new_len) = answer else {
            // "Image and output slices keep their bytes on a refusal."
            return match self.both.ours == before {
                true => Ok(()),
                false => Err("the second editor changed the image".to_string()),
            };
        };
        self.len = new_len;
        match change {
            Change::Insert {
                headword,
                attribute,
                text,
            } => {
                self.list.insert(headword, (attribute, text));
            }
            Change::Delete { headword } => {
                self.list.remove(&headword);
            }
            Change::Optimise => {}
        }
        self.read = read(self.both.ours.contents(), self.len);
        self.in_step()
    }

    /// The image is accepted, and its entries are those of the sorted list.
    fn in_step(&self) -> Result<(), Differs> {
        let image = match &self.read {
            Err(number) => return Err(format!("the image left is refused: {}", number)),
            Ok(image) => image,
        };
        let mut expected = self.list.iter();
        for entry in image.entries() {
            let stored = (&entry.headword, &entry.attribute, &entry.text);
            if expected.next().map(|(word, rest)| (word, &rest.0, &rest.1)) != Some(stored) {
                let word = hex(&entry.headword);
                return Err(format!("entry {} is not the sorted list's", word));
            }
        }
        match expected.next() {
            None => Ok(()),
            Some((word, _)) => Err(format!("entry {} is missing", hex(word))),
        }
    }

    // Arguments.

    fn word_in_list(&mut self) -> Option<Vec<u8>> {
        if self.list.is_empty() {
            return None;
        }
        let place = self.random.below(self.list.len());
        self.list.keys().nth(place).cloned()
    }

    /// Some headwords that are there.
    fn words(&mut self) -> Vec<Vec<u8>> {
        (0..3).filter_map(|_| self.word_in_list()).collect()
    }

    fn new_word(&mut self) -> Vec<u8> {
        if self.random.chance(1, 5) {
            let words = self.words();
            return near(&mut self.random, &words);
        }
        let mut word = match self.random.below(4) {
            0 => vec![],
            _ => self.taste.stem.clone(),
        };
        word.truncate(MOST_HEADWORD - 1);
        for _ in 0..self.random.range(1, self.taste.most_tail) {
            self.taste.letters.put(&mut self.random, &mut word);
        }
        word.truncate(MOST_HEADWORD);
        word
    }

    fn new_text(&mut self) -> Vec<u8> {
        let size = match self.random.below(12) {
            0 => *self
                .random
                .pick(&[0, 1, 1_013, 1_014, 1_015, MOST_TEXT - 1, MOST_TEXT]),
            1 => self.random.below(MOST_TEXT + 1),
            _ => self.random.below(self.taste.most_text + 1),
        };
        text(&mut self.random, size)
    }

    fn insertion(&mut self, headword: Vec<u8>, text: Vec<u8>) -> Change {
        Change::Insert {
            headword,
            attribute: attribute(&mut self.random),
            text,
        }
    }

    // Changes.

    fn insert_new(&mut self) -> Result<(), Differs> {
        let (headword, text) = (self.new_word(), self.new_text());
        let change = self.insertion(headword, text);
        self.change(change)
    }

    fn replace(&mut self) -> Result<(), Differs> {
        let Some(headword) = self.word_in_list() else {
            return self.insert_new();
        };
        let text = self.new_text();
        let change = self.insertion(headword, text);
        self.change(change)
    }

    /// What is stored, inserted again.
    fn insert_again(&mut self) -> Result<(), Differs> {
        let Some(headword) = self.word_in_list() else {
            return self.insert_new();
        };
        let (attribute, text) = self.list[&headword].clone();
        self.change(Change::Insert {
            headword,
            attribute,
            text,
        })
    }

    /// A text with which the part up to the entry encodes in just a number of blocks, or in
    /// one byte more.
    fn insert_fitted(&mut self) -> Result<(), Differs> {
        let headword = match self.random.chance(1, 2) {
            true => self.word_in_list().unwrap_or_else(|| self.new_word()),
            false => self.new_word(),
        };
        let Ok(image) = &self.read else {
            return Ok(());
        };
        let run = run_concerned(image, &headword);
        let mut list = run.map_or(vec![], |run| image.runs[run].entries.clone());
        list.retain(|entry| entry.headword != headword);
        list.push(Entry {
            front: 0,
            headword: headword.clone(),
            attribute: 0x80,
            text: vec![],
        });
        list.sort_by(|a, b| a.headword.cmp(&b.headword));
        let is_new = |entry: &Entry| entry.headword == headword;
        let parts = cut(&list);
        let size = parts.iter().find_map(|part| {
            let place = part.iter().position(is_new)?;
            Some(encoded_size(&part[..=place]))
        });
        let blocks = *self.random.pick(&[PART / BLOCK, PART / BLOCK, 1, 2, 3, 5]);
        let target = BLOCK * blocks + self.random.below(2);
        let more = target.saturating_sub(size.expect("the entry is in a part"));
        let text = text(&mut self.random, more);
        let change = self.insertion(headword, text);
        self.change(change)
    }

    /// A first headword with which the index needs just a number of blocks, or one byte more.
    fn insert_tight(&mut self) -> Result<(), Differs> {
        let Ok(image) = &self.read else {
            return Ok(());
        };
        let element = |run: &Run| 3 + run.entries[0].headword.len();
        let others: usize = image.runs.iter().skip(1).map(element).sum();
        let first = image
            .runs
            .first()
            .map_or(0xFF, |run| run.entries[0].headword[0]);
        let over = self.random.below(2);
        let size = (2 * BLOCK + over - (others + 3 + 4) % BLOCK) % BLOCK;
        if first == 1 || !(1..=MOST_HEADWORD).contains(&size) {
            return self.insert_new();
        }
        let mut headword = text(&mut self.random, size);
        headword[0] = first - 1;
        let text = text(&mut self.random, 3);
        let change = self.insertion(headword, text);
        self.change(change)
    }

    fn delete_one(&mut self) -> Result<(), Differs> {
        match self.word_in_list() {
            None => self.insert_new(),
            Some(headword) => self.change(Change::Delete { headword }),
        }
    }

    /// A run's first entry, whose headword stands in the index.
    fn delete_first(&mut self) -> Result<(), Differs> {
        let Ok(image) = &self.read else {
            return Ok(());
        };
        if image.runs.is_empty() {
            return self.insert_new();
        }
        let run = self.random.pick(&image.runs);
        let headword = run.entries[0].headword.clone();
        self.change(Change::Delete { headword })
    }

    fn delete_absent(&mut self) -> Result<(), Differs> {
        let words = self.words();
        let headword = near(&mut self.random, &words);
        self.change(Change::Delete { headword })
    }

    /// Optimise on a copy of the image that fills its slice to the last byte.
    fn optimise_full(&mut self) -> Result<(), Differs> {
        let slice = self.both.ours.contents()[..self.len].to_vec();
        self.log.push("optimise in a full slice".to_string());
        let mut both = Both::new(&slice, Random::of(self.random.next(), 4));
        let mut told = Told::default();
        let answer = both.change(self.len, self.len, &Change::Optimise, &mut told)?;
        self.tally
            .count(Call::Optimise, self.version(), &answer, &told);
        Ok(())
    }

    // Reading calls.

    fn any_word(&mut self) -> Vec<u8> {
        let words = self.words();
        match words.is_empty() || self.random.chance(1, 3) {
            true => near(&mut self.random, &words),
            false => words[0].clone(),
        }
    }

    fn look_up(&mut self) -> Result<(), Differs> {
        let word = self.any_word();
        let size = *self.random.pick(&[MOST_TEXT, MOST_TEXT, 30, 0]);
        let number = self.both.look_up(&self.read, self.len, &word, size)?;
        self.tally
            .count_number(Call::LookUp, self.version(), number);
        Ok(())
    }

    fn walk(&mut self) -> Result<(), Differs> {
        let word = match self.random.below(4) {
            0 => vec![],
            _ => self.any_word(),
        };
        let sizes = *self.random.pick(&[
            (MOST_HEADWORD, MOST_TEXT),
            (MOST_HEADWORD, MOST_TEXT),
            (9, 9),
        ]);
        let above = *self.random.pick(&[0, 1, 0x80]);
        let number = self.both.walk(&self.read, self.len, &word, above, sizes)?;
        self.tally.count_number(Call::Walk, self.version(), number);
        Ok(())
    }

    fn check(&mut self) -> Result<(), Differs> {
        let number = self.both.check(&self.read, self.len)?;
        self.tally.count_number(Call::Check, self.version(), number);
        Ok(())
    }

    // Calls that are refused.

    /// A change whose arguments are good.
    fn any_change(&mut self) -> Change {
        let word = self.any_word();
        match self.random.below(5) {
            0 => Change::Optimise,
            1 | 2 => Change::Delete { headword: word },
            _ => {
                let text = self.new_text();
                self.insertion(word, text)
            }
        }
    }

    fn bad_argument(&mut self) -> Result<(), Differs> {
        let words = self.words();
        let wrong = bad(&mut self.random, &words);
        let (mut headword, mut text) = (self.any_word(), self.new_text());
        let mut attribute = attribute(&mut self.random);
        match self.random.below(5) {
            0 => return self.change(Change::Delete { headword: wrong }),
            1 => headword = wrong,
            2 => text.resize(
                *self.random.pick(&[3_001, 3_002, 4_000, 65_536, 65_540]),
                b't',
            ),
            3 => {
                let place = self.random.below(text.len() + 1);
                text.insert(place, 0);
            }
            _ => attribute = *self.random.pick(&[0, 0x7F, 0x90, 0x10, 0xFF, 0x9F]),
        }
        // Now and then both are wrong: 12 comes first.
        if self.random.chance(1, 8) {
            headword.push(0);
        }
        self.change(Change::Insert {
            headword,
            attribute,
            text,
        })
    }

    /// A wrong L, a short working slice, or both.
    fn bad_slices(&mut self) -> Result<(), Differs> {
        let size = self.both.ours.size();
        let mut len = self.len;
        let mut work = size + self.random.below(9);
        let what = self.random.below(3);
        if what != 0 {
            len = *self.random.pick(&lengths_to_try(size, len));
        }
        if what != 1 {
            work = *self
                .random
                .pick(&[size - 1, size - 1, self.len.min(size - 1), 255, 0]);
        }
        let change = self.any_change();
        self.change_with(len, work, change)
    }

    /// Each changing call on another image slice, which is as it was afterwards.
    fn refused_on(&mut self, slice: &[u8], len: usize, headword: Vec<u8>) -> Result<(), Differs> {
        let mut both = Both::new(slice, Random::of(self.random.next(), 2));
        let text = self.new_text();
        let insertion = self.insertion(headword.clone(), text);
        let size = slice.len();
        for change in [insertion, Change::Delete { headword }, Change::Optimise] {
            self.log
                .push(format!("on another image: {}", change.story()));
            let mut told = Told::default();
            let answer = both.change(len, size, &change, &mut told)?;
            self.tally
                .count(Call::of(&change), slice[at::HIGH_VERSION], &answer, &told);
            // One that is good after all is left to its own histories.
            if matches!(answer, Answer::Done(_)) {
                break;
            }
        }
        Ok(())
    }

    /// "A low byte of 0 to 15 may be changed, 16 to 255 only read".
    fn only_for_reading(&mut self) -> Result<(), Differs> {
        let mut slice = self.both.ours.contents().to_vec();
        slice[at::VERSION] = *self.random.pick(&[16, 16, 17, 0x80, 0xFF]);
        let word = match self.random.chance(1, 4) {
            true => vec![],
            false => self.any_word(),
        };
        self.refused_on(&slice, self.len, word)
    }

    /// Some bytes of the image changed by chance.
    fn damaged(&mut self) -> Result<(), Differs> {
        let mut slice = self.both.ours.contents().to_vec();
        let index = BLOCK * (1 + slice[at::INDEX_BLOCK] as usize);
        for _ in 0..self.random.range(1, 3) {
            let place = match self.random.below(3) {
                0 => self.random.range(at::VERSION, at::UPDATE_COUNT),
                1 => self.random.below(index.min(self.len)),
                _ => self.random.below(self.len),
            };
            slice[place] ^= 1 << self.random.below(8);
        }
        let word = self.any_word();
        self.refused_on(&slice, self.len, word)
    }

    /// An image of the comparison, most of them with a damage that has a name.
    fn other_image(&mut self) -> Result<(), Differs> {
        let case = case(self.random.next(), 0);
        let word = match case.words.first() {
            Some(word) => word.clone(),
            None => self.any_word(),
        };
        self.refused_on(&case.slice, case.len, word)
    }
}
