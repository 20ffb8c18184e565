//! Each call made by the engine and by the second reader or editor; every answer and every
//! byte of every lent slice is compared, guards too.

use crate::calls::{self, Answer, Read};
use crate::editor::{self, Slices, Told};
use crate::engine::{self, Lent};
use crate::random::Random;
use crate::reader::{at, BLOCK};
use std::fmt::Write;

/// A difference in words.
pub type Differs = String;

/// An image slice in two copies: the engine's, and ours, which is what it should be.
pub struct Both {
    pub engine: Lent,
    pub ours: Lent,
    /// The eight bytes that identify a version 5 file.
    identifier: Option<Vec<u8>>,
    /// For what the other slices hold, and where they lie.
    pub random: Random,
}

/// A changing call's arguments.
#[derive(Clone, Debug)]
pub enum Change {
    Insert {
        headword: Vec<u8>,
        attribute: u8,
        text: Vec<u8>,
    },
    Delete {
        headword: Vec<u8>,
    },
    Optimise,
}

impl Change {
    /// The call and its arguments in words.
    pub fn story(&self) -> String {
        match self {
            Change::Insert {
                headword,
                attribute,
                text,
            } => format!(
                "insert, headword {}, attribute {:#04x}, text of {} bytes {}",
                hex(headword),
                attribute,
                text.len(),
                hex(text)
            ),
            Change::Delete { headword } => format!("delete, headword {}", hex(headword)),
            Change::Optimise => "optimise".to_string(),
        }
    }
}

fn same(what: &str, ours: &Lent, engine: &Lent) -> Result<(), Differs> {
    match ours.first_difference(engine) {
        None => Ok(()),
        Some((place, right, wrong)) => Err(format!(
            "{} of {} bytes: byte {} is {:#04x} instead of {:#04x}",
            what,
            ours.size(),
            place,
            wrong,
            right
        )),
    }
}

fn same_lengths(ours: &[usize; 5], engine: &[usize; 5]) -> Result<(), Differs> {
    if ours == engine {
        return Ok(());
    }
    Err(format!("lengths {:?} instead of {:?}", engine, ours))
}

/// The eight bytes at 216 of a version 5 file.
fn identifier(slice: &[u8]) -> Option<&[u8]> {
    match slice.len() >= BLOCK && slice[at::HIGH_VERSION] == 5 {
        true => Some(&slice[at::IDENTIFIER..at::IDENTIFIER + 8]),
        false => None,
    }
}

impl Both {
    pub fn new(contents: &[u8], mut random: Random) -> Both {
        let (pattern, shift) = (random.byte(), random.below(16));
        let image = Lent::new(contents, pattern, shift);
        Both {
            engine: image.clone(),
            ours: image,
            identifier: identifier(contents).map(|bytes| bytes.to_vec()),
            random,
        }
    }

    fn lend(&mut self, contents: &[u8]) -> Lent {
        let (pattern, shift) = (self.random.byte(), self.random.below(16));
        Lent::new(contents, pattern, shift)
    }

    fn lend_output(&mut self, size: usize) -> Lent {
        let (content, pattern) = (self.random.byte(), self.random.byte());
        Lent::filled(size, content, pattern, self.random.below(16))
    }

    /// A working slice: bytes by chance, or all equal, zeros too.
    fn lend_work(&mut self, size: usize) -> Lent {
        let content = *self.random.pick(&[0, 1, 0xFF]);
        let mut work = Lent::filled(size, content, self.random.byte(), self.random.below(16));
        if self.random.chance(3, 4) {
            self.random.fill(work.contents_mut());
        }
        work
    }

    fn lengths(&mut self) -> [usize; 5] {
        [(); 5].map(|_| self.random.next() as usize)
    }

    /// The number, the identifier and the image slice, which every call compares.
    fn compare(&self, ours: u32, engine: u32) -> Result<(), Differs> {
        if engine != ours {
            return Err(format!("answers {} instead of {}", engine, ours));
        }
        self.identified()?;
        same("image slice", &self.ours, &self.engine)
    }

    /// "the eight bytes at 216 identify the dictionary and no call alters them": the engine's
    /// are those that the file was lent or created with.
    fn identified(&self) -> Result<(), Differs> {
        let now = identifier(self.engine.contents());
        if now == self.identifier.as_deref() {
            return Ok(());
        }
        let words = |bytes: Option<&[u8]>| bytes.map_or("none".to_string(), hex);
        Err(format!(
            "the identifier is {} instead of {}",
            words(now),
            words(self.identifier.as_deref())
        ))
    }

    /// Check; gives the answer of both, as the calls below do.
    pub fn check(&mut self, read: &Read, len: usize) -> Result<u32, Differs> {
        let mut cells = [(); 9].map(|_| self.random.next());
        let mut expected = cells;
        let answer = calls::check(read);
        if let Answer::Done(counts) = answer {
            expected[1] = counts.headwords;
            expected[3] = counts.index_blocks;
            expected[5] = counts.data_blocks;
            expected[7] = counts.free_blocks;
        }
        let number = engine::check(&mut self.engine, len, &mut cells);
        let story = |differs| format!("check, L {}: {}", len, differs);
        self.compare(answer.number(), number).map_err(story)?;
        if cells != expected {
            let differs = format!("numbers {:?} instead of {:?}", cells, expected);
            return Err(story(differs));
        }
        Ok(number)
    }

    pub fn look_up(
        &mut self,
        read: &Read,
        len: usize,
        word: &[u8],
        text_size: usize,
    ) -> Result<u32, Differs> {
        let mut headword = self.lend(word);
        let mut text = self.lend_output(text_size);
        let mut attribute = self.lend_output(1);
        let mut lengths = self.lengths();
        let headword_before = headword.clone();
        let mut text_expected = text.clone();
        let mut attribute_expected = attribute.clone();
        let mut lengths_expected = lengths;
        let answer = calls::look_up(read, word, text_size);
        if let Answer::Done(entry) = answer {
            text_expected.put(&entry.text);
            attribute_expected.put(&[entry.attribute]);
            lengths_expected[1] = entry.text.len();
        }
        let number = engine::look_up(
            &mut self.engine,
            len,
            &mut headword,
            &mut text,
            &mut attribute,
            &mut lengths,
        );
        let differs = self
            .compare(answer.number(), number)
            .and(same("headword slice", &headword_before, &headword))
            .and(same("text slice", &text_expected, &text))
            .and(same("attribute", &attribute_expected, &attribute))
            .and(same_lengths(&lengths_expected, &lengths));
        differs.map(|_| number).map_err(|differs| {
            format!(
                "look up, L {}, headword {}, text slice {}: {}",
                len,
                hex(word),
                text_size,
                differs
            )
        })
    }

    pub fn walk(
        &mut self,
        read: &Read,
        len: usize,
        word: &[u8],
        above: u8,
        sizes: (usize, usize),
    ) -> Result<u32, Differs> {
        let mut headword = self.lend(word);
        let mut headword_out = self.lend_output(sizes.0);
        let mut text = self.lend_output(sizes.1);
        let mut attribute = self.lend_output(1);
        let mut lengths = self.lengths();
        let headword_before = headword.clone();
        let mut headword_expected = headword_out.clone();
        let mut text_expected = text.clone();
        let mut attribute_expected = attribute.clone();
        let mut lengths_expected = lengths;
        // "above: 0 means not below, anything else above".
        let answer = calls::walk(read, word, above != 0, sizes.0, sizes.1);
        if let Answer::Done(entry) = answer {
            headword_expected.put(&entry.headword);
            text_expected.put(&entry.text);
            attribute_expected.put(&[entry.attribute]);
            lengths_expected[1] = entry.text.len();
            lengths_expected[3] = entry.headword.len();
        }
        let number = engine::walk(
            &mut self.engine,
            len,
            &mut headword,
            above,
            &mut headword_out,
            &mut text,
            &mut attribute,
            &mut lengths,
        );
        let differs = self
            .compare(answer.number(), number)
            .and(same("headword slice", &headword_before, &headword))
            .and(same("headword output", &headword_expected, &headword_out))
            .and(same("text slice", &text_expected, &text))
            .and(same("attribute", &attribute_expected, &attribute))
            .and(same_lengths(&lengths_expected, &lengths));
        differs.map(|_| number).map_err(|differs| {
            format!(
                "walk, L {}, headword {}, above {}, output slices {} and {}: {}",
                len,
                hex(word),
                above,
                sizes.0,
                sizes.1,
                differs
            )
        })
    }

    pub fn create(&mut self, version: u8, ident: u64) -> Result<Answer<usize>, Differs> {
        let mut lengths = self.lengths();
        let mut expected = lengths;
        let answer = editor::create(self.ours.contents_mut(), version, ident);
        if let Answer::Done(new_len) = answer {
            expected[1] = new_len;
            // "low byte first".
            self.identifier = (version == 5).then(|| ident.to_le_bytes().to_vec());
        }
        let number = engine::create(&mut self.engine, version, ident, &mut lengths);
        let differs = self
            .compare(answer.number(), number)
            .and(same_lengths(&expected, &lengths));
        differs.map(|_| answer).map_err(|differs| {
            format!(
                "create, slice {}, version {}, identifier {:#x}: {}",
                self.ours.size(),
                version,
                ident,
                differs
            )
        })
    }

    /// A changing call at `len` with a working slice of `work_size` bytes; what the second
    /// editor tells goes to `told`.
    pub fn change(
        &mut self,
        len: usize,
        work_size: usize,
        change: &Change,
        told: &mut Told,
    ) -> Result<Answer<usize>, Differs> {
        let mut work = self.lend_work(work_size);
        let mut work_expected = work.clone();
        let mut lengths = self.lengths();
        let mut expected = lengths;
        let lent = Slices {
            image: self.ours.contents_mut(),
            len,
            work: work_expected.contents_mut(),
        };
        let answer = ours(lent, change, told);
        if let Answer::Done(new_len) = answer {
            expected[1] = new_len;
        }
        let (word, text): (&[u8], &[u8]) = match change {
            Change::Insert { headword, text, .. } => (headword, text),
            Change::Delete { headword } => (headword, &[]),
            Change::Optimise => (&[], &[]),
        };
        let mut word = self.lend(word);
        let mut text = self.lend(text);
        let (word_before, text_before) = (word.clone(), text.clone());
        let image = &mut self.engine;
        let number = match change {
            Change::Insert { attribute, .. } => engine::insert(
                image,
                len,
                &mut work,
                &mut word,
                *attribute,
                &mut text,
                &mut lengths,
            ),
            Change::Delete { .. } => engine::delete(image, len, &mut work, &mut word, &mut lengths),
            Change::Optimise => engine::optimise(image, len, &mut work, &mut lengths),
        };
        let differs = self
            .compare(answer.number(), number)
            .and(same("working slice", &work_expected, &work))
            .and(same("headword slice", &word_before, &word))
            .and(same("text slice", &text_before, &text))
            .and(same_lengths(&expected, &lengths));
        differs.map(|_| answer).map_err(|differs| {
            format!(
                "{}, L {}, image slice {}, working slice {}: {}",
                change.story(),
                len,
                self.ours.size(),
                work_size,
                differs
            )
        })
    }
}

/// The second editor's call.
fn ours(lent: Slices, change: &Change, told: &mut Told) -> Answer<usize> {
    match change {
        Change::Insert {
            headword,
            attribute,
            text,
        } => editor::insert(lent, headword, *attribute, text, told),
        Change::Delete { headword } => editor::delete(lent, headword, told),
        Change::Optimise => editor::optimise(lent, told),
    }
}

pub fn hex(bytes: &[u8]) -> String {
    let mut line = String::new();
    for byte in bytes.iter().take(600) {
        let _ = write!(line, "{:02x}", byte);
    }
    match bytes.len() {
        0 => "(empty)".to_string(),
        0..=600 => line,
        size => format!("{}... ({} bytes)", line, size),
    }
}
