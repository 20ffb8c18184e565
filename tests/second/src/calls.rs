//! Check, look up and walk, answered from the values of an image that was read.

use crate::reader::{Entry, Image, MOST_HEADWORD};

/// What reading an image gave: its values, or the number of a refusal.
pub type Read = Result<Image, u32>;

/// The number that stands for absent at the C interface.
pub const ABSENT: u32 = 100;

/// A call's answer.
#[derive(Clone, Copy, Debug, PartialEq, Eq)]
pub enum Answer<T> {
    Done(T),
    Absent,
    Refused(u32),
}

impl<T> Answer<T> {
    /// The number that the C call returns.
    pub fn number(&self) -> u32 {
        match self {
            Answer::Done(_) => 0,
            Answer::Absent => ABSENT,
            Answer::Refused(number) => *number,
        }
    }
}

/// "Check answers four numbers: headwords, index blocks, data blocks, free blocks."
#[derive(Clone, Copy, Debug, PartialEq, Eq)]
pub struct Counts {
    pub headwords: u64,
    pub index_blocks: u64,
    pub data_blocks: u64,
    pub free_blocks: u64,
}

pub fn check(read: &Read) -> Answer<Counts> {
    match read {
        Err(number) => Answer::Refused(*number),
        Ok(image) => Answer::Done(Counts {
            headwords: image.entries().count() as u64,
            index_blocks: image.index_blocks as u64,
            data_blocks: image.data_blocks as u64,
            free_blocks: image.chain.len() as u64,
        }),
    }
}

/// "Look up: attribute, text (to an output slice) and its length, or absent."
pub fn look_up<'a>(read: &'a Read, headword: &[u8], text_size: usize) -> Answer<&'a Entry> {
    let image = match read {
        Err(number) => return Answer::Refused(*number),
        Ok(image) => image,
    };
    // 12: "headword empty (not for walk), over 248, or with a zero byte".
    if headword.is_empty() || headword.len() > MOST_HEADWORD || headword.contains(&0) {
        return Answer::Refused(12);
    }
    match image.entries().find(|entry| entry.headword == headword) {
        None => Answer::Absent,
        // 14: "an output slice too short for the answer".
        Some(entry) if text_size < entry.text.len() => Answer::Refused(14),
        Some(entry) => Answer::Done(entry),
    }
}

/// "Walk: the least entry not below, or (as told) above, a given headword; headword and
/// text go to two output slices. An empty given headword means from the start. Past the
/// last: absent."
pub fn walk<'a>(
    read: &'a Read,
    headword: &[u8],
    above: bool,
    headword_out_size: usize,
    text_size: usize,
) -> Answer<&'a Entry> {
    let image = match read {
        Err(number) => return Answer::Refused(*number),
        Ok(image) => image,
    };
    // 12, but an empty headword is good here.
    if headword.len() > MOST_HEADWORD || headword.contains(&0) {
        return Answer::Refused(12);
    }
    let wanted = |entry: &&Entry| {
        if headword.is_empty() {
            true
        } else if above {
            entry.headword[..] > *headword
        } else {
            entry.headword[..] >= *headword
        }
    };
    // The entries ascend, so the first that fits is the least.
    match image.entries().find(wanted) {
        None => Answer::Absent,
        Some(entry) if headword_out_size < entry.headword.len() || text_size < entry.text.len() => {
            Answer::Refused(14)
        }
        Some(entry) => Answer::Done(entry),
    }
}
