//! The pairs of a headword in Shift JIS, read from its start.

use crate::reader::Entry;

/// A byte that begins a pair, unless it stands at the very end: "a byte 0x81 to 0x9F or 0xE0 to
/// 0xFC".
pub fn is_lead(byte: u8) -> bool {
    matches!(byte, 0x81..=0x9F | 0xE0..=0xFC)
}

/// Whether a place of a headword is inside a pair. "A pair is a byte 0x81 to 0x9F or 0xE0 to 0xFC
/// with the byte after it, read from the headword's start; such a byte at the very end stands
/// alone."
pub fn inside_pair(headword: &[u8], place: usize) -> bool {
    let mut at = 0;
    while at < place {
        let begins_pair = is_lead(headword[at]) && at + 1 < headword.len();
        at += if begins_pair { 2 } else { 1 };
    }
    at > place
}

/// Whether the last byte of a headword is a lead byte that stands alone.
pub fn ends_alone(headword: &[u8]) -> bool {
    let last = headword.len() - 1;
    is_lead(headword[last]) && !inside_pair(headword, last)
}

/// Whether the front of an entry, as stored, ends inside a pair of its headword.
pub fn cuts_pair(entry: &Entry) -> bool {
    inside_pair(&entry.headword, entry.front)
}
