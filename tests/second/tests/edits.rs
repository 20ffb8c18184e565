//! The paper's examples of changing calls, by the second editor and by the engine at once; the
//! bytes and places expected are written by hand.

mod by_hand;

use by_hand::{empty, put, File, FILES};
use second::both::{Both, Change};
use second::calls::Answer;
use second::editor::Told;
use second::random::Random;
use second::reader::{read, Image};

/// The identifier that `empty` has in version 5.
const IDENTIFIER: u64 = 0x8877_6655_4433_2211;

/// A dictionary under change.
struct Book {
    both: Both,
    len: usize,
}

impl Book {
    /// Created in a slice of so many bytes, which held anything before.
    fn new(file: &File, size: usize) -> Book {
        let mut both = Both::new(&vec![0xDD; size], Random::of(1, 1));
        let Ok(Answer::Done(len)) = both.create(file.version, IDENTIFIER) else {
            panic!("created");
        };
        Book { both, len }
    }

    /// The number answered; 0 for done.
    fn change(&mut self, change: Change) -> u32 {
        let work = self.both.ours.size();
        let answer = self
            .both
            .change(self.len, work, &change, &mut Told::default());
        let answer = answer.expect("both answer alike");
        if let Answer::Done(len) = answer {
            self.len = len;
        }
        answer.number()
    }

    fn insert(&mut self, headword: &[u8], text: &[u8]) -> u32 {
        self.change(Change::Insert {
            headword: headword.to_vec(),
            attribute: 128,
            text: text.to_vec(),
        })
    }

    fn delete(&mut self, headword: &[u8]) -> u32 {
        let headword = headword.to_vec();
        self.change(Change::Delete { headword })
    }

    fn optimise(&mut self) -> u32 {
        self.change(Change::Optimise)
    }

    fn bytes(&self) -> &[u8] {
        &self.both.ours.contents()[..self.len]
    }

    fn image(&self) -> Image {
        read(self.bytes(), self.len).expect("accepted")
    }

    /// First block and number of blocks of each run.
    fn places(&self) -> Vec<(usize, usize)> {
        let image = self.image();
        image
            .runs
            .iter()
            .map(|run| (run.block, run.blocks))
            .collect()
    }
}

/// "Text of n letters is written t(n)".
fn t(size: usize) -> Vec<u8> {
    vec![b't'; size]
}

/// The header of an empty file of version 5 from byte 128 to byte 223; all before and behind
/// is zero.
const EMPTY_5: [u8; 96] = [
    0x00, 0x00, 0x00, 0x00, 0x00, 0x00, 0x00, 0x00, 0x00, 0x00, 0x00, 0x00, 0x00, 0x05, 0xF8, 0x00,
    0xB8, 0x0B, 0x00, 0x01, 0x00, 0x00, 0x00, 0x01, 0x00, 0x00, 0xFF, 0xFF, 0x00, 0x00, 0x00, 0x00,
    0x00, 0x00, 0x00, 0x00, 0x00, 0x00, 0x01, 0x00, 0x00, 0x00, 0x00, 0x00, 0x00, 0x00, 0x00, 0x00,
    0x00, 0x00, 0x00, 0x00, 0x00, 0x00, 0x00, 0x00, 0x00, 0x00, 0x00, 0x00, 0xFF, 0xFF, 0xFF, 0xFF,
    0x00, 0x00, 0x00, 0x00, 0x00, 0x00, 0x00, 0x00, 0x00, 0x00, 0x00, 0x00, 0x00, 0x00, 0x00, 0x00,
    0x00, 0x00, 0x00, 0x00, 0x00, 0x00, 0x00, 0x00, 0x11, 0x22, 0x33, 0x44, 0x55, 0x66, 0x77, 0x88,
];

#[test]
fn create_writes_256_bytes() {
    for file in &FILES {
        let book = Book::new(file, 300);
        assert_eq!(book.bytes(), empty(file));
        assert_eq!(book.both.ours.contents()[256..], [0xDD; 44]);
    }
    let book = Book::new(&FILES[1], 256);
    assert_eq!(book.bytes(), [&[0; 128][..], &EMPTY_5, &[0; 32]].concat());
}

/// Create on a slice of so many bytes, which held 0xDD before: the number, and the slice.
fn create(size: usize, version: u8, ident: u64) -> (u32, Vec<u8>) {
    let mut both = Both::new(&vec![0xDD; size], Random::of(1, 1));
    let answer = both.create(version, ident).expect("both answer alike");
    (answer.number(), both.ours.contents().to_vec())
}

#[test]
fn create_refuses_1_then_3() {
    for version in 0..=255 {
        for ident in [0, 1, IDENTIFIER, u64::MAX] {
            for (size, taken, other) in [(0, 1, 1), (255, 1, 1), (256, 0, 3), (257, 0, 3)] {
                let number = match version {
                    4 | 5 => taken,
                    _ => other,
                };
                let (given, slice) = create(size, version, ident);
                assert_eq!(given, number, "version {}, slice {}", version, size);
                assert!(number == 0 || slice == vec![0xDD; size], "nothing written");
            }
        }
    }
}

#[test]
fn identifiers_low_byte_first() {
    for (ident, bytes) in [
        (0, [0; 8]),
        (1, [1, 0, 0, 0, 0, 0, 0, 0]),
        (0xFF00, [0, 0xFF, 0, 0, 0, 0, 0, 0]),
        (1 << 63, [0, 0, 0, 0, 0, 0, 0, 0x80]),
        (u64::MAX, [0xFF; 8]),
    ] {
        assert_eq!(create(256, 5, ident).1[216..224], bytes);
        // It is looked at for version 5 only.
        assert_eq!(create(256, 4, ident).1[216..224], [0; 8]);
    }
}

#[test]
fn p1_shared_fronts() {
    for file in &FILES {
        let mut book = Book::new(file, 1_024);
        for headword in [&b"AGDE"[..], b"ABDGD", b"ABC", b"ABDEF"] {
            assert_eq!(book.insert(headword, b""), 0);
        }
        let image = book.image();
        let fronts: Vec<usize> = image.entries().map(|entry| entry.front).collect();
        assert_eq!(fronts, [0, 2, 3, 1]);
    }
}

/// F-4: an earlier headword, a later one, and its front.
const FRONTS: &[(&[u8], &[u8], usize)] = &[
    (b"\x81\x40", b"\x81\x41", 0),
    (b"A\x81\x40", b"A\x81\x41", 1),
    (b"A\x81\x40B", b"A\x81\x40C", 3),
    // The second byte of a pair may be a lead byte.
    (b"\x81\x81\x81", b"\x81\x81\x82", 2),
    (b"\x81\x9F\x81\x40", b"\x81\x9F\x81\x41", 2),
    (b"\x81\x81\x40", b"\x81\x81\x41", 2),
    (b"A\x81\x81\x40", b"A\x81\x81\x41", 3),
    (b"\x81\x81\x81\x40", b"\x81\x81\x81\x41", 2),
    // A lone lead byte at the end.
    (b"A\x81", b"A\x82", 1),
    (b"\x81\x40\x81", b"\x81\x40\x82", 2),
    // The earlier headword's last byte stands alone there, and begins a pair here.
    (b"\x81", b"\x81\x40", 0),
    (b"A\xFC", b"A\xFC\xFC", 1),
    (b"\x81\x81\x81", b"\x81\x81\x81\x81", 2),
    // It ends with a pair there, and so it does here.
    (b"\x81\x81", b"\x81\x81\x81", 2),
    // Half-width kana.
    (b"\xB1\xB2", b"\xB1\xB3", 1),
    (b"\x82\xA0\xB1\x83\x41", b"\x82\xA0\xB1\x83\x42", 3),
];

/// The stored fronts after headwords are inserted in this order.
fn fronts_of(file: &File, headwords: &[&[u8]]) -> Vec<usize> {
    let mut book = Book::new(file, 1_024);
    for headword in headwords {
        assert_eq!(book.insert(headword, b""), 0);
    }
    let image = book.image();
    image.entries().map(|entry| entry.front).collect()
}

/// "the largest front, up to the common one, that ends inside no pair of the later headword"
#[test]
fn f4_fronts_end_inside_no_pair() {
    for file in &FILES {
        for (earlier, later, front) in FRONTS {
            assert_eq!(fronts_of(file, &[earlier, later]), [0, *front]);
            assert_eq!(fronts_of(file, &[later, earlier]), [0, *front]);
        }
    }
}

/// "A pair is a byte 0x81 to 0x9F or 0xE0 to 0xFC with the byte after it".
#[test]
fn f4_lead_bytes() {
    for byte in 1..=255 {
        let front = match byte {
            0x81..=0x9F | 0xE0..=0xFC => 0,
            _ => 1,
        };
        let (earlier, later) = ([byte, 0x40], [byte, 0x41]);
        let fronts = fronts_of(&FILES[0], &[&earlier, &later]);
        assert_eq!(fronts, [0, front], "byte {:#x}", byte);
    }
    for (byte, front) in [
        (0x80, 1),
        (0x81, 0),
        (0x9F, 0),
        (0xA0, 1),
        (0xDF, 1),
        (0xE0, 0),
        (0xFC, 0),
        (0xFD, 1),
        (0xFF, 1),
    ] {
        let fronts = fronts_of(&FILES[1], &[&[byte, 0x40], &[byte, 0x41]]);
        assert_eq!(fronts, [0, front], "byte {:#x}", byte);
    }
}

#[test]
fn f4_bytes() {
    for file in &FILES {
        let mut book = Book::new(file, 768);
        assert_eq!(book.insert(b"A\x82\xA0", b"one"), 0);
        assert_eq!(book.insert(b"A\x82\xA2", b"two"), 0);
        let run = b"\x01\x00\x08\x00\x00A\x82\xA0\x00\x80one\x07\x00\x01\x82\xA2\x00\x80two";
        let mut bytes = vec![0; 256];
        put(&mut bytes, 0, run);
        assert_eq!(book.bytes()[512..], bytes);
    }
}

/// "cuts and places follow its sizes": with the common front 1,024 bytes, with this one 1,025.
#[test]
fn f4_cuts() {
    for file in &FILES {
        for (lead, size, places) in [
            (0x81, 506, vec![(2, 4)]),
            (0x81, 507, vec![(0, 2), (2, 3)]),
            (0x41, 507, vec![(2, 4)]),
            (0x41, 508, vec![(0, 2), (2, 3)]),
        ] {
            let mut book = Book::new(file, 4_096);
            assert_eq!(book.insert(&[lead, 0x40], &t(500)), 0);
            assert_eq!(book.insert(&[lead, 0x41], &t(size)), 0);
            assert_eq!(book.places(), places, "lead byte {:#x}, t({})", lead, size);
        }
    }
}

/// A file of another program: in its first run the front of 81 41 ends inside the pair.
fn with_cut_pair(file: &File) -> Book {
    let mut bytes = empty(file);
    bytes.resize(1_024, 0);
    for (place, byte) in [(148, 1), (160, 3), (file.nindex2, 2), (file.nblock2, 2)] {
        bytes[place] = byte;
    }
    put(&mut bytes, 256, b"\x00\x00\x81\x40\x00\x01\x00\x82\x00");
    put(&mut bytes, 512, CUT_PAIR);
    put(&mut bytes, 768, b"\x01\x00\x03\x00\x00\x82\x00\x80");
    bytes.resize(2_048, 0);
    Book {
        both: Both::new(&bytes, Random::of(1, 1)),
        len: 1_024,
    }
}

const CUT_PAIR: &[u8] = b"\x01\x00\x05\x00\x00\x81\x40\x00\x80t\x04\x00\x01\x41\x00\x80u";

/// "Reading is as before." Optimise and changes of another run keep the bytes.
#[test]
fn f4_stored_fronts_are_read_and_kept() {
    for file in &FILES {
        let mut book = with_cut_pair(file);
        let read = read(book.bytes(), book.len);
        assert_eq!(book.both.check(&read, book.len), Ok(0));
        assert_eq!(book.both.look_up(&read, book.len, b"\x81\x41", 1), Ok(0));
        assert_eq!(
            book.both.walk(&read, book.len, b"\x81\x40", 1, (2, 1)),
            Ok(0)
        );
        let kept = |book: &Book| book.bytes()[512..512 + CUT_PAIR.len()] == *CUT_PAIR;
        assert_eq!((book.optimise(), kept(&book)), (0, true));
        assert_eq!((book.insert(b"\x82\x40", b""), kept(&book)), (0, true));
        assert_eq!((book.delete(b"\x82"), kept(&book)), (0, true));
        assert_eq!((book.optimise(), kept(&book)), (0, true));
    }
}

/// A change of its run writes the front anew.
#[test]
fn f4_stored_fronts_are_written_anew() {
    for file in &FILES {
        let written = |mut book: Book, change: fn(&mut Book) -> u32| {
            assert_eq!(change(&mut book), 0);
            let image = book.image();
            let fronts = |run: usize| image.runs[run].entries.iter().map(|entry| entry.front);
            fronts(0).collect::<Vec<usize>>()
        };
        let book = || with_cut_pair(file);
        assert_eq!(written(book(), |b| b.insert(b"\x81\x41", b"v")), [0, 0]);
        assert_eq!(written(book(), |b| b.insert(b"\x81\x40", b"v")), [0, 0]);
        assert_eq!(written(book(), |b| b.insert(b"\x81", b"")), [0, 0, 0]);
        assert_eq!(
            written(book(), |b| b.insert(b"\x81\x41\x81", b"")),
            [0, 0, 2]
        );
        assert_eq!(written(book(), |b| b.delete(b"\x81\x40")), [0]);
    }
}

#[test]
fn p2_p3_bytes() {
    FILES.iter().for_each(p2_p3_bytes_of);
}

fn p2_p3_bytes_of(file: &File) {
    let mut book = Book::new(file, 900);
    assert_eq!(book.insert(b"ABC", b"one"), 0);
    assert_eq!(book.len, 768);
    let mut bytes = empty(file);
    bytes.resize(768, 0);
    for place in [148, 160, file.nindex2, file.nblock2, 208] {
        bytes[place] = 1;
    }
    put(&mut bytes, 256, b"\x00\x00ABC\x00");
    put(&mut bytes, 512, b"\x01\x00\x08\x00\x00ABC\x00\x80one");
    assert_eq!(book.bytes(), bytes);

    assert_eq!(book.insert(b"ABDEF", b"two"), 0);
    assert_eq!(book.len, 768);
    bytes[160] = 2;
    bytes[208] = 2;
    put(&mut bytes, 525, b"\x08\x00\x02DEF\x00\x80two");
    assert_eq!(book.bytes(), bytes);
    assert_eq!(book.both.ours.contents()[768..], [0xDD; 132]);
}

#[test]
fn p4_to_p7_parts() {
    FILES.iter().for_each(p4_to_p7_parts_of);
}

fn p4_to_p7_parts_of(file: &File) {
    let mut one = Book::new(file, 4_096);
    assert_eq!(one.insert(b"a", &t(500)), 0);
    assert_eq!(one.insert(b"b", &t(508)), 0);
    assert_eq!(one.image().runs.len(), 1);

    let mut book = Book::new(file, 1_792);
    assert_eq!(book.insert(b"a", &t(500)), 0);
    assert_eq!(book.insert(b"b", &t(509)), 0);
    assert_eq!((book.len, book.places()), (1_792, vec![(0, 2), (2, 3)]));

    let mut short = Book::new(file, 1_791);
    assert_eq!(short.insert(b"a", &t(500)), 0);
    assert_eq!(short.insert(b"b", &t(509)), 15);

    assert_eq!(book.delete(b"a"), 0);
    assert_eq!(book.image().chain, [0, 1]);
    assert_eq!(book.delete(b"a"), 100);
    assert_eq!(book.optimise(), 0);
    assert_eq!((book.len, book.places()), (1_280, vec![(0, 3)]));
    assert_eq!(book.both.ours.contents()[1_280..], [0; 512]);
}

#[test]
fn p8_p9_a_deletion_can_need_space() {
    FILES.iter().for_each(p8_p9_a_deletion_can_need_space_of);
}

fn p8_p9_a_deletion_can_need_space_of(file: &File) {
    let mut book = Book::new(file, 2_304);
    assert_eq!(book.insert(b"a", b""), 0);
    assert_eq!(book.insert(&[b'a'; 248], b""), 0);
    assert_eq!(book.insert(b"b", &t(762)), 0);
    assert_eq!((book.len, book.places()), (2_304, vec![(0, 2), (3, 4)]));
    assert_eq!(book.image().chain, [2]);
    assert_eq!(book.delete(b"a"), 0);
    assert_eq!((book.len, book.places()), (2_304, vec![(0, 2), (2, 4)]));
    assert_eq!(book.image().index_blocks, 2);
    assert_eq!(book.image().chain, []);
}

/// "15 is never given by optimise": each image here fills its slice to the last byte.
#[test]
fn optimise_in_full_slices() {
    for file in &FILES {
        created_optimised(file);
        p2_optimised(file);
        p6_p7_optimised(file);
        p9_optimised(file);
    }
}

/// No run, no index block: only the update count changes.
fn created_optimised(file: &File) {
    let mut book = Book::new(file, 256);
    assert_eq!((book.optimise(), book.len), (0, 256));
    let mut bytes = empty(file);
    bytes[208] = 1;
    assert_eq!(book.bytes(), bytes);
}

/// One run, then none: index and run are given up.
fn p2_optimised(file: &File) {
    let mut book = Book::new(file, 768);
    assert_eq!(book.insert(b"ABC", b"one"), 0);
    let mut bytes = book.bytes().to_vec();
    assert_eq!((book.optimise(), book.len), (0, 768));
    bytes[208] = 2;
    assert_eq!(book.bytes(), bytes);
    assert_eq!((book.delete(b"ABC"), book.len), (0, 768));
    assert_eq!((book.image().index_blocks, book.image().runs.len()), (1, 0));
    assert_eq!((book.optimise(), book.len), (0, 256));
    let mut bytes = empty(file);
    bytes[208] = 4;
    assert_eq!(book.bytes(), bytes);
    assert_eq!(book.both.ours.contents()[256..], [0; 512]);
}

/// Nothing to give up, then blocks 0 and 1.
fn p6_p7_optimised(file: &File) {
    let mut book = Book::new(file, 1_792);
    assert_eq!(book.insert(b"a", &t(500)), 0);
    assert_eq!(book.insert(b"b", &t(509)), 0);
    assert_eq!((book.optimise(), book.len), (0, 1_792));
    assert_eq!(book.places(), [(0, 2), (2, 3)]);
    assert_eq!((book.delete(b"a"), book.len), (0, 1_792));
    assert_eq!((book.optimise(), book.len), (0, 1_280));
    assert_eq!(book.places(), [(0, 3)]);
    assert_eq!(book.both.ours.contents()[1_280..], [0; 512]);
}

/// After P9 the index needs both its blocks; a inserted again is the first headword, and one is
/// enough. No data block is free.
fn p9_optimised(file: &File) {
    let mut book = Book::new(file, 2_304);
    assert_eq!(book.insert(b"a", b""), 0);
    assert_eq!(book.insert(&[b'a'; 248], b""), 0);
    assert_eq!(book.insert(b"b", &t(762)), 0);
    assert_eq!((book.delete(b"a"), book.len), (0, 2_304));
    assert_eq!((book.optimise(), book.len), (0, 2_304));
    assert_eq!((book.insert(b"a", b""), book.len), (0, 2_304));
    assert_eq!(book.image().index_blocks, 2);
    assert_eq!(book.image().chain, []);
    let runs = book.bytes()[768..].to_vec();
    assert_eq!((book.optimise(), book.len), (0, 2_048));
    assert_eq!(book.image().index_blocks, 1);
    let mut index = vec![0; 256];
    put(&mut index, 0, b"\x00\x00a\x00\x02\x00b\x00");
    assert_eq!(book.bytes()[256..], [index, runs].concat());
    assert_eq!(book.both.ours.contents()[2_048..], [0; 256]);
}

#[test]
fn p10_longest() {
    FILES.iter().for_each(p10_longest_of);
}

fn p10_longest_of(file: &File) {
    let mut book = Book::new(file, 8_192);
    assert_eq!(book.insert(&[b'x'; 248], b""), 0);
    assert_eq!(book.insert(&[b'x'; 249], b""), 12);
    assert_eq!(book.insert(b"x", &t(3_000)), 0);
    assert_eq!(book.insert(b"x", &t(3_001)), 13);
}

#[test]
fn a_version_only_for_reading() {
    for file in &FILES {
        let mut book = Book::new(file, 2_048);
        assert_eq!(book.insert(b"a", b"one"), 0);
        for low in 0..=255 {
            let number = if low < 16 { 0 } else { 11 };
            let mut bytes = book.both.ours.contents().to_vec();
            bytes[140] = low;
            let mut other = Book {
                both: Both::new(&bytes, Random::of(1, 1)),
                len: book.len,
            };
            // "16 to 255 only read".
            assert_eq!(other.both.check(&read(&bytes, book.len), book.len), Ok(0));
            assert_eq!(other.optimise(), number, "low byte {}", low);
            assert_eq!(other.insert(b"b", b"two"), number, "low byte {}", low);
            assert_eq!(other.delete(b"b"), number, "low byte {}", low);
            assert_eq!(other.bytes()[140..142], [low, file.version]);
        }
    }
}

#[test]
fn changes_keep_the_identifier() {
    let mut book = Book::new(&FILES[1], 4_096);
    assert_eq!(book.insert(b"a", &t(700)), 0);
    assert_eq!(book.insert(b"b", &t(700)), 0);
    assert_eq!(book.insert(b"c", &t(3_000)), 15);
    assert_eq!(book.delete(b"a"), 0);
    assert_eq!(book.delete(b"a"), 100);
    assert_eq!(book.optimise(), 0);
    assert_eq!(book.bytes()[216..224], IDENTIFIER.to_le_bytes());
    // index_blkbit, a byte without a name, extheader, empty_block2, nindex2, nblock2.
    assert_eq!(
        book.bytes()[182..200],
        *b"\0\0\0\0\0\0\xFF\xFF\xFF\xFF\x01\0\0\0\x03\0\0\0"
    );
}
