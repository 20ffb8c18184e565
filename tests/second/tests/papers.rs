//! The paper's examples that a reader can meet, built by hand, and a few refusals; each is
//! read by the second reader and by the engine.

mod by_hand;

use by_hand::{empty, put, File, FILES};
use second::calls::{check, look_up, walk, Answer, Counts};
use second::engine::{self, Lent};
use second::make::{common, cut, encoded_size, lay_out, render, Cut, Fronts};
use second::make::{Ground, Links, Sketch};
use second::random::Random;
use second::reader::{read, Entry, Image};

/// P2: ABC "one" from empty.
fn p2(file: &File) -> Vec<u8> {
    let mut bytes = empty(file);
    bytes.resize(768, 0);
    for place in [148, 160, file.nindex2, file.nblock2, 208] {
        bytes[place] = 1;
    }
    put(&mut bytes, 256, b"\x00\x00ABC\x00");
    put(
        &mut bytes,
        512,
        b"\x01\x00\x08\x00\x00ABC\x00\x80one\x00\x00",
    );
    bytes
}

/// P3: then ABDEF "two".
fn p3(file: &File) -> Vec<u8> {
    let mut bytes = p2(file);
    put(&mut bytes, 160, &[2]);
    put(&mut bytes, 208, &[2]);
    let run = b"\x01\x00\x08\x00\x00ABC\x00\x80one\x08\x00\x02DEF\x00\x80two\x00\x00";
    assert_eq!(run.len(), 26);
    put(&mut bytes, 512, run);
    bytes
}

fn entry(headword: &[u8], text: &[u8]) -> Entry {
    Entry {
        front: 0,
        headword: headword.to_vec(),
        attribute: 128,
        text: text.to_vec(),
    }
}

/// "Text of n letters is written t(n)".
fn t(size: usize) -> Vec<u8> {
    vec![b't'; size]
}

fn make(file: &File, entries: Vec<Entry>) -> Vec<u8> {
    let mut random = Random::of(1, 1);
    let sketch = Sketch {
        header: empty(file),
        runs: cut(&mut random, entries, Cut::Bytes(1_024), Fronts::Longest),
        tail: 4,
        extra_index: 0,
        free: 0,
        loose: false,
        links: Links::Ascending,
        ground: Ground::Zero,
    };
    let image = lay_out(&mut random, &sketch);
    render(&mut random, image, Ground::Zero).bytes
}

fn values(bytes: &[u8]) -> Image {
    read(bytes, bytes.len()).expect("accepted")
}

/// Check's answer by both: headwords, index blocks, data blocks, free blocks.
fn both_check(bytes: &[u8], len: usize) -> Result<[u64; 4], u32> {
    let mut image = Lent::new(bytes, 0xA5, 0);
    let mut cells = [7; 9];
    let number = engine::check(&mut image, len, &mut cells);
    assert_eq!(image, Lent::new(bytes, 0xA5, 0));
    let engine = match number {
        0 => Ok([cells[1], cells[3], cells[5], cells[7]]),
        _ => {
            assert_eq!(cells, [7; 9]);
            Err(number)
        }
    };
    let second = match check(&read(bytes, len)) {
        Answer::Done(counts) => {
            let Counts {
                headwords,
                index_blocks,
                data_blocks,
                free_blocks,
            } = counts;
            Ok([headwords, index_blocks, data_blocks, free_blocks])
        }
        other => Err(other.number()),
    };
    assert_eq!(engine, second);
    second
}

/// Look up by both: attribute and text, or the number.
fn both_look_up(bytes: &[u8], word: &[u8], size: usize) -> Result<(u8, Vec<u8>), u32> {
    let mut image = Lent::new(bytes, 0xA5, 0);
    let mut headword = Lent::new(word, 0x5A, 1);
    let mut text = Lent::filled(size, 0xEE, 0x11, 2);
    let mut attribute = Lent::filled(1, 0xEE, 0x22, 3);
    let mut lengths = [9; 5];
    let number = engine::look_up(
        &mut image,
        bytes.len(),
        &mut headword,
        &mut text,
        &mut attribute,
        &mut lengths,
    );
    let engine = match number {
        0 => {
            let length = lengths[1];
            assert!(text.contents()[length..].iter().all(|byte| *byte == 0xEE));
            Ok((attribute.contents()[0], text.contents()[..length].to_vec()))
        }
        _ => Err(number),
    };
    let read = read(bytes, bytes.len());
    let second = match look_up(&read, word, size) {
        Answer::Done(entry) => Ok((entry.attribute, entry.text.clone())),
        other => Err(other.number()),
    };
    assert_eq!(engine, second);
    second
}

/// Walk by both: headword and text, or the number.
fn both_walk(
    bytes: &[u8],
    word: &[u8],
    above: u8,
    sizes: (usize, usize),
) -> Result<(Vec<u8>, Vec<u8>), u32> {
    let mut image = Lent::new(bytes, 0xA5, 0);
    let mut headword = Lent::new(word, 0x5A, 1);
    let mut out = Lent::filled(sizes.0, 0xEE, 0x33, 5);
    let mut text = Lent::filled(sizes.1, 0xEE, 0x11, 2);
    let mut attribute = Lent::filled(1, 0xEE, 0x22, 3);
    let mut lengths = [9; 5];
    let number = engine::walk(
        &mut image,
        bytes.len(),
        &mut headword,
        above,
        &mut out,
        &mut text,
        &mut attribute,
        &mut lengths,
    );
    let engine = match number {
        0 => Ok((
            out.contents()[..lengths[3]].to_vec(),
            text.contents()[..lengths[1]].to_vec(),
        )),
        _ => Err(number),
    };
    let read = read(bytes, bytes.len());
    let second = match walk(&read, word, above != 0, sizes.0, sizes.1) {
        Answer::Done(entry) => Ok((entry.headword.clone(), entry.text.clone())),
        other => Err(other.number()),
    };
    assert_eq!(engine, second);
    second
}

const ROOM: (usize, usize) = (248, 3_000);

#[test]
fn empty_image() {
    FILES.iter().for_each(empty_image_of);
}

fn empty_image_of(file: &File) {
    let bytes = empty(file);
    assert_eq!(both_check(&bytes, 256), Ok([0, 0, 0, 0]));
    assert_eq!(both_look_up(&bytes, b"ABC", 0), Err(100));
    assert_eq!(both_walk(&bytes, b"", 0, (0, 0)), Err(100));
    assert_eq!(both_look_up(&bytes, b"", 0), Err(12));
}

#[test]
fn p1_shared_fronts() {
    FILES.iter().for_each(p1_shared_fronts_of);
}

fn p1_shared_fronts_of(file: &File) {
    // ABC, ABDEF, ABDGD, AGDE: shared 0, 2, 3, 1; rests ABC, DEF, GD, GDE.
    let mut bytes = p2(file);
    put(&mut bytes, 160, &[4]);
    let mut run = vec![1, 0];
    for (front, rest) in [(0, "ABC"), (2, "DEF"), (3, "GD"), (1, "GDE")] {
        run.extend_from_slice(&[rest.len() as u8 + 2, 0, front]);
        run.extend_from_slice(rest.as_bytes());
        run.extend_from_slice(&[0, 128]);
    }
    put(&mut bytes, 512, &run);
    put(&mut bytes, 512 + run.len(), &[0, 0]);
    let image = values(&bytes);
    let words: Vec<&[u8]> = image.entries().map(|entry| &entry.headword[..]).collect();
    assert_eq!(words, [&b"ABC"[..], b"ABDEF", b"ABDGD", b"AGDE"]);
    let fronts: Vec<usize> = image.entries().map(|entry| entry.front).collect();
    assert_eq!(fronts, [0, 2, 3, 1]);
    assert_eq!(common(b"ABC", b"ABDEF"), 2);
    assert_eq!(both_check(&bytes, 768), Ok([4, 1, 1, 0]));
    let step = |word: &[u8]| both_walk(&bytes, word, 1, ROOM).map(|found| found.0);
    assert_eq!(step(b""), Ok(b"ABC".to_vec()));
    assert_eq!(step(b"ABC"), Ok(b"ABDEF".to_vec()));
    assert_eq!(step(b"ABDEF"), Ok(b"ABDGD".to_vec()));
    assert_eq!(step(b"ABDGD"), Ok(b"AGDE".to_vec()));
    assert_eq!(step(b"AGDE"), Err(100));
}

/// F-4: "Reading is as before." 81 40, 81 41, 81 41 82: the fronts end inside a pair.
#[test]
fn fronts_inside_pairs() {
    for file in &FILES {
        let mut bytes = p2(file);
        put(&mut bytes, 160, &[3]);
        put(&mut bytes, 256, b"\x00\x00\x81\x40\x00\x00");
        bytes[512..].fill(0);
        put(&mut bytes, 512, b"\x01\x00\x05\x00\x00\x81\x40\x00\x80t");
        put(&mut bytes, 522, b"\x04\x00\x01\x41\x00\x80u");
        put(&mut bytes, 529, b"\x05\x00\x01\x41\x82\x00\x80v");
        assert_eq!(both_check(&bytes, 768), Ok([3, 1, 1, 0]));
        let fronts: Vec<usize> = values(&bytes).entries().map(|entry| entry.front).collect();
        assert_eq!(fronts, [0, 1, 1]);
        assert_eq!(
            both_look_up(&bytes, b"\x81\x41", 1),
            Ok((128, b"u".to_vec()))
        );
        assert_eq!(both_look_up(&bytes, b"\x41", 1), Err(100));
        let next = |word: &[u8]| both_walk(&bytes, word, 1, ROOM).map(|(word, _)| word);
        assert_eq!(next(b"\x81"), Ok(b"\x81\x40".to_vec()));
        assert_eq!(next(b"\x81\x40"), Ok(b"\x81\x41".to_vec()));
        assert_eq!(next(b"\x81\x41"), Ok(b"\x81\x41\x82".to_vec()));
    }
}

#[test]
fn p2_p3_bytes() {
    FILES.iter().for_each(p2_p3_bytes_of);
}

fn p2_p3_bytes_of(file: &File) {
    let bytes = p2(file);
    assert_eq!(bytes.len(), 768);
    assert_eq!(both_check(&bytes, 768), Ok([1, 1, 1, 0]));
    assert_eq!(both_look_up(&bytes, b"ABC", 3), Ok((128, b"one".to_vec())));
    let bytes = p3(file);
    // The printed list's first line: 2, 1, 1, 0.
    assert_eq!(both_check(&bytes, 768), Ok([2, 1, 1, 0]));
    assert_eq!(
        both_look_up(&bytes, b"ABDEF", 9),
        Ok((128, b"two".to_vec()))
    );
    assert_eq!(both_look_up(&bytes, b"ABDEF", 2), Err(14));
    assert_eq!(both_look_up(&bytes, b"ABD", 0), Err(100));
    let image = values(&bytes);
    assert_eq!((image.runs[0].block, image.runs[0].blocks), (0, 1));
    assert_eq!(encoded_size(&image.runs[0].entries), 26);
    let two = Ok((b"ABDEF".to_vec(), b"two".to_vec()));
    assert_eq!(both_walk(&bytes, b"ABD", 0, (5, 3)), two);
    assert_eq!(both_walk(&bytes, b"ABC", 1, (5, 3)), two);
    assert_eq!(both_walk(&bytes, b"ABC", 2, (5, 3)), two);
    assert_eq!(both_walk(&bytes, b"ABDEF", 0, (5, 3)), two);
    assert_eq!(both_walk(&bytes, b"ABDEF", 0, (4, 3)), Err(14));
    assert_eq!(both_walk(&bytes, b"ABDEF", 0, (5, 2)), Err(14));
    assert_eq!(both_walk(&bytes, b"ABDEF", 1, (0, 0)), Err(100));
    // The maker gives the same bytes, but for the update count.
    let mut made = make(file, vec![entry(b"ABC", b"one"), entry(b"ABDEF", b"two")]);
    made[208] = 2;
    assert_eq!(made, bytes);
}

#[test]
fn p4_to_p7_parts() {
    FILES.iter().for_each(p4_to_p7_parts_of);
}

fn p4_to_p7_parts_of(file: &File) {
    let one = make(file, vec![entry(b"a", &t(500)), entry(b"b", &t(508))]);
    let image = values(&one);
    assert_eq!(image.runs.len(), 1);
    assert_eq!(encoded_size(&image.runs[0].entries), 1_024);
    assert_eq!(image.runs[0].blocks, 4);

    let two = make(file, vec![entry(b"a", &t(500)), entry(b"b", &t(509))]);
    assert_eq!(two.len(), 1_792);
    let places = |image: &Image| -> Vec<(usize, usize)> {
        let place = |run: &second::reader::Run| (run.block, run.blocks);
        image.runs.iter().map(place).collect()
    };
    assert_eq!(places(&values(&two)), [(0, 2), (2, 3)]);
    assert_eq!(both_check(&two, 1_792), Ok([2, 1, 5, 0]));
    assert_eq!(both_check(&two[..1_791], 1_792), Err(1));

    // P7: a deleted, blocks 0 and 1 free; only six bytes of a free block change.
    let mut bytes = two;
    put(&mut bytes, 160, &[1]);
    put(&mut bytes, file.empty_block2, &[0, 0, 0, 0]);
    put(&mut bytes, file.nindex2, &[1]);
    put(&mut bytes, file.nblock2, &[3]);
    put(&mut bytes, 256, b"\x02\x00b\x00\x00\x00\x00\x00");
    put(&mut bytes, 512, &[0, 0, 1, 0, 0, 0]);
    put(&mut bytes, 768, &[0, 0, 0xFF, 0xFF, 0xFF, 0xFF]);
    assert_eq!(both_check(&bytes, 1_792), Ok([1, 1, 5, 2]));
    assert_eq!(values(&bytes).chain, [0, 1]);
    assert_eq!(both_look_up(&bytes, b"b", 509), Ok((128, t(509))));
    assert_eq!(both_look_up(&bytes, b"a", 509), Err(100));

    // Optimised: b at 0, L 1,280.
    let bytes = make(file, vec![entry(b"b", &t(509))]);
    assert_eq!(bytes.len(), 1_280);
    assert_eq!(both_check(&bytes, 1_280), Ok([1, 1, 3, 0]));
}

#[test]
fn p8_p9_long_headword() {
    FILES.iter().for_each(p8_p9_long_headword_of);
}

fn p8_p9_long_headword_of(file: &File) {
    // P8: runs at 0 and 3, free 2, L 2,304.
    let long = vec![b'a'; 248];
    let mut random = Random::of(1, 1);
    let entries = vec![entry(b"a", b""), entry(&long, b""), entry(b"b", &t(762))];
    let runs = cut(&mut random, entries, Cut::Bytes(1_024), Fronts::Longest);
    assert_eq!(runs.len(), 2);
    let sketch = Sketch {
        header: empty(file),
        runs,
        tail: 4,
        extra_index: 0,
        free: 1,
        loose: false,
        links: Links::Ascending,
        ground: Ground::Zero,
    };
    let mut image = lay_out(&mut random, &sketch);
    image.runs[1].block = 3;
    image.chain = vec![2];
    let bytes = render(&mut random, image, Ground::Zero).bytes;
    assert_eq!(bytes.len(), 2_304);
    assert_eq!(both_check(&bytes, 2_304), Ok([3, 1, 7, 1]));
    assert_eq!(both_look_up(&bytes, &long, 0), Ok((128, vec![])));
    assert_eq!(both_walk(&bytes, b"a", 1, (247, 0)), Err(14));
    assert_eq!(
        both_walk(&bytes, b"a", 1, (248, 0)),
        Ok((long.clone(), vec![]))
    );

    // P9: the index grows to 2, runs at 0 and 2, none free, L 2,304.
    let mut sketch = sketch;
    sketch.runs[0].entries.remove(0);
    sketch.runs[0].entries[0].front = 0;
    sketch.free = 0;
    let image = lay_out(&mut random, &sketch);
    assert_eq!((image.runs[0].block, image.runs[1].block), (0, 2));
    let bytes = render(&mut random, image, Ground::Zero).bytes;
    assert_eq!(bytes.len(), 2_304);
    assert_eq!(both_check(&bytes, 2_304), Ok([2, 2, 6, 0]));
}

#[test]
fn p10_longest() {
    FILES.iter().for_each(p10_longest_of);
}

fn p10_longest_of(file: &File) {
    let long = vec![b'x'; 248];
    let bytes = make(file, vec![entry(&long, &t(3_000))]);
    assert_eq!(both_look_up(&bytes, &long, 3_000), Ok((128, t(3_000))));
    assert_eq!(both_look_up(&bytes, &[b'x'; 249], 3_000), Err(12));
    assert_eq!(both_walk(&bytes, &[b'x'; 249], 0, ROOM), Err(12));
    assert_eq!(both_walk(&bytes, b"x\x00", 0, ROOM), Err(12));
    let bytes = make(file, vec![entry(b"x", &t(3_001))]);
    assert_eq!(both_check(&bytes, bytes.len()), Err(8));
    let bytes = make(file, vec![entry(&[b'x'; 249], b"")]);
    assert_eq!(both_check(&bytes, bytes.len()), Err(6));
}

#[test]
fn unsigned_order() {
    FILES.iter().for_each(unsigned_order_of);
}

fn unsigned_order_of(file: &File) {
    // Kana stand behind letters.
    let bytes = make(file, vec![entry(b"Z", b"1"), entry(b"\x83\x41", b"2")]);
    assert_eq!(both_check(&bytes, 768), Ok([2, 1, 1, 0]));
    assert_eq!(
        both_walk(&bytes, b"Z", 1, ROOM),
        Ok((b"\x83\x41".to_vec(), b"2".to_vec()))
    );
    let bytes = make(file, vec![entry(b"\x83\x41", b"2"), entry(b"Z", b"1")]);
    assert_eq!(both_check(&bytes, 768), Err(8));
}

#[test]
fn lengths() {
    FILES.iter().for_each(lengths_of);
}

fn lengths_of(file: &File) {
    let bytes = p3(file);
    for (len, number) in [
        (0, 1),
        (255, 1),
        (256, 5),
        (257, 1),
        (512, 7),
        (767, 1),
        (769, 1),
        (1_024, 1),
        (usize::MAX, 1),
        (usize::MAX - 255, 1),
    ] {
        assert_eq!(both_check(&bytes, len), Err(number), "L {}", len);
    }
    // A longer slice: what follows L does not matter.
    let mut longer = bytes.clone();
    longer.resize(1_100, 0xDD);
    assert_eq!(both_check(&longer, 768), Ok([2, 1, 1, 0]));
    // A block in neither a run nor the chain.
    assert_eq!(both_check(&longer, 1_024), Err(9));
}

/// Bytes put at a place, and the number that an image then gives.
type Fault = (usize, &'static [u8], u32);

/// Faults in the image of P3 that stand alike in both versions.
const FAULTS: &[Fault] = &[
    (141, &[0], 3),
    (141, &[3], 3),
    (141, &[6], 3),
    (141, &[0x84], 3),
    (141, &[0x85], 3),
    (146, &[1], 3),
    (150, &[1], 3),
    (166, &[2], 3),
    (164, &[1], 4),
    (165, &[0x40], 4),
    (148, &[3], 5),
    (148, &[1, 0x80], 5),
    (511, &[1], 6),
    (256, &[1], 7),
    (512, &[0], 7),
    (512, &[2], 7),
    (512, &[1, 0x80], 7),
    // The first field length: 0, no zero in the field, no attribute, past the run.
    (514, &[0], 8),
    (514, &[3], 8),
    (514, &[4], 8),
    (514, &[0xFF, 0xFF], 8),
    // A front in the first entry, and one over the headword before.
    (516, &[1], 8),
    (527, &[4], 8),
    // Attributes.
    (521, &[0x7F], 8),
    (521, &[0x90], 8),
    // The first headword is not its element's; a zero in a text; headwords descend.
    (519, &[b'D'], 8),
    (523, &[0], 8),
    (528, b"BAA", 8),
    (160, &[1], 10),
    (163, &[1], 10),
];

/// Faults in moved fields, each byte of them, by version. The chain goes off the area or to a
/// run.
const MOVED: [&[Fault]; 2] = [
    &[
        (171, &[1], 4),
        (182, &[1], 4),
        (183, &[1], 4),
        (184, &[1], 4),
        (185, &[1], 4),
        (198, &[1], 4),
        (190, &[0], 6),
        (190, &[2], 6),
        (191, &[1], 6),
        (192, &[1], 6),
        (193, &[1], 6),
        (186, &[1, 0, 0, 0], 9),
        (186, &[0, 0, 0, 0], 9),
        (186, &[0xFF, 0xFF, 0, 0], 9),
        (186, &[0xFE], 9),
        (189, &[0xFE], 9),
        (194, &[2], 10),
        (195, &[1], 10),
        (196, &[1], 10),
        (197, &[1], 10),
    ],
    &[
        (167, &[1], 4),
        (182, &[1], 4),
        (184, &[1], 4),
        (185, &[1], 4),
        (186, &[1], 4),
        (187, &[1], 4),
        (192, &[0], 6),
        (192, &[2], 6),
        (193, &[1], 6),
        (194, &[1], 6),
        (195, &[1], 6),
        (188, &[1, 0, 0, 0], 9),
        (188, &[0, 0, 0, 0], 9),
        (188, &[0xFF, 0xFF, 0, 0], 9),
        (188, &[0xFE], 9),
        (191, &[0xFE], 9),
        (196, &[2], 10),
        (197, &[1], 10),
        (198, &[1], 10),
        (199, &[1], 10),
    ],
];

/// Header bytes that no row names for a reading call, from the first to the last of each
/// stretch, by version.
const NOT_NAMED: [&[(usize, usize)]; 2] = [
    &[
        (0, 140),
        (142, 145),
        (152, 159),
        (167, 170),
        (172, 181),
        (199, 255),
    ],
    &[
        (0, 140),
        (142, 145),
        (152, 159),
        (168, 181),
        (183, 183),
        (200, 255),
    ],
];

#[test]
fn refusals() {
    for (file, moved) in FILES.iter().zip(MOVED) {
        for (place, contents, number) in FAULTS.iter().chain(moved) {
            let mut bytes = p3(file);
            put(&mut bytes, *place, contents);
            let story = format!("{:?} at {}, version {}", contents, place, file.version);
            let numbers = [
                both_check(&bytes, 768).err(),
                both_look_up(&bytes, b"", 0).err(),
                both_walk(&bytes, &[0], 0, (0, 0)).err(),
            ];
            assert_eq!(numbers, [Some(*number); 3], "{}", story);
        }
    }
}

#[test]
fn header_bytes_that_no_row_names() {
    for (file, not_named) in FILES.iter().zip(NOT_NAMED) {
        for place in 0..256 {
            let mut bytes = p3(file);
            bytes[place] ^= 0xFF;
            let good = not_named
                .iter()
                .any(|(first, last)| (*first..=*last).contains(&place));
            let checked = both_check(&bytes, 768);
            assert_eq!(checked.is_ok(), good, "{}, version {}", place, file.version);
        }
    }
}

#[test]
fn anything_behind_the_end_marks() {
    for file in &FILES {
        for place in [538, 767] {
            let mut bytes = p3(file);
            bytes[place] ^= 0xFF;
            assert_eq!(both_check(&bytes, 768), Ok([2, 1, 1, 0]), "{}", place);
        }
    }
}

#[test]
fn the_other_version_on_the_same_bytes() {
    // 5 for 4: the low half of empty_block2 is extheader's high half. 4 for 5: its high half is
    // nindex2's low half.
    for (file, other, number) in [(&FILES[0], 5, 4), (&FILES[1], 4, 6)] {
        let mut bytes = p3(file);
        bytes[141] = other;
        assert_eq!(both_check(&bytes, 768), Err(number));
    }
}

#[test]
fn rows_7_and_8_run_by_run() {
    FILES.iter().for_each(rows_7_and_8_run_by_run_of);
}

fn rows_7_and_8_run_by_run_of(file: &File) {
    let bytes = make(file, vec![entry(b"a", &t(500)), entry(b"b", &t(509))]);
    let (first, second) = (512, 1_024);
    let (size, attribute) = (0, 7);
    // 8 of the first run comes before 7 of the second, and the other way round.
    let mut fault = bytes.clone();
    fault[first + attribute] = 0;
    fault[second + size] = 0;
    assert_eq!(both_check(&fault, 1_792), Err(8));
    let mut fault = bytes.clone();
    fault[first + size] = 0;
    fault[second + attribute] = 0;
    assert_eq!(both_check(&fault, 1_792), Err(7));
    // 8 of the last run comes before 9.
    let mut fault = bytes.clone();
    fault[second + attribute] = 0;
    fault[file.empty_block2] = 9;
    assert_eq!(both_check(&fault, 1_792), Err(8));
    // Two elements with one number end in 8.
    let mut fault = bytes;
    put(&mut fault, 260, &[0, 0]);
    assert_eq!(both_check(&fault, 1_792), Err(8));
}
