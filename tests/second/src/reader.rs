//! The second reader: the first L bytes of a slice are parsed to values (header, index
//! elements, runs with their entries, chain), and the rules are tested on the values.
//! Quoted sentences are those of the papers; the numbers are their table's.

/// Size of a block, and of the header.
pub const BLOCK: usize = 256;
/// "1 to 32,767 (top bit clear)": blocks in a run; also the most index blocks.
pub const MOST_BLOCKS: usize = 32_767;
/// The most data blocks.
pub const MOST_DATA: usize = 65_536;
/// "A headword has 1 to 248 bytes, none zero."
pub const MOST_HEADWORD: usize = 248;
/// "Text has 0 to 3,000, none zero."
pub const MOST_TEXT: usize = 3_000;
/// The link that ends the chain.
pub const CHAIN_END: u32 = 0xFFFF_FFFF;

/// Offsets of the header fields that stand alike in both versions.
pub mod at {
    pub const VERSION: usize = 140;
    pub const HIGH_VERSION: usize = 141;
    pub const LWORD: usize = 142;
    pub const LJAPA: usize = 144;
    pub const BLOCK_SIZE: usize = 146;
    pub const INDEX_BLOCK: usize = 148;
    pub const HEADER_SIZE: usize = 150;
    pub const EMPTY_BLOCK: usize = 154;
    pub const NWORD: usize = 160;
    pub const DICORDER: usize = 164;
    pub const DICTYPE: usize = 165;
    pub const ATTRLEN: usize = 166;
    pub const UPDATE_COUNT: usize = 208;
    /// Version 5 only: "the eight bytes at 216 identify the dictionary".
    pub const IDENTIFIER: usize = 216;
}

/// A kind of file: its high version byte, and the offsets of the header fields that stand
/// elsewhere in the other kind.
#[derive(Debug, PartialEq, Eq)]
pub struct Format {
    pub version: u8,
    pub os: usize,
    pub index_blkbit: usize,
    pub extheader: usize,
    pub empty_block2: usize,
    pub nindex2: usize,
    pub nblock2: usize,
}

/// "The high version byte may be 4 or 5". Version 5 "moves os to offset 167, index_blkbit to
/// 182, extheader to 184, empty_block2 to 188, nindex2 to 192 and nblock2 to 196".
pub static FORMATS: [Format; 2] = [
    Format {
        version: 4,
        os: 171,
        index_blkbit: 198,
        extheader: 182,
        empty_block2: 186,
        nindex2: 190,
        nblock2: 194,
    },
    Format {
        version: 5,
        os: 167,
        index_blkbit: 182,
        extheader: 184,
        empty_block2: 188,
        nindex2: 192,
        nblock2: 196,
    },
];

/// The format of a high version byte, if there is one.
pub fn format(version: u8) -> Option<&'static Format> {
    FORMATS.iter().find(|format| format.version == version)
}

impl Format {
    /// Its place in FORMATS.
    pub fn place(&self) -> usize {
        let place = FORMATS.iter().position(|format| format == self);
        place.expect("each format is listed")
    }
}

/// The header: its bytes, and its fields by name.
#[derive(Clone, Debug, PartialEq, Eq)]
pub struct Header {
    pub bytes: Vec<u8>,
}

impl Header {
    pub fn byte(&self, offset: usize) -> u8 {
        self.bytes[offset]
    }

    pub fn two(&self, offset: usize) -> u16 {
        two(&self.bytes[offset..])
    }

    pub fn four(&self, offset: usize) -> u32 {
        four(&self.bytes[offset..])
    }

    /// The format that the high version byte names.
    pub fn format(&self) -> Option<&'static Format> {
        format(self.byte(at::HIGH_VERSION))
    }
}

/// An entry as stored: the headword is whole, `front` tells how much of it was shared.
#[derive(Clone, Debug, PartialEq, Eq)]
pub struct Entry {
    pub front: usize,
    pub headword: Vec<u8>,
    pub attribute: u8,
    pub text: Vec<u8>,
}

/// A run: its first block, its number of blocks, its entries.
#[derive(Clone, Debug, PartialEq, Eq)]
pub struct Run {
    pub block: usize,
    pub blocks: usize,
    pub entries: Vec<Entry>,
}

/// An index element.
#[derive(Clone, Debug, PartialEq, Eq)]
pub struct Element {
    pub block: usize,
    pub headword: Vec<u8>,
}

/// An accepted image. The runs stand in index order; an index element is its run's first
/// block and first headword. The chain holds the free blocks in the order of the links.
#[derive(Clone, Debug, PartialEq, Eq)]
pub struct Image {
    pub header: Header,
    pub index_blocks: usize,
    pub data_blocks: usize,
    pub runs: Vec<Run>,
    pub chain: Vec<usize>,
}

impl Image {
    /// The format of an image whose high version byte is right.
    pub fn format(&self) -> &'static Format {
        self.header.format().expect("version 4 or 5")
    }

    /// All entries in headword order.
    pub fn entries(&self) -> impl Iterator<Item = &Entry> {
        self.runs.iter().flat_map(|run| run.entries.iter())
    }
}

/// "Multi-byte numbers are unsigned, low byte first."
pub fn two(bytes: &[u8]) -> u16 {
    u16::from_le_bytes([bytes[0], bytes[1]])
}

pub fn four(bytes: &[u8]) -> u32 {
    u32::from_le_bytes([bytes[0], bytes[1], bytes[2], bytes[3]])
}

/// "A headword has 1 to 248 bytes, none zero."
pub fn is_headword(bytes: &[u8]) -> bool {
    (1..=MOST_HEADWORD).contains(&bytes.len()) && !bytes.contains(&0)
}

/// "Text has 0 to 3,000, none zero."
pub fn is_text(bytes: &[u8]) -> bool {
    bytes.len() <= MOST_TEXT && !bytes.contains(&0)
}

/// "The attribute has 0x80 set and 0x10 clear."
pub fn is_attribute(attribute: u8) -> bool {
    attribute & 0x80 == 0x80 && attribute & 0x10 == 0
}

/// Reads the first `len` bytes of `slice`, or gives the number of the first refusal.
pub fn read(slice: &[u8], len: usize) -> Result<Image, u32> {
    // 1: "L under 256, no multiple of 256, or over the slice".
    if len < BLOCK || len % BLOCK != 0 || len > slice.len() {
        return Err(1);
    }
    let image = &slice[..len];
    let header = Header {
        bytes: image[..BLOCK].to_vec(),
    };
    let format = test_header(&header)?;
    let (index_blocks, data_blocks) = areas(&header, len)?;

    // "After the header come index_block blocks of 256 bytes, then D data blocks".
    let (index, data) = image[BLOCK..].split_at(index_blocks * BLOCK);
    let elements = read_index(index, header.four(format.nindex2)).ok_or(6u32)?;
    // "rows 7 and 8 are taken run by run in index order".
    let mut runs = Vec::new();
    for (i, element) in elements.iter().enumerate() {
        let run = read_run(data, data_blocks, element.block)?;
        if !run_rules(&run, element, elements.get(i + 1)) {
            return Err(8);
        }
        runs.push(run);
    }
    let chain = read_chain(data, data_blocks, header.four(format.empty_block2)).ok_or(9u32)?;
    let image = Image {
        header,
        index_blocks,
        data_blocks,
        runs,
        chain,
    };
    if !each_block_once(&image) {
        return Err(9);
    }
    if !counts_hold(&image) {
        return Err(10);
    }
    Ok(image)
}

/// Rows 3 and 4; gives the format.
fn test_header(header: &Header) -> Result<&'static Format, u32> {
    // 3: "high version byte, block_size, header_size or attrlen wrong"; "The high version byte
    // may be 4 or 5".
    let format = header.format().ok_or(3u32)?;
    if header.two(at::BLOCK_SIZE) != 256
        || header.two(at::HEADER_SIZE) != 256
        || header.byte(at::ATTRLEN) != 1
    {
        return Err(3);
    }
    // 4: "dicorder, dictype, os, index_blkbit or extheader not 0".
    if header.byte(at::DICORDER) != 0
        || header.byte(at::DICTYPE) != 0
        || header.byte(format.os) != 0
        || header.byte(format.index_blkbit) != 0
        || header.four(format.extheader) != 0
    {
        return Err(4);
    }
    Ok(format)
}

/// Row 5; gives the number of index blocks and of data blocks.
fn areas(header: &Header, len: usize) -> Result<(usize, usize), u32> {
    // 5: "index_block over 32,767 or past L; D over 65,536".
    // "L = 256 × (1 + index_block + D)."
    let index_blocks = header.two(at::INDEX_BLOCK) as usize;
    if index_blocks > MOST_BLOCKS || BLOCK * (1 + index_blocks) > len {
        return Err(5);
    }
    let data_blocks = len / BLOCK - 1 - index_blocks;
    if data_blocks > MOST_DATA {
        return Err(5);
    }
    Ok((index_blocks, data_blocks))
}

/// The index elements, or nothing if an index rule or a headword rule is broken (6).
fn read_index(area: &[u8], nindex2: u32) -> Option<Vec<Element>> {
    // "index_block 0 needs nindex2 0 and no such bytes."
    if area.is_empty() {
        return if nindex2 == 0 { Some(vec![]) } else { None };
    }
    let mut elements: Vec<Element> = Vec::new();
    let mut rest = area;
    for _ in 0..nindex2 {
        // "An index element is a block number (2 bytes), a headword, a zero byte."
        let number = rest.get(..2)?;
        let length = rest[2..].iter().position(|byte| *byte == 0)?;
        let element = Element {
            block: two(number) as usize,
            headword: rest[2..2 + length].to_vec(),
        };
        rest = &rest[2 + length + 1..];
        if !is_headword(&element.headword) {
            return None;
        }
        // "Headwords ascend strictly in unsigned byte order."
        if let Some(previous) = elements.last() {
            if previous.headword >= element.headword {
                return None;
            }
        }
        elements.push(element);
    }
    // "After the nindex2 elements at least four bytes follow, all zero to the area's end."
    if rest.len() < 4 || rest.iter().any(|byte| *byte != 0) {
        return None;
    }
    Some(elements)
}

/// The run that starts at block `number` (7), with its entries (8).
fn read_run(data: &[u8], data_blocks: usize, number: usize) -> Result<Run, u32> {
    // 7: "number not below D, size 0, top bit set, or run past the data area".
    if number >= data_blocks {
        return Err(7);
    }
    let start = &data[number * BLOCK..];
    let blocks = two(start) as usize;
    if blocks == 0 || blocks > MOST_BLOCKS || number + blocks > data_blocks {
        return Err(7);
    }
    // "2 bytes with its number of blocks, ... then entries, then two zero bytes, all inside
    // its blocks."
    let entries = read_entries(&start[2..blocks * BLOCK]).ok_or(8u32)?;
    Ok(Run {
        block: number,
        blocks,
        entries,
    })
}

/// The entries up to the two zero bytes, or nothing if an entry rule is broken (8).
fn read_entries(bytes: &[u8]) -> Option<Vec<Entry>> {
    let mut entries: Vec<Entry> = Vec::new();
    let mut rest = bytes;
    loop {
        // "An entry: field length (2), shared front (1), rest of headword, zero,
        // attribute (1), text without a terminator."
        let length = two(rest.get(..2)?) as usize;
        if length == 0 {
            return Some(entries);
        }
        let front = *rest.get(2)? as usize;
        // "The field length counts from the headword rest to the text's end."
        let field = rest.get(3..3 + length)?;
        rest = &rest[3 + length..];
        let zero = field.iter().position(|byte| *byte == 0)?;
        let attribute = *field.get(zero + 1)?;
        let text = &field[zero + 2..];
        // "The shared front is at most the previous headword's length, and 0 in a run's
        // first entry."
        let previous = match entries.last() {
            Some(entry) => &entry.headword[..],
            None => &[],
        };
        let mut headword = previous.get(..front)?.to_vec();
        headword.extend_from_slice(&field[..zero]);
        if !is_headword(&headword) || !is_attribute(attribute) || !is_text(text) {
            return None;
        }
        entries.push(Entry {
            front,
            headword,
            attribute,
            text: text.to_vec(),
        });
    }
}

/// "A run has at least one entry; headwords ascend strictly in it; the first is its
/// element's, and the last is below the next element's."
fn run_rules(run: &Run, element: &Element, next: Option<&Element>) -> bool {
    let (Some(first), Some(last)) = (run.entries.first(), run.entries.last()) else {
        return false;
    };
    run.entries
        .windows(2)
        .all(|pair| pair[0].headword < pair[1].headword)
        && first.headword == element.headword
        && next.map_or(true, |next| last.headword < next.headword)
}

/// "A free block: two zero bytes, then the next free number (4), 0xFFFFFFFF at the end;
/// empty_block2 starts the chain." Nothing if a number is off the area, a block does not
/// start with two zeros, or the links come round (9).
fn read_chain(data: &[u8], data_blocks: usize, first: u32) -> Option<Vec<usize>> {
    let mut chain = Vec::new();
    let mut link = first;
    while link != CHAIN_END {
        let number = link as usize;
        if number >= data_blocks || chain.len() == data_blocks {
            return None;
        }
        let block = &data[number * BLOCK..][..BLOCK];
        if two(block) != 0 {
            return None;
        }
        chain.push(number);
        link = four(&block[2..]);
    }
    Some(chain)
}

/// "Each data block lies in one run, or once on the chain." (9)
fn each_block_once(image: &Image) -> bool {
    let mut times = vec![0u32; image.data_blocks];
    for run in &image.runs {
        for number in run.block..run.block + run.blocks {
            times[number] += 1;
        }
    }
    for number in &image.chain {
        times[*number] += 1;
    }
    times.iter().all(|times| *times == 1)
}

/// "nword counts entries, ... nblock2 data blocks in runs." (10)
fn counts_hold(image: &Image) -> bool {
    let entries: usize = image.runs.iter().map(|run| run.entries.len()).sum();
    let blocks: usize = image.runs.iter().map(|run| run.blocks).sum();
    image.header.four(at::NWORD) as usize == entries
        && image.header.four(image.format().nblock2) as usize == blocks
}
