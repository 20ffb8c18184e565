//! The second editor: create, insert, delete and optimise. An image is parsed to values, the
//! change is placed on values, and the values are rendered over the slice. Quoted sentences
//! are those of the papers; the numbers are their table's.

use crate::calls::Answer;
use crate::make::{common, empty_header, put_four, put_two};
use crate::pairs::{cuts_pair, ends_alone, inside_pair, is_lead};
use crate::reader::{at, format, is_attribute, is_headword, is_text, read};
use crate::reader::{Entry, Image, Run, BLOCK, CHAIN_END, MOST_BLOCKS, MOST_DATA};

/// "each part takes as many entries as encode in 1,024 bytes, count and end marks included."
pub const PART: usize = 1_024;

/// The slices lent to a changing call.
pub struct Slices<'a> {
    pub image: &'a mut [u8],
    pub len: usize,
    pub work: &'a mut [u8],
}

/// What a call did on its way. It is told for counting and is no part of the answer.
#[derive(Clone, Debug, Default, PartialEq, Eq)]
pub struct Told {
    /// An entry with the headword was there.
    pub replaced: bool,
    /// Into how many parts the list was cut; with common fronts it would be into fewer, or into
    /// as many elsewhere. The run concerned had so many blocks.
    pub parts: usize,
    pub more_parts: bool,
    pub other_parts: bool,
    pub old_blocks: usize,
    /// The change was at the run's first entry.
    pub at_first: bool,
    /// Entries written with a front shorter than the common one, of these after a headword that
    /// ends with a lone lead byte and that they go on; entries whose front ends behind a lead
    /// byte, which is a pair's second byte.
    pub shorter: usize,
    pub behind_lone: usize,
    pub behind_second: usize,
    /// The headword inserted ends with a lone lead byte.
    pub lone_lead: bool,
    /// Stored fronts that end inside a pair: in runs kept with their bytes, and those in the run
    /// concerned that were written anew and shorter.
    pub kept_inside: usize,
    pub mended: usize,
    /// g, D before the growth, and how many runs were moved; of these, how many came to lie
    /// over a block that a moved run had.
    pub growth: usize,
    pub data_before: usize,
    pub moved: usize,
    pub overlaid: usize,
    /// Runs placed in a stretch, of these in one of several equally short, and runs placed
    /// after the last data block, of these with free blocks just before.
    pub fitted: usize,
    pub ties: usize,
    pub appended: usize,
    pub behind_free: usize,
    /// The most data blocks on the way.
    pub most_data: usize,
    /// The finished size.
    pub index_blocks: usize,
    pub data_blocks: usize,
    pub free_blocks: usize,
    /// The update count went to 0, and L came to the slice's end.
    pub wrapped: bool,
    pub filled: bool,
    /// Why 15 was given.
    pub over_slice: bool,
    pub over_data: bool,
    pub over_index: bool,
    /// What optimise found, index blocks and whether L was the slice's length, and how many
    /// blocks it gave up.
    pub index_before: usize,
    pub full_before: bool,
    pub given_up: usize,
}

/// "Create: 256 bytes." It "takes which one", the high version byte, "and, for 5, those eight
/// bytes as one 64-bit number".
pub fn create(slice: &mut [u8], version: u8, identifier: u64) -> Answer<usize> {
    // 1: "(create: slice under 256)".
    if slice.len() < BLOCK {
        return Answer::Refused(1);
    }
    // "another version is refused 3".
    let Some(format) = format(version) else {
        return Answer::Refused(3);
    };
    slice[..BLOCK].copy_from_slice(&empty_header(format, identifier));
    Answer::Done(BLOCK)
}

/// "Insert adds or replaces."
pub fn insert(
    lent: Slices,
    headword: &[u8],
    attribute: u8,
    text: &[u8],
    told: &mut Told,
) -> Answer<usize> {
    changing(lent, |slice, len| {
        let image = writable(slice, len)?;
        test_headword(headword)?;
        // 13: "text or attribute outside its rule".
        if !is_text(text) || !is_attribute(attribute) {
            return Err(13);
        }
        let entry = Entry {
            front: 0,
            headword: headword.to_vec(),
            attribute,
            text: text.to_vec(),
        };
        let concerned = run_concerned(&image, headword);
        let mut list = entries_of(&image, concerned);
        let place = place_in(&list, headword);
        told.replaced = has(&list, headword);
        told.at_first = place == 0;
        told.lone_lead = ends_alone(headword);
        if told.replaced {
            list[place] = entry;
        } else {
            list.insert(place, entry);
        }
        change(slice, &image, concerned, &list, told).map(Some)
    })
}

/// "Delete removes, or answers absent and changes nothing."
pub fn delete(lent: Slices, headword: &[u8], told: &mut Told) -> Answer<usize> {
    changing(lent, |slice, len| {
        let image = writable(slice, len)?;
        test_headword(headword)?;
        let concerned = run_concerned(&image, headword);
        let mut list = entries_of(&image, concerned);
        if !has(&list, headword) {
            return Ok(None);
        }
        let place = place_in(&list, headword);
        told.at_first = place == 0;
        list.remove(place);
        change(slice, &image, concerned, &list, told).map(Some)
    })
}

/// "Optimise: index at its needed size, runs in headword order from block 0 with their bytes
/// kept, no free block."
pub fn optimise(lent: Slices, told: &mut Told) -> Answer<usize> {
    changing(lent, |slice, len| {
        let image = writable(slice, len)?;
        let mut runs = stored_runs(slice, &image);
        let mut next = 0;
        for run in &mut runs {
            run.block = next;
            next += run.blocks();
        }
        let layout = Layout {
            index_blocks: index_need(&runs),
            runs,
            area: Area {
                in_run: vec![true; next],
            },
        };
        told.index_before = image.index_blocks;
        told.full_before = len == slice.len();
        told.kept_inside = image.runs.iter().map(fronts_inside).sum();
        layout.tell(told);
        assert_no_longer(&image, len, &layout);
        let new_len = write(slice, &image, &layout, told);
        // "optimise zeroes what it gives up".
        slice[new_len..len].fill(0);
        told.given_up = (len - new_len) / BLOCK;
        Ok(Some(new_len))
    })
}

/// "An accepted image never needs a longer index or more data blocks when packed." So "15 is
/// never given by optimise": row 15 is not tested, and this is a fault of ours if it fails.
fn assert_no_longer(image: &Image, len: usize, packed: &Layout) {
    assert!(packed.index_blocks <= image.index_blocks, "a longer index");
    assert!(
        packed.area.blocks() <= image.data_blocks,
        "more data blocks"
    );
    assert!(packed.len() <= len, "a longer image");
}

/// Rows 1 and 2, the call itself, and the working slice's rule. The call gives the new L,
/// nothing for absent, or a refusal.
fn changing(
    lent: Slices,
    call: impl FnOnce(&mut [u8], usize) -> Result<Option<usize>, u32>,
) -> Answer<usize> {
    let len = lent.len;
    // 1: "L under 256, no multiple of 256, or over the slice".
    if len < BLOCK || len % BLOCK != 0 || len > lent.image.len() {
        return Answer::Refused(1);
    }
    // 2: "working slice shorter than the image slice".
    if lent.work.len() < lent.image.len() {
        return Answer::Refused(2);
    }
    let result = call(lent.image, len);
    // "The working slice is all zero after each changing call, except that 1 and 2 leave it
    // untouched."
    lent.work.fill(0);
    match result {
        Ok(Some(new_len)) => Answer::Done(new_len),
        Ok(None) => Answer::Absent,
        Err(number) => Answer::Refused(number),
    }
}

/// Rows 3 to 11.
fn writable(slice: &[u8], len: usize) -> Result<Image, u32> {
    let image = read(slice, len)?;
    // "A low byte of 0 to 15 may be changed, 16 to 255 only read".
    if image.header.byte(at::VERSION) > 15 {
        return Err(11);
    }
    Ok(image)
}

/// 12: "headword empty (not for walk), over 248, or with a zero byte".
fn test_headword(headword: &[u8]) -> Result<(), u32> {
    match is_headword(headword) {
        true => Ok(()),
        false => Err(12),
    }
}

/// Step 1: "The run concerned is the last whose index headword is not above the headword, else
/// the first." Its place in the index; nothing with no run.
pub fn run_concerned(image: &Image, headword: &[u8]) -> Option<usize> {
    let not_above = |run: &Run| run.entries[0].headword[..] <= *headword;
    match image.runs.iter().rposition(not_above) {
        Some(last) => Some(last),
        None if image.runs.is_empty() => None,
        None => Some(0),
    }
}

/// Step 1: "Its entries, changed, form a list; with no run, the new entry alone."
fn entries_of(image: &Image, concerned: Option<usize>) -> Vec<Entry> {
    concerned.map_or(vec![], |run| image.runs[run].entries.clone())
}

/// How many entries of the list are below the headword.
fn place_in(list: &[Entry], headword: &[u8]) -> usize {
    let below = |entry: &&Entry| entry.headword[..] < *headword;
    list.iter().filter(below).count()
}

fn has(list: &[Entry], headword: &[u8]) -> bool {
    list.iter().any(|entry| entry.headword == headword)
}

/// A run under placing: its index headword, its number of entries, its bytes in whole
/// blocks, its first block.
struct Placed {
    headword: Vec<u8>,
    entries: usize,
    bytes: Vec<u8>,
    block: usize,
}

impl Placed {
    fn blocks(&self) -> usize {
        self.bytes.len() / BLOCK
    }
}

/// All runs of an image in index order, with their bytes as they stand.
fn stored_runs(slice: &[u8], image: &Image) -> Vec<Placed> {
    let data = &slice[BLOCK * (1 + image.index_blocks)..];
    let stored = |run: &Run| Placed {
        headword: run.entries[0].headword.clone(),
        entries: run.entries.len(),
        bytes: data[BLOCK * run.block..BLOCK * (run.block + run.blocks)].to_vec(),
        block: run.block,
    };
    image.runs.iter().map(stored).collect()
}

/// Placing after a change: the parts of `list` take the place of the run concerned. Gives
/// the new L.
fn change(
    slice: &mut [u8],
    image: &Image,
    concerned: Option<usize>,
    list: &[Entry],
    told: &mut Told,
) -> Result<usize, u32> {
    // Step 2: "The list is cut from the left".
    let lists = cut(list);
    tell_fronts(image, concerned, &lists, told);
    let by_common = cut_by(list, common_front);
    told.more_parts = lists.len() > by_common.len();
    told.other_parts = lists.len() == by_common.len() && lists != by_common;
    let mut parts: Vec<Placed> = lists.into_iter().map(part).collect();
    told.parts = parts.len();
    let mut runs = stored_runs(slice, image);
    let mut area = Area::of(image);
    // Step 3: "The run's old blocks become free."
    if let Some(place) = concerned {
        let old = runs.remove(place);
        told.old_blocks = old.blocks();
        area.release(&old);
    }
    // Step 4: "It never shrinks here."
    let need = index_need(runs.iter().chain(&parts));
    let growth = need.saturating_sub(image.index_blocks);
    told.data_before = area.blocks();
    if growth > 0 {
        grow_index(growth, &mut runs, &mut area, told);
    }
    // Step 5: "Parts are placed in order."
    for part in &mut parts {
        part.block = area.place(0, part.blocks(), told);
    }
    let place = concerned.unwrap_or(0);
    runs.splice(place..place, parts);
    let layout = Layout {
        index_blocks: image.index_blocks + growth,
        runs,
        area,
    };
    layout.tell(told);
    test_room(slice, &layout, told)?;
    Ok(write(slice, image, &layout, told))
}

/// The shared front of an entry, by its place among those of a run.
type Front = fn(&[Entry], usize) -> usize;

/// Step 2: "each part takes as many entries as encode in 1,024 bytes, count and end marks
/// included. An entry too large for that stands alone. An empty list gives no part."
pub fn cut(list: &[Entry]) -> Vec<&[Entry]> {
    cut_by(list, front)
}

fn cut_by(list: &[Entry], front: Front) -> Vec<&[Entry]> {
    let mut parts = Vec::new();
    let mut rest = list;
    while !rest.is_empty() {
        let mut taken = 1;
        while taken < rest.len() && size_by(&rest[..taken + 1], front) <= PART {
            taken += 1;
        }
        let (part, behind) = rest.split_at(taken);
        parts.push(part);
        rest = behind;
    }
    parts
}

/// What entry `i` shares with the one before. "0 in a run's first entry."
fn common_front(entries: &[Entry], i: usize) -> usize {
    match i {
        0 => 0,
        _ => common(&entries[i - 1].headword, &entries[i].headword),
    }
}

/// The shared front of entry `i`. "We now write the largest front, up to the common one, that ends
/// inside no pair of the later headword."
fn front(entries: &[Entry], i: usize) -> usize {
    let later = &entries[i].headword;
    let whole = |front: &usize| !inside_pair(later, *front);
    let mut fronts = (0..=common_front(entries, i)).rev();
    fronts.find(whole).expect("0 is inside no pair")
}

/// Bytes of the entries as we write them, count and end marks included.
pub fn encoded_size(entries: &[Entry]) -> usize {
    size_by(entries, front)
}

fn size_by(entries: &[Entry], front: Front) -> usize {
    let each = |i| 3 + field_length(&entries[i], front(entries, i));
    2 + (0..entries.len()).map(each).sum::<usize>() + 2
}

/// Field length: "from the headword rest to the text's end"; between them stand a zero and
/// the attribute.
fn field_length(entry: &Entry, front: usize) -> usize {
    entry.headword.len() - front + 2 + entry.text.len()
}

/// How many fronts of a run as stored end inside a pair.
fn fronts_inside(run: &Run) -> usize {
    run.entries.iter().filter(|entry| cuts_pair(entry)).count()
}

/// Tells of the fronts in the parts of a changed list, and of those in the other runs.
fn tell_fronts(image: &Image, concerned: Option<usize>, parts: &[&[Entry]], told: &mut Told) {
    for (place, run) in image.runs.iter().enumerate() {
        if Some(place) != concerned {
            told.kept_inside += fronts_inside(run);
        }
    }
    for part in parts {
        for i in 1..part.len() {
            let (front, common) = (front(part, i), common_front(part, i));
            let (before, entry) = (&part[i - 1], &part[i]);
            if front < common {
                told.shorter += 1;
                told.behind_lone += (common == before.headword.len()) as usize;
            }
            told.behind_second += (front > 0 && is_lead(entry.headword[front - 1])) as usize;
            told.mended += (cuts_pair(entry) && front < entry.front) as usize;
        }
    }
}

/// A run as we write it: "2 bytes with its number of blocks, ... then entries, then two zero
/// bytes"; "What follows them in the run may be anything; we write zeros."
fn part(entries: &[Entry]) -> Placed {
    let blocks = encoded_size(entries).div_ceil(BLOCK);
    let mut bytes = (blocks as u16).to_le_bytes().to_vec();
    for (i, entry) in entries.iter().enumerate() {
        let front = front(entries, i);
        bytes.extend_from_slice(&(field_length(entry, front) as u16).to_le_bytes());
        bytes.push(front as u8);
        bytes.extend_from_slice(&entry.headword[front..]);
        bytes.push(0);
        bytes.push(entry.attribute);
        bytes.extend_from_slice(&entry.text);
    }
    bytes.resize(BLOCK * blocks, 0);
    Placed {
        headword: entries[0].headword.clone(),
        entries: entries.len(),
        bytes,
        block: 0,
    }
}

/// Step 4: "The index needs 0 blocks with no element, else (sum of elements + 4) / 256 rounded
/// up."
fn index_need<'a>(runs: impl IntoIterator<Item = &'a Placed>) -> usize {
    let element = |run: &Placed| 2 + run.headword.len() + 1;
    match runs.into_iter().map(element).sum::<usize>() {
        0 => 0,
        sum => (sum + 4).div_ceil(BLOCK),
    }
}

/// Step 4: The index grows by g and takes the place of the first g data blocks.
fn grow_index(g: usize, runs: &mut [Placed], area: &mut Area, told: &mut Told) {
    told.growth = g;
    // "If it must grow by g and D is below g, D becomes g."
    if area.blocks() < g {
        area.in_run.resize(g, false);
    }
    // "Runs touching blocks 0 to g − 1 are all freed, then placed with their bytes in order
    // of old number among blocks from g up."
    let mut moved: Vec<&mut Placed> = runs.iter_mut().filter(|run| run.block < g).collect();
    moved.sort_by_key(|run| run.block);
    told.moved = moved.len();
    for run in &moved {
        area.release(run);
    }
    let behind = moved.last().map_or(0, |run| run.block + run.blocks());
    for run in moved {
        run.block = area.place(g, run.blocks(), told);
        told.overlaid += (run.block < behind) as usize;
    }
    // "Then all numbers and D fall by g."
    for run in runs {
        run.block -= g;
    }
    area.in_run.drain(..g);
}

/// The data blocks: whether each lies in a run.
struct Area {
    in_run: Vec<bool>,
}

impl Area {
    fn of(image: &Image) -> Area {
        let mut in_run = vec![true; image.data_blocks];
        for number in &image.chain {
            in_run[*number] = false;
        }
        Area { in_run }
    }

    /// D.
    fn blocks(&self) -> usize {
        self.in_run.len()
    }

    fn release(&mut self, run: &Placed) {
        self.in_run[run.block..run.block + run.blocks()].fill(false);
    }

    /// Step 6: "A stretch is measured whole, up to a run or an end of the allowed blocks on each
    /// side." The stretches among the blocks from `lowest` up: start and length.
    fn stretches(&self, lowest: usize) -> Vec<(usize, usize)> {
        let mut stretches: Vec<(usize, usize)> = Vec::new();
        for number in lowest..self.blocks() {
            if self.in_run[number] {
                continue;
            }
            match stretches.last_mut() {
                Some((start, length)) if *start + *length == number => *length += 1,
                _ => stretches.push((number, 1)),
            }
        }
        stretches
    }

    /// Step 6: "A run is placed at the start of the shortest stretch of neighbouring free blocks
    /// that holds it, the lowest of equals, else after the last data block." Gives its first
    /// block.
    fn place(&mut self, lowest: usize, blocks: usize, told: &mut Told) -> usize {
        let mut fitting = self.stretches(lowest);
        fitting.retain(|(_, length)| *length >= blocks);
        let shortest = fitting.iter().map(|(_, length)| *length).min();
        let mut equals = fitting
            .iter()
            .filter(|(_, length)| Some(*length) == shortest);
        let start = match equals.next() {
            Some((start, _)) => {
                told.fitted += 1;
                told.ties += equals.next().is_some() as usize;
                *start
            }
            None => {
                let end = self.blocks();
                told.appended += 1;
                told.behind_free += (end > lowest && !self.in_run[end - 1]) as usize;
                self.in_run.resize(end + blocks, false);
                end
            }
        };
        self.in_run[start..start + blocks].fill(true);
        told.most_data = told.most_data.max(self.blocks());
        start
    }

    fn free(&self) -> Vec<usize> {
        (0..self.blocks())
            .filter(|number| !self.in_run[*number])
            .collect()
    }
}

/// A finished placing: the runs in index order, each with its place.
struct Layout {
    index_blocks: usize,
    runs: Vec<Placed>,
    area: Area,
}

impl Layout {
    /// "L = 256 × (1 + index_block + D)."
    fn len(&self) -> usize {
        BLOCK * (1 + self.index_blocks + self.area.blocks())
    }

    fn tell(&self, told: &mut Told) {
        told.index_blocks = self.index_blocks;
        told.data_blocks = self.area.blocks();
        told.free_blocks = self.area.free().len();
    }
}

/// 15: "when finished: L over the slice, D over 65,536, or index over 32,767 blocks".
fn test_room(slice: &[u8], layout: &Layout, told: &mut Told) -> Result<(), u32> {
    told.over_slice = layout.len() > slice.len();
    told.over_data = layout.area.blocks() > MOST_DATA;
    told.over_index = layout.index_blocks > MOST_BLOCKS;
    match told.over_slice || told.over_data || told.over_index {
        true => Err(15),
        false => Ok(()),
    }
}

/// The image's bytes. Gives the new L.
fn write(slice: &mut [u8], image: &Image, layout: &Layout, told: &mut Told) -> usize {
    let len = layout.len();
    let (header, rest) = slice[..len].split_at_mut(BLOCK);
    let (index, data) = rest.split_at_mut(BLOCK * layout.index_blocks);
    header.copy_from_slice(&new_header(image, layout));
    index.copy_from_slice(&index_area(layout));
    for run in &layout.runs {
        let start = BLOCK * run.block;
        data[start..start + run.bytes.len()].copy_from_slice(&run.bytes);
    }
    write_chain(data, &layout.area.free());
    told.wrapped = image.header.four(at::UPDATE_COUNT) == u32::MAX;
    told.filled = len == slice.len();
    len
}

/// "A successful change ... writes index_block, nword, empty_block2, nindex2, nblock2 and
/// adds one to update_count; the update count goes from 4,294,967,295 to 0."
fn new_header(image: &Image, layout: &Layout) -> Vec<u8> {
    let format = image.format();
    let mut header = image.header.bytes.clone();
    let entries: usize = layout.runs.iter().map(|run| run.entries).sum();
    let blocks: usize = layout.runs.iter().map(|run| run.blocks()).sum();
    let first = layout
        .area
        .free()
        .first()
        .map_or(CHAIN_END, |first| *first as u32);
    let changes = image.header.four(at::UPDATE_COUNT);
    put_two(&mut header, at::INDEX_BLOCK, layout.index_blocks as u16);
    put_four(&mut header, at::NWORD, entries as u32);
    put_four(&mut header, format.empty_block2, first);
    put_four(&mut header, format.nindex2, layout.runs.len() as u32);
    put_four(&mut header, format.nblock2, blocks as u32);
    put_four(&mut header, at::UPDATE_COUNT, changes.wrapping_add(1));
    header
}

/// "An index element is a block number (2 bytes), a headword, a zero byte." Zeros follow to
/// the area's end.
fn index_area(layout: &Layout) -> Vec<u8> {
    let mut area = Vec::new();
    for run in &layout.runs {
        area.extend_from_slice(&(run.block as u16).to_le_bytes());
        area.extend_from_slice(&run.headword);
        area.push(0);
    }
    area.resize(BLOCK * layout.index_blocks, 0);
    area
}

/// Step 7: "The chain is rewritten ascending. In a free block only its first six bytes change."
fn write_chain(data: &mut [u8], free: &[usize]) {
    for (i, number) in free.iter().enumerate() {
        let next = free.get(i + 1).map_or(CHAIN_END, |next| *next as u32);
        put_two(data, BLOCK * number, 0);
        put_four(data, BLOCK * number + 2, next);
    }
}
