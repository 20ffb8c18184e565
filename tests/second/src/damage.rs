//! The damages, each named, with the number that a reading call gives when a good image has
//! this fault alone; 0 where the image stays good. A damage is done to the sketch, to the
//! values or to the bytes, and tells whether the image had a place for it.

use crate::make::{
    any_identifier, cut, encoded_size, entry, fit_index, fit_run, mend_fronts, put_four, put_two,
    text, Cut, Fronts, Made, Sketch, Wanted,
};
use crate::random::Random;
use crate::reader::{
    at, format, four, two, Format, Image, Run, BLOCK, CHAIN_END, FORMATS, MOST_BLOCKS, MOST_DATA,
    MOST_HEADWORD, MOST_TEXT,
};

type OnSketch = fn(&mut Sketch, &mut Random) -> bool;
type OnValues = fn(&mut Image, &mut Random) -> bool;
type OnBytes = fn(&mut Made, &mut Random) -> bool;

#[derive(Clone, Copy)]
pub enum Stage {
    Sketch(OnSketch),
    Values(OnValues),
    Bytes(OnBytes),
}

#[derive(Clone, Copy)]
pub struct Damage {
    pub number: u32,
    pub name: &'static str,
    pub stage: Stage,
}

const fn sketch(number: u32, name: &'static str, way: OnSketch) -> Damage {
    Damage {
        number,
        name,
        stage: Stage::Sketch(way),
    }
}

const fn values(number: u32, name: &'static str, way: OnValues) -> Damage {
    Damage {
        number,
        name,
        stage: Stage::Values(way),
    }
}

const fn bytes(number: u32, name: &'static str, way: OnBytes) -> Damage {
    Damage {
        number,
        name,
        stage: Stage::Bytes(way),
    }
}

/// All single faults, by row of the paper's table; the last ones test the order of rows.
pub const DAMAGES: &[Damage] = &[
    // Row 3.
    bytes(3, "high version byte", |m, r| {
        let place = at::HIGH_VERSION;
        other(m, r, place);
        if format(m.bytes[place]).is_some() {
            m.bytes[place] ^= 0x80;
        }
        true
    }),
    bytes(3, "high version byte 3, 6 or 0x85", |m, r| {
        m.bytes[at::HIGH_VERSION] = *r.pick(&[3, 6, 0x85]);
        true
    }),
    bytes(3, "block_size, low byte", |m, r| {
        other(m, r, at::BLOCK_SIZE)
    }),
    bytes(3, "block_size, high byte", |m, r| {
        other(m, r, at::BLOCK_SIZE + 1)
    }),
    bytes(3, "header_size, low byte", |m, r| {
        other(m, r, at::HEADER_SIZE)
    }),
    bytes(3, "header_size, high byte", |m, r| {
        other(m, r, at::HEADER_SIZE + 1)
    }),
    bytes(3, "attrlen", |m, r| other(m, r, at::ATTRLEN)),
    // Row 4.
    bytes(4, "dicorder", |m, r| other(m, r, at::DICORDER)),
    bytes(4, "dictype", |m, r| other(m, r, at::DICTYPE)),
    bytes(4, "os", |m, r| other_in(m, r, |f| f.os)),
    bytes(4, "index_blkbit", |m, r| other_in(m, r, |f| f.index_blkbit)),
    bytes(4, "extheader, first byte", |m, r| {
        other_in(m, r, |f| f.extheader)
    }),
    bytes(4, "extheader, second byte", |m, r| {
        other_in(m, r, |f| f.extheader + 1)
    }),
    bytes(4, "extheader, third byte", |m, r| {
        other_in(m, r, |f| f.extheader + 2)
    }),
    bytes(4, "extheader, fourth byte", |m, r| {
        other_in(m, r, |f| f.extheader + 3)
    }),
    // Row 5.
    bytes(5, "index_block with its top bit", |m, _| {
        let number = two(&m.bytes[at::INDEX_BLOCK..]);
        two_at(m, at::INDEX_BLOCK, number as usize | 0x8000)
    }),
    bytes(5, "index_block one past L", |m, _| {
        let blocks = m.bytes.len() / BLOCK;
        blocks <= MOST_BLOCKS && two_at(m, at::INDEX_BLOCK, blocks)
    }),
    bytes(5, "index_block far past L", |m, r| {
        let blocks = m.bytes.len() / BLOCK;
        blocks <= MOST_BLOCKS && {
            let number = r.range(blocks, MOST_BLOCKS);
            two_at(m, at::INDEX_BLOCK, number)
        }
    }),
    // Row 6.
    sketch(6, "element's headword empty", |s, _| {
        // The empty one stands first, so that no other index rule is broken.
        let Some(run) = s.runs.first_mut() else {
            return false;
        };
        run.entries[0].headword = vec![];
        mend_fronts(&mut run.entries);
        true
    }),
    sketch(6, "element's headword of 249 bytes", |s, r| {
        long_element(s, r, MOST_HEADWORD + 1)
    }),
    sketch(6, "element's headword of 250 to 600 bytes", |s, r| {
        let size = r.range(250, 600);
        long_element(s, r, size)
    }),
    sketch(6, "elements' headwords equal", |s, r| {
        let Some(i) = not_last(s, r) else {
            return false;
        };
        s.runs[i + 1].entries[0].headword = s.runs[i].entries[0].headword.clone();
        mend_fronts(&mut s.runs[i + 1].entries);
        true
    }),
    sketch(6, "elements' headwords descend", |s, r| {
        let Some(i) = not_last(s, r) else {
            return false;
        };
        s.runs.swap(i, i + 1);
        true
    }),
    sketch(6, "three zero bytes behind the elements", |s, r| {
        fit_index(r, s, 3)
    }),
    sketch(6, "two zero bytes behind the elements", |s, r| {
        fit_index(r, s, 2)
    }),
    sketch(6, "one zero byte behind the elements", |s, r| {
        fit_index(r, s, 1)
    }),
    sketch(6, "no zero byte behind the elements", |s, r| {
        fit_index(r, s, 0)
    }),
    bytes(6, "nindex2 one more", |m, _| {
        change_four(m, |f| f.nindex2, |n| n.wrapping_add(1))
    }),
    bytes(6, "nindex2 one less", |m, _| {
        !m.elements.is_empty() && change_four(m, |f| f.nindex2, |n| n.wrapping_sub(1))
    }),
    bytes(6, "nindex2 0 with elements", |m, _| {
        !m.elements.is_empty() && change_four(m, |f| f.nindex2, |_| 0)
    }),
    bytes(6, "nindex2 with a bit of its high half", |m, r| {
        let bit = 1 << r.range(16, 31);
        change_four(m, |f| f.nindex2, |n| n | bit)
    }),
    bytes(6, "nindex2 with elements but no index block", |m, r| {
        if m.image.index_blocks != 0 {
            return false;
        }
        let number = *r.pick(&[1, 2, 255, 256, 65_536, 0xFFFF_FFFF]);
        change_four(m, |f| f.nindex2, |_| number)
    }),
    bytes(6, "first byte behind the elements", |m, r| {
        let place = m.tail;
        m.image.index_blocks > 0 && other(m, r, place)
    }),
    bytes(6, "fourth byte behind the elements", |m, r| {
        let place = m.tail + 3;
        m.image.index_blocks > 0 && other(m, r, place)
    }),
    bytes(6, "last byte of the index", |m, r| {
        let place = BLOCK * (1 + m.image.index_blocks) - 1;
        m.image.index_blocks > 0 && other(m, r, place)
    }),
    bytes(6, "some byte behind the elements", |m, r| {
        let end = BLOCK * (1 + m.image.index_blocks);
        m.tail < end && {
            let place = r.range(m.tail, end - 1);
            other(m, r, place)
        }
    }),
    bytes(6, "last element without a zero byte", |m, r| {
        let Some(last) = m.elements.last() else {
            return false;
        };
        let (from, to) = (last.zero, BLOCK * (1 + m.image.index_blocks));
        let filling = text(r, to - from);
        m.bytes[from..to].copy_from_slice(&filling);
        true
    }),
    // Row 7.
    bytes(7, "number is D", |m, r| {
        let number = m.image.data_blocks;
        number < MOST_DATA && a_number(m, r, number)
    }),
    bytes(7, "number over D", |m, r| {
        if m.image.data_blocks >= MOST_DATA {
            return false;
        }
        let number = r.range(m.image.data_blocks, MOST_DATA - 1);
        a_number(m, r, number)
    }),
    bytes(7, "number 65,535", |m, r| {
        m.image.data_blocks < MOST_DATA && a_number(m, r, MOST_DATA - 1)
    }),
    bytes(7, "size 0", |m, r| a_count(m, r, |_| 0)),
    bytes(7, "size with its top bit", |m, r| {
        a_count(m, r, |n| n | 0x8000)
    }),
    bytes(7, "run one block past the data area", |m, r| {
        past_area(m, r, 1)
    }),
    bytes(7, "run far past the data area", |m, r| {
        let more = r.range(1, 1_000);
        past_area(m, r, more)
    }),
    bytes(7, "size 32,767", |m, r| {
        m.image.data_blocks < MOST_BLOCKS && a_count(m, r, |_| MOST_BLOCKS)
    }),
    // Row 8, the entries.
    bytes(8, "run without an entry", |m, r| {
        let Some(i) = some(m.runs.len(), r) else {
            return false;
        };
        let place = m.runs[i].entries[0].length;
        two_at(m, place, 0)
    }),
    bytes(8, "field one byte longer, over the end marks", |m, r| {
        // The last entry's text takes in the first zero.
        last_length(m, r, 1)
    }),
    bytes(8, "field two bytes longer, over the end marks", |m, r| {
        last_length(m, r, 2)
    }),
    bytes(8, "field past the run's blocks", |m, r| {
        let Some((run, entry)) = an_entry(m, r, 0) else {
            return false;
        };
        let end = m.runs[run].count + BLOCK * m.image.runs[run].blocks;
        let place = m.runs[run].entries[entry];
        if place.rest > end || end - place.rest >= 65_535 {
            return false;
        }
        let room = end - place.rest;
        let any = r.range(room + 1, 65_535);
        let length = *r.pick(&[room + 1, any, 65_535]);
        two_at(m, place.length, length)
    }),
    bytes(8, "field that ends with its zero", |m, r| {
        cut_field(m, r, |rest| rest + 1)
    }),
    bytes(8, "field without its zero", |m, r| {
        cut_field(m, r, |rest| rest)
    }),
    bytes(8, "field of one byte", |m, r| cut_field(m, r, |_| 1)),
    bytes(8, "shared front in a first entry", |m, r| {
        let Some(i) = some(m.runs.len(), r) else {
            return false;
        };
        let place = m.runs[i].entries[0].front;
        m.bytes[place] = *r.pick(&[1, 1, 2, 3, 127, 128, 255]);
        true
    }),
    bytes(8, "shared front one over the headword before", |m, r| {
        front_over(m, r, 1)
    }),
    bytes(8, "shared front far over the headword before", |m, r| {
        let more = r.range(2, 255);
        front_over(m, r, more)
    }),
    sketch(8, "attribute without 0x80", |s, r| {
        let Some((run, entry)) = sketched(s, r, 0) else {
            return false;
        };
        s.runs[run].entries[entry].attribute &= 0x7F;
        true
    }),
    sketch(8, "attribute with 0x10", |s, r| {
        let Some((run, entry)) = sketched(s, r, 0) else {
            return false;
        };
        s.runs[run].entries[entry].attribute |= 0x10;
        true
    }),
    sketch(8, "zero byte in a text", |s, r| {
        let Some((run, entry)) = sketched(s, r, 0) else {
            return false;
        };
        let text = &mut s.runs[run].entries[entry].text;
        let Some(place) = some(text.len(), r) else {
            return false;
        };
        text[place] = 0;
        true
    }),
    sketch(8, "text of 3,001 bytes", |s, r| {
        long_text(s, r, MOST_TEXT + 1)
    }),
    sketch(8, "text of 3,002 to 9,000 bytes", |s, r| {
        let size = r.range(3_002, 9_000);
        long_text(s, r, size)
    }),
    sketch(8, "headword empty in a run", |s, r| {
        let Some((run, entry)) = sketched(s, r, 1) else {
            return false;
        };
        let entries = &mut s.runs[run].entries;
        entries[entry].headword = vec![];
        mend_fronts(entries);
        true
    }),
    sketch(8, "headword of 249 bytes in a run", |s, r| {
        let Some((run, entry)) = sketched(s, r, 1) else {
            return false;
        };
        let entries = &mut s.runs[run].entries;
        lengthen(&mut entries[entry].headword, r, MOST_HEADWORD + 1);
        mend_fronts(entries);
        true
    }),
    sketch(8, "headword of 249 bytes by its front of 248", |s, r| {
        by_front(s, r, MOST_HEADWORD + 1)
    }),
    sketch(8, "headword of 250 to 300 bytes by its front", |s, r| {
        let size = r.range(250, 300);
        by_front(s, r, size)
    }),
    // Row 8, the run.
    sketch(8, "headwords equal in a run", |s, r| {
        let Some((run, entry)) = sketched(s, r, 0) else {
            return false;
        };
        let entries = &mut s.runs[run].entries;
        let mut again = entries[entry].clone();
        again.front = *r.pick(&[0, again.headword.len(), again.headword.len()]);
        entries.insert(entry + 1, again);
        true
    }),
    sketch(8, "headwords descend in a run", |s, r| {
        let Some((run, entry)) = sketched(s, r, 2) else {
            return false;
        };
        let entries = &mut s.runs[run].entries;
        entries.swap(entry - 1, entry);
        mend_fronts(entries);
        true
    }),
    bytes(8, "first headword not its element's", |m, r| {
        let Some(i) = some(m.runs.len(), r) else {
            return false;
        };
        let first = m.runs[i].entries[0];
        first.rest < first.zero && {
            let place = r.range(first.rest, first.zero - 1);
            other(m, r, place)
        }
    }),
    sketch(8, "last headword is the next element's", |s, r| {
        let Some(i) = not_last(s, r) else {
            return false;
        };
        let more = s.runs[i + 1].entries[0].clone();
        s.runs[i].entries.push(more);
        mend_fronts(&mut s.runs[i].entries);
        true
    }),
    sketch(8, "last headword above the next element's", |s, r| {
        let Some(i) = not_last(s, r) else {
            return false;
        };
        let mut more = s.runs[i + 1].entries[0].clone();
        if more.headword.len() == MOST_HEADWORD {
            return false;
        }
        more.headword.push(1);
        s.runs[i].entries.push(more);
        mend_fronts(&mut s.runs[i].entries);
        true
    }),
    sketch(8, "one end mark outside the run's blocks", |s, r| {
        marks_outside(s, r, 1)
    }),
    sketch(8, "both end marks outside the run's blocks", |s, r| {
        marks_outside(s, r, 2)
    }),
    values(8, "entries pass the run's blocks", |v, r| {
        let Some(i) = some(v.runs.len(), r) else {
            return false;
        };
        let run = &mut v.runs[i];
        let need = encoded_size(&run.entries).div_ceil(BLOCK);
        if need < 2 {
            return false;
        }
        run.blocks = need - 1;
        true
    }),
    // Row 9, blocks.
    values(
        9,
        "block in two runs, behind the first's end marks",
        |v, r| {
            let Some((long, block)) = spare_block(v, r) else {
                return false;
            };
            let short: Vec<usize> = (0..v.runs.len())
                .filter(|i| *i != long && v.runs[*i].blocks == 1)
                .collect();
            let Some(i) = some(short.len(), r) else {
                return false;
            };
            let place = r.below(v.chain.len() + 1);
            v.chain.insert(place, v.runs[short[i]].block);
            v.runs[short[i]].block = block;
            true
        },
    ),
    values(
        9,
        "block in two runs, across the first's end marks",
        |v, r| {
            *v = woven(v, r);
            true
        },
    ),
    values(9, "run over the next run", |v, r| {
        let starts: Vec<usize> = v.runs.iter().map(|run| run.block).collect();
        let fits: Vec<usize> = (0..v.runs.len())
            .filter(|i| starts.contains(&(v.runs[*i].block + v.runs[*i].blocks)))
            .collect();
        let Some(i) = some(fits.len(), r) else {
            return false;
        };
        v.runs[fits[i]].blocks += 1;
        true
    }),
    values(9, "run over a free block", |v, r| {
        let fits: Vec<usize> = (0..v.runs.len())
            .filter(|i| v.chain.contains(&(v.runs[*i].block + v.runs[*i].blocks)))
            .collect();
        let Some(i) = some(fits.len(), r) else {
            return false;
        };
        v.runs[fits[i]].blocks += 1;
        true
    }),
    values(9, "spare block of a run on the chain", |v, r| {
        let Some((_, block)) = spare_block(v, r) else {
            return false;
        };
        let place = r.below(v.chain.len() + 1);
        v.chain.insert(place, block);
        true
    }),
    values(9, "spare block left out of its run", |v, r| {
        let Some((run, _)) = spare_block(v, r) else {
            return false;
        };
        v.runs[run].blocks -= 1;
        true
    }),
    values(9, "free block left out of the chain", |v, r| {
        let Some(i) = some(v.chain.len(), r) else {
            return false;
        };
        v.chain.remove(i);
        true
    }),
    values(9, "block behind all others in neither", |v, _| {
        if v.data_blocks >= MOST_DATA {
            return false;
        }
        v.data_blocks += 1;
        true
    }),
    // Row 9, links; the first one is empty_block2.
    bytes(9, "link is D", |m, r| {
        let number = m.image.data_blocks as u32;
        a_link(m, r, number)
    }),
    bytes(9, "link over D", |m, r| {
        let number = r.range(m.image.data_blocks, 0xFFFF_FFFE) as u32;
        a_link(m, r, number)
    }),
    bytes(9, "link with a bit of its high half", |m, r| {
        let place = link_place(m, r);
        let link = four(&m.bytes[place..]);
        if link == CHAIN_END {
            return false;
        }
        put_four(&mut m.bytes, place, link | 1 << r.range(16, 31));
        true
    }),
    bytes(9, "link 0xFFFF or 0xFFFFFFFE", |m, r| {
        let number = *r.pick(&[0xFFFF, 0xFFFF_FFFE]);
        m.image.data_blocks <= 0xFFFF && a_link(m, r, number)
    }),
    bytes(9, "last link 0xFFFF", |m, _| {
        let Some(last) = m.free.last() else {
            return false;
        };
        let place = last + 2;
        m.image.data_blocks <= 0xFFFF && {
            put_four(&mut m.bytes, place, 0xFFFF);
            true
        }
    }),
    bytes(9, "free block linked to itself", |m, r| {
        let Some(i) = some(m.free.len(), r) else {
            return false;
        };
        let (place, number) = (m.free[i] + 2, m.image.chain[i] as u32);
        put_four(&mut m.bytes, place, number);
        true
    }),
    bytes(9, "last free block linked to an earlier one", |m, r| {
        let Some(i) = some(m.free.len(), r) else {
            return false;
        };
        let number = m.image.chain[i] as u32;
        let place = m.free[m.free.len() - 1] + 2;
        put_four(&mut m.bytes, place, number);
        true
    }),
    bytes(9, "chain that ends too early", |m, r| {
        // The end at empty_block2, or at any free block but the last.
        if m.free.is_empty() {
            return false;
        }
        let place = match r.below(m.free.len()) {
            0 => m.image.format().empty_block2,
            i => m.free[i - 1] + 2,
        };
        put_four(&mut m.bytes, place, CHAIN_END);
        true
    }),
    bytes(9, "link skips a free block", |m, r| {
        if m.free.len() < 2 {
            return false;
        }
        let i = r.below(m.free.len() - 1);
        let place = match i {
            0 => m.image.format().empty_block2,
            _ => m.free[i - 1] + 2,
        };
        let next = m.image.chain[i + 1] as u32;
        put_four(&mut m.bytes, place, next);
        true
    }),
    bytes(9, "link to a run's first block", |m, r| {
        let Some(i) = some(m.runs.len(), r) else {
            return false;
        };
        let number = m.image.runs[i].block as u32;
        a_link(m, r, number)
    }),
    bytes(9, "link to a run's later block", |m, r| {
        let fits: Vec<usize> = (0..m.runs.len())
            .filter(|i| m.image.runs[*i].blocks > 1)
            .collect();
        let Some(i) = some(fits.len(), r) else {
            return false;
        };
        let run = &m.image.runs[fits[i]];
        let number = run.block + r.range(1, run.blocks - 1);
        a_link(m, r, number as u32)
    }),
    bytes(9, "first byte of a free block", |m, r| {
        let Some(i) = some(m.free.len(), r) else {
            return false;
        };
        let place = m.free[i];
        other(m, r, place)
    }),
    bytes(9, "second byte of a free block", |m, r| {
        let Some(i) = some(m.free.len(), r) else {
            return false;
        };
        let place = m.free[i] + 1;
        other(m, r, place)
    }),
    // Row 10.
    bytes(10, "nword one more", |m, _| {
        change_four(m, |_| at::NWORD, |n| n.wrapping_add(1))
    }),
    bytes(10, "nword one less", |m, _| {
        change_four(m, |_| at::NWORD, |n| n.wrapping_sub(1))
    }),
    bytes(10, "nword with another bit", |m, r| {
        let bit = 1 << r.below(32);
        change_four(m, |_| at::NWORD, |n| n ^ bit)
    }),
    bytes(10, "nblock2 one more", |m, _| {
        change_four(m, |f| f.nblock2, |n| n.wrapping_add(1))
    }),
    bytes(10, "nblock2 one less", |m, _| {
        change_four(m, |f| f.nblock2, |n| n.wrapping_sub(1))
    }),
    bytes(10, "nblock2 with another bit", |m, r| {
        let bit = 1 << r.below(32);
        change_four(m, |f| f.nblock2, |n| n ^ bit)
    }),
    bytes(10, "nblock2 is D with free blocks", |m, _| {
        let blocks = m.image.data_blocks as u32;
        !m.free.is_empty() && change_four(m, |f| f.nblock2, |_| blocks)
    }),
    // What the other version has elsewhere: the row of what stands there in this one, if any.
    bytes(0, "the other version's places, not named", |m, r| {
        let places = elsewhere(m, 0);
        places.iter().all(|place| unnamed(m, *place, &[r.byte()]))
    }),
    bytes(4, "the other version's places, row 4", |m, r| {
        other_elsewhere(m, r, 4)
    }),
    bytes(6, "the other version's places, row 6", |m, r| {
        other_elsewhere(m, r, 6)
    }),
    bytes(9, "the other version's places, row 9", |m, r| {
        other_elsewhere(m, r, 9)
    }),
    bytes(10, "the other version's places, row 10", |m, r| {
        other_elsewhere(m, r, 10)
    }),
    // What a reading call takes.
    bytes(0, "low version byte 0 to 15", |m, r| {
        unnamed(m, at::VERSION, &[r.below(16) as u8])
    }),
    bytes(0, "low version byte 16 to 255", |m, r| {
        let any = r.range(16, 255) as u8;
        unnamed(m, at::VERSION, &[*r.pick(&[16, 16, 255, any])])
    }),
    bytes(0, "another identifier", |m, r| {
        unnamed(m, at::IDENTIFIER, &any_identifier(r).to_le_bytes())
    }),
    // The order of the rows, and of the runs in rows 7 and 8.
    bytes(3, "order: version 6 before 4 and 5", |m, r| {
        m.bytes[at::HIGH_VERSION] = 6;
        other(m, r, at::DICTYPE) && two_at(m, at::INDEX_BLOCK, 0xFFFF)
    }),
    bytes(3, "order: 3 before 4, 5 and 10", |m, r| {
        other(m, r, at::ATTRLEN)
            && other_in(m, r, |f| f.os)
            && two_at(m, at::INDEX_BLOCK, 0xFFFF)
            && change_four(m, |_| at::NWORD, |n| n.wrapping_add(1))
    }),
    bytes(4, "order: 4 before 5 and 6", |m, r| {
        other_in(m, r, |f| f.index_blkbit)
            && change_four(m, |f| f.nindex2, |_| 0xFFFF_FFFF)
            && two_at(m, at::INDEX_BLOCK, 0x8000)
    }),
    bytes(5, "order: 5 before 6 and 9", |m, _| {
        let blocks = m.bytes.len() / BLOCK;
        blocks <= MOST_BLOCKS
            && change_four(m, |f| f.nindex2, |n| n.wrapping_add(1))
            && change_four(m, |f| f.empty_block2, |_| 0xFFFF_FFFE)
            && two_at(m, at::INDEX_BLOCK, blocks)
    }),
    bytes(6, "order: 6 before 7", |m, r| {
        a_count(m, r, |_| 0) && change_four(m, |f| f.nindex2, |n| n.wrapping_add(1))
    }),
    bytes(7, "order: 7 of a run before 8 of a later", |m, r| {
        let Some((i, j)) = two_runs(m, r) else {
            return false;
        };
        let (count, place) = (m.runs[i].count, m.runs[j].entries[0].attribute);
        m.bytes[place] = 0;
        two_at(m, count, 0)
    }),
    bytes(8, "order: 8 of a run before 7 of a later", |m, r| {
        let Some((i, j)) = two_runs(m, r) else {
            return false;
        };
        let (place, count) = (m.runs[i].entries[0].attribute, m.runs[j].count);
        m.bytes[place] = 0;
        two_at(m, count, 0)
    }),
    bytes(7, "order: 7 before 8 in one run", |m, r| {
        let Some(i) = some(m.runs.len(), r) else {
            return false;
        };
        let (place, count) = (m.runs[i].entries[0].attribute, m.runs[i].count);
        m.bytes[place] = 0;
        two_at(m, count, 0)
    }),
    bytes(8, "order: 8 in the last run before 9 and 10", |m, _| {
        let Some(last) = m.runs.last() else {
            return false;
        };
        let place = last.entries[last.entries.len() - 1].attribute;
        m.bytes[place] |= 0x10;
        change_four(m, |f| f.empty_block2, |_| 0xFFFF_FFFE)
            && change_four(m, |_| at::NWORD, |n| n.wrapping_add(1))
    }),
    bytes(8, "order: two elements with one number", |m, r| {
        let Some((i, j)) = two_runs(m, r) else {
            return false;
        };
        let number = m.image.runs[i].block;
        let place = m.elements[j].number;
        two_at(m, place, number)
    }),
    bytes(9, "order: 9 before 10", |m, _| {
        change_four(m, |f| f.empty_block2, |_| 0xFFFF_FFFE)
            && change_four(m, |f| f.nblock2, |n| n.wrapping_add(1))
    }),
];

/// A place below `size`, if there is one.
fn some(size: usize, random: &mut Random) -> Option<usize> {
    match size {
        0 => None,
        _ => Some(random.below(size)),
    }
}

/// Gives a byte another value: near, by a bit, or any.
pub fn other(made: &mut Made, random: &mut Random, place: usize) -> bool {
    let Some(&old) = made.bytes.get(place) else {
        return false;
    };
    let new = match random.below(5) {
        0 => old.wrapping_add(1),
        1 => old.wrapping_sub(1),
        2 => old ^ 1 << random.below(8),
        3 => !old,
        _ => random.byte(),
    };
    made.bytes[place] = if new == old { old ^ 0x80 } else { new };
    true
}

fn two_at(made: &mut Made, place: usize, number: usize) -> bool {
    put_two(&mut made.bytes, place, number as u16);
    true
}

/// Gives a byte of a header field another value; the field stands where the version has it.
fn other_in(made: &mut Made, random: &mut Random, field: fn(&Format) -> usize) -> bool {
    let place = field(made.image.format());
    other(made, random, place)
}

fn change_four(made: &mut Made, field: fn(&Format) -> usize, way: impl Fn(u32) -> u32) -> bool {
    let place = field(made.image.format());
    let number = four(&made.bytes[place..]);
    put_four(&mut made.bytes, place, way(number));
    true
}

/// A run of the sketch that has a next one.
fn not_last(sketch: &Sketch, random: &mut Random) -> Option<usize> {
    some(sketch.runs.len().saturating_sub(1), random)
}

/// An entry of the sketch that is at least the `from`-th of its run.
fn sketched(sketch: &Sketch, random: &mut Random, from: usize) -> Option<(usize, usize)> {
    let fits: Vec<usize> = (0..sketch.runs.len())
        .filter(|i| sketch.runs[*i].entries.len() > from)
        .collect();
    let run = fits[some(fits.len(), random)?];
    Some((run, random.range(from, sketch.runs[run].entries.len() - 1)))
}

/// An entry of the made image that is at least the `from`-th of its run.
fn an_entry(made: &Made, random: &mut Random, from: usize) -> Option<(usize, usize)> {
    let fits: Vec<usize> = (0..made.runs.len())
        .filter(|i| made.runs[*i].entries.len() > from)
        .collect();
    let run = fits[some(fits.len(), random)?];
    Some((run, random.range(from, made.runs[run].entries.len() - 1)))
}

/// Two runs in index order.
fn two_runs(made: &Made, random: &mut Random) -> Option<(usize, usize)> {
    if made.runs.len() < 2 {
        return None;
    }
    let i = random.below(made.runs.len() - 1);
    Some((i, random.range(i + 1, made.runs.len() - 1)))
}

fn lengthen(headword: &mut Vec<u8>, random: &mut Random, size: usize) {
    let more = text(random, size.saturating_sub(headword.len()));
    headword.extend_from_slice(&more);
}

fn long_element(sketch: &mut Sketch, random: &mut Random, size: usize) -> bool {
    // In the last run, so that the elements still ascend.
    let Some(run) = sketch.runs.last_mut() else {
        return false;
    };
    run.entries.truncate(1);
    lengthen(&mut run.entries[0].headword, random, size);
    true
}

fn long_text(sketch: &mut Sketch, random: &mut Random, size: usize) -> bool {
    let Some((run, entry)) = sketched(sketch, random, 0) else {
        return false;
    };
    sketch.runs[run].entries[entry].text = text(random, size);
    true
}

/// A last headword of 248 bytes in the last run, and behind it one that shares all of them.
fn by_front(sketch: &mut Sketch, random: &mut Random, size: usize) -> bool {
    let Some(run) = sketch.runs.last_mut() else {
        return false;
    };
    let mut headword = run.entries[run.entries.len() - 1].headword.clone();
    if headword.len() > MOST_HEADWORD {
        return false;
    }
    if headword.len() < MOST_HEADWORD {
        let front = headword.len();
        lengthen(&mut headword, random, MOST_HEADWORD);
        let mut added = entry(random, headword.clone(), 3);
        added.front = front;
        run.entries.push(added);
    }
    lengthen(&mut headword, random, size);
    let mut added = entry(random, headword, 3);
    added.front = MOST_HEADWORD;
    run.entries.push(added);
    true
}

/// A run whose entries leave no room for one or both of its end marks.
fn marks_outside(sketch: &mut Sketch, random: &mut Random, outside: usize) -> bool {
    let Some(i) = some(sketch.runs.len(), random) else {
        return false;
    };
    let run = &mut sketch.runs[i];
    if !fit_run(random, run, outside) || encoded_size(&run.entries) < BLOCK {
        return false;
    }
    run.spare = -1;
    true
}

fn a_number(made: &mut Made, random: &mut Random, number: usize) -> bool {
    let Some(i) = some(made.elements.len(), random) else {
        return false;
    };
    let place = made.elements[i].number;
    two_at(made, place, number)
}

fn a_count(made: &mut Made, random: &mut Random, way: impl Fn(usize) -> usize) -> bool {
    let Some(i) = some(made.runs.len(), random) else {
        return false;
    };
    let (place, blocks) = (made.runs[i].count, made.image.runs[i].blocks);
    two_at(made, place, way(blocks))
}

fn past_area(made: &mut Made, random: &mut Random, more: usize) -> bool {
    let Some(i) = some(made.runs.len(), random) else {
        return false;
    };
    let blocks = made.image.data_blocks - made.image.runs[i].block + more;
    let place = made.runs[i].count;
    blocks <= MOST_BLOCKS && two_at(made, place, blocks)
}

fn last_length(made: &mut Made, random: &mut Random, more: usize) -> bool {
    let Some(i) = some(made.runs.len(), random) else {
        return false;
    };
    let last = made.runs[i].entries[made.runs[i].entries.len() - 1];
    let length = two(&made.bytes[last.length..]) as usize;
    two_at(made, last.length, length + more)
}

/// A field length set from the length of the headword's rest.
fn cut_field(made: &mut Made, random: &mut Random, way: impl Fn(usize) -> usize) -> bool {
    let Some((run, entry)) = an_entry(made, random, 0) else {
        return false;
    };
    let place = made.runs[run].entries[entry];
    two_at(made, place.length, way(place.zero - place.rest))
}

fn front_over(made: &mut Made, random: &mut Random, more: usize) -> bool {
    let Some((run, entry)) = an_entry(made, random, 1) else {
        return false;
    };
    let before = made.image.runs[run].entries[entry - 1].headword.len();
    let place = made.runs[run].entries[entry].front;
    made.bytes[place] = (before + more).min(255) as u8;
    true
}

/// A run with a whole block behind its end marks, and that block.
fn spare_block(image: &Image, random: &mut Random) -> Option<(usize, usize)> {
    let fits: Vec<usize> = (0..image.runs.len())
        .filter(|i| {
            let run = &image.runs[*i];
            run.blocks > encoded_size(&run.entries).div_ceil(BLOCK)
        })
        .collect();
    let run = fits[some(fits.len(), random)?];
    Some((run, image.runs[run].block + image.runs[run].blocks - 1))
}

/// The place of empty_block2 or of a free block's link.
fn link_place(made: &Made, random: &mut Random) -> usize {
    match random.below(made.free.len() + 1) {
        0 => made.image.format().empty_block2,
        i => made.free[i - 1] + 2,
    }
}

fn a_link(made: &mut Made, random: &mut Random, number: u32) -> bool {
    let place = link_place(made, random);
    put_four(&mut made.bytes, place, number);
    true
}

/// Two runs that both hold to rows 7 and 8, though the second starts in the first: the
/// first's last text byte is the low byte of the second's size, and the first's end marks
/// are the high byte of that size and the low byte of a field length of whole 256s.
fn woven(image: &Image, random: &mut Random) -> Image {
    let size = random.range(2, 9);
    let mut first = entry(random, b"A".to_vec(), 257 - 2 - 3 - 1 - 2);
    *first.text.last_mut().expect("not empty") = size as u8;
    let second = entry(random, b"B".to_vec(), 256 - 1 - 2);
    let mut list = vec![second];
    for i in 0..random.below(3) {
        list.push(entry(random, vec![b'C' + i as u8], 7));
    }
    let list: Vec<Wanted> = cut(random, list, Cut::One, Fronts::Longest);
    Image {
        header: image.header.clone(),
        index_blocks: 1,
        data_blocks: 1 + size,
        runs: vec![
            Run {
                block: 0,
                blocks: 2,
                entries: vec![first],
            },
            Run {
                block: 1,
                blocks: size,
                entries: list[0].entries.clone(),
            },
        ],
        chain: vec![],
    }
}

/// Regions whose bytes are damaged by chance.
pub const REGIONS: [&str; 13] = [
    "header, any byte",
    "header, a tested byte",
    "index, any byte",
    "index, a number",
    "run's count",
    "field length",
    "shared front",
    "headword's rest",
    "attribute",
    "text",
    "end mark",
    "link",
    "header, the other version's number",
];

/// The header bytes of moved fields, each with the row that names the field.
fn moved(format: &Format) -> Vec<(usize, u32)> {
    let fields = [
        (format.os, 1, 4),
        (format.index_blkbit, 1, 4),
        (format.extheader, 4, 4),
        (format.nindex2, 4, 6),
        (format.empty_block2, 4, 9),
        (format.nblock2, 4, 10),
    ];
    let each = |(place, size, number)| (place..place + size).map(move |place| (place, number));
    fields.into_iter().flat_map(each).collect()
}

/// Where the other version has its moved fields, as far as row `number` names what stands
/// there in this one; 0: none does.
fn elsewhere(made: &Made, number: u32) -> Vec<usize> {
    let format = made.image.format();
    let here = moved(format);
    let row = |place| {
        here.iter()
            .find(|here| here.0 == place)
            .map_or(0, |here| here.1)
    };
    let others = FORMATS
        .iter()
        .filter(|other| *other != format)
        .flat_map(moved);
    let places = others.map(|(place, _)| place);
    places.filter(|place| row(*place) == number).collect()
}

fn other_elsewhere(made: &mut Made, random: &mut Random, number: u32) -> bool {
    let place = *random.pick(&elsewhere(made, number));
    other(made, random, place)
}

/// Writes header bytes that no row names; they are the values' too.
fn unnamed(made: &mut Made, place: usize, contents: &[u8]) -> bool {
    for bytes in [&mut made.bytes, &mut made.image.header.bytes] {
        bytes[place..place + contents.len()].copy_from_slice(contents);
    }
    true
}

/// Header bytes that a row names, beside those of moved fields.
const TESTED: [usize; 14] = [
    141, 146, 147, 148, 149, 150, 151, 160, 161, 162, 163, 164, 165, 166,
];

/// A header byte that a row names.
fn tested(made: &Made, random: &mut Random) -> usize {
    let moved = moved(made.image.format());
    let mut places: Vec<usize> = moved.into_iter().map(|(place, _)| place).collect();
    places.extend(TESTED);
    *random.pick(&places)
}

/// Damages a byte of a region; false if the image has none.
pub fn flip(made: &mut Made, random: &mut Random, region: usize) -> bool {
    let entry = an_entry(made, random, 0).map(|(run, entry)| made.runs[run].entries[entry]);
    let place = match (region, entry) {
        (0, _) => Some(random.below(BLOCK)),
        (1, _) => Some(tested(made, random)),
        (2, _) => some(BLOCK * made.image.index_blocks, random).map(|i| BLOCK + i),
        (3, _) => {
            some(made.elements.len(), random).map(|i| made.elements[i].number + random.below(2))
        }
        (4, _) => some(made.runs.len(), random).map(|i| made.runs[i].count + random.below(2)),
        (5, Some(entry)) => Some(entry.length + random.below(2)),
        (6, Some(entry)) => Some(entry.front),
        (7, Some(entry)) => Some(random.range(entry.rest, entry.zero)),
        (8, Some(entry)) => Some(entry.attribute),
        (9, Some(entry)) => some(entry.end - entry.text, random).map(|i| entry.text + i),
        (10, _) => some(made.runs.len(), random).map(|i| made.runs[i].marks + random.below(2)),
        (11, _) => some(made.free.len(), random).map(|i| made.free[i] + random.below(6)),
        (12, _) => {
            // 4 and 5 differ in their lowest bit.
            made.bytes[at::HIGH_VERSION] ^= 1;
            return true;
        }
        _ => None,
    };
    match place {
        Some(place) => other(made, random, place),
        None => false,
    }
}
