//! The engine's C calls, with guard bytes around every lent slice and number.

/// Guard bytes before and after each lent slice.
pub const GUARD: usize = 64;

extern "C" {
    fn pdic_check(
        image: *const u8,
        image_size: usize,
        len: usize,
        headwords: *mut u64,
        index_blocks: *mut u64,
        data_blocks: *mut u64,
        free_blocks: *mut u64,
    ) -> u32;
    fn pdic_look_up(
        image: *const u8,
        image_size: usize,
        len: usize,
        headword: *const u8,
        headword_size: usize,
        text: *mut u8,
        text_size: usize,
        attribute: *mut u8,
        text_len: *mut usize,
    ) -> u32;
    fn pdic_walk(
        image: *const u8,
        image_size: usize,
        len: usize,
        headword: *const u8,
        headword_size: usize,
        above: u8,
        headword_out: *mut u8,
        headword_out_size: usize,
        text: *mut u8,
        text_size: usize,
        attribute: *mut u8,
        headword_len: *mut usize,
        text_len: *mut usize,
    ) -> u32;
    fn pdic_create(
        image: *mut u8,
        image_size: usize,
        version: u8,
        ident: u64,
        new_len: *mut usize,
    ) -> u32;
    fn pdic_insert(
        image: *mut u8,
        image_size: usize,
        len: usize,
        work: *mut u8,
        work_size: usize,
        headword: *const u8,
        headword_size: usize,
        attribute: u8,
        text: *const u8,
        text_size: usize,
        new_len: *mut usize,
    ) -> u32;
    fn pdic_delete(
        image: *mut u8,
        image_size: usize,
        len: usize,
        work: *mut u8,
        work_size: usize,
        headword: *const u8,
        headword_size: usize,
        new_len: *mut usize,
    ) -> u32;
    fn pdic_optimise(
        image: *mut u8,
        image_size: usize,
        len: usize,
        work: *mut u8,
        work_size: usize,
        new_len: *mut usize,
    ) -> u32;
}

/// A slice to lend: its bytes stand between guard bytes in one larger buffer. Two lent
/// slices are equal only if every byte of the buffers is, the guards too.
#[derive(Clone, Debug, PartialEq, Eq)]
pub struct Lent {
    buffer: Vec<u8>,
    start: usize,
    size: usize,
}

impl Lent {
    /// Lends `contents`; `pattern` fills the guards, `shift` (below 16) moves the start.
    pub fn new(contents: &[u8], pattern: u8, shift: usize) -> Lent {
        let start = GUARD + shift;
        let mut buffer = vec![pattern; start + contents.len() + GUARD];
        buffer[start..start + contents.len()].copy_from_slice(contents);
        Lent {
            buffer,
            start,
            size: contents.len(),
        }
    }

    /// A slice of `size` bytes, all `content`.
    pub fn filled(size: usize, content: u8, pattern: u8, shift: usize) -> Lent {
        Lent::new(&vec![content; size], pattern, shift)
    }

    pub fn size(&self) -> usize {
        self.size
    }

    pub fn contents(&self) -> &[u8] {
        &self.buffer[self.start..self.start + self.size]
    }

    pub fn contents_mut(&mut self) -> &mut [u8] {
        &mut self.buffer[self.start..self.start + self.size]
    }

    /// Writes an answer at the start of the slice; the bytes past it keep their contents.
    pub fn put(&mut self, answer: &[u8]) {
        self.buffer[self.start..self.start + answer.len()].copy_from_slice(answer);
    }

    /// Where the two buffers first differ: place relative to the slice's start, here, there.
    pub fn first_difference(&self, other: &Lent) -> Option<(isize, u8, u8)> {
        if self.buffer == other.buffer {
            return None;
        }
        let at = (0..self.buffer.len()).find(|i| self.buffer[*i] != other.buffer[*i])?;
        Some((
            at as isize - self.start as isize,
            self.buffer[at],
            other.buffer[at],
        ))
    }

    fn pointer(&mut self) -> *mut u8 {
        // In bounds: there are GUARD bytes behind an empty slice too.
        unsafe { self.buffer.as_mut_ptr().add(self.start) }
    }
}

/// Numbers lent by pointer: the even places are guards, the odd ones are lent.
/// Check's are headwords, index blocks, data blocks and free blocks.
pub type CheckCells = [u64; 9];
pub type LengthCells = [usize; 5];

pub fn check(image: &mut Lent, len: usize, cells: &mut CheckCells) -> u32 {
    let cells = cells.as_mut_ptr();
    unsafe {
        pdic_check(
            image.pointer(),
            image.size,
            len,
            cells.add(1),
            cells.add(3),
            cells.add(5),
            cells.add(7),
        )
    }
}

/// The text's length is lent at place 1 of `lengths`.
pub fn look_up(
    image: &mut Lent,
    len: usize,
    headword: &mut Lent,
    text: &mut Lent,
    attribute: &mut Lent,
    lengths: &mut LengthCells,
) -> u32 {
    assert!(attribute.size == 1);
    unsafe {
        pdic_look_up(
            image.pointer(),
            image.size,
            len,
            headword.pointer(),
            headword.size,
            text.pointer(),
            text.size,
            attribute.pointer(),
            lengths.as_mut_ptr().add(1),
        )
    }
}

/// The text's length is lent at place 1 of `lengths`, the headword's at place 3.
#[allow(clippy::too_many_arguments)]
pub fn walk(
    image: &mut Lent,
    len: usize,
    headword: &mut Lent,
    above: u8,
    headword_out: &mut Lent,
    text: &mut Lent,
    attribute: &mut Lent,
    lengths: &mut LengthCells,
) -> u32 {
    assert!(attribute.size == 1);
    let lengths = lengths.as_mut_ptr();
    unsafe {
        pdic_walk(
            image.pointer(),
            image.size,
            len,
            headword.pointer(),
            headword.size,
            above,
            headword_out.pointer(),
            headword_out.size,
            text.pointer(),
            text.size,
            attribute.pointer(),
            lengths.add(3),
            lengths.add(1),
        )
    }
}

/// The new L is lent at place 1 of `lengths`, here and below.
pub fn create(image: &mut Lent, version: u8, ident: u64, lengths: &mut LengthCells) -> u32 {
    unsafe {
        pdic_create(
            image.pointer(),
            image.size,
            version,
            ident,
            lengths.as_mut_ptr().add(1),
        )
    }
}

pub fn insert(
    image: &mut Lent,
    len: usize,
    work: &mut Lent,
    headword: &mut Lent,
    attribute: u8,
    text: &mut Lent,
    lengths: &mut LengthCells,
) -> u32 {
    unsafe {
        pdic_insert(
            image.pointer(),
            image.size,
            len,
            work.pointer(),
            work.size,
            headword.pointer(),
            headword.size,
            attribute,
            text.pointer(),
            text.size,
            lengths.as_mut_ptr().add(1),
        )
    }
}

pub fn delete(
    image: &mut Lent,
    len: usize,
    work: &mut Lent,
    headword: &mut Lent,
    lengths: &mut LengthCells,
) -> u32 {
    unsafe {
        pdic_delete(
            image.pointer(),
            image.size,
            len,
            work.pointer(),
            work.size,
            headword.pointer(),
            headword.size,
            lengths.as_mut_ptr().add(1),
        )
    }
}

pub fn optimise(image: &mut Lent, len: usize, work: &mut Lent, lengths: &mut LengthCells) -> u32 {
    unsafe {
        pdic_optimise(
            image.pointer(),
            image.size,
            len,
            work.pointer(),
            work.size,
            lengths.as_mut_ptr().add(1),
        )
    }
}
