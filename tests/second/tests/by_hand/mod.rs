//! Images written by hand, byte by byte, in both kinds of file.

pub fn put(bytes: &mut [u8], place: usize, contents: &[u8]) {
    bytes[place..place + contents.len()].copy_from_slice(contents);
}

/// A kind of file: its high version byte, and where it has the counts that the examples
/// write.
pub struct File {
    pub version: u8,
    pub empty_block2: usize,
    pub nindex2: usize,
    pub nblock2: usize,
}

pub const FILES: [File; 2] = [
    File {
        version: 4,
        empty_block2: 186,
        nindex2: 190,
        nblock2: 194,
    },
    File {
        version: 5,
        empty_block2: 188,
        nindex2: 192,
        nblock2: 196,
    },
];

/// "Create: 256 bytes. Version 0x0400, lword 248, ljapa 3000, block_size and header_size
/// 256, attrlen 1, empty_block 0xFFFF, empty_block2 0xFFFFFFFF, all else zero." In version 5
/// "the eight bytes at 216 identify the dictionary".
pub fn empty(file: &File) -> Vec<u8> {
    let mut bytes = vec![0; 256];
    put(&mut bytes, 140, &[0x00, file.version, 0xF8, 0x00]);
    put(&mut bytes, 144, &[0xB8, 0x0B, 0x00, 0x01, 0x00, 0x00]);
    put(&mut bytes, 150, &[0x00, 0x01]);
    put(&mut bytes, 154, &[0xFF, 0xFF]);
    put(&mut bytes, 166, &[0x01]);
    put(&mut bytes, file.empty_block2, &[0xFF; 4]);
    if file.version == 5 {
        put(&mut bytes, 216, b"\x11\x22\x33\x44\x55\x66\x77\x88");
    }
    bytes
}
