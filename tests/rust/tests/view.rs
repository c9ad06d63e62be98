//! What the program `viewer` must write, crates/viewer/stdout, from documents 01 and 02: the parts that the track view and the reader
//! of a cartridge file hand over. The gate runs the program and holds what it writes to that file.

use std::fs;
use std::path::Path;

/// A part of an image whose cell i is the letter i % 64 of a row of 64: that of track g, or none.
fn line(blocks: usize, size: usize, g: usize) -> String {
    let length = 8 * blocks + 15;
    let seen = blocks <= 256 && size == 18 * length && g < 18;
    let cells = if seen { g * length..(g + 1) * length } else { 0..0 };
    let part: String = cells.map(|i| char::from(48 + (i % 64) as u8)).collect();
    format!("{blocks} {size} {g} {part}\n")
}

/// The line of an index of a file: the part that is handed over, or none.
fn entry_line(file: &[u8], index: usize, parts: &[std::ops::Range<usize>]) -> Vec<u8> {
    let part = parts.get(index).map_or(&[][..], |r| &file[r.clone()]);
    [format!("{} {index} {} ", file.len(), part.len()).as_bytes(), part, b"\n"].concat()
}

#[test]
fn stored_output() {
    let mut wanted = String::new();
    // One block and none: every track and two that there are not, then a cell less, a cell more and no cell.
    for (blocks, size) in [(1, 414), (0, 270)] {
        wanted.extend((0..19).map(|g| line(blocks, size, g)));
        for (size, g) in [(size, u32::MAX as usize), (size - 1, 0), (size + 1, 0), (0, 0)] {
            wanted += &line(blocks, size, g);
        }
    }
    for (blocks, size, g) in [(2, 558, 17), (256, 37134, 0), (256, 37134, 17), (257, 37278, 0)] {
        wanted += &line(blocks, size, g);
    }
    let mut wanted = wanted.into_bytes();
    // Two entries, of no blocks at byte 18 and of one at byte 62; the last byte is no entry's.
    let letters = |first: u8, n: u8| (0..n).map(|i| first + i % 26).collect::<Vec<u8>>();
    let file = [
        &[0, 2, 0, 0, 0, 18, 0, 0, 0, 42, 0, 0, 0, 62, 0, 0, 0, 60][..],
        &[b"key0\0\0", &letters(b'A', 36)[..], b"..", b"key1\0\x01", &letters(b'a', 54)[..], b"."].concat(),
    ]
    .concat();
    let parts = [18..60, 62..122];
    for index in [0, 1, 2, u32::MAX as usize] {
        wanted.extend(entry_line(&file, index, &parts));
    }
    wanted.extend(entry_line(&[0, 0], 0, &[]));
    wanted.extend(entry_line(&file[..121], 0, &[]));
    wanted.extend(entry_line(&[], 0, &[]));
    let path = Path::new(env!("CARGO_MANIFEST_DIR")).join("../../crates/viewer/stdout");
    assert_eq!(String::from_utf8_lossy(&fs::read(path).unwrap()), String::from_utf8_lossy(&wanted));
}
