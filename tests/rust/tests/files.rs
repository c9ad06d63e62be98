//! Cartridge files worked out by hand from note 6 of document 02: the archive and the second writer and reader against the
//! bytes themselves.

use axp_tests::cartridge::{count, entry, find, places, write, Damage};
use axp_tests::ffi::{file_count, file_entry, file_write, Counted, Stretch, Written};

const KEYS: [u32; 2] = [0x0102_0304, 0xfffe_fdfc];

/// Two entries of no blocks and one: 42 and 60 bytes.
fn two_entries() -> [Vec<u8>; 2] {
    [entry(KEYS[0], 0, &[0x80; 36]), entry(KEYS[1], 1, &[0x7e; 54])]
}

/// Their file: 2 + 2 · 8 + 42 + 60 bytes.
fn two_in_a_file() -> Vec<u8> {
    let mut file = vec![0, 2];
    file.extend([0, 0, 0, 18, 0, 0, 0, 42]);
    file.extend([0, 0, 0, 60, 0, 0, 0, 60]);
    file.extend([1, 2, 3, 4, 0, 0]);
    file.extend([0x80; 36]);
    file.extend([0xff, 0xfe, 0xfd, 0xfc, 0, 1]);
    file.extend([0x7e; 54]);
    file
}

/// The bytes with one of another value.
fn changed(bytes: &[u8], i: usize, x: u8) -> Vec<u8> {
    let mut other = bytes.to_vec();
    other[i] = x;
    other
}

/// Writes into an output of so many bytes of 0xaa.
fn written(entries: u32, bytes: &[u8], room: usize) -> (Written, Vec<u8>) {
    let before = vec![0xaa; room];
    let mut out = before.clone();
    let answer = file_write(entries, bytes, &mut out);
    assert_eq!((answer, out.clone()), write(entries, bytes, &before), "{entries} entries");
    (answer, out)
}

fn refused(number: u32, entries: u32, bytes: &[u8], room: usize) {
    let (answer, out) = written(entries, bytes, room);
    assert_eq!(answer, Written { answer: number, length: 0 }, "{entries} entries in {} bytes", bytes.len());
    assert!(out.iter().all(|&x| x == 0xaa), "the output of a refusal");
}

fn found(file: &[u8], index: u32) -> Stretch {
    let stretch = file_entry(file, index);
    assert_eq!(stretch, find(file, index), "entry {index}");
    assert_eq!(file_count(file), count(file));
    stretch
}

fn damaged(file: &[u8], why: Damage) {
    assert_eq!(places(file), Err(why));
    for index in [0, 1, 2, u32::MAX] {
        assert_eq!(found(file, index), Stretch { answer: 10, offset: 0, length: 0 }, "{why:?}");
    }
    assert_eq!(file_count(file), Counted { answer: 10, entries: 0 }, "{why:?}");
}

#[test]
fn bytes_of_a_file() {
    let file = two_in_a_file();
    assert_eq!(file.len(), 120);
    let (answer, out) = written(2, &two_entries().concat(), 125);
    assert_eq!(answer, Written { answer: 0, length: 120 });
    assert_eq!(out, [&file[..], &[0xaa; 5]].concat());
    assert_eq!(file_count(&file), Counted { answer: 0, entries: 2 });
    assert_eq!(found(&file, 0), Stretch { answer: 0, offset: 18, length: 42 });
    assert_eq!(found(&file, 1), Stretch { answer: 0, offset: 60, length: 60 });
    for past in [2, 3, 64, u32::MAX] {
        assert_eq!(found(&file, past), Stretch { answer: 0, offset: 0, length: 0 });
    }
}

#[test]
fn a_file_of_no_entries() {
    assert_eq!(written(0, &[], 2), (Written { answer: 0, length: 2 }, vec![0, 0]));
    for file in [vec![0, 0], vec![0, 0, 9], vec![0; 65_536]] {
        assert_eq!(file_count(&file), Counted { answer: 0, entries: 0 });
        assert_eq!(found(&file, 0), Stretch { answer: 0, offset: 0, length: 0 });
    }
    damaged(&[0; 65_537], Damage::TooLong);
    damaged(&[], Damage::NoCount);
    damaged(&[0], Damage::NoCount);
}

#[test]
fn gaps_and_touching_entries() {
    let [first, second] = two_entries();
    // A gap of three bytes behind the directory, of one between the entries, of two behind them.
    let mut file = vec![0, 2, 0, 0, 0, 21, 0, 0, 0, 42, 0, 0, 0, 64, 0, 0, 0, 60, 7, 7, 7];
    file.extend(&first);
    file.push(7);
    file.extend(&second);
    file.extend([7, 7]);
    assert_eq!(found(&file, 0), Stretch { answer: 0, offset: 21, length: 42 });
    assert_eq!(found(&file, 1), Stretch { answer: 0, offset: 64, length: 60 });
    assert_eq!(file[64..124], second[..]);
}

#[test]
fn every_rule() {
    let file = two_in_a_file();
    use Damage::*;
    // A byte of the file, its new value, and the rule that is broken. With a third entry the first begins in the directory; an
    // offset of 255 and 24 bits more adds past 32 bits.
    for (i, x, why) in [
        (0, 1, TooManyEntries),
        (1, 65, TooManyEntries),
        (1, 64, DirectoryCut),
        (1, 3, InDirectory),
        (5, 17, InDirectory),
        (13, 59, Overlap),
        (13, 61, PastTheEnd),
        (10, 255, PastTheEnd),
        (9, 41, Length),
        (17, 5, Length),
        (17, 0, Length),
        (23, 1, Length),
        (22, 1, Length),
        (22, 2, Blocks),
    ] {
        damaged(&changed(&file, i, x), why);
    }
    damaged(&file[..119], PastTheEnd);
    let mut exchanged = file.clone();
    exchanged[2..10].copy_from_slice(&file[10..18]);
    exchanged[10..18].copy_from_slice(&file[2..10]);
    damaged(&exchanged, Unsorted);
    // A padding bit, and any other of the packed record's, is not looked at.
    for (i, x) in [(25, 0x81), (67, 0x7f), (119, 0x7f)] {
        assert_eq!(file_count(&changed(&file, i, x)), Counted { answer: 0, entries: 2 });
    }
}

/// Entries of zeros: a stretch that begins some bytes before one is an entry too, by its count and length, and breaks one rule alone.
#[test]
fn one_rule_alone() {
    let zeros = entry(0, 0, &[0; 36]);
    let mut file = vec![0, 2, 0, 0, 0, 18, 0, 0, 0, 42, 0, 0, 0, 60, 0, 0, 0, 42];
    file.extend([&zeros[..], &zeros].concat());
    assert_eq!(file_count(&file), Counted { answer: 0, entries: 2 });
    // With offset 17 the first entry begins with the last byte of the directory, 42, which is then the key's first.
    for (i, x, why) in [(13, 59, Damage::Overlap), (13, 18, Damage::Overlap), (13, 61, Damage::PastTheEnd), (5, 17, Damage::InDirectory)] {
        damaged(&changed(&file, i, x), why);
    }
    damaged(&file[..101], Damage::PastTheEnd);
    // 257 blocks and the length that goes with them.
    let long = entry(0, 257, &[0; 18 * 259]);
    damaged(&[&[0, 1, 0, 0, 0, 10, 0, 0, 18, 60][..], &long].concat(), Damage::Blocks);
    refused(1, 1, &long, 5000);
}

#[test]
fn checking_order_of_the_writer() {
    let [first, second] = two_entries();
    let bytes = [&first[..], &second].concat();
    // Fewer than six bytes left, whatever they are; then the count; then the bytes for it; then the padding bits.
    refused(2, 3, &[&bytes[..], &[0xff; 5]].concat(), 200);
    refused(1, 3, &[&bytes[..], &[0xff; 6]].concat(), 200);
    refused(1, 3, &[&bytes[..], &[0, 0, 0, 0, 1, 1]].concat(), 200);
    refused(2, 3, &[&bytes[..], &[0, 0, 0, 0, 1, 0]].concat(), 200);
    let mut padded = second.clone();
    padded[6 + 2] |= 1;
    refused(8, 2, &[&first[..], &padded].concat(), 200);
    // A padding bit of an entry before one that is cut, and behind one.
    refused(8, 2, &[&padded[..], &first[..41]].concat(), 200);
    refused(2, 2, &[&first[..], &padded[..59]].concat(), 200);
    // 8 before 11, and bytes left over before 11.
    refused(8, 2, &[&first[..], &padded].concat(), 0);
    refused(2, 1, &bytes, 0);
    refused(2, 0, &first, 0);
    refused(11, 2, &bytes, 119);
    refused(11, 2, &bytes, 0);
    // 2^32 − 1 entries end with the bytes.
    refused(2, u32::MAX, &[], 0);
    refused(2, u32::MAX, &bytes, 65_536);
    let mut last = bytes.clone();
    last.extend(&padded);
    refused(8, u32::MAX, &last, 65_536);
}

#[test]
fn sixty_four_entries() {
    let bytes = |k: usize| (0..k).flat_map(|key| entry(key as u32, 0, &[0; 36])).collect::<Vec<u8>>();
    assert_eq!(written(64, &bytes(64), 65_536).0, Written { answer: 0, length: 2 + 64 * 50 });
    refused(11, 65, &bytes(65), 65_536);
    refused(2, 64, &bytes(65), 65_536);
    // 65 entries, the last of them padded: 8 comes first.
    let mut padded = bytes(65);
    padded[64 * 42 + 6 + 1] |= 1;
    refused(8, 65, &padded, 65_536);
}

#[test]
fn just_65_536_bytes() {
    // 19 entries of 3,588 blocks in all: 2 + 19 · 50 + 18 · 3,588.
    let blocks = |sum: usize, k: usize| (0..k).map(|i| sum / k + usize::from(i < sum % k)).collect::<Vec<usize>>();
    let bytes = |all: Vec<usize>| all.into_iter().flat_map(|n| entry(1, n as u16, &vec![0; 18 * (n + 2)])).collect::<Vec<u8>>();
    let (answer, out) = written(19, &bytes(blocks(3588, 19)), 65_536);
    assert_eq!(answer, Written { answer: 0, length: 65_536 });
    assert_eq!(file_count(&out), Counted { answer: 0, entries: 19 });
    refused(11, 19, &bytes(blocks(3588, 19)), 65_535);
    // 23 entries of 3,577 blocks in all have 65,538.
    refused(11, 23, &bytes(blocks(3577, 23)), 70_000);
}
