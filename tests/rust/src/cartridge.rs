//! Cartridge files a second time, from note 6 of document 02 alone: who owns each byte decides what is damaged, and a file is
//! put together from its parts.

use crate::ffi::{Counted, Stretch, Written};
use crate::second::{unpack, Shape};

/// The most bytes of a file, and the most entries.
pub const MOST_BYTES: usize = 65_536;
pub const MOST_ENTRIES: usize = 64;

/// A number of so many bytes at a place, most significant first.
pub fn number_at(bytes: &[u8], at: usize, width: usize) -> usize {
    bytes[at..at + width].iter().fold(0, |x, &b| x << 8 | b as usize)
}

/// The size of an entry of n blocks.
pub fn entry_size(n: usize) -> usize {
    4 + 2 + 18 * (n + 2)
}

/// An entry's bytes: key, count, packed record.
pub fn entry(key: u32, n: u16, packed: &[u8]) -> Vec<u8> {
    [&key.to_be_bytes()[..], &n.to_be_bytes()[..], packed].concat()
}

/// Why a file is damaged.
#[derive(Clone, Copy, Debug, PartialEq, Eq)]
pub enum Damage {
    TooLong,
    NoCount,
    TooManyEntries,
    DirectoryCut,
    Unsorted,
    InDirectory,
    PastTheEnd,
    Overlap,
    Blocks,
    Length,
}

/// Where a file's entries stand, or the first reason why it is damaged.
pub fn places(file: &[u8]) -> Result<Vec<std::ops::Range<usize>>, Damage> {
    if file.len() > MOST_BYTES {
        return Err(Damage::TooLong);
    }
    if file.len() < 2 {
        return Err(Damage::NoCount);
    }
    let count = number_at(file, 0, 2);
    if count > MOST_ENTRIES {
        return Err(Damage::TooManyEntries);
    }
    let first = 2 + 8 * count;
    if first > file.len() {
        return Err(Damage::DirectoryCut);
    }
    let pairs: Vec<(usize, usize)> = file[2..first].chunks(8).map(|p| (number_at(p, 0, 4), number_at(p, 4, 4))).collect();
    // The owner of each byte: the directory, or an entry.
    let mut owned = vec![false; file.len()];
    owned[..first].fill(true);
    let mut all = Vec::new();
    for (offset, length) in &pairs {
        let range = *offset..offset + length;
        if range.end > file.len() {
            return Err(Damage::PastTheEnd);
        }
        if owned[range.clone()].iter().any(|&o| o) {
            return Err(if range.start < first { Damage::InDirectory } else { Damage::Overlap });
        }
        owned[range.clone()].fill(true);
        let bytes = &file[range.clone()];
        // Under six bytes there is no count.
        if bytes.len() < 6 {
            return Err(Damage::Length);
        }
        let n = number_at(bytes, 4, 2);
        if n > 256 {
            return Err(Damage::Blocks);
        }
        if bytes.len() != entry_size(n) {
            return Err(Damage::Length);
        }
        all.push(range);
    }
    let mut sorted = pairs.clone();
    sorted.sort();
    if sorted != pairs {
        return Err(Damage::Unsorted);
    }
    Ok(all)
}

/// What the count of a file's entries answers.
pub fn count(file: &[u8]) -> Counted {
    match places(file) {
        Ok(all) => Counted { answer: 0, entries: all.len() as u32 },
        Err(_) => Counted { answer: 10, entries: 0 },
    }
}

/// What the reader of a file answers.
pub fn find(file: &[u8], index: u32) -> Stretch {
    match places(file) {
        Ok(all) => match all.get(index as usize) {
            Some(r) => Stretch { answer: 0, offset: r.start as u32, length: r.len() as u32 },
            None => Stretch { answer: 0, offset: 0, length: 0 },
        },
        Err(_) => Stretch { answer: 10, offset: 0, length: 0 },
    }
}

/// The entries that stand one after another in these bytes, or the number that the writer gives.
pub fn entries_of(count: u32, bytes: &[u8]) -> Result<Vec<&[u8]>, u32> {
    let mut all = Vec::new();
    let mut rest = bytes;
    for _ in 0..count {
        if rest.len() < 6 {
            return Err(2);
        }
        let n = number_at(rest, 4, 2);
        if n > 256 {
            return Err(1);
        }
        if rest.len() < entry_size(n) {
            return Err(2);
        }
        let (entry, behind) = rest.split_at(entry_size(n));
        // Unpacking is refused by a padding bit alone.
        if unpack(Shape::base(n as u32), &entry[6..]).is_none() {
            return Err(8);
        }
        all.push(entry);
        rest = behind;
    }
    if rest.is_empty() {
        Ok(all)
    } else {
        Err(2)
    }
}

/// The file of these entries, behind each of them so many bytes of a gap, and the first behind the directory too.
pub fn file_of(entries: &[&[u8]], gaps: &[Vec<u8>]) -> Vec<u8> {
    let gap = |i: usize| gaps.get(i).map_or(&[][..], |g| &g[..]);
    let mut places = Vec::new();
    let mut body = gap(0).to_vec();
    for (i, entry) in entries.iter().enumerate() {
        places.push((2 + 8 * entries.len() + body.len(), entry.len()));
        body.extend_from_slice(entry);
        body.extend_from_slice(gap(i + 1));
    }
    let mut file = (entries.len() as u16).to_be_bytes().to_vec();
    for (offset, length) in places {
        file.extend((offset as u32).to_be_bytes());
        file.extend((length as u32).to_be_bytes());
    }
    file.extend(body);
    file
}

/// What the writer answers, and its output.
pub fn write(entries: u32, bytes: &[u8], before: &[u8]) -> (Written, Vec<u8>) {
    let refused = |number| (Written { answer: number, length: 0 }, before.to_vec());
    let all = match entries_of(entries, bytes) {
        Ok(all) => all,
        Err(number) => return refused(number),
    };
    if all.len() > MOST_ENTRIES {
        return refused(11);
    }
    let file = file_of(&all, &[]);
    if file.len() > MOST_BYTES || file.len() > before.len() {
        return refused(11);
    }
    let mut after = before.to_vec();
    after[..file.len()].copy_from_slice(&file);
    (Written { answer: 0, length: file.len() as u32 }, after)
}
