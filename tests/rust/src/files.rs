//! The classes of cartridge files: files written and read back, entries that are refused, files with gaps, and damage of every
//! kind.

use crate::cartridge::{count, entry, entry_size, file_of, find, places, write, Damage, MOST_BYTES, MOST_ENTRIES};
use crate::compare::{some_room, Tally};
use crate::damage::Random;
use crate::ffi::{file_count, file_entry, file_write, Call, Counted, Stretch, Written};
use crate::second::Shape;

/// Clears the padding bits of a packed form of n blocks.
fn clear_padding(n: usize, packed: &mut [u8]) {
    for place in 0..18 {
        packed[place * (n + 2) + n + 1] &= 254;
    }
}

/// An entry of n blocks: any key, any bits, and in one of three cases zeros, so that a stretch which begins some bytes before or
/// behind it is an entry by its count and length too.
fn some_entry(random: &mut Random, n: usize) -> Vec<u8> {
    if random.below(3) == 0 {
        return entry(0, n as u16, &vec![0; 18 * (n + 2)]);
    }
    let mut packed = random.bytes(18 * (n + 2));
    clear_padding(n, &mut packed);
    entry(random.next() as u32, n as u16, &packed)
}

/// A block count: mostly few, 0 often, at times the most.
fn blocks(random: &mut Random) -> usize {
    match random.below(32) {
        0 => 256,
        1 => random.below(257),
        2..=9 => 0,
        _ => random.below(6),
    }
}

/// How many entries: mostly few, at times all that there may be.
fn some_count(random: &mut Random) -> usize {
    match random.below(16) {
        0 => 0,
        1 => MOST_ENTRIES - 1 + random.below(3),
        2 => random.below(MOST_ENTRIES + 3),
        _ => 1 + random.below(5),
    }
}

/// So many entries.
fn some_entries(random: &mut Random, count: usize) -> Vec<Vec<u8>> {
    (0..count)
        .map(|_| {
            let n = blocks(random);
            some_entry(random, n)
        })
        .collect()
}

/// The slices of some entries.
fn slices(entries: &[Vec<u8>]) -> Vec<&[u8]> {
    entries.iter().map(|e| &e[..]).collect()
}

/// Block counts of so many entries that make a file of just this size, where there are some.
fn exact_blocks(random: &mut Random, count: usize, size: usize) -> Option<Vec<usize>> {
    let left = size.checked_sub(2 + 8 * count + count * entry_size(0))?;
    let mut sum = left / 18;
    if left % 18 != 0 || sum > 256 * count {
        return None;
    }
    let mut all = vec![0; count];
    while sum > 0 {
        let k = random.below(count);
        let more = sum.min(256 - all[k]).min(1 + random.below(256));
        all[k] += more;
        sum -= more;
    }
    Some(all)
}

impl Tally {
    /// Calls the archive's writer on an output of so many random bytes, and compares answer, length and every byte of the output
    /// and of eight bytes behind it.
    pub fn compare_write(&mut self, random: &mut Random, entries: u32, bytes: &[u8], room: usize) -> (Written, Vec<u8>) {
        let before = random.bytes(room + 8);
        let mut out = before.clone();
        let answer = file_write(entries, bytes, &mut out[..room]);
        let (wanted, mut after) = write(entries, bytes, &before[..room]);
        after.extend(&before[room..]);
        assert!(
            answer == wanted && out == after,
            "class {}, seed {}, compared call {}: write of {entries} entries in {} bytes, output of {room}\n\
             the archive: {answer:?}\nthe second:  {wanted:?}\nfirst different byte: {:?}",
            self.class,
            self.seed,
            self.total(),
            bytes.len(),
            (0..out.len()).find(|&i| out[i] != after[i])
        );
        self.counts[8][answer.answer as usize] += 1;
        out.truncate(room);
        (answer, out)
    }

    /// Counts the entries of a file.
    pub fn compare_count(&mut self, file: &[u8]) -> Counted {
        let (answer, wanted) = (file_count(file), count(file));
        assert_eq!(answer, wanted, "class {}, seed {}: count of {file:?}", self.class, self.seed);
        self.counts[9][answer.answer as usize] += 1;
        answer
    }

    /// Finds an entry of a file.
    pub fn compare_entry(&mut self, file: &[u8], index: u32) -> Stretch {
        let (answer, wanted) = (file_entry(file, index), find(file, index));
        assert_eq!(answer, wanted, "class {}, seed {}: entry {index} of {file:?}", self.class, self.seed);
        self.counts[10][answer.answer as usize] += 1;
        answer
    }

    /// Counts a file's entries and finds some of them, past the last too.
    fn walk(&mut self, random: &mut Random, file: &[u8]) {
        let counted = self.compare_count(file).entries;
        let others = [0, counted.wrapping_sub(1), counted, counted + 1, random.below(70) as u32, random.next() as u32, u32::MAX];
        for index in others {
            self.compare_entry(file, index);
        }
    }

    /// Writes these entries and reads each of them back, in their order.
    fn written(&mut self, random: &mut Random, entries: &[Vec<u8>]) {
        let bytes = entries.concat();
        let size = 2 + 8 * entries.len() + bytes.len();
        let room = size + random.below(20);
        let (answer, mut file) = self.compare_write(random, entries.len() as u32, &bytes, room);
        if entries.len() > MOST_ENTRIES || size > MOST_BYTES {
            assert_eq!(answer, Written { answer: 11, length: 0 });
            return;
        }
        assert_eq!(answer, Written { answer: 0, length: size as u32 });
        file.truncate(size);
        assert_eq!(self.compare_count(&file), Counted { answer: 0, entries: entries.len() as u32 });
        for (i, entry) in entries.iter().enumerate() {
            let s = self.compare_entry(&file, i as u32);
            assert!(s.answer == 0 && file[s.offset as usize..][..s.length as usize] == entry[..], "entry {i}");
        }
        assert_eq!(self.compare_entry(&file, entries.len() as u32), Stretch { answer: 0, offset: 0, length: 0 });
    }
}

/// Records that were encoded and packed, written to a file, found there, unpacked and read: their payloads.
pub fn file_records(random: &mut Random, rounds: u64, tally: &mut Tally) {
    for _ in 0..rounds / 8 {
        let mut images = Vec::new();
        let mut entries = Vec::new();
        for key in 0..random.below(6) {
            let n = blocks(random) as u32;
            let image = tally.record(random, n);
            let (_, packed) = tally.compare(random, Call::Pack, n, &image, Shape::base(n).packed_size());
            entries.push(entry(key as u32, n as u16, &packed));
            images.push(image);
        }
        tally.written(random, &entries);
        let file = file_of(&slices(&entries), &[]);
        for (i, image) in images.iter().enumerate() {
            let s = tally.compare_entry(&file, i as u32);
            let bytes = &file[s.offset as usize..][..s.length as usize];
            let n = u32::from(bytes[4]) << 8 | u32::from(bytes[5]);
            let (_, out) = tally.compare(random, Call::Unpack, n, &bytes[6..], image.len());
            assert!(out == *image, "entry {i}");
            let room = Shape::base(n).payload_size();
            assert_eq!(tally.compare(random, Call::Read, n, &out, room).0.answer, 0);
        }
    }
}

/// Files of 0 to 66 entries, written and read back.
pub fn files_written(random: &mut Random, rounds: u64, tally: &mut Tally) {
    for _ in 0..rounds {
        let count = some_count(random);
        let entries = some_entries(random, count);
        tally.written(random, &entries);
    }
}

/// Entries that the writer refuses: up to three things wrong at once, of which the first in checking order counts.
pub fn file_refusals(random: &mut Random, rounds: u64, tally: &mut Tally) {
    for _ in 0..2 * rounds {
        let count = some_count(random);
        let mut entries = some_entries(random, count);
        let mut number = count as u32;
        for _ in 0..random.below(4) {
            let k = random.below(entries.len().max(1));
            if k == entries.len() {
                break;
            }
            let n = usize::from(entries[k][4]) << 8 | usize::from(entries[k][5]);
            match random.below(6) {
                0 => entries[k][4..6].copy_from_slice(&(257 + random.below(65536 - 257) as u16).to_be_bytes()),
                1 => entries[k][4..6].copy_from_slice(&(random.below(257) as u16).to_be_bytes()),
                2 if n <= 256 => {
                    let place = 6 + random.below(18) * (n + 2) + n + 1;
                    if let Some(byte) = entries[k].get_mut(place) {
                        *byte |= 1;
                    }
                }
                3 => number = [number.wrapping_add(1), number.wrapping_sub(1), u32::MAX, random.next() as u32][random.below(4)],
                4 => drop(entries[k].pop()),
                _ => {}
            }
        }
        let mut bytes = entries.concat();
        match random.below(10) {
            0 => bytes.push(random.next() as u8),
            1 => bytes.truncate(random.below(bytes.len() + 1)),
            2 => bytes.extend(random.bytes(42)),
            // One entry more, of which there are up to eight bytes: its count or not.
            3 | 4 => {
                number = number.wrapping_add(1);
                bytes.extend(vec![[0, 0xff][random.below(2)]; random.below(9)]);
            }
            _ => {}
        }
        let room = some_room(random, 2 + 8 * count + bytes.len());
        tally.compare_write(random, number, &bytes, room);
    }
}

/// The limits: files of just 65,536 bytes and just more, 0 to 65 entries, outputs that are one byte short, and what comes before 11.
pub fn file_limits(random: &mut Random, rounds: u64, tally: &mut Tally) {
    for _ in 0..1 + rounds / 1000 {
        // More bytes and more entries than fit, and the last entry refused.
        for (count, n) in [(15, 256), (66, 0)] {
            let entries: Vec<Vec<u8>> = (0..count).map(|_| some_entry(random, n)).collect();
            let bytes = entries.concat();
            let mut padded = bytes.clone();
            *padded.last_mut().unwrap() |= 1;
            let mut long = bytes.clone();
            let head = bytes.len() - entry_size(n);
            long[head + 4..head + 6].copy_from_slice(&[1, 1]);
            let cut = bytes[..bytes.len() - 1].to_vec();
            for (bytes, number) in [(bytes, 11), (padded, 8), (long, 1), (cut, 2)] {
                let (answer, _) = tally.compare_write(random, count as u32, &bytes, MOST_BYTES);
                assert_eq!(answer.answer, number);
            }
        }
        for count in 0..=MOST_ENTRIES + 1 {
            // A written file has an even length.
            for size in [MOST_BYTES - 2, MOST_BYTES, MOST_BYTES + 2] {
                let Some(all) = exact_blocks(random, count, size) else { continue };
                let entries: Vec<Vec<u8>> = all.into_iter().map(|n| some_entry(random, n)).collect();
                let bytes = entries.concat();
                let fits = size <= MOST_BYTES && count <= MOST_ENTRIES;
                for room in [size - 1, size, size + 1] {
                    let (answer, _) = tally.compare_write(random, count as u32, &bytes, room);
                    assert_eq!(answer.answer, if fits && size <= room { 0 } else { 11 });
                }
                let mut file = file_of(&slices(&entries), &[]);
                tally.walk(random, &file);
                file.push(0);
                tally.walk(random, &file);
            }
            let entries: Vec<Vec<u8>> = (0..count).map(|_| some_entry(random, 0)).collect();
            let bytes = entries.concat();
            let size = 2 + 50 * count;
            for room in [0, size - 1, size, size + 1, MOST_BYTES, MOST_BYTES + 1] {
                tally.compare_write(random, count as u32, &bytes, room);
            }
            // Trailing bytes up to the limit and one past it.
            let mut file = file_of(&slices(&entries), &[]);
            tally.walk(random, &file);
            file.resize(MOST_BYTES, 7);
            tally.walk(random, &file);
            assert_eq!(tally.compare_count(&file).answer, if count <= MOST_ENTRIES { 0 } else { 10 });
            file.push(7);
            tally.walk(random, &file);
            assert_eq!(tally.compare_count(&file).answer, 10);
        }
    }
}

/// Files that break one rule and no other: entries of zeros, each stretch of which is an entry by count and length.
pub fn file_rules(random: &mut Random, rounds: u64, tally: &mut Tally) {
    let put = |file: &mut [u8], at: usize, x: usize| file[at..at + 4].copy_from_slice(&(x as u32).to_be_bytes());
    for _ in 0..rounds {
        let count = 2 + random.below(4);
        let zeros = vec![entry(0, 0, &[0; 36]); count];
        let file = file_of(&slices(&zeros), &vec![vec![0; random.below(3)]; count + 1]);
        let all = places(&file).expect("a file");
        let k = 1 + random.below(count - 1);
        let by = 1 + random.below(41);
        let first = 2 + 8 * count;
        let mut broken = [file.clone(), file.clone(), file.clone(), file.clone(), file.clone()];
        // An entry that begins within the one before it, the first within the directory, the last past the file, and two
        // that change places; the last by the file's end.
        put(&mut broken[0], 2 + 8 * k, all[k - 1].end - by);
        put(&mut broken[1], 2, first - 1 - random.below(first.min(4)));
        put(&mut broken[2], first - 8, file.len() - 42 + by);
        put(&mut broken[3], 2 + 8 * k, all[k - 1].start);
        put(&mut broken[3], 2 + 8 * (k - 1), all[k].start);
        broken[4].truncate(all[count - 1].end - by);
        for other in &broken {
            assert_eq!(tally.compare_count(other).answer, 10);
            tally.walk(random, other);
        }
        // 257 blocks, with the length that goes with them.
        for n in [256, 257] {
            let long = entry(0, n, &vec![0; 18 * (n as usize + 2)]);
            let file = file_of(&[&zeros[0], &long, &zeros[1]], &[]);
            assert_eq!(tally.compare_count(&file).answer, if n == 256 { 0 } else { 10 });
            tally.walk(random, &file);
            let (answer, _) = tally.compare_write(random, 2, &[&zeros[0][..], &long].concat(), 5000);
            assert_eq!(answer.answer, if n == 256 { 0 } else { 1 });
        }
    }
}

/// Files with gaps, and then one or two numbers of the directory or of an entry's head moved, entries exchanged, or the file cut.
pub fn file_layouts(random: &mut Random, rounds: u64, tally: &mut Tally) {
    for _ in 0..2 * rounds {
        let count = some_count(random);
        let entries = some_entries(random, count);
        let gaps: Vec<Vec<u8>> = (0..=count)
            .map(|_| {
                let length = if random.below(2) == 0 { 0 } else { random.below(12) };
                random.bytes(length)
            })
            .collect();
        let mut file = file_of(&slices(&entries), &gaps);
        let places = places(&file);
        if let Ok(all) = &places {
            for (i, range) in all.iter().enumerate() {
                let s = tally.compare_entry(&file, i as u32);
                assert!(s.offset as usize == range.start && file[range.clone()] == entries[i][..], "entry {i}");
            }
        }
        for _ in 0..random.below(3) {
            let Ok(all) = &places else { break };
            if all.is_empty() {
                break;
            }
            let k = random.below(all.len());
            let at = 2 + 8 * k;
            let (offset, length) = (all[k].start as u32, all[k].len() as u32);
            let near = [1, 2, 6, 17, 18, 19, 36][random.below(7)];
            let mut put = |at: usize, x: u32| file[at..at + 4].copy_from_slice(&x.to_be_bytes());
            match random.below(14) {
                0 => put(at, offset + near),
                1 => put(at, offset - near.min(offset)),
                2 => put(at + 4, length + near),
                3 => put(at + 4, length - near),
                4 => put(at, random.next() as u32),
                5 => put(at + 4, random.next() as u32),
                6 => put(at, u32::MAX - random.below(3) as u32 * length),
                7 => put(at, all[random.below(all.len())].start as u32),
                8 => {
                    let other = 2 + 8 * random.below(all.len());
                    let mut first = [0; 8];
                    first.copy_from_slice(&file[at..at + 8]);
                    file.copy_within(other..other + 8, at);
                    file[other..other + 8].copy_from_slice(&first);
                }
                9 => {
                    let n = random.below(300) as u16;
                    file[all[k].start + 4..][..2].copy_from_slice(&n.to_be_bytes());
                }
                10 => file[0] = random.below(3) as u8,
                11 => file[1] = random.below(67) as u8,
                12 => file[1] = (count + 1 + random.below(2)) as u8,
                // The first entry right behind a directory that is one entry longer: it begins in it.
                _ => file[1] = file[1].wrapping_add(1),
            }
        }
        match random.below(8) {
            0 => file.truncate(random.below(file.len() + 1)),
            1 => drop(file.pop()),
            2 => file.push(0),
            _ => {}
        }
        tally.walk(random, &file);
    }
}

/// Bytes that are no file: noise, with a count that is small or not.
pub fn file_noise(random: &mut Random, rounds: u64, tally: &mut Tally) {
    for _ in 0..rounds {
        let size = random.below(200);
        let mut file = random.bytes(size);
        if size > 1 && random.below(2) == 0 {
            file[..2].copy_from_slice(&(random.below(3) as u16).to_be_bytes());
        }
        tally.walk(random, &file);
    }
}

/// A small file, each byte of it set to each other value, and each truncation. What it is damaged by is of every kind.
pub fn every_file_byte(random: &mut Random, rounds: u64, tally: &mut Tally) {
    let mut seen = Vec::new();
    for round in 0..1 + rounds / 2400 {
        let gap = random.bytes(1);
        let entries: Vec<Vec<u8>> = [0, 1, 0].into_iter().map(|n| some_entry(random, n)).collect();
        let zeros = vec![entry(0, 0, &[0; 36]); 3];
        for end in 0..=file_of(&slices(&zeros), &[]).len() {
            tally.walk(random, &file_of(&slices(&zeros), &[])[..end]);
        }
        for gaps in [vec![], vec![vec![], gap.clone(), vec![], gap.clone()]] {
            let file = file_of(&slices(&entries), &gaps);
            for end in 0..=file.len() {
                tally.walk(random, &file[..end]);
                seen.extend(places(&file[..end]).err());
            }
            for i in 0..file.len() {
                // All values of the directory and of the entries' heads, and some of the rest.
                let own = entries.iter().map(Vec::len).sum::<usize>();
                let step = if i < file.len() - own || round == 0 { 1 } else { 37 };
                for value in (0..=255u8).step_by(step) {
                    let mut other = file.clone();
                    other[i] = value;
                    for index in [0, 1, 2, 3] {
                        tally.compare_entry(&other, index);
                    }
                    tally.compare_count(&other);
                    seen.extend(places(&other).err());
                }
            }
        }
        // Two entries exchanged in the directory.
        let mut file = file_of(&slices(&entries), &[]);
        let (first, second) = (file[2..10].to_vec(), file[10..18].to_vec());
        file[2..10].copy_from_slice(&second);
        file[10..18].copy_from_slice(&first);
        tally.walk(random, &file);
        seen.extend(places(&file).err());
        let mut long = file_of(&slices(&entries), &[]);
        long.resize(MOST_BYTES + 1, 0);
        tally.walk(random, &long);
        seen.extend(places(&long).err());
    }
    use Damage::*;
    for kind in [TooLong, NoCount, TooManyEntries, DirectoryCut, Unsorted, InDirectory, PastTheEnd, Overlap, Blocks, Length] {
        assert!(seen.contains(&kind), "no file was damaged by {kind:?}");
    }
}
