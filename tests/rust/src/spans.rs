//! The classes of flags by stretch: tables of pairs, in order or not, on records whose cells are damaged and lost.

use crate::compare::{bad_cells, few_blocks, some_blocks, some_counts, some_length, some_room, some_tracks, tracks_of, Tally};
use crate::damage::{damage, lose, Random};
use crate::ffi::{Answer, Call, Span, LOST};
use crate::second::{base, changed, code, flagged_cells, in_order, number, tracks_from, windows_coded, Shape};

fn span(offset: usize, length: usize) -> Span {
    Span { offset: offset as u32, length: length as u32 }
}

/// The pairs of these cells, in order: stretches that touch are one pair, or two in one of four cases.
fn pairs(random: &mut Random, flagged: &[bool]) -> Vec<Span> {
    let mut all = Vec::new();
    let mut i = 0;
    while i < flagged.len() {
        let length = flagged[i..].iter().take_while(|&&f| f).count();
        match length {
            0 => i += 1,
            1 => all.push(span(i, 1)),
            _ => {
                let first = if random.below(4) == 0 { 1 + random.below(length) } else { length };
                all.push(span(i, first));
                if first < length {
                    all.push(span(i + first, length - first));
                }
            }
        }
        i += length;
    }
    all
}

/// Turns some of the flagged cells over, or all, or loses them.
fn spoil(random: &mut Random, image: &mut [u8], flagged: &[bool]) {
    let way = random.below(4);
    for i in (0..image.len()).filter(|&i| flagged[i]) {
        match way {
            0 => image[i] ^= 1,
            1 => image[i] = [0, 1, LOST][random.below(3)],
            _ => image[i] ^= random.below(2) as u8,
        }
    }
}

/// A stretch of a track: somewhere and up to 60 cells, the track's end, or its tail.
fn some_stretch(random: &mut Random, shape: Shape, g: usize) -> (usize, usize) {
    let l = shape.length();
    let from = random.below(l);
    let (from, to) = match random.below(8) {
        0 => (from, l),
        1 => (shape.positions, l),
        2 => (0, from + 1),
        3 => (from, from + 1),
        _ => (from, (from + 1 + random.below(60)).min(l)),
    };
    (g * l + from, g * l + to)
}

/// Flagged cells: stretches of tracks that change along the record. About every other one passes the rule on windows.
fn some_cells(random: &mut Random, shape: Shape) -> Vec<bool> {
    let mut flagged = vec![false; shape.size()];
    let most = 1 + random.below(6);
    for _ in 0..random.below(most + 1) {
        let word = some_tracks(random, shape, 4);
        for g in (0..shape.all_tracks()).filter(|g| word >> g & 1 == 1) {
            let (from, to) = some_stretch(random, shape, g);
            let before = flagged.clone();
            flagged[from..to].fill(true);
            // In three of four cases what would be too many is left out.
            if random.below(4) != 0 && !windows_coded(shape, &flagged) {
                flagged = before;
            }
        }
    }
    flagged
}

impl Tally {
    /// A record whose flagged cells alone are spoiled: where the windows have a code it comes back, with these cells
    /// changed, else the number is 6.
    fn stretches(&mut self, random: &mut Random, blocks: u32, flagged: &[bool]) {
        let shape = Shape::base(blocks);
        let record = self.record(random, blocks);
        let mut image = record.clone();
        spoil(random, &mut image, flagged);
        let spans = pairs(random, flagged);
        let room = image.len() + random.below(20);
        let (answer, out) = self.compare(random, Call::RepairSpans(&spans), blocks, &image, room);
        let (mask, cells) = changed(shape, &image, &record);
        let wanted = match windows_coded(shape, flagged) {
            _ if 64 < spans.len() => number(9, 0),
            false => number(6, 0),
            true => Answer { mask, cells, ..number(0, 0) },
        };
        assert_eq!(answer, wanted, "blocks {blocks}, {spans:?}");
        assert!(answer.answer != 0 || out[..image.len()] == record, "blocks {blocks}, {spans:?}");
    }
}

/// A table that is in order or just not: so many pairs of short cells anywhere, some touching, some over a track's end, and
/// then perhaps one pair moved, emptied, taken past the image, put twice, exchanged with another, or of the largest numbers.
fn some_table(random: &mut Random, cells: usize) -> Vec<Span> {
    let count = match random.below(8) {
        0 => 63 + random.below(3),
        1 => random.below(66),
        _ => random.below(8),
    };
    let mut spans: Vec<Span> = Vec::new();
    let mut at = 0;
    let gap = 2 * cells / (count + 1);
    for k in 0..count {
        let left = cells - at;
        let rest = count - k;
        if left < rest {
            break;
        }
        let from = at + if random.below(4) == 0 { 0 } else { random.below(gap.min(left - rest) + 1) };
        let room = cells - from - (rest - 1);
        let most = 1 << random.below(7);
        let length = 1 + random.below(room.min(most));
        spans.push(span(from, length));
        at = from + length;
    }
    if spans.is_empty() || random.below(2) == 0 {
        return spans;
    }
    let k = random.below(spans.len());
    let end = spans[k].offset + spans[k].length;
    match random.below(10) {
        0 => spans[k].length = 0,
        1 => spans[k].length = u32::MAX - random.below(2) as u32 * spans[k].offset,
        2 => spans[k].offset = u32::MAX,
        3 => spans[k] = Span { offset: u32::MAX, length: u32::MAX },
        4 => spans.insert(k + 1, Span { offset: end - 1, length: 1 }),
        5 => spans.insert(k + 1, Span { offset: end, length: 1 }),
        6 => spans.insert(k, spans[k]),
        7 => spans.swap(k, 0),
        8 => *spans.last_mut().unwrap() = span(cells - 1, 1),
        _ => *spans.last_mut().unwrap() = span(cells - 1, 2),
    }
    spans
}

/// Random tables of 0 to 66 pairs, in order or not, on damaged records and on noise.
pub fn span_tables(random: &mut Random, rounds: u64, tally: &mut Tally) {
    for _ in 0..rounds {
        let blocks = some_blocks(random);
        let shape = Shape::base(blocks);
        let record = tally.record(random, blocks);
        let spans = some_table(random, shape.size());
        let mut image = record.clone();
        match random.below(4) {
            0 => image.iter_mut().for_each(|x| *x = random.below(2) as u8),
            1 => {
                let tracks = some_tracks(random, shape, 4);
                damage(random, shape, &mut image, tracks);
            }
            _ if in_order(&spans, image.len()) => {
                let flagged = flagged_cells(&spans, &image);
                spoil(random, &mut image, &flagged);
            }
            _ => {}
        }
        let room = image.len() + random.below(20);
        tally.compare(random, Call::RepairSpans(&spans), blocks, &image, room);
    }
}

/// Bursts in tracks that change along the record, so that more than four are flagged in all: the record comes back where
/// every window has a code, also with one cell beside the flags wrong, which is then 7.
pub fn span_bursts(random: &mut Random, rounds: u64, tally: &mut Tally) {
    for round in 0..rounds {
        let blocks = if round % 16 == 0 { some_blocks(random) } else { few_blocks(random) };
        let shape = Shape::base(blocks);
        let flagged = some_cells(random, shape);
        tally.stretches(random, blocks, &flagged);
        // One cell more is wrong.
        let mut image = tally.record(random, blocks);
        spoil(random, &mut image, &flagged);
        let one = random.below(image.len());
        if image[one] != LOST {
            image[one] ^= 1;
        }
        let spans = pairs(random, &flagged);
        tally.compare(random, Call::RepairSpans(&spans), blocks, &image, shape.size());
    }
}

/// The rule on windows: two groups of tracks, together too many, one so many positions after the other. 16 apart each
/// window has the one or the other; less and one has both. Elimination tells of every table that passes on a short record
/// that its flagged cells leave no doubt.
pub fn span_windows(random: &mut Random, rounds: u64, tally: &mut Tally) {
    for round in 0..rounds {
        let blocks = 1 + random.below(6) as u32;
        let shape = Shape::base(blocks);
        let l = shape.length();
        let wide = [[3, 1], [1, 3], [2, 2], [3, 0], [0, 3]][random.below(5)];
        let [a, b] = [0, 1].map(|set| tracks_of(random, shape, set, wide[set], 0));
        let set = if wide[0] == 3 { 0 } else if wide[1] == 3 { 1 } else { random.below(2) };
        let more = tracks_of(random, shape, set, 1, a | b);
        // The first group ends with the cell at `end`, the second begins so many positions after it.
        let apart = 13 + random.below(6);
        if l <= apart + 1 {
            continue;
        }
        let end = random.below(l - apart);
        let mut flagged = vec![false; shape.size()];
        for g in (0..18).filter(|g| (a | b) >> g & 1 == 1) {
            let from = end - random.below(end + 1);
            flagged[g * l..][from..=end].fill(true);
        }
        for g in (0..18).filter(|g| more >> g & 1 == 1) {
            let to = end + apart + 1 + random.below(l - end - apart);
            flagged[g * l..][end + apart..to].fill(true);
        }
        assert_eq!(windows_coded(shape, &flagged), 16 <= apart, "blocks {blocks}, apart {apart}");
        assert_eq!(code(shape, tracks_from(shape, &flagged, end, 16)) != 0, 16 <= apart);
        tally.stretches(random, blocks, &flagged);
        // Tables of any kind, against elimination.
        let flagged = some_cells(random, shape);
        if round % 8 == 0 && windows_coded(shape, &flagged) {
            assert_eq!(base(blocks).doubt(&flagged), 0, "blocks {blocks}");
        }
    }
}

/// Lost cells, which flag themselves alone, beside pairs and without: more tracks have one than repair takes.
pub fn span_lost_cells(random: &mut Random, rounds: u64, tally: &mut Tally) {
    for _ in 0..rounds {
        let blocks = some_blocks(random);
        let shape = Shape::base(blocks);
        let mut image = tally.record(random, blocks);
        let flagged = some_cells(random, shape);
        let spans: Vec<Span> = pairs(random, &flagged).into_iter().filter(|_| random.below(2) == 0).collect();
        let in_pairs = flagged_cells(&spans, &image);
        spoil(random, &mut image, &in_pairs);
        match random.below(4) {
            0 => {
                let tracks = some_tracks(random, shape, 4);
                lose(random, shape, &mut image, tracks);
            }
            1 => {
                // A lost cell in each track, far apart or not.
                for g in 0..shape.all_tracks() {
                    image[g * shape.length() + random.below(shape.length())] = LOST;
                }
            }
            _ => (0..image.len()).filter(|&i| flagged[i]).for_each(|i| image[i] = LOST),
        }
        if random.below(8) == 0 {
            let one = random.below(image.len());
            image[one] = random.below(2) as u8;
        }
        tally.compare(random, Call::RepairSpans(&spans), blocks, &image, shape.size());
        tally.compare(random, Call::RepairSpans(&[]), blocks, &image, shape.size());
    }
    // Every track of a record of 64 blocks has a lost cell, one in every 20 positions: all come back.
    let shape = Shape::base(64);
    let record = tally.record(random, 64);
    let mut image = record.clone();
    for g in 0..18 {
        image[g * shape.length() + 20 * g] = LOST;
    }
    let (mask, cells) = changed(shape, &image, &record);
    assert_eq!((mask, cells), ((1 << 18) - 1, 18));
    let (answer, out) = tally.compare(random, Call::RepairSpans(&[]), 64, &image, image.len());
    assert_eq!(answer, Answer { mask, cells, ..number(0, 0) });
    assert!(out == record);
    let (answer, _) = tally.compare(random, Call::Repair(0), 64, &image, image.len());
    assert_eq!(answer, number(6, 0));
}

/// Pairs that are whole tracks, one each or one for tracks that follow each other: the answer and the output are repair's.
pub fn span_tracks(random: &mut Random, rounds: u64, tally: &mut Tally) {
    for round in 0..rounds {
        let blocks = few_blocks(random);
        let shape = Shape::base(blocks);
        let l = shape.length();
        let flags = if round % 4 == 0 { random.next() as u32 & 0x3ffff } else { some_tracks(random, shape, 5) };
        let mut image = tally.record(random, blocks);
        let others = if random.below(4) == 0 { some_tracks(random, shape, 1) } else { 0 };
        damage(random, shape, &mut image, flags | others);
        let lost = flags & random.next() as u32;
        lose(random, shape, &mut image, lost);
        let mut spans: Vec<Span> = Vec::new();
        for g in (0..18).filter(|g| flags >> g & 1 == 1) {
            match spans.last_mut() {
                Some(last) if (last.offset + last.length) as usize == g * l && random.below(2) == 0 => last.length += l as u32,
                _ => spans.push(span(g * l, l)),
            }
        }
        let room = image.len();
        let by_cells = tally.compare(random, Call::RepairSpans(&spans), blocks, &image, room);
        let by_tracks = tally.compare(random, Call::Repair(flags), blocks, &image, room);
        assert_eq!(by_cells.0, by_tracks.0, "flags {flags:#x}");
        assert!(by_tracks.0.answer == 6 || by_cells.1 == by_tracks.1, "flags {flags:#x}");
    }
}

/// Every pair of a record of no blocks, and every cell of one of one block, flagged and turned over.
pub fn every_span(random: &mut Random, _: u64, tally: &mut Tally) {
    for offset in 0..270 {
        for length in 1..=270 - offset {
            let mut flagged = vec![false; 270];
            flagged[offset..][..length].fill(true);
            let mut image = vec![0; 270];
            spoil(random, &mut image, &flagged);
            tally.compare(random, Call::RepairSpans(&[span(offset, length)]), 0, &image, 270);
        }
    }
    let record = tally.record(random, 1);
    for i in 0..record.len() {
        for lost in [false, true] {
            let mut image = record.clone();
            image[i] = if lost { LOST } else { 1 - record[i] };
            let spans = if lost { vec![] } else { vec![span(i, 1)] };
            let (answer, out) = tally.compare(random, Call::RepairSpans(&spans), 1, &image, image.len());
            assert_eq!(answer, Answer { mask: 1 << (i / 23), cells: 1, ..number(0, 0) }, "cell {i}");
            assert!(out == record, "cell {i}");
        }
    }
}

/// Block counts, lengths, cell values and tables that are right or not, in every mixture.
pub fn span_lengths(random: &mut Random, rounds: u64, tally: &mut Tally) {
    for _ in 0..rounds {
        let (near, blocks) = some_counts(random);
        let shape = base(near).shape;
        let (_, mut image) = random.record(base(near));
        let spans = some_table(random, image.len());
        if random.below(4) == 0 {
            let tracks = some_tracks(random, shape, 6);
            lose(random, shape, &mut image, tracks);
        }
        bad_cells(random, &mut image, 3);
        let room = some_room(random, image.len());
        some_length(random, &mut image);
        tally.compare(random, Call::RepairSpans(&spans), blocks, &image, room);
    }
}
