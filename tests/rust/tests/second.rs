//! The second decoder against the rules themselves, for other shapes than document 01's: unequal sets, no blocks, open
//! tails, and unknown cells that are no whole tracks. Its packing against note 1 of document 02, its lost cells against
//! note 2, its record of no blocks against note 3, its flags by stretch against note 5 and its ceilings against note 7, worked
//! out by hand.

use axp_tests::damage::{damage, lose, rounds, Random};
use axp_tests::ffi::{Answer, Call, Span, LOST};
use axp_tests::second::{
    base, cautious_choices, choices, choices_within, code, encode, expected, former_trace, in_order, is_bit, lost_tracks, number,
    pack, payload, reached, reading, tracks_from, unpack, windows_coded, Closing, Reading, Rules, Shape,
};

const SIZES: [(usize, usize); 5] = [(1, 1), (1, 7), (7, 3), (3, 2), (7, 7)];
const CLOSINGS: [Closing; 2] = [Closing::Closed, Closing::Open];

/// At most three flags a set and four in all.
fn within(shape: Shape, flags: u32) -> bool {
    let [a, b] = [0, 1].map(|set| (flags & shape.word(set)).count_ones());
    a <= 3 && b <= 3 && a + b <= 4
}

/// The flags that leave no doubt. Under an open tail these are not three beside a flagged track 0 of the other set.
fn sure(shape: Shape, flags: u32) -> bool {
    let three_beside = |set: usize| {
        (flags & shape.word(set)).count_ones() == 3 && flags >> shape.track_number(1 - set, 0) & 1 == 1
    };
    within(shape, flags) && (shape.closing == Closing::Closed || !three_beside(0) && !three_beside(1))
}

/// A random record is recovered, whatever stands in the unknown cells; with one more cell turned over, that could have
/// been unknown too, there is none.
fn recovered(random: &mut Random, rules: &Rules, unknown: &[bool]) {
    let (_, image) = random.record(rules);
    let mut damaged = image.clone();
    (0..image.len()).filter(|&c| unknown[c]).for_each(|c| damaged[c] = random.next() as u8);
    assert!(rules.peel(unknown, &damaged) == Some(image), "{:?}", rules.shape);
    let cell = random.below(unknown.len());
    let mut more = unknown.to_vec();
    more[cell] = true;
    if more != unknown && rules.doubt(&more) == 0 {
        damaged[cell] ^= 1;
        assert!(rules.peel(unknown, &damaged).is_none(), "{:?}, cell {cell}", rules.shape);
    }
}

#[test]
fn examples() {
    // The ones of A and of B, as pairs of position and track.
    let ones = |shape: Shape, a: &[(usize, usize)], b: &[(usize, usize)]| {
        let mut image = vec![0u8; shape.size()];
        a.iter().for_each(|&(m, t)| image[shape.index(0, t, m)] = 1);
        b.iter().for_each(|&(m, t)| image[shape.index(1, t, m)] = 1);
        image
    };
    // One data track a set: A(m,0) + A(m-1,1) + B(m-3,0) + B(m-2,1), and with the sets exchanged.
    for closing in CLOSINGS {
        let shape = Shape { t1: 1, t2: 1, positions: 8, closing };
        let a = [(0, 1), (0, 2), (1, 0), (1, 2), (5, 0), (5, 2), (7, 0), (7, 2)];
        let mut b = vec![(2, 0), (2, 2), (4, 0), (4, 2), (8, 0), (10, 0)];
        if closing == Closing::Closed {
            b.extend([(8, 2), (10, 2)]);
        }
        assert_eq!(encode(&Rules::new(shape), &[128, 0]), ones(shape, &a, &b));
    }
    // One in A and two in B: A(m,0) + A(m-1,1) + B(m-4,0) + B(m-3,1) + B(m-2,2),
    // and B(m,0) + B(m-1,1) + B(m-2,2) + A(m-4,0) + A(m-3,1).
    let shape = Shape { t1: 1, t2: 2, positions: 8, closing: Closing::Closed };
    let rules = Rules::new(shape);
    let a = [(0, 1), (0, 2), (1, 0), (1, 2), (7, 0), (7, 2), (9, 0), (9, 2)];
    let b = [(3, 0), (3, 3), (5, 0), (5, 3), (11, 0), (11, 3)];
    assert_eq!(encode(&rules, &[128, 0, 0]), ones(shape, &a, &b));
    assert_eq!(encode(&rules, &[0, 0, 1]), ones(shape, &[(9, 0), (9, 2)], &[(7, 2), (7, 3), (9, 0), (9, 3)]));
}

#[test]
fn whole_tracks() {
    let mut random = Random::of("whole tracks");
    for (t1, t2) in SIZES {
        for positions in [0, 8, 16, 24] {
            for closing in CLOSINGS {
                let shape = Shape { t1, t2, positions, closing };
                let rules = Rules::new(shape);
                let (bytes, image) = random.record(&rules);
                assert!(rules.is_good(&image) && payload(shape, &image) == bytes, "{shape:?}");
                for _ in 0..rounds(2400) / 60 {
                    let flags = loop {
                        let count = random.below(5);
                        let flags = random.tracks(shape, count);
                        if sure(shape, flags) {
                            break flags;
                        }
                    };
                    recovered(&mut random, &rules, &rules.flagged(flags));
                }
            }
        }
    }
}

#[test]
fn stretches() {
    // Stretches that may run from one track into the next: within the limit in every window of lag + 1 positions.
    let mut random = Random::of("stretches");
    for (t1, t2) in SIZES {
        for _ in 0..rounds(2400) / 12 {
            let shape = Shape { t1, t2, positions: 8 * random.below(13), closing: Closing::Closed };
            let mut unknown = vec![false; shape.size()];
            for _ in 0..40 {
                let from = random.below(shape.size());
                let to = (from + 1 + random.below(40)).min(shape.size());
                let before = unknown.clone();
                unknown[from..to].fill(true);
                let window = |m: usize| tracks_from(shape, &unknown, m, shape.lag() + 1);
                if !(0..shape.length()).all(|m| within(shape, window(m))) {
                    unknown = before;
                }
            }
            recovered(&mut random, &Rules::new(shape), &unknown);
        }
    }
}

#[test]
fn scattered_cells() {
    // So many that they just leave no doubt: peeling stalls now and then.
    let mut random = Random::of("scattered cells");
    for (t1, t2) in SIZES {
        for closing in CLOSINGS {
            let rules = Rules::new(Shape { t1, t2, positions: 16, closing });
            for _ in 0..rounds(2400) / 80 {
                let mut unknown = vec![true; rules.shape.size()];
                while rules.doubt(&unknown) > 0 {
                    unknown.iter_mut().for_each(|u| *u &= random.below(8) > 0);
                }
                recovered(&mut random, &rules, &unknown);
            }
        }
    }
}

#[test]
fn doubt_of_all_flags() {
    for (t1, t2) in [(1, 1), (1, 2), (2, 1), (3, 2)] {
        let long = 2 * (t1 + t2 + 1) + 1;
        for positions in [0, 1, 8, long, long + 1] {
            for closing in CLOSINGS {
                let shape = Shape { t1, t2, positions, closing };
                let rules = Rules::new(shape);
                for flags in 0..1 << shape.all_tracks() {
                    assert_eq!(within(shape, flags), code(shape, flags) != 0);
                    let doubt = rules.doubt(&rules.flagged(flags)) > 0;
                    if sure(shape, flags) {
                        assert!(!doubt, "{shape:?}, flags {flags:#x}");
                    } else if positions >= long {
                        assert!(doubt, "{shape:?}, flags {flags:#x}");
                    }
                }
            }
        }
    }
}

#[test]
fn three_beside_track_0() {
    // Seven data tracks a set, one block: of all flags within the limit these alone leave doubt, under an open tail.
    for closing in CLOSINGS {
        let shape = Shape { closing, ..Shape::base(1) };
        let rules = Rules::new(shape);
        for flags in (0..1 << 18).filter(|&flags| within(shape, flags)) {
            assert_eq!(rules.doubt(&rules.flagged(flags)) == 0, sure(shape, flags), "{closing:?}, flags {flags:#x}");
        }
    }
}

#[test]
fn no_blocks() {
    // The only good record is all zero.
    let mut random = Random::of("no blocks");
    for t1 in 1..=7 {
        for t2 in 1..=7 {
            for closing in CLOSINGS {
                let rules = Rules::new(Shape { t1, t2, positions: 0, closing });
                let (bytes, image) = random.record(&rules);
                assert!(bytes.is_empty() && image.iter().all(|&x| x == 0), "{:?}", rules.shape);
                let all = vec![true; image.len()];
                assert_eq!(rules.doubt(&all), 0, "{:?}", rules.shape);
                recovered(&mut random, &rules, &all);
            }
        }
    }
}

#[test]
fn no_blocks_by_trial() {
    // One data track a set: of all images of 18 cells one is good.
    for closing in CLOSINGS {
        let rules = Rules::new(Shape { t1: 1, t2: 1, positions: 0, closing });
        for ones in 0..1u32 << 18 {
            let image: Vec<u8> = (0..18).map(|c| (ones >> c & 1) as u8).collect();
            assert_eq!(rules.is_good(&image), ones == 0, "{closing:?}, ones {ones:#x}");
        }
    }
    // Seven: none with a single one or with two.
    let rules = base(0);
    assert!(rules.is_good(&[0; 270]));
    for first in 0..270 {
        for second in first..270 {
            assert!(!rules.is_good(&bytes(270, &[(first, 1), (second, 1)])), "cells {first} and {second}");
        }
    }
}

#[test]
#[should_panic(expected = "cells left over")]
fn two_records() {
    let rules = Rules::new(Shape::base(4));
    rules.peel(&rules.flagged(15), &vec![0; rules.shape.size()]);
}

#[test]
fn no_record() {
    // As many flags, and a vertical of the other set that is wrong.
    let rules = Rules::new(Shape::base(4));
    let mut image = vec![0; rules.shape.size()];
    image[rules.shape.index(1, 8, 0)] = 1;
    assert!(rules.peel(&rules.flagged(15), &image).is_none());
}

/// Bytes that are 0 but for these pairs of index and value.
fn bytes(size: usize, some: &[(usize, u8)]) -> Vec<u8> {
    let mut bytes = vec![0u8; size];
    some.iter().for_each(|&(i, value)| bytes[i] = value);
    bytes
}

#[test]
fn packed_cells() {
    // One block: a track has 23 cells in the image, so that B begins at 207, and 3 packed bytes.
    for (cell, byte, value) in [
        (0, 0, 128),    // A0, its first cells
        (1, 0, 64),
        (7, 0, 1),
        (8, 1, 128),
        (15, 1, 1),
        (16, 2, 128),
        (22, 2, 2),     // A0, its last cell
        (207, 3, 128),  // B0
        (229, 5, 2),
        (23, 6, 128),   // A1
        (45, 8, 2),
        (230, 9, 128),  // B1
        (311, 28, 8),   // B4, position 12
        (184, 48, 128), // A8
        (206, 50, 2),
        (391, 51, 128), // B8
        (413, 53, 2),
    ] {
        let (image, packed) = (bytes(414, &[(cell, 1)]), bytes(54, &[(byte, value)]));
        assert_eq!(pack(Shape::base(1), &image), packed, "cell {cell}");
        assert_eq!(unpack(Shape::base(1), &packed), Some(image), "cell {cell}");
    }
    // No blocks, 15 cells and 2 bytes: A0's last cell, B0, A1, and B8's last cell. Two blocks, 31 cells and 4 bytes:
    // B0, B8. 256 blocks, 2063 cells and 258 bytes: B0, A1, and B8's last cell.
    for (blocks, cell, byte, value) in [
        (0, 14, 1, 2),
        (0, 135, 2, 128),
        (0, 15, 4, 128),
        (0, 269, 35, 2),
        (2, 279, 4, 128),
        (2, 557, 71, 2),
        (256, 18_567, 258, 128),
        (256, 2063, 516, 128),
        (256, 37_133, 4643, 2),
    ] {
        let shape = Shape::base(blocks);
        let (image, packed) = (bytes(shape.size(), &[(cell, 1)]), bytes(shape.packed_size(), &[(byte, value)]));
        assert!(pack(shape, &image) == packed, "blocks {blocks}, cell {cell}");
        assert!(unpack(shape, &packed) == Some(image), "blocks {blocks}, cell {cell}");
    }
}

#[test]
fn packed_images() {
    let shape = Shape::base(1);
    // All ones: every byte is 255 but the last of each track, 254.
    let ones = [255, 255, 254].repeat(18);
    assert_eq!(pack(shape, &[1; 414]), ones);
    assert_eq!(unpack(shape, &ones), Some(vec![1; 414]));
    // The tracks A0, B0, A1 and B8, cell after cell.
    let mut image = vec![0u8; 414];
    for (from, cells) in [
        (0, b"10110010011100010100110"),
        (207, b"00000001100000000000001"),
        (23, b"11110000101010101100110"),
        (391, b"01111110000110001110011"),
    ] {
        (0..23).for_each(|m| image[from + m] = cells[m] - b'0');
    }
    let mut packed = vec![178, 113, 76, 1, 128, 2, 240, 170, 204];
    packed.extend([0; 42]);
    packed.extend([126, 24, 230]);
    assert_eq!(pack(shape, &image), packed);
    assert_eq!(unpack(shape, &packed), Some(image));
    // Document 01's record of payload 128: A(1,0); B(14,0), B(16,0); A(0,1); A(0,8), A(1,8); B(14,8), B(16,8).
    let mut payload = [0; 14];
    payload[0] = 128;
    let record = encode(&Rules::new(shape), &payload);
    let packed = bytes(54, &[(0, 64), (4, 2), (5, 128), (6, 128), (48, 192), (52, 2), (53, 128)]);
    assert_eq!(pack(shape, &record), packed);
    assert_eq!(unpack(shape, &packed), Some(record));
}

#[test]
fn padding_bits() {
    // The last bits of the eighteen tracks, and no others. A track of no blocks has two bytes, one of one block three.
    for (blocks, track) in [(0, 2), (1, 3)] {
        let shape = Shape::base(blocks);
        let size = 18 * track;
        for byte in 0..size {
            for value in [128, 64, 32, 16, 8, 4, 2, 1] {
                let accepted = unpack(shape, &bytes(size, &[(byte, value)])).is_some();
                assert_eq!(accepted, value != 1 || byte % track != track - 1, "byte {byte}, value {value}");
            }
        }
        assert!(unpack(shape, &vec![255; size]).is_none());
    }
}

/// A call that is given this number with its detail: the output stays.
fn refused(call: Call, blocks: u32, input: &[u8], room: usize, wanted: (u32, u32)) {
    let before = vec![9; room];
    let answer = number(wanted.0, wanted.1);
    assert_eq!(expected(call, blocks, input, &before), (answer, before), "{call:?}, {blocks}, output of {room}");
}

#[test]
fn numbers_of_packing() {
    // One block: 414 cells and 54 bytes. The first that applies is given.
    let image = bytes(414, &[(40, 2), (300, 255)]);
    let packed = bytes(54, &[(53, 1)]);
    for blocks in [257, u32::MAX] {
        refused(Call::Pack, blocks, &image[1..], 53, (1, 0));
        refused(Call::Unpack, blocks, &packed[1..], 413, (1, 0));
    }
    refused(Call::Pack, 0, &image, 54, (2, 0));
    refused(Call::Unpack, 0, &packed, 414, (2, 0));
    refused(Call::Pack, 1, &image[..413], 53, (2, 0));
    refused(Call::Pack, 1, &[2; 415], 53, (2, 0));
    refused(Call::Pack, 1, &packed, 54, (2, 0));
    refused(Call::Pack, 1, &image, 53, (3, 0));
    refused(Call::Pack, 1, &image, 54, (4, 40));
    refused(Call::Pack, 1, &image, 55, (4, 40));
    refused(Call::Unpack, 1, &packed[1..], 413, (2, 0));
    refused(Call::Unpack, 1, &[1; 55], 413, (2, 0));
    refused(Call::Unpack, 1, &image, 414, (2, 0));
    refused(Call::Unpack, 1, &packed, 413, (3, 0));
    refused(Call::Unpack, 1, &packed, 414, (8, 0));
    refused(Call::Unpack, 1, &packed, 415, (8, 0));
    // With 0 the result fills the first bytes, and later bytes stay.
    let mut after = bytes(56, &[(54, 9), (55, 9)]);
    assert_eq!(expected(Call::Pack, 1, &[0; 414], &[9; 56]), (number(0, 0), after));
    after = bytes(415, &[(414, 9)]);
    assert_eq!(expected(Call::Unpack, 1, &[0; 54], &[9; 415]), (number(0, 0), after));
    // No blocks, 270 cells and 36 bytes, and 256, 37,134 cells and 4,644 bytes.
    for (blocks, size, packed_size) in [(0, 270, 36), (256, 37_134, 4644)] {
        for (call, input, result) in [(Call::Pack, size, packed_size), (Call::Unpack, packed_size, size)] {
            let (answer, after) = expected(call, blocks, &vec![0; input], &vec![9; result]);
            assert!(answer == number(0, 0) && after == vec![0; result], "{call:?}, {blocks}");
        }
    }
}

#[test]
fn readings() {
    let cells = [Some(Reading::Zero), Some(Reading::One), Some(Reading::Lost)];
    for byte in 0..=255 {
        assert_eq!(reading(byte), cells.get(byte as usize).copied().flatten(), "{byte}");
        assert_eq!(is_bit(byte), byte < 2, "{byte}");
    }
    // A good record has no lost cell, whatever its other cells are.
    for (blocks, length) in [(0, 15), (1, 23)] {
        let rules = base(blocks);
        let size = 18 * length;
        for cell in 0..size {
            let image = bytes(size, &[(cell, LOST)]);
            assert_eq!(lost_tracks(rules.shape, &image), 1 << (cell / length), "blocks {blocks}, cell {cell}");
            assert!(!rules.is_good(&image), "blocks {blocks}, cell {cell}");
        }
        assert!(rules.is_good(&vec![0; size]) && lost_tracks(rules.shape, &vec![1; size]) == 0, "blocks {blocks}");
    }
}

/// A call on an image of so many blocks that is 0 but for these cells: it answers so, and leaves the record of zeros,
/// or with 7 the image, or with another number the output as it came.
fn gives(blocks: u32, call: Call, cells: &[(usize, u8)], wanted: Answer) {
    let size = Shape::base(blocks).size();
    let image = bytes(size, cells);
    let mut after = match (wanted.answer, call) {
        (0, _) => vec![0; size],
        (7, Call::Repair(_) | Call::Trace(_) | Call::TraceWithin(..) | Call::RepairSpans(_)) => image.clone(),
        _ => vec![9; size],
    };
    after.push(9);
    let given = expected(call, blocks, &image, &vec![9; size + 1]);
    assert_eq!(given, (wanted, after), "{call:?}, blocks {blocks}, {cells:?}");
}

/// The same of repair, of tracing without a ceiling and of tracing with each one. A ceiling above 2 is 12, where none of 1 to 5
/// applies.
fn all_give(blocks: u32, flags: u32, cells: &[(usize, u8)], wanted: Answer) {
    gives(blocks, Call::Repair(flags), cells, wanted);
    gives(blocks, Call::Trace(flags), cells, wanted);
    (0..=2).for_each(|ceiling| gives(blocks, Call::TraceWithin(flags, ceiling), cells, wanted));
    let high = if (1..=5).contains(&wanted.answer) { wanted } else { number(12, 0) };
    gives(blocks, Call::TraceWithin(flags, 3), cells, high);
}

/// The record of zeros is in reach from this ceiling on, and below it none is. Repair is as ceiling 0, tracing as ceiling 1.
fn in_reach_from(least: u32, blocks: u32, flags: u32, cells: &[(usize, u8)], wanted: Answer) {
    let with = |ceiling: u32| if ceiling < least { number(7, 0) } else { wanted };
    gives(blocks, Call::Repair(flags), cells, with(0));
    gives(blocks, Call::Trace(flags), cells, with(1));
    (0..=2).for_each(|ceiling| gives(blocks, Call::TraceWithin(flags, ceiling), cells, with(ceiling)));
    gives(blocks, Call::TraceWithin(flags, 3), cells, number(12, 0));
}

/// Answer 0 with this mask and so many cells, and no extra.
fn filled(mask: u32, cells: u32) -> Answer {
    Answer { mask, cells, ..number(0, 0) }
}

// One block: A1 begins at 23, A2 at 46, A3 at 69, A4 at 92, B0 at 207, B1 at 230, B3 at 276.

#[test]
fn lost_examples() {
    // A lost cell that is filled with 0 counts. Its track is no extra, flagged or not, and is repaired as a whole.
    all_give(1, 0, &[(23, 2)], filled(2, 1));
    all_give(1, 2, &[(23, 2), (45, 1)], filled(2, 2));
    all_give(1, 0, &[(23, 2), (45, 1)], filled(2, 2));
    let whole: Vec<(usize, u8)> = (92..115).map(|i| (i, 2)).collect();
    all_give(1, 0, &whole, filled(16, 23));
    // A cell of A2 beside one lost in A1: an extra.
    in_reach_from(1, 1, 0, &[(23, 2), (46, 1)], Answer { extra_a: 2, ..filled(6, 2) });
    // Beside two of A, only one of B; beside two and one, none.
    all_give(1, 0, &[(23, 2), (46, 2), (69, 1)], number(7, 0));
    in_reach_from(1, 1, 0, &[(23, 2), (46, 2), (276, 1)], Answer { extra_b: 12, ..filled(6 | 1 << 12, 3) });
    all_give(1, 1 << 10, &[(23, 2), (46, 2), (276, 1)], number(7, 0));
    // Three and one, two and two; a track that is flagged and has a lost cell is one.
    all_give(1, 0, &[(23, 2), (46, 2), (69, 2), (207, 2)], filled(526, 4));
    all_give(1, 526, &[(23, 2), (229, 2)], filled(514, 2));
    all_give(1, 6, &[(207, 2), (276, 2)], filled(1 << 9 | 1 << 12, 2));
    // Document 01's record of payload 128 with A(0,1), which is 1, lost.
    let record = encode(base(1), &[128, 0, 0, 0, 0, 0, 0, 0, 0, 0, 0, 0, 0, 0]);
    let mut image = record.clone();
    image[23] = LOST;
    for call in [Call::Repair(0), Call::Trace(0), Call::TraceWithin(0, 0), Call::TraceWithin(0, 2)] {
        assert_eq!(expected(call, 1, &image, &[9; 414]), (filled(2, 1), record.clone()), "{call:?}");
    }
}

#[test]
fn numbers_of_lost_cells() {
    // All cells, four tracks of a set, and three and two.
    let all: Vec<(usize, u8)> = (0..414).map(|i| (i, 2)).collect();
    all_give(1, 0, &all, number(6, 0));
    all_give(1, 0, &[(0, 2), (23, 2), (46, 2), (69, 2)], number(6, 0));
    all_give(1, 7, &[(69, 2)], number(6, 0));
    all_give(1, 1 << 9, &[(23, 2), (46, 2), (69, 2), (230, 2)], number(6, 0));
    // 5 is about the flag word alone, and comes before 6.
    all_give(1, 1 << 18, &[(0, 2), (23, 2), (46, 2), (69, 2)], number(5, 0));
    // 4 is about cells above 2, for packing above 1, and comes before both.
    all_give(1, 1 << 18 | 15, &[(10, 2), (40, 3), (41, 255), (413, 2)], number(4, 40));
    gives(1, Call::Read, &[(10, 2), (40, 3), (41, 255)], number(4, 40));
    gives(1, Call::Pack, &[(10, 2), (40, 3)], number(4, 10));
    for call in [Call::Read, Call::Repair(0), Call::Trace(0), Call::TraceWithin(0, 3), Call::Pack] {
        gives(1, call, &[(10, 3), (40, 2)], number(4, 10));
    }
    gives(1, Call::Pack, &[(413, 2)], number(4, 413));
    gives(1, Call::Read, &[(413, 2)], number(7, 0));
}

// No blocks: A1 begins at 15, A2 at 30, A3 at 45, B0 at 135, B3 at 180, B8 at 255.

#[test]
fn no_block_examples() {
    // The record of zeros has an empty payload.
    assert_eq!(expected(Call::Encode, 0, &[], &[9; 271]), (number(0, 0), bytes(271, &[(270, 9)])));
    for room in [0, 1, 14] {
        assert_eq!(expected(Call::Read, 0, &[0; 270], &vec![9; room]), (number(0, 0), vec![9; room]));
    }
    all_give(0, 0, &[], filled(0, 0));
    all_give(0, 526, &[], filled(0, 0));
    // No other is good: a cell that is 1 is an extra's, or a flagged track's, or out of reach.
    gives(0, Call::Read, &[(15, 1)], number(7, 0));
    in_reach_from(1, 0, 0, &[(15, 1)], Answer { extra_a: 1, ..filled(2, 1) });
    in_reach_from(2, 0, 0, &[(29, 1), (269, 1)], Answer { extra_a: 1, extra_b: 17, ..filled(2 | 1 << 17, 2) });
    all_give(0, 2, &[(15, 1), (29, 1)], filled(2, 2));
    all_give(0, 0, &[(15, 1), (30, 1)], number(7, 0));
    in_reach_from(1, 0, 6, &[(15, 1), (180, 1)], Answer { extra_b: 12, ..filled(2 | 1 << 12, 2) });
    all_give(0, 6, &[(15, 1), (45, 1)], number(7, 0));
    all_give(0, 526, &[(15, 1), (149, 1)], filled(514, 2));
    // Lost cells.
    all_give(0, 0, &[(15, 2), (269, 2)], filled(2 | 1 << 17, 2));
    in_reach_from(1, 0, 0, &[(15, 2), (30, 1)], Answer { extra_a: 2, ..filled(6, 2) });
    all_give(0, 0, &[(15, 2), (30, 1), (45, 1)], number(7, 0));
    gives(0, Call::Read, &[(269, 2)], number(7, 0));
}

#[test]
fn numbers_of_no_blocks() {
    for call in [Call::Encode, Call::Read, Call::Repair(0), Call::Trace(0), Call::TraceWithin(0, 3), Call::Pack, Call::Unpack] {
        for blocks in [257, 512, 65_536, u32::MAX] {
            refused(call, blocks, &[], 0, (1, 0));
            refused(call, blocks, &[0; 270], 270, (1, 0));
        }
    }
    for call in [Call::Read, Call::Repair(0), Call::Trace(0), Call::TraceWithin(0, 3), Call::Pack] {
        for len in [0, 269, 271, 414] {
            refused(call, 0, &vec![3; len], 270, (2, 0));
        }
        gives(0, call, &[(40, 3), (41, 255)], number(4, 40));
    }
    for len in [1, 14] {
        refused(Call::Encode, 0, &vec![0; len], 269, (2, 0));
    }
    for len in [0, 35, 37, 54] {
        refused(Call::Unpack, 0, &vec![255; len], 269, (2, 0));
    }
    refused(Call::Encode, 0, &[], 269, (3, 0));
    refused(Call::Repair(0), 0, &[3; 270], 269, (3, 0));
    refused(Call::Trace(0), 0, &[3; 270], 269, (3, 0));
    refused(Call::TraceWithin(0, 3), 0, &[3; 270], 269, (3, 0));
    refused(Call::Pack, 0, &[3; 270], 35, (3, 0));
    refused(Call::Unpack, 0, &[255; 36], 269, (3, 0));
    refused(Call::Unpack, 0, &bytes(36, &[(35, 1)]), 270, (8, 0));
    gives(0, Call::Pack, &[(15, 2), (40, 3)], number(4, 15));
    // 5 comes before 6, which goes by the table though no flags leave doubt.
    all_give(0, 1 << 18 | 15, &[], number(5, 0));
    all_give(0, 15, &[], number(6, 0));
    all_give(0, 7, &[(45, 2)], number(6, 0));
    all_give(0, (1 << 18) - 1, &[(15, 1)], number(6, 0));
}

/// A record or noise, with a damaged track or none and lost cells in up to three, and a flag word of up to three.
fn some_lost(random: &mut Random, rules: &Rules) -> (Vec<u8>, u32) {
    let (_, mut image) = random.record(rules);
    if random.below(8) == 0 {
        image.iter_mut().for_each(|x| *x = random.next() as u8 & 1);
    }
    let [damaged, lost, word] = [2, 4, 4].map(|most| {
        let count = random.below(most);
        random.tracks(rules.shape, count)
    });
    damage(random, rules.shape, &mut image, damaged);
    lose(random, rules.shape, &mut image, lost);
    (image, word)
}

#[test]
fn lost_cells() {
    // As flags on an image in which 0 or 1 stands for the lost cells, but for what counts as changed.
    let mut random = Random::of("lost cells");
    for _ in 0..rounds(2400) {
        let blocks = random.below(4) as u32;
        let rules = base(blocks);
        let (image, word) = some_lost(&mut random, rules);
        let lost: Vec<usize> = (0..image.len()).filter(|&c| image[c] == 2).collect();
        let wide = lost.iter().fold(word, |wide, c| wide | 1 << (c / rules.shape.length()));
        let mut bits = image.clone();
        lost.iter().for_each(|&c| bits[c] = random.below(2) as u8);
        let before = random.bytes(image.len());
        let within = |ceiling: u32| move |word: u32| Call::TraceWithin(word, ceiling);
        let calls: [&dyn Fn(u32) -> Call<'static>; 5] = [&Call::Repair, &Call::Trace, &within(0), &within(1), &within(2)];
        for call in calls {
            let (answer, out) = expected(call(word), blocks, &image, &before);
            let (same, record) = expected(call(wide), blocks, &bits, &before);
            assert_eq!([answer.answer, answer.extra_a, answer.extra_b], [same.answer, same.extra_a, same.extra_b]);
            match answer.answer {
                0 => {
                    let differs = |c: &usize| image[*c] != record[*c];
                    let mask = lost.iter().fold(same.mask, |mask, c| mask | 1 << (c / rules.shape.length()));
                    assert_eq!((answer.mask, answer.cells as usize), (mask, (0..image.len()).filter(differs).count()));
                    assert!(out == record);
                }
                7 => assert!(out == image && record == bits),
                number => assert!(number == 6 && out == before),
            }
        }
    }
}

#[test]
fn no_lost_cells() {
    // Images without one: the flag word decides alone, as it did before note 2.
    let mut random = Random::of("no lost cells");
    for _ in 0..rounds(2400) / 2 {
        let blocks = random.below(4) as u32;
        let rules = base(blocks);
        let (mut image, word) = some_lost(&mut random, rules);
        image.iter_mut().filter(|x| **x == 2).for_each(|x| *x = 1);
        let before = random.bytes(image.len());
        let unknown = rules.flagged(word);
        let of_table = choices(rules.shape, word, code(rules.shape, word));
        for (call, choices) in [
            (Call::Repair(word), vec![0]),
            (Call::Trace(word), cautious_choices(rules.shape, word)),
            (Call::TraceWithin(word, 2), of_table),
        ] {
            let wanted = match code(rules.shape, word) {
                0 => (number(6, 0), before.clone()),
                _ => reached(rules, &unknown, &choices, &image, &before),
            };
            assert!(expected(call, blocks, &image, &before) == wanted, "{call:?}, blocks {blocks}");
        }
    }
}

#[test]
fn choices_of_extras() {
    // Without flags: none, each track alone, and with ceiling 2 each track of A beside each of B.
    let shape = Shape::base(1);
    let count = |choices: &[u32], tracks: u32| choices.iter().filter(|choice| choice.count_ones() == tracks).count();
    for (choices, wanted) in [
        (choices_within(shape, 0, 0), [1, 0, 0]),
        (choices_within(shape, 0, 1), [1, 18, 0]),
        (choices_within(shape, 0, 2), [1, 18, 81]),
        (cautious_choices(shape, 0), [1, 18, 0]),
        // A flag in A, two in B, two in A; two in A and one in B.
        (choices_within(shape, 4, 0), [1, 0, 0]),
        (choices_within(shape, 4, 1), [1, 17, 0]),
        (choices_within(shape, 4, 2), [1, 17, 0]),
        (cautious_choices(shape, 4), [1, 17, 0]),
        (choices_within(shape, 3 << 9, 1), [1, 9, 0]),
        (choices_within(shape, 3 << 9, 2), [1, 9, 0]),
        (choices_within(shape, 3, 2), [1, 9, 0]),
        (cautious_choices(shape, 3), [1, 9, 0]),
        (choices_within(shape, 3 | 1 << 9, 2), [1, 0, 0]),
        (cautious_choices(shape, 3 | 1 << 9), [1, 0, 0]),
        // Too many: not even none.
        (choices_within(shape, 15, 2), [0, 0, 0]),
    ] {
        assert_eq!([0, 1, 2].map(|tracks| count(&choices, tracks)), wanted);
        assert_eq!(choices.len(), wanted.iter().sum::<usize>());
    }
    // Two tracks are never of one set, and no choice has a flagged one.
    let of = |choice: &u32, set: usize| (choice & shape.word(set)).count_ones();
    assert!(choices_within(shape, 0, 2).iter().all(|choice| of(choice, 0) <= 1 && of(choice, 1) <= 1));
    assert!(choices_within(shape, 1 << 5, 2).iter().all(|choice| choice & 1 << 5 == 0));
    // Of every flag word: a lower ceiling's are among a higher one's, and those of 1 are those without a ceiling.
    for flags in 0..1 << 18 {
        if code(shape, flags) != 0 {
            let [none, one, two] = [0, 1, 2].map(|ceiling| choices_within(shape, flags, ceiling));
            assert!(none == [0] && one == cautious_choices(shape, flags), "flags {flags:#x}");
            assert!(two == choices(shape, flags, code(shape, flags)) && one.iter().all(|c| two.contains(c)), "flags {flags:#x}");
        }
    }
}

// One block again: A1 begins at 23, A2 at 46, A3 at 69, B0 at 207, B1 at 230, B3 at 276.

#[test]
fn ceiling_examples() {
    // No flags: a good record with each ceiling, one wrong track from ceiling 1 on, one in each set with 2, two of a set never.
    all_give(1, 0, &[], filled(0, 0));
    in_reach_from(1, 1, 0, &[(23, 1)], Answer { extra_a: 1, ..filled(2, 1) });
    in_reach_from(1, 1, 0, &[(276, 1), (298, 1)], Answer { extra_b: 12, ..filled(1 << 12, 2) });
    in_reach_from(2, 1, 0, &[(23, 1), (276, 1)], Answer { extra_a: 1, extra_b: 12, ..filled(2 | 1 << 12, 2) });
    in_reach_from(2, 1, 0, &[(206, 1), (413, 1)], Answer { extra_a: 8, extra_b: 17, ..filled(1 << 8 | 1 << 17, 2) });
    all_give(1, 0, &[(23, 1), (46, 1)], number(7, 0));
    // A flag in A, and a lost cell there in place of it: one extra in either set from ceiling 1 on, and never two.
    for (flags, cell) in [(2, 1), (0, 2), (2, 2)] {
        all_give(1, flags, &[(23, cell)], filled(2, 1));
        in_reach_from(1, 1, flags, &[(23, cell), (69, 1)], Answer { extra_a: 3, ..filled(10, 2) });
        in_reach_from(1, 1, flags, &[(23, cell), (207, 1)], Answer { extra_b: 9, ..filled(2 | 1 << 9, 2) });
        all_give(1, flags, &[(23, cell), (69, 1), (207, 1)], number(7, 0));
    }
    // Two of A: an extra in B from ceiling 1 on, none in A. Two of B: the other way round. Two and one: none.
    in_reach_from(1, 1, 6, &[(23, 1), (276, 1)], Answer { extra_b: 12, ..filled(2 | 1 << 12, 2) });
    all_give(1, 6, &[(69, 1)], number(7, 0));
    in_reach_from(1, 1, 3 << 9, &[(207, 1), (69, 1)], Answer { extra_a: 3, ..filled(8 | 1 << 9, 2) });
    all_give(1, 3 << 9, &[(276, 1)], number(7, 0));
    all_give(1, 6 | 1 << 9, &[(69, 1)], number(7, 0));
    // A wrong track in each set, of which one is flagged; a flag on a third makes them one too many.
    in_reach_from(1, 1, 2, &[(23, 1), (276, 1)], Answer { extra_b: 12, ..filled(2 | 1 << 12, 2) });
    all_give(1, 4, &[(23, 1), (276, 1)], number(7, 0));
}

#[test]
fn numbers_of_ceilings() {
    // 12 comes after 5 and before 6 and 7, for every ceiling above 2.
    let image = bytes(414, &[(40, 3)]);
    let wrong = bytes(414, &[(23, 1), (46, 1)]);
    for ceiling in [3, 4, 255, 256, 257, 258, 65_537, 1 << 31, u32::MAX] {
        let call = |flags: u32| Call::TraceWithin(flags, ceiling);
        refused(call(1 << 18 | 15), 257, &image[1..], 413, (1, 0));
        refused(call(1 << 18 | 15), 1, &image[1..], 413, (2, 0));
        refused(call(1 << 18 | 15), 1, &image, 413, (3, 0));
        refused(call(1 << 18 | 15), 1, &image, 414, (4, 40));
        refused(call(1 << 18 | 15), 1, &wrong, 414, (5, 0));
        refused(call(15), 1, &wrong, 414, (12, 0));
        refused(call(0), 1, &wrong, 415, (12, 0));
        refused(call(0), 1, &bytes(414, &[(0, 2), (23, 2), (46, 2), (69, 2)]), 414, (12, 0));
        refused(call(0), 1, &[0; 414], 414, (12, 0));
    }
    // 6 goes by the flags and the lost cells, with each ceiling.
    for ceiling in 0..=2 {
        refused(Call::TraceWithin(15, ceiling), 1, &wrong, 414, (6, 0));
        refused(Call::TraceWithin(7, ceiling), 1, &bytes(414, &[(69, 2)]), 414, (6, 0));
    }
}

#[test]
fn ceiling_2_is_the_former_tracing() {
    // Documents 01 and 02 as they were, by hand: a wrong track in each set is found.
    let mut after = vec![0; 414];
    let both = Answer { extra_a: 1, extra_b: 12, ..filled(2 | 1 << 12, 2) };
    assert_eq!(former_trace(0, 1, &bytes(414, &[(23, 1), (276, 1)]), &[9; 414]), (both, after.clone()));
    after.push(9);
    assert_eq!(former_trace(2, 1, &bytes(414, &[(23, 1)]), &[9; 415]), (filled(2, 1), after));
    for (flags, blocks, cells, room, wanted) in [
        (1 << 18, 257, 3, 413, number(1, 0)),
        (1 << 18, 0, 3, 413, number(2, 0)),
        (1 << 18, 1, 3, 413, number(3, 0)),
        (1 << 18, 1, 3, 414, number(4, 23)),
        (1 << 18, 1, 2, 414, number(5, 0)),
        (13, 1, 2, 414, number(6, 0)),
    ] {
        assert_eq!(former_trace(flags, blocks, &bytes(414, &[(23, cells)]), &vec![9; room]), (wanted, vec![9; room]));
    }
    let two = bytes(414, &[(23, 1), (46, 1)]);
    assert_eq!(former_trace(0, 1, &two, &[9; 414]), (number(7, 0), two));
    // Of random images, the second decoder's three ceilings: 2 as it was, 1 as tracing without a ceiling, 0 as repair.
    let mut random = Random::of("ceiling 2");
    for _ in 0..rounds(2400) / 2 {
        let blocks = random.below(4) as u32;
        let shape = Shape::base(blocks);
        let (mut image, word) = some_lost(&mut random, base(blocks));
        let word = if random.below(2) == 0 { 0 } else { word };
        let more = random.tracks(shape, 1) & !lost_tracks(shape, &image);
        damage(&mut random, shape, &mut image, more);
        let before = random.bytes(image.len());
        let [none, one, two] = [0, 1, 2].map(|ceiling| expected(Call::TraceWithin(word, ceiling), blocks, &image, &before));
        assert!(two == former_trace(word, blocks, &image, &before), "blocks {blocks}, flags {word:#x}");
        assert!(one == expected(Call::Trace(word), blocks, &image, &before), "blocks {blocks}, flags {word:#x}");
        assert!(none == expected(Call::Repair(word), blocks, &image, &before), "blocks {blocks}, flags {word:#x}");
        assert!((none.0.answer == 7 || none == one) && (one.0.answer == 7 || one == two), "blocks {blocks}, flags {word:#x}");
    }
}

/// Pairs of offset and length.
fn spans<const N: usize>(pairs: [(u32, u32); N]) -> [Span; N] {
    pairs.map(|(offset, length)| Span { offset, length })
}

#[test]
fn tables_in_order() {
    let taken = |pairs: &[Span]| in_order(pairs, 414);
    assert!(taken(&[]) && taken(&spans([(0, 414)])) && taken(&spans([(413, 1)])) && taken(&spans([(5, 3), (8, 1), (100, 2)])));
    let many: Vec<Span> = (0..65).map(|k| Span { offset: 2 * k, length: 1 }).collect();
    assert!(taken(&many[..64]));
    // 65 pairs; a length 0; beyond the image; before the previous pair's end; numbers that add past 32 bits.
    assert!(!taken(&many));
    assert!(!taken(&spans([(5, 0)])) && !taken(&spans([(5, 1), (6, 0), (7, 1)])));
    assert!(!taken(&spans([(0, 415)])) && !taken(&spans([(414, 1)])) && !taken(&spans([(413, 2)])));
    assert!(!taken(&spans([(5, 3), (7, 1)])) && !taken(&spans([(5, 1), (5, 1)])) && !taken(&spans([(9, 1), (3, 1)])));
    assert!(!taken(&spans([(u32::MAX, 1)])) && !taken(&spans([(2, u32::MAX)])) && !taken(&spans([(u32::MAX, u32::MAX)])));
}

#[test]
fn windows() {
    // Two blocks, 31 positions. Three cells of A at m, and a fourth 15 positions later or 16; the same to the tail's end.
    let shape = Shape::base(2);
    let l = shape.length();
    for m in 0..l {
        for apart in 1..l - m {
            let mut flagged = vec![false; shape.size()];
            [0, 3, 8].iter().for_each(|t| flagged[t * l + m] = true);
            flagged[5 * l + m + apart] = true;
            assert_eq!(windows_coded(shape, &flagged), apart >= 16, "{m}, {apart}");
            // In the other set it may be as near as it likes, but not a second one.
            flagged[5 * l + m + apart] = false;
            flagged[12 * l + m + apart] = true;
            assert!(windows_coded(shape, &flagged), "{m}, {apart}");
            flagged[14 * l + m] = true;
            assert_eq!(windows_coded(shape, &flagged), apart >= 16, "{m}, {apart}");
        }
    }
}

#[test]
fn span_examples() {
    // One block: A1 begins at 23, A2 at 46, A3 at 69, A4 at 92, B0 at 207. A flagged cell is made 0; one that is not is 7.
    gives(1, Call::RepairSpans(&spans([(23, 1)])), &[(23, 1)], filled(2, 1));
    gives(1, Call::RepairSpans(&spans([(22, 1), (24, 1)])), &[(23, 1)], number(7, 0));
    // From the end of A1 into A2.
    gives(1, Call::RepairSpans(&spans([(44, 4)])), &[(45, 1), (46, 1)], filled(6, 2));
    // A lost cell alone is flagged: the rest of its track is not.
    gives(1, Call::RepairSpans(&[]), &[(23, 2)], filled(2, 1));
    gives(1, Call::RepairSpans(&[]), &[(23, 2), (45, 1)], number(7, 0));
    gives(1, Call::RepairSpans(&spans([(45, 1)])), &[(23, 2), (45, 1)], filled(2, 2));
    // Four tracks of A, the fourth 15 positions after the others or 16: 6, or repaired.
    let four = |at: usize| [(0, 2), (23, 2), (46, 2), (69 + at, 2)];
    gives(1, Call::RepairSpans(&[]), &four(15), number(6, 0));
    gives(1, Call::RepairSpans(&[]), &four(16), filled(15, 4));
    // Document 01's record of payload 128 without A(0,1).
    let record = encode(base(1), &[128, 0, 0, 0, 0, 0, 0, 0, 0, 0, 0, 0, 0, 0]);
    let mut image = record.clone();
    image[23] = 0;
    assert_eq!(expected(Call::RepairSpans(&spans([(20, 5)])), 1, &image, &[9; 414]), (filled(2, 1), record));
    // The numbers in their order.
    let image = bytes(414, &[(40, 3)]);
    let late = spans([(0, 415)]);
    refused(Call::RepairSpans(&late), 257, &image[1..], 0, (1, 0));
    refused(Call::RepairSpans(&late), 1, &image[1..], 0, (2, 0));
    refused(Call::RepairSpans(&late), 1, &image, 413, (3, 0));
    refused(Call::RepairSpans(&late), 1, &image, 414, (4, 40));
    refused(Call::RepairSpans(&late), 1, &bytes(414, &[(40, 2)]), 414, (9, 0));
    refused(Call::RepairSpans(&spans([(0, 414)])), 1, &bytes(414, &[(40, 2)]), 414, (6, 0));
}
