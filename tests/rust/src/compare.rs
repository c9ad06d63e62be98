//! The comparison of the archive with document 01's examples and with the second decoder, in classes of inputs: each
//! takes its generator, the number of rounds and the tally. The last eight classes are those of cartridge files, in files.rs,
//! the seven before them those of flags by stretch, in spans.rs, the three before these those of packing and unpacking, the
//! three before these those of tracing with a ceiling, the seven before these those of lost cells, and the one before these
//! that of records of no blocks, which are in most other classes too.

use crate::damage::{damage, damage_each, lose, Random};
use crate::ffi::{Answer, Call, LOST};
use crate::files;
use crate::second::{base, changed, code, expected, extra, former_trace, lost_tracks, number, Rules, Shape};
use crate::spans;

/// The answers that there are: 0 and the numbers.
pub const ANSWERS: usize = 13;

/// The calls in the tally's order, and the answers that each can give.
pub const CALLS: [(&str, &[usize]); 11] = [
    ("encode", &[0, 1, 2, 3]),
    ("read", &[0, 1, 2, 3, 4, 7]),
    ("repair", &[0, 1, 2, 3, 4, 5, 6, 7]),
    ("trace", &[0, 1, 2, 3, 4, 5, 6, 7]),
    ("trace_within", &[0, 1, 2, 3, 4, 5, 6, 7, 12]),
    ("repair_spans", &[0, 1, 2, 3, 4, 6, 7, 9]),
    ("pack", &[0, 1, 2, 3, 4]),
    ("unpack", &[0, 1, 2, 3, 8]),
    ("file_write", &[0, 1, 2, 8, 11]),
    ("file_count", &[0, 10]),
    ("file_entry", &[0, 10]),
];

/// A class of inputs.
pub type Class = fn(&mut Random, u64, &mut Tally);

/// The classes, by the name that their generator has too.
pub const CLASSES: [(&str, Class); 41] = [
    ("examples", examples),
    ("every_block_count", every_block_count),
    ("every_payload_bit", every_payload_bit),
    ("every_wrong_cell", every_wrong_cell),
    ("damaged_records", damaged_records),
    ("short_records", short_records),
    ("word_ends", word_ends),
    ("long_records", long_records),
    ("noise", noise),
    ("all_flag_words", all_flag_words),
    ("lengths_and_cells", lengths_and_cells),
    ("too_many_is_too_many", too_many_is_too_many),
    ("no_blocks", no_blocks),
    ("lost_cells", lost_cells),
    ("lost_limits", lost_limits),
    ("lost_noise", lost_noise),
    ("lost_and_bad_cells", lost_and_bad_cells),
    ("every_lost_cell", every_lost_cell),
    ("all_lost_words", all_lost_words),
    ("lost_in_every_count", lost_in_every_count),
    ("ceilings", ceilings),
    ("ceiling_numbers", ceiling_numbers),
    ("ceiling_2_as_before", ceiling_2_as_before),
    ("packed_and_back", packed_and_back),
    ("padding", padding),
    ("packed_lengths", packed_lengths),
    ("span_tables", spans::span_tables),
    ("span_bursts", spans::span_bursts),
    ("span_windows", spans::span_windows),
    ("span_lost_cells", spans::span_lost_cells),
    ("span_tracks", spans::span_tracks),
    ("every_span", spans::every_span),
    ("span_lengths", spans::span_lengths),
    ("file_records", files::file_records),
    ("files_written", files::files_written),
    ("file_refusals", files::file_refusals),
    ("file_limits", files::file_limits),
    ("file_rules", files::file_rules),
    ("file_layouts", files::file_layouts),
    ("file_noise", files::file_noise),
    ("every_file_byte", files::every_file_byte),
];

/// The compared calls: calls of the archive of which the answer and every byte of the output were compared.
pub struct Tally {
    /// For the description of a difference.
    pub class: &'static str,
    pub seed: u64,
    /// By call and answer.
    pub counts: [[u64; ANSWERS]; CALLS.len()],
}

impl Tally {
    pub fn new(class: &'static str, seed: u64) -> Tally {
        Tally { class, seed, counts: [[0; ANSWERS]; CALLS.len()] }
    }

    pub fn total(&self) -> u64 {
        self.counts.iter().flatten().sum()
    }

    /// Calls the archive on an output of so many random bytes. Panics with the input's description where the answer, a
    /// byte of the output or one of the eight bytes behind it is not as the second decoder says.
    pub fn compare(&mut self, random: &mut Random, call: Call, blocks: u32, input: &[u8], room: usize) -> (Answer, Vec<u8>) {
        self.compare_to(random, call, blocks, input, room, |before| expected(call, blocks, input, before))
    }

    /// The same of tracing with ceiling 2, which is to be as tracing was before there were ceilings.
    fn compare_to_former(&mut self, random: &mut Random, flags: u32, blocks: u32, image: &[u8], room: usize) -> (Answer, Vec<u8>) {
        let former = |before: &[u8]| former_trace(flags, blocks, image, before);
        self.compare_to(random, Call::TraceWithin(flags, 2), blocks, image, room, former)
    }

    /// The same of a call, by what is right for an output of these bytes.
    fn compare_to(
        &mut self,
        random: &mut Random,
        call: Call,
        blocks: u32,
        input: &[u8],
        room: usize,
        right: impl Fn(&[u8]) -> (Answer, Vec<u8>),
    ) -> (Answer, Vec<u8>) {
        let before = random.bytes(room + 8);
        let mut out = before.clone();
        let answer = call.make(blocks, input, &mut out[..room]);
        let (wanted, mut after) = right(&before[..room]);
        after.extend(&before[room..]);
        if answer != wanted || out != after {
            panic!(
                "class {}, seed {}, compared call {}: {call:?}, blocks {blocks}, input of {} bytes, output of {room}\n\
                 the archive:        {answer:?}\nthe second decoder: {wanted:?}\nfirst different byte: {:?}",
                self.class,
                self.seed,
                self.total(),
                input.len(),
                (0..out.len()).find(|&i| out[i] != after[i])
            );
        }
        let row = match call {
            Call::Encode => 0,
            Call::Read => 1,
            Call::Repair(_) => 2,
            Call::Trace(_) => 3,
            Call::TraceWithin(..) => 4,
            Call::RepairSpans(_) => 5,
            Call::Pack => 6,
            Call::Unpack => 7,
        };
        self.counts[row][answer.answer as usize] += 1;
        out.truncate(room);
        (answer, out)
    }

    /// A random payload, encoded: the record.
    pub fn record(&mut self, random: &mut Random, blocks: u32) -> Vec<u8> {
        let shape = Shape::base(blocks);
        let payload = random.bytes(shape.payload_size());
        let room = shape.size() + random.below(20);
        let (_, mut image) = self.compare(random, Call::Encode, blocks, &payload, room);
        image.truncate(shape.size());
        image
    }

    /// An image by each call that takes flags: the answers by ceiling, each with the record or, after 7, the copy. Repair is
    /// tracing with ceiling 0, tracing without a ceiling is that with 1, and what one ceiling finds a higher one finds too,
    /// all by what the archive itself answers and writes. Ceilings change nothing but 7 to 0.
    fn mended(&mut self, random: &mut Random, blocks: u32, flags: u32, image: &[u8], room: usize) -> [(Answer, Vec<u8>); 3] {
        let [repair, trace, none, one, two] = flag_calls(flags).map(|(call, _)| {
            let (answer, mut out) = self.compare(random, call, blocks, image, room);
            out.truncate(if matches!(answer.answer, 0 | 7) { image.len() } else { 0 });
            (answer, out)
        });
        self.compare_to_former(random, flags, blocks, image, room);
        assert!(none == repair, "blocks {blocks}, flags {flags:#x}: {:?}, {:?}", none.0, repair.0);
        assert!(one == trace, "blocks {blocks}, flags {flags:#x}: {:?}, {:?}", one.0, trace.0);
        for (lower, higher) in [(&none, &one), (&one, &two), (&none, &two)] {
            let kept = if lower.0.answer == 7 { matches!(higher.0.answer, 0 | 7) } else { lower == higher };
            assert!(kept, "blocks {blocks}, flags {flags:#x}: {:?}, {:?}", lower.0, higher.0);
        }
        [none, one, two]
    }

    /// An image read, repaired and traced, in one of four cases with a ceiling above 2 too: the answers and records by
    /// ceiling. The record of the highest one is read too.
    fn decode(&mut self, random: &mut Random, blocks: u32, flags: u32, image: &[u8]) -> [(Answer, Vec<u8>); 3] {
        let shape = Shape::base(blocks);
        let payload_room = shape.payload_size() + random.below(20);
        self.compare(random, Call::Read, blocks, image, payload_room);
        let room = shape.size() + random.below(20);
        let found = self.mended(random, blocks, flags, image, room);
        if random.below(4) == 0 {
            let ceiling = high_ceiling(random);
            self.compare(random, Call::TraceWithin(flags, ceiling), blocks, image, room);
        }
        if found[2].0.answer == 0 {
            self.compare(random, Call::Read, blocks, &found[2].1, payload_room);
        }
        found
    }

    /// A record with up to four tracks damaged at the ends of words of 64 cells and in the tail, decoded.
    fn damaged_at_ends(&mut self, random: &mut Random, blocks: u32) {
        let shape = Shape::base(blocks);
        let mut image = self.record(random, blocks);
        let tracks = some_tracks(random, shape, 4);
        for g in (0..18).filter(|g| tracks >> g & 1 == 1) {
            for m in (0..shape.length()).filter(|m| (m + 16) % 64 < 32 || m + 31 > shape.length()) {
                image[g * shape.length() + m] ^= random.below(2) as u8;
            }
        }
        let flags = some_flags(random, shape, tracks);
        self.decode(random, blocks, flags, &image);
    }

    /// A record with up to so many damaged tracks, decoded.
    fn damaged(&mut self, random: &mut Random, blocks: u32, most: usize) {
        let shape = Shape::base(blocks);
        let mut image = self.record(random, blocks);
        let tracks = some_tracks(random, shape, most);
        damage(random, shape, &mut image, tracks);
        let flags = some_flags(random, shape, tracks);
        self.decode(random, blocks, flags, &image);
    }

    /// An image with lost cells, packed and decoded.
    fn lost(&mut self, random: &mut Random, blocks: u32, flags: u32, image: &[u8]) -> [(Answer, Vec<u8>); 3] {
        let room = Shape::base(blocks).packed_size() + random.below(20);
        self.compare(random, Call::Pack, blocks, image, room);
        self.decode(random, blocks, flags, image)
    }

    /// A record with lost cells, few enough beside the flags, repaired and traced: the lost cells are the changed ones.
    fn filled(&mut self, random: &mut Random, blocks: u32, flags: u32, record: &[u8], image: &[u8]) {
        let (mask, cells) = changed(Shape::base(blocks), record, image);
        assert_eq!(cells as usize, image.iter().filter(|&&x| x == LOST).count());
        for (call, _) in flag_calls(flags) {
            let (answer, out) = self.compare(random, call, blocks, image, image.len());
            assert_eq!(answer, Answer { mask, cells, ..number(0, 0) }, "{call:?}, blocks {blocks}");
            assert!(out == record, "{call:?}, blocks {blocks}");
        }
    }

    /// A record with so many damaged tracks of A and of B that are flagged, or have lost cells, or both, and so many
    /// that are neither. Each ceiling goes by the table for the first, and names the others alone.
    fn limit(&mut self, random: &mut Random, blocks: u32, wide: [usize; 2], extras: [usize; 2]) {
        let shape = Shape::base(blocks);
        let [a, b] = [0, 1].map(|set| tracks_of(random, shape, set, wide[set], 0));
        let outside = [0, 1].map(|set| tracks_of(random, shape, set, extras[set], a | b));
        let lost = (a | b) & random.next() as u32;
        let flags = (a | b) & (!lost | random.next() as u32);
        let record = self.record(random, blocks);
        let mut image = record.clone();
        damage(random, shape, &mut image, a | b);
        damage_each(random, shape, &mut image, outside[0] | outside[1]);
        lose(random, shape, &mut image, lost);
        let code = code(shape, a | b);
        let (mask, cells) = changed(shape, &image, &record);
        for (ceiling, (answer, out)) in (0..).zip(self.lost(random, blocks, flags, &image)) {
            let of = format!("blocks {blocks}, flags {flags:#x}, lost {lost:#x}, others {outside:x?}, ceiling {ceiling}");
            if code == 0 {
                assert_eq!(answer, number(6, 0), "{of}");
            } else if in_reach(code, ceiling, extras) {
                let [extra_a, extra_b] = outside.map(extra);
                assert_eq!(answer, Answer { mask, cells, extra_a, extra_b, ..number(0, 0) }, "{of}");
                assert!(out == record, "{of}");
            } else if no_other(wide, code, ceiling, extras) {
                assert_eq!(answer, number(7, 0), "{of}");
                assert!(out == image, "{of}");
            }
        }
    }

    /// An image of no blocks, read, packed, and repaired and traced with each of these flags. The record of zeros is in
    /// reach exactly if the code and the ceiling allow the tracks that are not zero, not flagged and without a lost cell; no
    /// other record is good.
    fn zeroed(&mut self, random: &mut Random, image: &[u8], all_flags: &[u32]) {
        let shape = Shape::base(0);
        let zeros = vec![0; shape.size()];
        let room = random.below(20);
        let (answer, _) = self.compare(random, Call::Read, 0, image, room);
        assert_eq!(answer, number(if image == zeros { 0 } else { 7 }, 0));
        match image.iter().position(|&x| x == LOST) {
            None => self.packed(random, 0, image),
            Some(first) => {
                let (answer, _) = self.compare(random, Call::Pack, 0, image, shape.packed_size());
                assert_eq!(answer, number(4, first as u32));
            }
        }
        let (mask, cells) = changed(shape, image, &zeros);
        for &flags in all_flags {
            let wide = flags | lost_tracks(shape, image);
            let code = code(shape, wide);
            let outside = [0, 1].map(|set| mask & !wide & shape.word(set));
            for (call, ceiling) in flag_calls(flags) {
                let wanted = if flags >> 18 != 0 {
                    number(5, 0)
                } else if code == 0 {
                    number(6, 0)
                } else if in_reach(code, ceiling, outside.map(|word| word.count_ones() as usize)) {
                    let [extra_a, extra_b] = outside.map(extra);
                    Answer { mask, cells, extra_a, extra_b, ..number(0, 0) }
                } else {
                    number(7, 0)
                };
                let (answer, out) = self.compare(random, call, 0, image, image.len());
                assert_eq!(answer, wanted, "{call:?}");
                assert!(answer.answer != 0 || out == zeros, "{call:?}");
                assert!(answer.answer != 7 || out == image, "{call:?}");
            }
        }
    }

    /// An image packed, and unpacked again.
    fn packed(&mut self, random: &mut Random, blocks: u32, image: &[u8]) {
        self.there_and_back(random, [Call::Pack, Call::Unpack], blocks, image, Shape::base(blocks).packed_size());
    }

    /// An input turned by a call and turned back by the other, on longer outputs; the first result has this length.
    fn there_and_back(&mut self, random: &mut Random, calls: [Call; 2], blocks: u32, input: &[u8], result: usize) {
        let room = result + random.below(20);
        let (_, mut out) = self.compare(random, calls[0], blocks, input, room);
        out.truncate(result);
        let room = input.len() + random.below(20);
        let (answer, out) = self.compare(random, calls[1], blocks, &out, room);
        assert!(answer == number(0, 0) && out[..input.len()] == *input, "{:?} and back, blocks {blocks}", calls[0]);
    }
}

/// The calls that take a flag word, each with the extras that it allows in all at the most, its ceiling.
fn flag_calls(flags: u32) -> [(Call<'static>, u32); 5] {
    let [none, one, two] = [0, 1, 2].map(|ceiling| (Call::TraceWithin(flags, ceiling), ceiling));
    [(Call::Repair(flags), 0), (Call::Trace(flags), 1), none, one, two]
}

/// Do a code, not 0, and a ceiling both allow so many extras of A and of B?
fn in_reach(code: u32, ceiling: u32, [a, b]: [usize; 2]) -> bool {
    let by_code = match code {
        5 => a <= 1 && b <= 1,
        4 => a + b <= 1,
        3 => a == 0 && b <= 1,
        2 => a <= 1 && b == 0,
        _ => a + b == 0,
    };
    by_code && a + b <= ceiling as usize
}

/// Beside a record that differs from an image in so many tracks of A and of B that count as flagged and in so many others, is
/// there surely no second one in reach? The two would agree off these tracks and the second one's extras: where these are
/// few enough together, two good records do not.
fn no_other(wide: [usize; 2], code: u32, ceiling: u32, extras: [usize; 2]) -> bool {
    [[0, 0], [1, 0], [0, 1], [1, 1]].into_iter().filter(|&others| in_reach(code, ceiling, others)).all(|others| {
        let [a, b] = [0, 1].map(|set| wide[set] + extras[set] + others[set]);
        a <= 3 && b <= 3 && a + b <= 4
    })
}

/// A block count up to 12.
pub fn few_blocks(random: &mut Random) -> u32 {
    random.below(13) as u32
}

/// A block count up to 12, and in one of 16 cases any.
pub fn some_blocks(random: &mut Random) -> u32 {
    match random.below(16) {
        0 => random.below(257) as u32,
        _ => few_blocks(random),
    }
}

/// Up to so many tracks.
pub fn some_tracks(random: &mut Random, shape: Shape, most: usize) -> u32 {
    let count = random.below(most + 1);
    random.tracks(shape, count)
}

/// Flags for damaged tracks: these, some of them, one more, none, others, or with a bit from 18 up.
fn some_flags(random: &mut Random, shape: Shape, tracks: u32) -> u32 {
    match random.below(16) {
        0..=2 => tracks,
        3..=5 => tracks & random.next() as u32,
        6..=8 => tracks | 1 << random.below(18),
        9..=11 => 0,
        12..=14 => some_tracks(random, shape, 4),
        _ => tracks | 1 << (18 + random.below(14)),
    }
}

/// Ceilings above 2: the next ones, and some whose low bits are those of one that is taken.
const HIGH_CEILINGS: [u32; 16] = [
    3, 4, 5, 255, 256, 257, 258, 65_536, 65_537, 65_538, 1 << 31, 1 + (1 << 31), 2 + (1 << 31), !2, !1, !0,
];

/// A ceiling above 2: one of these, or any.
fn high_ceiling(random: &mut Random) -> u32 {
    match random.below(4) {
        0 => 3.max(random.next() as u32 >> random.below(30)),
        1 => random.below(3) as u32 + (1 << (2 + random.below(30))),
        _ => HIGH_CEILINGS[random.below(16)],
    }
}

/// A ceiling, in one of four cases above 2.
fn some_ceiling(random: &mut Random) -> u32 {
    match random.below(4) {
        0 => high_ceiling(random),
        _ => random.below(3) as u32,
    }
}

/// The block count of the lengths, and the one that is asked for, which is near to it or not.
pub fn some_counts(random: &mut Random) -> (u32, u32) {
    let near = match random.below(80) {
        0 => 256,
        1 => 257,
        2..=5 => 0,
        _ => 1 + random.below(12),
    } as u32;
    let blocks = match random.below(24) {
        0 => u32::MAX,
        1 => near + (1 << (8 + random.below(24))),
        2 => near + 1,
        3 => near.wrapping_sub(1),
        _ => near,
    };
    (near, blocks)
}

/// Tracks that lose cells: up to four, some of tracks 0 and 8 of both sets, or all.
fn some_lost(random: &mut Random, shape: Shape) -> u32 {
    match random.below(16) {
        0 => shape.word(0) | shape.word(1),
        1 | 2 => (1 | 1 << 8 | 1 << 9 | 1 << 17) & random.next() as u32,
        _ => some_tracks(random, shape, 4),
    }
}

/// So many tracks of a set that are none of these.
pub fn tracks_of(random: &mut Random, shape: Shape, set: usize, count: usize, others: u32) -> u32 {
    let mut word: u32 = 0;
    while (word.count_ones() as usize) < count {
        word |= 1 << shape.track_number(set, random.below(shape.tracks(set))) & !others;
    }
    word
}

/// A value from this up: in one of two cases this one.
fn some_value(random: &mut Random, least: u8) -> u8 {
    match random.below(2) {
        0 => least,
        _ => least + random.below(256 - least as usize) as u8,
    }
}

/// Up to two cells of any value from this up.
pub fn bad_cells(random: &mut Random, image: &mut [u8], least: u8) {
    for _ in 0..random.below(6).saturating_sub(3) {
        image[random.below(image.len())] = some_value(random, least);
    }
}

/// An input one byte shorter, one longer, much shorter, or as it was.
pub fn some_length(random: &mut Random, input: &mut Vec<u8>) {
    match random.below(16) {
        0 => drop(input.pop()),
        1 => input.push(0),
        2 => input.truncate(random.below(input.len() + 1)),
        _ => {}
    }
}

/// An output's length: one byte less than the result's, much less, just that, or more.
pub fn some_room(random: &mut Random, result: usize) -> usize {
    match random.below(16) {
        0 => result.saturating_sub(1),
        1 => random.below(result + 1),
        2..=7 => result,
        _ => result + random.below(20),
    }
}

/// Random bits, a record, or a record with up to five damaged tracks.
fn some_image(random: &mut Random, rules: &Rules) -> Vec<u8> {
    if random.below(2) == 0 {
        return random.bytes(rules.shape.size()).iter().map(|x| x & 1).collect();
    }
    let (_, mut image) = random.record(rules);
    let tracks = some_tracks(random, rules.shape, 5);
    damage(random, rules.shape, &mut image, tracks);
    image
}

/// A random packed form whose padding bits are 1 at these head places, 0 to 17, and 0 elsewhere.
fn some_packed(random: &mut Random, shape: Shape, places: u32) -> Vec<u8> {
    let mut packed = random.bytes(shape.packed_size());
    for (place, track) in packed.chunks_mut(shape.packed_size() / 18).enumerate() {
        let last = track.last_mut().unwrap();
        *last = *last & 254 | (places >> place & 1) as u8;
    }
    packed
}

/// Document 01's examples.
pub fn examples(random: &mut Random, _: u64, tally: &mut Tally) {
    let l = 23;
    let a = |m: usize, t: usize| t * l + m;
    let b = |m: usize, t: usize| (9 + t) * l + m;
    let ones = |cells: &[usize]| {
        let mut image = vec![0u8; 18 * l];
        cells.iter().for_each(|&c| image[c] = 1);
        image
    };
    // The output of a call that answers so.
    let mut gives = |call: Call, blocks: u32, input: &[u8], wanted: Answer| {
        let room = Shape::base(if blocks > 256 { 1 } else { blocks }).size();
        let (answer, out) = tally.compare(random, call, blocks, input, room);
        assert_eq!(answer, wanted, "{call:?}, blocks {blocks}");
        out
    };
    // The all-zero image is good.
    let zero = ones(&[]);
    assert_eq!(gives(Call::Read, 1, &zero, number(0, 0))[..14], [0; 14]);
    // Payload 128, then thirteen 0.
    let mut payload = vec![0u8; 14];
    payload[0] = 128;
    let first = [a(0, 1), a(1, 0), a(0, 8), a(1, 8), b(14, 0), b(14, 8), b(16, 0), b(16, 8)];
    assert_eq!(gives(Call::Encode, 1, &payload, number(0, 0)), ones(&first));
    assert_eq!(gives(Call::Read, 1, &ones(&first), number(0, 0))[..14], payload);
    let repaired = gives(Call::Repair(2), 1, &ones(&first[1..]), Answer { mask: 2, cells: 1, ..number(0, 0) });
    assert_eq!(repaired, ones(&first));
    // The others that are proved, run all the same.
    let two = ones(&[a(0, 1), a(0, 2)]);
    let last = ones(&[a(22, 8)]);
    for trace in [Call::Trace, |flags| Call::TraceWithin(flags, 2)] {
        gives(trace(0), 1, &two, number(7, 0));
        gives(trace(2), 1, &two, Answer { mask: 6, cells: 2, extra_a: 2, ..number(0, 0) });
        gives(trace(0), 1, &last, Answer { mask: 256, cells: 1, extra_a: 8, ..number(0, 0) });
    }
    gives(Call::Repair(0), 1, &last, number(7, 0));
    gives(Call::Repair(0), 1, &ones(&[a(8, 3)]), number(7, 0));
    gives(Call::Repair(526), 1, &ones(&[a(3, 1), b(20, 0)]), Answer { mask: 514, cells: 2, ..number(0, 0) });
    for (call, _) in flag_calls(15) {
        gives(call, 1, &zero, number(6, 0));
    }
    for (call, _) in flag_calls(1 << 18) {
        gives(call, 1, &zero, number(5, 0));
    }
    // A one in each set: in reach with ceiling 2 alone.
    let each = ones(&[a(3, 1), b(20, 0)]);
    for (call, ceiling) in flag_calls(0) {
        let both = Answer { mask: 514, cells: 2, extra_a: 1, extra_b: 9, ..number(0, 0) };
        gives(call, 1, &each, if ceiling == 2 { both } else { number(7, 0) });
    }
    gives(Call::TraceWithin(0, 3), 1, &each, number(12, 0));
    // Count 257. 0 and 256 are taken, with 270 and 37,134 cells, and not with the lengths of one block.
    for (blocks, wanted) in [(257, 1), (u32::MAX, 1), (0, 2), (256, 2)] {
        gives(Call::Encode, blocks, &payload, number(wanted, 0));
        gives(Call::Unpack, blocks, &[0; 54], number(wanted, 0));
        for call in [Call::Read, Call::Repair(0), Call::Trace(0), Call::TraceWithin(0, 2), Call::TraceWithin(0, 3), Call::Pack] {
            gives(call, blocks, &zero, number(wanted, 0));
        }
    }
    for (blocks, cells, bytes, packed) in [(0, 270, 0, 36), (256, 37_134, 3584, 4644)] {
        let zeros = vec![0u8; cells];
        assert_eq!(gives(Call::Encode, blocks, &zeros[..bytes], number(0, 0)), zeros);
        assert_eq!(gives(Call::Read, blocks, &zeros, number(0, 0))[..bytes], zeros[..bytes]);
        for (call, _) in flag_calls(0) {
            assert_eq!(gives(call, blocks, &zeros, number(0, 0)), zeros);
        }
        assert_eq!(gives(Call::Pack, blocks, &zeros, number(0, 0))[..packed], zeros[..packed]);
        assert_eq!(gives(Call::Unpack, blocks, &zeros[..packed], number(0, 0)), zeros);
    }
    // Cell value 3 first at index 40, and value 2, which only packing refuses, at 30.
    let mut image = zero;
    image[40] = 3;
    image[300] = 255;
    for (value, detail) in [(0, 40), (LOST, 30)] {
        image[30] = value;
        gives(Call::Read, 1, &image, number(4, 40));
        for (call, _) in flag_calls(0) {
            gives(call, 1, &image, number(4, 40));
        }
        gives(Call::TraceWithin(0, 3), 1, &image, number(4, 40));
        gives(Call::Pack, 1, &image, number(4, detail));
    }
}

/// Every block count, once for 2400 rounds: three damaged tracks that are flagged.
pub fn every_block_count(random: &mut Random, rounds: u64, tally: &mut Tally) {
    for _ in 0..rounds.div_ceil(2400) {
        for blocks in 0..=256 {
            let shape = Shape::base(blocks);
            let image = tally.record(random, blocks);
            let flags = random.tracks(shape, 3);
            let mut damaged = image.clone();
            damage(random, shape, &mut damaged, flags);
            for (answer, out) in tally.decode(random, blocks, flags, &damaged) {
                assert!(answer.answer == 0 && out == image, "blocks {blocks}, flags {flags}");
            }
        }
    }
}

/// Payloads of one to four blocks with each bit alone, of one block with each two bits, of 256 blocks with each bit of the
/// first and the last block alone, and all of them with every bit set: what a cell adds to the diagonals ahead, one cell at
/// a time.
pub fn every_payload_bit(random: &mut Random, _: u64, tally: &mut Tally) {
    let mut encode = |blocks: u32, bits: &[usize], others: u8| {
        let shape = Shape::base(blocks);
        let mut payload = vec![others; shape.payload_size()];
        for &i in bits {
            payload[i / 8] ^= 128 >> (i % 8);
        }
        tally.compare(random, Call::Encode, blocks, &payload, shape.size());
    };
    for blocks in [1, 2, 3, 4, 256] {
        encode(blocks, &[], 255);
        let all = 8 * Shape::base(blocks).payload_size();
        for i in (0..all).filter(|i| blocks <= 4 || *i < 112 || all - 112 <= *i) {
            encode(blocks, &[i], 0);
        }
    }
    for i in 0..112 {
        for j in 0..i {
            encode(1, &[i, j], 0);
        }
    }
}

/// Records of up to 20 blocks with each cell turned over alone, and of 100 and 256 blocks with those near the start, at the
/// ends of each run of 64 positions and in the last 80: every sum, one cell at a time. The reader says 7, and repair of the
/// cell's track turns that cell back.
pub fn every_wrong_cell(random: &mut Random, _: u64, tally: &mut Tally) {
    for blocks in (0..=20).chain([100, 256]) {
        let shape = Shape::base(blocks);
        let record = tally.record(random, blocks);
        let l = shape.length();
        let near_an_end = |m: usize| m < 16 || [0, 63].contains(&(m % 64)) || l <= m + 80;
        for cell in (0..record.len()).filter(|cell| blocks <= 20 || near_an_end(cell % l)) {
            let mut image = record.clone();
            image[cell] ^= 1;
            let (answer, _) = tally.compare(random, Call::Read, blocks, &image, shape.payload_size());
            assert_eq!(answer, number(7, 0), "blocks {blocks}, cell {cell}");
            let flags = 1 << (cell / l);
            let (answer, out) = tally.compare(random, Call::Repair(flags), blocks, &image, image.len());
            assert_eq!(answer, Answer { mask: flags, cells: 1, ..number(0, 0) }, "blocks {blocks}, cell {cell}");
            assert!(out == record, "blocks {blocks}, cell {cell}");
        }
    }
}

/// Records of up to 12 blocks with up to five damaged tracks, and all kinds of flags.
pub fn damaged_records(random: &mut Random, rounds: u64, tally: &mut Tally) {
    for _ in 0..rounds {
        let blocks = few_blocks(random);
        tally.damaged(random, blocks, 5);
    }
}

/// Records of up to three blocks, ten times as many, where the ends of words and the tails meet: with up to five damaged
/// tracks, or damaged at the ends alone, and all kinds of flags.
pub fn short_records(random: &mut Random, rounds: u64, tally: &mut Tally) {
    for _ in 0..10 * rounds {
        let blocks = random.below(4) as u32;
        match random.below(4) {
            0 => tally.damaged_at_ends(random, blocks),
            _ => tally.damaged(random, blocks, 5),
        }
    }
}

/// Records whose data or tracks end near the end of a word of 64 cells, damaged at the ends of words and in the tail.
pub fn word_ends(random: &mut Random, rounds: u64, tally: &mut Tally) {
    for _ in 0..rounds {
        let words = match random.below(16) {
            0 => 32,
            _ => 1 + random.below(4) as u32,
        };
        let blocks = (8 * words - 3 + random.below(5) as u32).min(256);
        tally.damaged_at_ends(random, blocks);
    }
}

/// Records of 200 to 256 blocks with up to three damaged tracks, and all kinds of flags.
pub fn long_records(random: &mut Random, rounds: u64, tally: &mut Tally) {
    for _ in 0..rounds / 60 {
        let blocks = 200 + random.below(57) as u32;
        tally.damaged(random, blocks, 3);
    }
}

/// Images that are no record at all, with every kind of flags.
pub fn noise(random: &mut Random, rounds: u64, tally: &mut Tally) {
    for _ in 0..rounds {
        let blocks = few_blocks(random);
        let shape = Shape::base(blocks);
        let image: Vec<u8> = random.bytes(shape.size()).iter().map(|x| x & 1).collect();
        let tracks = some_tracks(random, shape, 5);
        let flags = some_flags(random, shape, tracks);
        tally.decode(random, blocks, flags, &image);
    }
}

/// No blocks and one: all words of 18 flags, and bits from 18 up alone, beside a flag and beside too many. The flagged
/// tracks are damaged, and with a code above 0 the record comes back, with each ceiling.
pub fn all_flag_words(random: &mut Random, _: u64, tally: &mut Tally) {
    for blocks in [0, 1] {
        let shape = Shape::base(blocks);
        let record = tally.record(random, blocks);
        let past = (18..32).flat_map(|g| [0, 1, 15].map(|others| 1 << g | others));
        for flags in (0..1u32 << 18).chain(past) {
            let mut image = record.clone();
            damage(random, shape, &mut image, flags);
            let (mask, cells) = changed(shape, &image, &record);
            for (call, _) in flag_calls(flags) {
                let (answer, out) = tally.compare(random, call, blocks, &image, shape.size());
                let wanted = match code(shape, flags) {
                    _ if flags >> 18 != 0 => number(5, 0),
                    0 => number(6, 0),
                    _ => Answer { mask, cells, ..number(0, 0) },
                };
                assert_eq!(answer, wanted, "{call:?}, blocks {blocks}");
                assert!(answer.answer != 0 || out == record, "{call:?}, blocks {blocks}");
            }
        }
    }
}

/// Block counts, lengths, cell values, flags and ceilings that are right or not, in every mixture.
pub fn lengths_and_cells(random: &mut Random, rounds: u64, tally: &mut Tally) {
    for _ in 0..rounds {
        let (near, blocks) = some_counts(random);
        let rules = base(near);
        let (payload, image) = random.record(rules);
        let tracks = some_tracks(random, rules.shape, 2);
        let flags = match random.below(4) {
            0 => random.next() as u32 >> random.below(32),
            _ => some_flags(random, rules.shape, tracks),
        };
        let within = Call::TraceWithin(flags, some_ceiling(random));
        for call in [Call::Encode, Call::Read, Call::Repair(flags), Call::Trace(flags), within] {
            let (mut input, result) = match call {
                Call::Encode => (payload.clone(), image.len()),
                Call::Read => (image.clone(), payload.len()),
                _ => (image.clone(), image.len()),
            };
            if call != Call::Encode {
                if random.below(2) == 0 {
                    damage(random, rules.shape, &mut input, tracks);
                }
                if random.below(4) == 0 {
                    let lost = some_lost(random, rules.shape);
                    lose(random, rules.shape, &mut input, lost);
                }
                bad_cells(random, &mut input, 3);
            }
            some_length(random, &mut input);
            let room = some_room(random, result);
            tally.compare(random, call, blocks, &input, room);
        }
    }
}

/// 6 is given where two good records agree off the flags, and from four blocks up nowhere else; of no blocks there are
/// no two. In one of two rounds some of the tracks have lost cells instead of their flags.
pub fn too_many_is_too_many(random: &mut Random, rounds: u64, tally: &mut Tally) {
    for blocks in [0, 1, 2, 4] {
        let rules = base(blocks);
        for _ in 0..rounds / 30 {
            let mut image = tally.record(random, blocks);
            let wide = some_tracks(random, rules.shape, 6);
            damage(random, rules.shape, &mut image, wide);
            let lost = if random.below(2) == 0 { 0 } else { wide & random.next() as u32 };
            lose(random, rules.shape, &mut image, lost);
            let doubt = rules.doubt(&rules.flagged(wide)) > 0;
            assert!(blocks > 0 || !doubt, "flags {wide:#x}");
            let too_many = doubt || blocks < 4 && code(rules.shape, wide) == 0;
            for (call, _) in flag_calls(wide & !lost) {
                let (answer, _) = tally.compare(random, call, blocks, &image, image.len());
                assert_eq!(answer.answer, if too_many { 6 } else { 0 }, "{call:?}, blocks {blocks}");
            }
        }
    }
}

/// No blocks: inputs and outputs of every length up to 414. Images: each cell a 3, lost or a one alone, each two ones,
/// and noise with lost cells, without flags, with a one's track flagged and with any flags.
pub fn no_blocks(random: &mut Random, rounds: u64, tally: &mut Tally) {
    let rules = base(0);
    let zeros = tally.record(random, 0);
    assert!(zeros == [0; 270]);
    for (call, size, result) in [
        (Call::Encode, 0, 270),
        (Call::Read, 270, 0),
        (Call::Repair(0), 270, 270),
        (Call::Trace(0), 270, 270),
        (Call::TraceWithin(0, 2), 270, 270),
        (Call::Pack, 270, 36),
        (Call::Unpack, 36, 270),
    ] {
        for len in 0..=414 {
            let (answer, _) = tally.compare(random, call, 0, &[0; 414][..len], result);
            assert_eq!(answer, number(if len == size { 0 } else { 2 }, 0), "{call:?}, input of {len}");
            let (answer, _) = tally.compare(random, call, 0, &zeros[..size], len);
            assert_eq!(answer, number(if len < result { 3 } else { 0 }, 0), "{call:?}, output of {len}");
        }
    }
    tally.zeroed(random, &zeros, &[0]);
    for first in 0..270 {
        let own = 1 << (first / 15);
        let mut image = zeros.clone();
        image[first] = 3;
        for call in [Call::Read, Call::Repair(own), Call::Trace(own), Call::TraceWithin(own, some_ceiling(random)), Call::Pack] {
            let (answer, _) = tally.compare(random, call, 0, &image, image.len());
            assert_eq!(answer, number(4, first as u32), "{call:?}");
        }
        image[first] = LOST;
        let flags = some_flags(random, rules.shape, own);
        tally.zeroed(random, &image, &[0, own, flags]);
        for second in first..270 {
            image = zeros.clone();
            image[first] = 1;
            image[second] = 1;
            let flags = some_flags(random, rules.shape, own | 1 << (second / 15));
            tally.zeroed(random, &image, &[0, own, flags]);
        }
    }
    for _ in 0..rounds {
        let mut image = some_image(random, rules);
        let lost = some_lost(random, rules.shape);
        lose(random, rules.shape, &mut image, lost);
        let flags = some_flags(random, rules.shape, lost);
        tally.zeroed(random, &image, &[flags]);
    }
}

/// Records with lost cells, up to two damaged tracks and all kinds of flags: of up to 12 blocks, and of 200 to 256 in
/// one round of 60.
pub fn lost_cells(random: &mut Random, rounds: u64, tally: &mut Tally) {
    for _ in 0..rounds {
        let blocks = if random.below(60) == 0 { 200 + random.below(57) as u32 } else { few_blocks(random) };
        let shape = Shape::base(blocks);
        let mut image = tally.record(random, blocks);
        let damaged = some_tracks(random, shape, 2);
        let lost = some_lost(random, shape);
        damage(random, shape, &mut image, damaged);
        lose(random, shape, &mut image, lost);
        let flags = some_flags(random, shape, damaged | lost);
        tally.lost(random, blocks, flags, &image);
    }
}

/// Every number of tracks of A and of B, up to five in all, that are flagged, or have lost cells, or both, and every
/// number of extras.
pub fn lost_limits(random: &mut Random, rounds: u64, tally: &mut Tally) {
    for _ in 0..rounds / 80 {
        for (a, b) in (0..6).flat_map(|a| (0..6 - a).map(move |b| (a, b))) {
            for extras in [[0, 0], [1, 0], [0, 1], [1, 1]] {
                let blocks = few_blocks(random);
                tally.limit(random, blocks, [a, b], extras);
            }
        }
    }
}

/// Images that are no record at all, with lost cells and every kind of flags.
pub fn lost_noise(random: &mut Random, rounds: u64, tally: &mut Tally) {
    for _ in 0..rounds {
        let blocks = few_blocks(random);
        let shape = Shape::base(blocks);
        let mut image: Vec<u8> = random.bytes(shape.size()).iter().map(|x| x & 1).collect();
        let lost = some_lost(random, shape);
        lose(random, shape, &mut image, lost);
        let flags = some_flags(random, shape, lost);
        tally.lost(random, blocks, flags, &image);
    }
}

/// Images with lost cells and with one or two of a value that is no cell's, before them and behind: the detail is the
/// first of these, for packing the first of all.
pub fn lost_and_bad_cells(random: &mut Random, rounds: u64, tally: &mut Tally) {
    for _ in 0..rounds {
        let blocks = few_blocks(random);
        let rules = base(blocks);
        let mut image = some_image(random, rules);
        let lost = some_lost(random, rules.shape);
        lose(random, rules.shape, &mut image, lost);
        for _ in 0..1 + random.below(2) {
            image[random.below(rules.shape.size())] = some_value(random, 3);
        }
        let flags = some_flags(random, rules.shape, lost);
        let first = |most: u8| image.iter().position(|&x| x > most).unwrap() as u32;
        let within = Call::TraceWithin(flags, some_ceiling(random));
        for (call, most) in [(Call::Read, 2), (Call::Repair(flags), 2), (Call::Trace(flags), 2), (within, 2), (Call::Pack, 1)] {
            let (answer, _) = tally.compare(random, call, blocks, &image, image.len());
            assert_eq!(answer, number(4, first(most)), "{call:?}, blocks {blocks}");
        }
    }
}

/// No blocks, and of one block a record and that of zeros: every value of a cell, and each cell lost alone, with no
/// flags, with its own track flagged and with any.
pub fn every_lost_cell(random: &mut Random, _: u64, tally: &mut Tally) {
    let [none, record] = [0, 1].map(|blocks| tally.record(random, blocks));
    for (blocks, record) in [(0, none), (1, vec![0; record.len()]), (1, record)] {
        for value in 0..=255 {
            let mut image = record.clone();
            image[random.below(record.len())] = value;
            tally.lost(random, blocks, 0, &image);
        }
        for cell in 0..record.len() {
            let mut image = record.clone();
            image[cell] = LOST;
            tally.lost(random, blocks, 0, &image);
            for flags in [0, 1 << (cell / Shape::base(blocks).length()), 1 << random.below(18)] {
                tally.filled(random, blocks, flags, &record, &image);
            }
        }
    }
}

/// No blocks and one: a lost cell in each track of every word of up to five tracks, and of all, without flags and with
/// up to two.
pub fn all_lost_words(random: &mut Random, _: u64, tally: &mut Tally) {
    let up_to_five = (0..1u32 << 18).filter(|word| word.count_ones() <= 5);
    let words: Vec<u32> = up_to_five.chain([(1 << 18) - 1]).collect();
    for blocks in [0, 1] {
        let shape = Shape::base(blocks);
        let record = tally.record(random, blocks);
        for &word in &words {
            let mut image = record.clone();
            for g in (0..18).filter(|g| word >> g & 1 == 1) {
                image[g * shape.length() + random.below(shape.length())] = LOST;
            }
            for flags in [0, some_tracks(random, shape, 2)] {
                if code(shape, word | flags) != 0 {
                    tally.filled(random, blocks, flags, &record, &image);
                    continue;
                }
                for (call, _) in flag_calls(flags) {
                    let (answer, _) = tally.compare(random, call, blocks, &image, image.len());
                    assert_eq!(answer, number(6, 0), "{call:?}, blocks {blocks}, lost {word:#x}");
                }
            }
        }
    }
}

/// Every block count, once for 2400 rounds: lost cells in two tracks of each set, among them the image's last cell.
pub fn lost_in_every_count(random: &mut Random, rounds: u64, tally: &mut Tally) {
    for _ in 0..rounds.div_ceil(2400) {
        for blocks in 0..=256 {
            let shape = Shape::base(blocks);
            let record = tally.record(random, blocks);
            let mut image = record.clone();
            let lost = tracks_of(random, shape, 0, 2, 0) | tracks_of(random, shape, 1, 1, 1 << 17);
            lose(random, shape, &mut image, lost);
            image[shape.size() - 1] = LOST;
            tally.filled(random, blocks, 0, &record, &image);
        }
    }
}

/// Records damaged in 0 to 3 tracks that are not flagged, in every way over the sets, without flags and beside each number of
/// tracks of A and of B that is repaired, flagged, or with lost cells, or both. Each ceiling finds the record where table and
/// ceiling both reach it, and else gives 7 where there is surely no other. Every block count once, with a wrong track in each
/// set and no flags.
pub fn ceilings(random: &mut Random, rounds: u64, tally: &mut Tally) {
    let repaired = [[1, 0], [0, 1], [1, 1], [2, 0], [0, 2], [2, 1], [1, 2], [2, 2], [3, 0], [0, 3], [3, 1], [1, 3]];
    for blocks in 0..=256 {
        tally.limit(random, blocks, [0, 0], [1, 1]);
    }
    for _ in 0..rounds / 40 {
        for (a, b) in (0..4).flat_map(|a| (0..4 - a).map(move |b| (a, b))) {
            for wide in [[0, 0], repaired[random.below(12)]] {
                let blocks = some_blocks(random);
                tally.limit(random, blocks, wide, [a, b]);
            }
        }
    }
}

/// Number 12 beside all others, in every mixture: of what is wrong the first in checking order has its number, and where nothing
/// is the record comes back. Ceilings from 0 to 2, and each of those above that are named.
pub fn ceiling_numbers(random: &mut Random, rounds: u64, tally: &mut Tally) {
    let order = [1, 2, 3, 4, 5, 12, 6, 7];
    for _ in 0..rounds.div_ceil(2400) {
        for (wrong, high) in (0..1 << 8).flat_map(|wrong| HIGH_CEILINGS.map(|high| (wrong, high))) {
            let is_wrong = |number: u32| order.iter().position(|n| *n == number).is_some_and(|k| wrong >> k & 1 == 1);
            let near = few_blocks(random);
            let shape = Shape::base(near);
            let record = tally.record(random, near);
            let mut image = record.clone();
            // Two tracks of A that are not flagged are beyond each ceiling. Four are too many flags.
            if is_wrong(7) {
                let tracks = tracks_of(random, shape, 0, 2, 0);
                damage_each(random, shape, &mut image, tracks);
            }
            let mut flags = if is_wrong(6) { tracks_of(random, shape, 1, 4, 0) } else { 0 };
            // Some of them by a lost cell.
            let lost = flags & random.next() as u32;
            lose(random, shape, &mut image, lost);
            flags &= !lost;
            if is_wrong(5) {
                flags |= 1 << (18 + random.below(14));
            }
            let first = if is_wrong(4) { random.below(image.len()) } else { 0 };
            if is_wrong(4) {
                image[first] = some_value(random, 3);
            }
            let blocks = if is_wrong(1) { 257 + random.below(1000) as u32 } else { near };
            let room = if is_wrong(3) { random.below(image.len()) } else { image.len() };
            if is_wrong(2) {
                image.push(0);
            }
            let ceiling = if is_wrong(12) { high } else { random.below(3) as u32 };
            let call = Call::TraceWithin(flags, ceiling);
            let (answer, out) = tally.compare(random, call, blocks, &image, room);
            let given = order.into_iter().find(|n| is_wrong(*n)).unwrap_or(0);
            let detail = if given == 4 { first as u32 } else { 0 };
            assert_eq!(answer, number(given, detail), "{call:?}, blocks {blocks}, wrong {wrong:#b}");
            assert!(given != 0 || out == record, "{call:?}, blocks {blocks}");
            assert!(given != 7 || out == image, "{call:?}, blocks {blocks}");
        }
    }
}

/// Ceiling 2 is tracing as it was before there were ceilings, on every kind of image: records with up to three damaged tracks, and
/// noise, with lost cells and all kinds of flags, and counts, lengths and cell values that are right or not. Where tracing
/// without a ceiling does not give 7, it answers the same.
pub fn ceiling_2_as_before(random: &mut Random, rounds: u64, tally: &mut Tally) {
    for round in 0..rounds {
        let (near, blocks) = match round % 4 {
            0 => some_counts(random),
            1 => [(0, 0), (1, 1)][random.below(2)],
            _ => {
                let blocks = some_blocks(random);
                (blocks, blocks)
            }
        };
        let shape = Shape::base(near);
        let (_, mut image) = random.record(base(near));
        if random.below(8) == 0 {
            image.iter_mut().for_each(|x| *x = random.below(2) as u8);
        }
        let tracks = some_tracks(random, shape, 3);
        damage(random, shape, &mut image, tracks);
        if random.below(3) == 0 {
            let lost = some_lost(random, shape);
            lose(random, shape, &mut image, lost);
        }
        let mut room = image.len() + random.below(20);
        if round % 4 == 0 {
            bad_cells(random, &mut image, 3);
            room = some_room(random, image.len());
            some_length(random, &mut image);
        }
        let flags = some_flags(random, shape, tracks);
        let (now, out) = tally.compare_to_former(random, flags, blocks, &image, room);
        let (trace, same) = tally.compare(random, Call::Trace(flags), blocks, &image, room);
        assert!(trace.answer == 7 || trace == now, "blocks {blocks}, flags {flags:#x}: {trace:?}, {now:?}");
        let found = trace.answer == 0;
        assert!(!found || same[..image.len()] == out[..image.len()], "blocks {blocks}, flags {flags:#x}");
    }
}

/// Images of every kind packed, and unpacked again; packed forms unpacked, and packed again. Each block count up to 12,
/// and the others in one round of 16.
pub fn packed_and_back(random: &mut Random, rounds: u64, tally: &mut Tally) {
    for _ in 0..rounds {
        let blocks = some_blocks(random);
        let rules = base(blocks);
        let image = some_image(random, rules);
        let packed = some_packed(random, rules.shape, 0);
        tally.packed(random, blocks, &image);
        tally.there_and_back(random, [Call::Unpack, Call::Pack], blocks, &packed, image.len());
    }
}

/// Packed forms with one padding bit that is 1, at each head place, and with several.
pub fn padding(random: &mut Random, rounds: u64, tally: &mut Tally) {
    for _ in 0..rounds / 6 {
        let blocks = some_blocks(random);
        let shape = Shape::base(blocks);
        let several = random.next() as u32 % (1 << 18);
        for places in (0..18).map(|place| 1 << place).chain([several, (1 << 18) - 1]) {
            let packed = some_packed(random, shape, places);
            let room = shape.size() + random.below(20);
            let (answer, _) = tally.compare(random, Call::Unpack, blocks, &packed, room);
            assert_eq!(answer, number(if places == 0 { 0 } else { 8 }, 0), "blocks {blocks}, head places {places:#x}");
        }
    }
}

/// Block counts, lengths, cell values and padding bits that are right or not, in every mixture.
pub fn packed_lengths(random: &mut Random, rounds: u64, tally: &mut Tally) {
    for _ in 0..rounds {
        let (near, mut blocks) = some_counts(random);
        if random.below(48) == 0 {
            blocks = random.next() as u32;
        }
        let rules = base(near);
        let mut image = some_image(random, rules);
        bad_cells(random, &mut image, 2);
        let places = match random.below(6) {
            0 => random.next() as u32,
            1 | 2 => 1 << random.below(18),
            _ => 0,
        };
        let packed = some_packed(random, rules.shape, places);
        for (call, mut input, result) in [
            (Call::Pack, image, rules.shape.packed_size()),
            (Call::Unpack, packed, rules.shape.size()),
        ] {
            some_length(random, &mut input);
            let room = if random.below(32) == 0 { 0 } else { some_room(random, result) };
            tally.compare(random, call, blocks, &input, room);
        }
    }
}
