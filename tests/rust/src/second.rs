//! The second decoder, from document 01's rules and in another way than the library: all rules are written out as
//! equations over cell indices, for any shape of record, and unknown cells are found by peeling (an equation with one
//! unknown cell gives it) and, where that stalls, by elimination, which also tells whether there are two solutions.
//! Packing is document 02's note 1, bit after bit. Cells that a drive could not read are its note 2: `reading` alone
//! tells what a byte of an image is, and the tracks with a lost cell join the flags before anything is looked up. The
//! record of no blocks is its note 3: the same rules, over the tail alone. Flags by stretch are its note 5: the unknown
//! cells are those of the table and the lost ones, and the tracks of each window are looked up one window after the other.
//! Tracing with a ceiling is its note 7: the choices of extras are listed as document 01's table has them, and those of more
//! tracks than the ceiling are struck off the list. Tracing without one lists them by code 4 where the table says 5.

use crate::ffi::{Answer, Call, Span, LOST, NO_EXTRA};
use std::sync::OnceLock;

/// The closing of the tail: rule 3 carries the vertical tracks through it, or they are 0 there.
#[derive(Clone, Copy, Debug, PartialEq, Eq)]
pub enum Closing {
    Closed,
    Open,
}

/// What the rules depend on: the data tracks T1 of A and T2 of B, the positions N, and the closing.
/// Below, set 0 is A and set 1 is B.
#[derive(Clone, Copy, Debug)]
pub struct Shape {
    pub t1: usize,
    pub t2: usize,
    pub positions: usize,
    pub closing: Closing,
}

impl Shape {
    /// The shape of document 01.
    pub fn base(blocks: u32) -> Shape {
        Shape { t1: 7, t2: 7, positions: 8 * blocks as usize, closing: Closing::Closed }
    }

    /// The data tracks of a set are tracks 1 to T; track 0 is its diagonal check track, track T + 1 its vertical one.
    pub fn data_tracks(&self, set: usize) -> usize {
        [self.t1, self.t2][set]
    }

    pub fn tracks(&self, set: usize) -> usize {
        self.data_tracks(set) + 2
    }

    pub fn all_tracks(&self) -> usize {
        self.tracks(0) + self.tracks(1)
    }

    /// The diagonals' lag, and the tail's length.
    pub fn lag(&self) -> usize {
        self.t1 + self.t2 + 1
    }

    pub fn length(&self) -> usize {
        self.positions + self.lag()
    }

    pub fn size(&self) -> usize {
        self.all_tracks() * self.length()
    }

    pub fn payload_size(&self) -> usize {
        (self.t1 + self.t2) * (self.positions / 8)
    }

    /// A packed track takes n + 2 bytes.
    pub fn packed_size(&self) -> usize {
        self.all_tracks() * (self.positions / 8 + 2)
    }

    pub fn track_number(&self, set: usize, t: usize) -> usize {
        set * self.tracks(0) + t
    }

    /// The cell of a set's track t at position m.
    pub fn index(&self, set: usize, t: usize, m: usize) -> usize {
        self.track_number(set, t) * self.length() + m
    }

    /// The word of all tracks of a set.
    pub fn word(&self, set: usize) -> u32 {
        ((1 << self.tracks(set)) - 1) << self.track_number(set, 0)
    }

    /// The cells of the payload's bits, in order: byte after byte, first A's, the most significant bit first.
    fn data_cells(&self) -> Vec<usize> {
        let mut cells = Vec::new();
        for block in 0..self.positions / 8 {
            for set in 0..2 {
                for t in 1..=self.data_tracks(set) {
                    cells.extend((0..8).map(|k| self.index(set, t, 8 * block + k)));
                }
            }
        }
        cells
    }

    /// The cells of the packed form's bits, in order: byte after byte, the most significant bit first. The tracks come
    /// in head order, A0, B0, A1, B1, to A8, B8; a track's last bit is padding and no cell's. Packing keeps 7 and 7.
    fn packed_cells(&self) -> Vec<Option<usize>> {
        assert_eq!((self.t1, self.t2), (7, 7));
        let mut cells = Vec::new();
        for t in 0..9 {
            for set in 0..2 {
                cells.extend((0..self.length()).map(|m| Some(self.index(set, t, m))));
                cells.push(None);
            }
        }
        cells
    }
}

/// What a drive made of a cell.
#[derive(Clone, Copy, Debug, PartialEq, Eq)]
pub enum Reading {
    Zero,
    One,
    Lost,
}

/// The reading of a byte of an image; None where it is that of no cell.
pub fn reading(byte: u8) -> Option<Reading> {
    match byte {
        0 => Some(Reading::Zero),
        1 => Some(Reading::One),
        LOST => Some(Reading::Lost),
        _ => None,
    }
}

/// Is a byte that of a cell which was read, as all cells of a good record are?
pub fn is_bit(byte: u8) -> bool {
    matches!(reading(byte), Some(Reading::Zero | Reading::One))
}

/// The word of the tracks with a lost cell.
pub fn lost_tracks(shape: Shape, image: &[u8]) -> u32 {
    let is_lost = |track: &[u8]| track.iter().any(|&x| reading(x) == Some(Reading::Lost));
    image.chunks(shape.length()).enumerate().filter(|(_, track)| is_lost(track)).map(|(g, _)| 1 << g).sum()
}

/// Lists of indices, kept one after the other.
struct Lists {
    items: Vec<u32>,
    /// Where each list begins, and where the last one ends.
    bounds: Vec<usize>,
}

impl Lists {
    fn new() -> Lists {
        Lists { items: Vec::new(), bounds: vec![0] }
    }

    fn push(&mut self, list: impl Iterator<Item = usize>) {
        self.items.extend(list.map(|i| i as u32));
        self.bounds.push(self.items.len());
    }

    fn get(&self, i: usize) -> impl Iterator<Item = usize> + '_ {
        self.items[self.bounds[i]..self.bounds[i + 1]].iter().map(|&i| i as usize)
    }

    fn len(&self) -> usize {
        self.bounds.len() - 1
    }

    /// For each index below `count`, the numbers of the lists that it stands in.
    fn transposed(&self, count: usize) -> Lists {
        let mut bounds = vec![0; count + 1];
        self.items.iter().for_each(|&i| bounds[i as usize + 1] += 1);
        (0..count).for_each(|i| bounds[i + 1] += bounds[i]);
        let mut next = bounds.clone();
        let mut items = vec![0; self.items.len()];
        for number in 0..self.len() {
            for i in self.get(number) {
                items[next[i]] = number as u32;
                next[i] += 1;
            }
        }
        Lists { items, bounds }
    }
}

/// The equations of a record: each is a list of cell indices whose sum is 0 modulo 2.
pub struct Rules {
    pub shape: Shape,
    equations: Lists,
    /// The equations that each cell stands in.
    at: Lists,
}

/// An equation while cells are unknown.
#[derive(Clone, Copy)]
struct Equation {
    /// The number of its unknown cells.
    missing: u32,
    /// The exclusive or of their indices: the index of the last one.
    cells: u32,
    /// The sum of its known cells.
    sum: u8,
}

/// An image with unknown cells.
#[derive(Clone)]
struct Partial {
    image: Vec<u8>,
    unknown: Vec<bool>,
    equations: Vec<Equation>,
    /// The equations with one unknown cell, or that had one.
    ready: Vec<usize>,
}

impl Partial {
    fn copy_from(&mut self, other: &Partial) {
        self.image.copy_from_slice(&other.image);
        self.unknown.copy_from_slice(&other.unknown);
        self.equations.copy_from_slice(&other.equations);
    }
}

impl Rules {
    pub fn new(shape: Shape) -> Rules {
        let lag = shape.lag();
        // Where rule 3 ends, and whether rule 4 takes in the vertical track.
        let (vertical_end, vertical_too) = match shape.closing {
            Closing::Closed => (shape.length(), 0),
            Closing::Open => (shape.positions, 1),
        };
        let mut equations = Lists::new();
        for m in 0..shape.length() {
            for set in 0..2 {
                // Rules 1 and 2: the set's own tracks at m - t, the other's at m - (lag - t).
                let other = 1 - set;
                let own = (0..=shape.data_tracks(set)).filter(|&t| m >= t).map(|t| shape.index(set, t, m - t));
                let across = (0..=shape.data_tracks(other)).filter(|&t| m + t >= lag);
                equations.push(own.chain(across.map(|t| shape.index(other, t, m + t - lag))));
                // Rule 3.
                if m < vertical_end {
                    equations.push((0..shape.tracks(set)).map(|t| shape.index(set, t, m)));
                }
                // Rule 4.
                if m >= shape.positions {
                    for t in 1..=shape.data_tracks(set) + vertical_too {
                        equations.push(std::iter::once(shape.index(set, t, m)));
                    }
                }
            }
        }
        let at = equations.transposed(shape.size());
        Rules { shape, equations, at }
    }

    /// The sum of an equation's cells.
    fn sum(&self, i: usize, image: &[u8]) -> u8 {
        self.equations.get(i).fold(0, |sum, c| sum ^ image[c] & 1)
    }

    pub fn is_good(&self, image: &[u8]) -> bool {
        image.iter().all(|&x| is_bit(x)) && (0..self.equations.len()).all(|i| self.sum(i, image) == 0)
    }

    /// The cells of the flagged tracks.
    pub fn flagged(&self, flags: u32) -> Vec<bool> {
        (0..self.shape.size()).map(|c| flags >> (c / self.shape.length()) & 1 == 1).collect()
    }

    /// The good record that equals the image off the unknown cells; None where there is none. Panics where there are
    /// two: then the unknown cells were too many.
    pub fn peel(&self, unknown: &[bool], image: &[u8]) -> Option<Vec<u8>> {
        self.in_reach(unknown, &[0], image).pop()
    }

    /// All good records that differ from the image only in unknown cells and in the tracks of one of the choices.
    pub fn in_reach(&self, unknown: &[bool], choices: &[u32], image: &[u8]) -> Vec<Vec<u8>> {
        let sums = (0..self.equations.len()).map(|i| Equation { missing: 0, cells: 0, sum: self.sum(i, image) });
        let mut start = Partial {
            image: image.to_vec(),
            unknown: vec![false; image.len()],
            equations: sums.collect(),
            ready: Vec::new(),
        };
        (0..image.len()).filter(|&c| unknown[c]).for_each(|c| self.forget(&mut start, c));
        let mut partial = start.clone();
        let mut found: Vec<Vec<u8>> = Vec::new();
        for choice in choices {
            partial.copy_from(&start);
            for g in (0..self.shape.all_tracks()).filter(|g| choice >> g & 1 == 1) {
                let cells = g * self.shape.length()..(g + 1) * self.shape.length();
                cells.filter(|&c| !unknown[c]).for_each(|c| self.forget(&mut partial, c));
            }
            if self.solve(&mut partial) && !found.contains(&partial.image) && self.is_good(&partial.image) {
                found.push(partial.image.clone());
            }
        }
        found
    }

    /// Takes a known cell for unknown.
    fn forget(&self, partial: &mut Partial, cell: usize) {
        partial.unknown[cell] = true;
        for i in self.at.get(cell) {
            let e = &mut partial.equations[i];
            e.missing += 1;
            e.cells ^= cell as u32;
            e.sum ^= partial.image[cell] & 1;
        }
    }

    /// Finds the unknown cells by peeling, then elimination if that stalls. False where there is no solution, at once
    /// where an equation without unknown cells fails.
    fn solve(&self, partial: &mut Partial) -> bool {
        let Partial { image, unknown, equations, ready } = partial;
        ready.clear();
        for (i, e) in equations.iter().enumerate() {
            match (e.missing, e.sum) {
                (0, 1) => return false,
                (1, _) => ready.push(i),
                _ => {}
            }
        }
        while let Some(i) = ready.pop() {
            let Equation { missing, cells, sum } = equations[i];
            if missing != 1 {
                continue;
            }
            let cell = cells as usize;
            image[cell] = sum;
            unknown[cell] = false;
            for j in self.at.get(cell) {
                let e = &mut equations[j];
                e.missing -= 1;
                e.cells ^= cells;
                e.sum ^= sum;
                match (e.missing, e.sum) {
                    (0, 1) => return false,
                    (1, _) => ready.push(j),
                    _ => {}
                }
            }
        }
        if unknown.contains(&true) {
            let Some((solution, free)) = self.eliminate(unknown, image) else { return false };
            assert!(free == 0, "cells left over, {:?}", self.shape);
            *image = solution;
        }
        true
    }

    /// The dimension of the set of good records that are 0 off the unknown cells: 0 exactly if these leave no doubt.
    pub fn doubt(&self, unknown: &[bool]) -> usize {
        let (_, free) = self.eliminate(unknown, &vec![0; unknown.len()]).expect("the record of zeros");
        free
    }

    /// The equations solved for the unknown cells, the others as in the image: one solution and the dimension of all,
    /// or None.
    fn eliminate(&self, unknown: &[bool], image: &[u8]) -> Option<(Vec<u8>, usize)> {
        let cells: Vec<usize> = (0..unknown.len()).filter(|&c| unknown[c]).collect();
        // Each unknown cell has a column; the last column is the sum of the known cells.
        let last = cells.len();
        let mut column = vec![last; unknown.len()];
        for (k, &c) in cells.iter().enumerate() {
            column[c] = k;
        }
        let bit = |row: &[u64], k: usize| row[k / 64] >> (k % 64) & 1;
        let mut rows: Vec<Vec<u64>> = Vec::new();
        for i in 0..self.equations.len() {
            let mut row = vec![0u64; last / 64 + 1];
            for c in self.equations.get(i) {
                let value = if unknown[c] { 1 } else { image[c] as u64 & 1 };
                row[column[c] / 64] ^= value << (column[c] % 64);
            }
            if row.iter().any(|&w| w != 0) {
                rows.push(row);
            }
        }
        // Row i, for i below the rank, is the only one with a 1 in column leading[i].
        let mut leading = Vec::new();
        for k in 0..last {
            let rank = leading.len();
            let Some(p) = (rank..rows.len()).find(|&i| bit(&rows[i], k) == 1) else { continue };
            rows.swap(rank, p);
            let pivot = rows[rank].clone();
            for (i, row) in rows.iter_mut().enumerate() {
                if i != rank && bit(row, k) == 1 {
                    for (x, y) in row.iter_mut().zip(&pivot) {
                        *x ^= y;
                    }
                }
            }
            leading.push(k);
        }
        if rows[leading.len()..].iter().any(|row| bit(row, last) == 1) {
            return None;
        }
        let mut out = image.to_vec();
        cells.iter().for_each(|&c| out[c] = 0);
        for (row, &k) in rows.iter().zip(&leading) {
            out[cells[k]] = bit(row, last) as u8;
        }
        Some((out, last - leading.len()))
    }
}

/// The rules of document 01's record, for 0 to 257 blocks; they are made once.
pub fn base(blocks: u32) -> &'static Rules {
    static ALL: [OnceLock<Rules>; 258] = [const { OnceLock::new() }; 258];
    ALL[blocks as usize].get_or_init(|| Rules::new(Shape::base(blocks)))
}

/// The table's code for a flag word.
pub fn code(shape: Shape, flags: u32) -> u32 {
    match ((flags & shape.word(0)).count_ones(), (flags & shape.word(1)).count_ones()) {
        (0, 0) => 5,
        (1, 0) | (0, 1) | (1, 1) => 4,
        (2, 0) => 3,
        (0, 2) => 2,
        (2, 1) | (1, 2) | (2, 2) | (3, 0) | (0, 3) | (3, 1) | (1, 3) => 1,
        _ => 0,
    }
}

/// Is a table in order, for an image of so many cells?
pub fn in_order(spans: &[Span], cells: usize) -> bool {
    let end = |span: &Span| span.offset as u64 + span.length as u64;
    spans.len() <= 64
        && spans.iter().all(|span| span.length != 0 && end(span) <= cells as u64)
        && spans.windows(2).all(|pair| end(&pair[0]) <= pair[1].offset as u64)
}

/// The flagged cells of an image: those in a pair of the table, and the lost ones, not their tracks.
pub fn flagged_cells(spans: &[Span], image: &[u8]) -> Vec<bool> {
    let mut flagged: Vec<bool> = image.iter().map(|&x| reading(x) == Some(Reading::Lost)).collect();
    for span in spans {
        flagged[span.offset as usize..][..span.length as usize].fill(true);
    }
    flagged
}

/// The word of the tracks with a flagged cell among `count` positions from m on, or to the tail's end.
pub fn tracks_from(shape: Shape, flagged: &[bool], m: usize, count: usize) -> u32 {
    let end = (m + count).min(shape.length());
    let track = |g: usize| flagged[g * shape.length()..][m..end].contains(&true);
    (0..shape.all_tracks()).filter(|&g| track(g)).map(|g| 1 << g).sum()
}

/// Has every position's window, m to m + 15, a code above 0?
pub fn windows_coded(shape: Shape, flagged: &[bool]) -> bool {
    (0..shape.length()).all(|m| code(shape, tracks_from(shape, flagged, m, 16)) != 0)
}

/// The extra tracks that a code allows beside these flags, as words.
pub fn choices(shape: Shape, flags: u32, code: u32) -> Vec<u32> {
    let of = |set: usize| -> Vec<u32> {
        let tracks = (0..shape.tracks(set)).map(|t| 1 << shape.track_number(set, t));
        std::iter::once(0).chain(tracks.filter(|b| flags & b == 0)).collect()
    };
    let (a, b) = match code {
        5 | 4 => (of(0), of(1)),
        3 => (vec![0], of(1)),
        2 => (of(0), vec![0]),
        1 => (vec![0], vec![0]),
        _ => (vec![], vec![]),
    };
    let mut all = Vec::new();
    for &x in &a {
        for &y in &b {
            if code == 5 || x == 0 || y == 0 {
                all.push(x | y);
            }
        }
    }
    all
}

/// The choices of tracing without a ceiling: code 4 stands in place of 5.
pub fn cautious_choices(shape: Shape, flags: u32) -> Vec<u32> {
    let code = code(shape, flags);
    choices(shape, flags, if code == 5 { 4 } else { code })
}

/// The choices of tracing with a ceiling: those of the table's code, of so many tracks at the most.
pub fn choices_within(shape: Shape, flags: u32, ceiling: u32) -> Vec<u32> {
    let mut all = choices(shape, flags, code(shape, flags));
    all.retain(|choice| choice.count_ones() <= ceiling);
    all
}

/// The good record of a payload: the data cells, then the check tracks by peeling.
pub fn encode(rules: &Rules, payload: &[u8]) -> Vec<u8> {
    let shape = rules.shape;
    let mut image = vec![0u8; shape.size()];
    for (i, c) in shape.data_cells().into_iter().enumerate() {
        image[c] = payload[i / 8] >> (7 - i % 8) & 1;
    }
    let of = |set: usize| 1 << shape.track_number(set, 0) | 1 << shape.track_number(set, shape.data_tracks(set) + 1);
    rules.peel(&rules.flagged(of(0) | of(1)), &image).expect("each payload has a good record")
}

/// The payload of an image.
pub fn payload(shape: Shape, image: &[u8]) -> Vec<u8> {
    shape.data_cells().chunks(8).map(|byte| byte.iter().fold(0, |v, &c| v << 1 | image[c])).collect()
}

/// The packed form of an image.
pub fn pack(shape: Shape, image: &[u8]) -> Vec<u8> {
    let mut packed = vec![0u8; shape.packed_size()];
    for (i, cell) in shape.packed_cells().into_iter().enumerate() {
        let bit = cell.map_or(0, |c| image[c]);
        packed[i / 8] |= bit << (7 - i % 8);
    }
    packed
}

/// The image of a packed form; None where a padding bit is 1.
pub fn unpack(shape: Shape, packed: &[u8]) -> Option<Vec<u8>> {
    let mut image = vec![0u8; shape.size()];
    for (i, cell) in shape.packed_cells().into_iter().enumerate() {
        let bit = packed[i / 8] >> (7 - i % 8) & 1;
        match cell {
            Some(c) => image[c] = bit,
            None if bit == 1 => return None,
            None => {}
        }
    }
    Some(image)
}

/// The changed mask and the number of changed cells.
pub fn changed(shape: Shape, image: &[u8], out: &[u8]) -> (u32, u32) {
    let mut mask = 0;
    let mut cells = 0;
    for i in 0..image.len() {
        if image[i] != out[i] {
            mask |= 1 << (i / shape.length());
            cells += 1;
        }
    }
    (mask, cells)
}

/// The extra of a set, by its changed tracks that were not unknown: one at the most.
pub fn extra(tracks: u32) -> u32 {
    assert!(tracks.count_ones() <= 1);
    if tracks == 0 { NO_EXTRA } else { tracks.trailing_zeros() }
}

/// A number with its detail, no changed cell and no extra.
pub fn number(answer: u32, detail: u32) -> Answer {
    Answer { answer, detail, mask: 0, cells: 0, extra_a: NO_EXTRA, extra_b: NO_EXTRA }
}

/// What documents 01 and 02 say of a call on an output of these bytes: the answer and every byte that it leaves there.
pub fn expected(call: Call, blocks: u32, input: &[u8], before: &[u8]) -> (Answer, Vec<u8>) {
    let refused = |answer, detail| (number(answer, detail), before.to_vec());
    if blocks > 256 {
        return refused(1, 0);
    }
    let shape = Shape::base(blocks);
    let (input_len, result_len) = match call {
        Call::Encode => (shape.payload_size(), shape.size()),
        Call::Read => (shape.size(), shape.payload_size()),
        Call::Repair(_) | Call::Trace(_) | Call::TraceWithin(..) | Call::RepairSpans(_) => (shape.size(), shape.size()),
        Call::Pack => (shape.size(), shape.packed_size()),
        Call::Unpack => (shape.packed_size(), shape.size()),
    };
    if input.len() != input_len {
        return refused(2, 0);
    }
    if before.len() < result_len {
        return refused(3, 0);
    }
    let result = |bytes: &[u8]| (number(0, 0), [bytes, &before[result_len..]].concat());
    if call == Call::Encode {
        return result(&encode(base(blocks), input));
    }
    if call == Call::Unpack {
        return unpack(shape, input).map_or_else(|| refused(8, 0), |image| result(&image));
    }
    // Packing takes no lost cell.
    let is_cell = |x: u8| if call == Call::Pack { is_bit(x) } else { reading(x).is_some() };
    if let Some(i) = input.iter().position(|&x| !is_cell(x)) {
        return refused(4, i as u32);
    }
    if call == Call::Pack {
        return result(&pack(shape, input));
    }
    let rules = base(blocks);
    let word = match call {
        Call::RepairSpans(spans) if !in_order(spans, input.len()) => return refused(9, 0),
        Call::RepairSpans(spans) => {
            let unknown = flagged_cells(spans, input);
            if !windows_coded(shape, &unknown) {
                return refused(6, 0);
            }
            return reached(rules, &unknown, &[0], input, before);
        }
        Call::Repair(word) | Call::Trace(word) | Call::TraceWithin(word, _) => word,
        _ if rules.is_good(input) => return result(&payload(shape, input)),
        _ => return refused(7, 0),
    };
    if word >> shape.all_tracks() != 0 {
        return refused(5, 0);
    }
    if matches!(call, Call::TraceWithin(_, ceiling) if ceiling > 2) {
        return refused(12, 0);
    }
    // A track with a lost cell counts as flagged.
    let flags = word | lost_tracks(shape, input);
    if code(shape, flags) == 0 {
        return refused(6, 0);
    }
    let choices = match call {
        Call::Trace(_) => cautious_choices(shape, flags),
        Call::TraceWithin(_, ceiling) => choices_within(shape, flags, ceiling),
        _ => vec![0],
    };
    reached(rules, &rules.flagged(flags), &choices, input, before)
}

/// What document 01 and note 2 of document 02 say of tracing, as it was before note 7: the table's code for the flags and the
/// lost cells decides alone, 5 where there are none. Tracing with ceiling 2 is that to this day.
pub fn former_trace(word: u32, blocks: u32, image: &[u8], before: &[u8]) -> (Answer, Vec<u8>) {
    let shape = Shape::base(blocks.min(256));
    let bad = image.iter().position(|&x| reading(x).is_none());
    let (answer, detail) = match bad {
        _ if blocks > 256 => (1, 0),
        _ if image.len() != shape.size() => (2, 0),
        _ if before.len() < shape.size() => (3, 0),
        Some(i) => (4, i as u32),
        None if word >> 18 != 0 => (5, 0),
        None => {
            let flags = word | lost_tracks(shape, image);
            match code(shape, flags) {
                0 => (6, 0),
                code => {
                    let rules = base(blocks);
                    return reached(rules, &rules.flagged(flags), &choices(shape, flags, code), image, before);
                }
            }
        }
    };
    (number(answer, detail), before.to_vec())
}

/// Answer 0 with the good record in reach, or 7 with a copy of the image, and every byte of the output.
pub fn reached(rules: &Rules, unknown: &[bool], choices: &[u32], image: &[u8], before: &[u8]) -> (Answer, Vec<u8>) {
    let shape = rules.shape;
    let found = rules.in_reach(unknown, choices, image);
    assert!(found.len() <= 1, "two records in reach");
    let mut after = before.to_vec();
    let Some(record) = found.first() else {
        after[..image.len()].copy_from_slice(image);
        return (number(7, 0), after);
    };
    after[..image.len()].copy_from_slice(record);
    let (mask, cells) = changed(shape, image, record);
    // The extra of a set: the track with a changed cell that was not unknown.
    let known: Vec<u8> = (0..image.len()).map(|c| if unknown[c] { image[c] } else { record[c] }).collect();
    let (outside, _) = changed(shape, image, &known);
    let [extra_a, extra_b] = [0, 1].map(|set| extra(outside & shape.word(set)));
    (Answer { answer: 0, detail: 0, mask, cells, extra_a, extra_b }, after)
}
