//! A small generator of random numbers, random records, and the damage that a drive does.
//! Longer runs: AXP_ROUNDS=5000 (rounds a test) and AXP_SEED=7 (the seed; it is printed).

use crate::ffi::LOST;
use crate::second::{encode, Rules, Shape};

fn setting(name: &str, default: u64) -> u64 {
    std::env::var(name).ok().and_then(|v| v.parse().ok()).unwrap_or(default)
}

pub fn rounds(default: u64) -> u64 {
    setting("AXP_ROUNDS", default)
}

pub fn seed() -> u64 {
    setting("AXP_SEED", 1)
}

/// SplitMix64: the whole run follows from its seed.
pub struct Random(pub u64);

impl Random {
    /// The generator of a test.
    pub fn of(test: &str) -> Random {
        println!("{test}: seed {}", seed());
        Random::named(seed(), test)
    }

    /// The generator of a seed and a name, each letter of which goes into it.
    pub fn named(seed: u64, name: &str) -> Random {
        let mut random = Random(seed);
        for letter in name.bytes() {
            random.0 = random.next() ^ letter as u64;
        }
        random
    }

    pub fn next(&mut self) -> u64 {
        self.0 = self.0.wrapping_add(0x9e37_79b9_7f4a_7c15);
        let mut z = self.0;
        z = (z ^ z >> 30).wrapping_mul(0xbf58_476d_1ce4_e5b9);
        z = (z ^ z >> 27).wrapping_mul(0x94d0_49bb_1331_11eb);
        z ^ z >> 31
    }

    pub fn below(&mut self, n: usize) -> usize {
        (self.next() % n as u64) as usize
    }

    pub fn bytes(&mut self, n: usize) -> Vec<u8> {
        (0..n).map(|_| self.next() as u8).collect()
    }

    /// A word of `count` different tracks.
    pub fn tracks(&mut self, shape: Shape, count: usize) -> u32 {
        let mut word: u32 = 0;
        while (word.count_ones() as usize) < count {
            word |= 1 << self.below(shape.all_tracks());
        }
        word
    }

    /// A payload and its record.
    pub fn record(&mut self, rules: &Rules) -> (Vec<u8>, Vec<u8>) {
        let payload = self.bytes(rules.shape.payload_size());
        let image = encode(rules, &payload);
        (payload, image)
    }
}

/// Damages the tracks of a word: noise, a burst, a single cell, or the tail alone.
pub fn damage(random: &mut Random, shape: Shape, image: &mut [u8], tracks: u32) {
    let length = shape.length();
    for g in (0..shape.all_tracks()).filter(|g| tracks >> g & 1 == 1) {
        let (from, to, all) = match random.below(4) {
            0 => (0, length, false),
            1 => {
                let from = random.below(length);
                (from, (from + 1 + random.below(40)).min(length), true)
            }
            2 => {
                let at = random.below(length);
                (at, at + 1, true)
            }
            _ => (shape.positions, length, false),
        };
        for m in from..to {
            if all || random.below(2) == 1 {
                image[g * length + m] ^= 1;
            }
        }
    }
}

/// Damages the tracks of a word, each in one cell at least.
pub fn damage_each(random: &mut Random, shape: Shape, image: &mut [u8], tracks: u32) {
    let before = image.to_vec();
    damage(random, shape, image, tracks);
    for g in (0..shape.all_tracks()).filter(|g| tracks >> g & 1 == 1) {
        let cells = g * shape.length()..(g + 1) * shape.length();
        if image[cells.clone()] == before[cells.clone()] {
            image[cells.start + random.below(shape.length())] ^= 1;
        }
    }
}

/// Loses cells of the tracks of a word, all or some of: the whole track, the tail, a burst, the first cell, the last,
/// or another. At least one of each track is lost. Damage comes before it.
pub fn lose(random: &mut Random, shape: Shape, image: &mut [u8], tracks: u32) {
    let length = shape.length();
    for g in (0..shape.all_tracks()).filter(|g| tracks >> g & 1 == 1) {
        let at = random.below(length);
        let (from, to) = match random.below(6) {
            0 => (0, length),
            1 => (shape.positions, length),
            2 => (at, (at + 1 + random.below(40)).min(length)),
            3 => (0, 1),
            4 => (length - 1, length),
            _ => (at, at + 1),
        };
        let all = random.below(2) == 0;
        let one = from + random.below(to - from);
        for m in from..to {
            if all || m == one || random.below(2) == 0 {
                image[g * length + m] = LOST;
            }
        }
    }
}
