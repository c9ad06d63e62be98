//! Packing and unpacking in the shipped archive, against document 02's note 1 and against the second implementation:
//! every block count, every padding bit, every cell of short images, and the numbers in checking order.

use axp_tests::damage::Random;
use axp_tests::ffi::{Answer, Call};
use axp_tests::second::{expected, number, pack, Shape};

const COUNTS: std::ops::RangeInclusive<u32> = 0..=256;

/// The cells of a track, the bytes of an image and those of a packed form, as the documents give them.
fn length(blocks: u32) -> usize {
    8 * blocks as usize + 15
}

fn image_size(blocks: u32) -> usize {
    18 * length(blocks)
}

fn packed_size(blocks: u32) -> usize {
    18 * (blocks as usize + 2)
}

/// Calls the archive on an output of so many random bytes: the answer, and the output before and after. All are as the
/// second implementation says, and eight bytes behind the output stay.
fn make(random: &mut Random, call: Call, blocks: u32, input: &[u8], room: usize) -> (Answer, Vec<u8>, Vec<u8>) {
    let mut before = random.bytes(room + 8);
    let mut after = before.clone();
    let answer = call.make(blocks, input, &mut after[..room]);
    assert!(after[room..] == before[room..], "{call:?}, blocks {blocks}: bytes behind the output");
    before.truncate(room);
    after.truncate(room);
    let (wanted, bytes) = expected(call, blocks, input, &before);
    assert_eq!(answer, wanted, "{call:?}, blocks {blocks}, input of {} bytes, output of {room}", input.len());
    assert!(after == bytes, "{call:?}, blocks {blocks}, input of {} bytes, output of {room}", input.len());
    (answer, before, after)
}

/// The result of a call that answers 0, on an output of this length and on a longer one, whose later bytes stay.
fn gives(random: &mut Random, call: Call, blocks: u32, input: &[u8], size: usize) -> Vec<u8> {
    let (answer, _, result) = make(random, call, blocks, input, size);
    assert_eq!(answer, number(0, 0), "{call:?}, blocks {blocks}");
    let more = 1 + random.below(20);
    let (answer, before, after) = make(random, call, blocks, input, size + more);
    assert_eq!(answer, number(0, 0), "{call:?}, blocks {blocks}");
    assert!(after[..size] == result && after[size..] == before[size..], "{call:?}, blocks {blocks}");
    result
}

/// A call that answers so and leaves the output as it came.
fn refuses(random: &mut Random, call: Call, blocks: u32, input: &[u8], room: usize, wanted: Answer) {
    let (answer, before, after) = make(random, call, blocks, input, room);
    assert_eq!(answer, wanted, "{call:?}, blocks {blocks}, input of {} bytes, output of {room}", input.len());
    assert!(after == before, "{call:?}, blocks {blocks}: the output of {room} bytes with number {}", wanted.answer);
}

/// A random image.
fn some_image(random: &mut Random, blocks: u32) -> Vec<u8> {
    random.bytes(image_size(blocks)).iter().map(|x| x & 1).collect()
}

/// The byte of the padding bit at a head place; its value there is 1.
fn padding(blocks: u32, place: usize) -> usize {
    place * (blocks as usize + 2) + blocks as usize + 1
}

/// A random packed form, its padding bits 0.
fn some_packed(random: &mut Random, blocks: u32) -> Vec<u8> {
    let mut packed = random.bytes(packed_size(blocks));
    (0..18).for_each(|place| packed[padding(blocks, place)] &= 254);
    packed
}

#[test]
fn images_and_back() {
    let mut random = Random::of("images and back");
    for blocks in COUNTS {
        let image = some_image(&mut random, blocks);
        let packed = gives(&mut random, Call::Pack, blocks, &image, packed_size(blocks));
        assert!(packed == pack(Shape::base(blocks), &image), "blocks {blocks}");
        assert!((0..18).all(|place| packed[padding(blocks, place)] & 1 == 0), "blocks {blocks}");
        assert!(gives(&mut random, Call::Unpack, blocks, &packed, image.len()) == image, "blocks {blocks}");
    }
}

#[test]
fn packed_forms_and_back() {
    let mut random = Random::of("packed forms and back");
    for blocks in COUNTS {
        let packed = some_packed(&mut random, blocks);
        let image = gives(&mut random, Call::Unpack, blocks, &packed, image_size(blocks));
        assert!(image.iter().all(|&x| x < 2), "blocks {blocks}");
        assert!(gives(&mut random, Call::Pack, blocks, &image, packed.len()) == packed, "blocks {blocks}");
    }
}

#[test]
fn every_cell() {
    // The tracks in head order, and the values of a byte's bits, first cell first.
    let order: Vec<&str> = "A0 B0 A1 B1 A2 B2 A3 B3 A4 B4 A5 B5 A6 B6 A7 B7 A8 B8".split(' ').collect();
    let values = [128, 64, 32, 16, 8, 4, 2, 1];
    let mut random = Random::of("every cell");
    for blocks in [0, 1, 2] {
        for g in 0..18 {
            let name = if g < 9 { format!("A{g}") } else { format!("B{}", g - 9) };
            let place = order.iter().position(|track| *track == name).unwrap();
            for m in 0..length(blocks) {
                let mut image = vec![0u8; image_size(blocks)];
                image[g * length(blocks) + m] = 1;
                let mut packed = vec![0u8; packed_size(blocks)];
                packed[place * (blocks as usize + 2) + m / 8] = values[m % 8];
                let there = gives(&mut random, Call::Pack, blocks, &image, packed.len());
                assert_eq!(there, packed, "blocks {blocks}, {name}, position {m}");
                let back = gives(&mut random, Call::Unpack, blocks, &packed, image.len());
                assert_eq!(back, image, "blocks {blocks}, {name}, position {m}");
            }
        }
    }
}

#[test]
fn zeros_and_ones() {
    let mut random = Random::of("zeros and ones");
    for blocks in COUNTS {
        for (cell, byte) in [(0, 0), (1, 255)] {
            let image = vec![cell; image_size(blocks)];
            let mut packed = vec![byte; packed_size(blocks)];
            (0..18).for_each(|place| packed[padding(blocks, place)] &= 254);
            assert!(gives(&mut random, Call::Pack, blocks, &image, packed.len()) == packed, "blocks {blocks}");
            assert!(gives(&mut random, Call::Unpack, blocks, &packed, image.len()) == image, "blocks {blocks}");
        }
    }
}

#[test]
fn every_padding_bit() {
    let mut random = Random::of("every padding bit");
    for blocks in COUNTS {
        let packed = some_packed(&mut random, blocks);
        let room = image_size(blocks) + random.below(2);
        for place in 0..18 {
            let mut padded = packed.clone();
            padded[padding(blocks, place)] |= 1;
            refuses(&mut random, Call::Unpack, blocks, &padded, room, number(8, 0));
        }
        // All of them, and no other bit.
        let mut padded = vec![0u8; packed.len()];
        (0..18).for_each(|place| padded[padding(blocks, place)] = 1);
        refuses(&mut random, Call::Unpack, blocks, &padded, room, number(8, 0));
    }
}

#[test]
fn bad_cells() {
    let mut random = Random::of("bad cells");
    for blocks in [0, 1] {
        // At every index, alone and before another one.
        let good = some_image(&mut random, blocks);
        let room = packed_size(blocks);
        for i in 0..good.len() {
            let mut image = good.clone();
            image[i] = 2 + random.below(254) as u8;
            refuses(&mut random, Call::Pack, blocks, &image, room, number(4, i as u32));
            let behind = i + random.below(good.len() - i);
            image[behind] = 2 + random.below(254) as u8;
            refuses(&mut random, Call::Pack, blocks, &image, room, number(4, i as u32));
        }
        // Every value.
        for value in 2..=255 {
            let mut image = good.clone();
            let i = random.below(good.len());
            image[i] = value;
            refuses(&mut random, Call::Pack, blocks, &image, room, number(4, i as u32));
        }
    }
    // The first cell, the last one and one between, for every block count.
    for blocks in COUNTS {
        let good = some_image(&mut random, blocks);
        let room = packed_size(blocks) + random.below(2);
        for i in [0, random.below(good.len()), good.len() - 1] {
            let mut image = good.clone();
            image[i] = 2;
            refuses(&mut random, Call::Pack, blocks, &image, room, number(4, i as u32));
        }
    }
}

#[test]
fn lengths() {
    // One off both ways, the lengths of the neighbouring counts and of the other call, and none.
    let mut random = Random::of("lengths");
    for blocks in COUNTS {
        let image = some_image(&mut random, blocks);
        let packed = some_packed(&mut random, blocks);
        // A block has 144 cells in the image and 18 packed bytes, less than the tail alone.
        for (call, input, block, result) in
            [(Call::Pack, &image, 144, packed.len()), (Call::Unpack, &packed, 18, image.len())]
        {
            let long = [&input[..], &vec![0u8; block]].concat();
            let size = input.len();
            for len in [size - 1, size + 1, size - block, size + block, 0] {
                refuses(&mut random, call, blocks, &long[..len], result, number(2, 0));
            }
            refuses(&mut random, call, blocks, &vec![0; result], result, number(2, 0));
            for room in [result - 1, random.below(result), 0] {
                refuses(&mut random, call, blocks, input, room, number(3, 0));
            }
            gives(&mut random, call, blocks, input, result);
        }
    }
}

#[test]
fn block_counts() {
    let mut random = Random::of("block counts");
    let mut counts = vec![257, 258, 511, 65_535, u32::MAX - 1, u32::MAX];
    // With one bit: their low bytes are a count of 0.
    counts.extend((9..32).map(|k| 1 << k));
    counts.extend((8..32).map(|k| 1 + (1 << k)));
    counts.extend((0..100).map(|_| 257 + random.below(u32::MAX as usize - 256) as u32));
    for blocks in counts {
        // The lengths of that count where they are near, of one block, and of none.
        let near = if blocks < 1000 { blocks } else { 256 };
        for n in [near, 1, 0] {
            let image = some_image(&mut random, n);
            let packed = some_packed(&mut random, n);
            refuses(&mut random, Call::Pack, blocks, &image, packed.len(), number(1, 0));
            refuses(&mut random, Call::Unpack, blocks, &packed, image.len(), number(1, 0));
        }
    }
}

#[test]
fn checking_order() {
    // An input that is wrong in every way, and less and less so.
    let mut random = Random::of("checking order");
    for blocks in [0, 1, 2, 3, 12, 255, 256] {
        let (image_len, packed_len) = (image_size(blocks), packed_size(blocks));
        let mut image = some_image(&mut random, blocks);
        let cell = random.below(image_len);
        image[cell] = 2 + random.below(254) as u8;
        let mut packed = some_packed(&mut random, blocks);
        packed[padding(blocks, random.below(18))] |= 1;
        for (call, input, result, last) in [
            (Call::Pack, image, packed_len, number(4, cell as u32)),
            (Call::Unpack, packed, image_len, number(8, 0)),
        ] {
            // The wrong cell or bit is still there where the input is longer.
            let long = [&input[..], &[1]].concat();
            for room in [0, result - 1, result, result + 1] {
                for wrong in [257, 1 << 16, u32::MAX] {
                    for input in [&input[..], &input[1..], &long, &[]] {
                        refuses(&mut random, call, wrong, input, room, number(1, 0));
                    }
                }
                for input in [&input[1..], &long, &[]] {
                    refuses(&mut random, call, blocks, input, room, number(2, 0));
                }
                let wanted = if room < result { number(3, 0) } else { last };
                refuses(&mut random, call, blocks, &input, room, wanted);
            }
        }
    }
}
