//! The program `axp` on stored inputs: tests/axp/NAME.in and what it must print, NAME.out.

use axp_tests::damage::{damage, damage_each, Random};
use axp_tests::ffi::{Call, LOST};
use axp_tests::second::{base, expected, Shape};
use std::collections::HashSet;
use std::fs;
use std::io::Write;
use std::path::{Path, PathBuf};
use std::process::{Command, Stdio};

fn root() -> PathBuf {
    Path::new(env!("CARGO_MANIFEST_DIR")).join("../..")
}

/// The stored files of a name: the input, and what the program must print.
fn files(name: &str) -> [PathBuf; 2] {
    ["in", "out"].map(|kind| root().join(format!("tests/axp/{name}.{kind}")))
}

/// What must be stored, from documents 01 and 02 and the second decoder: a name, its input and its output.
fn cases() -> Vec<(&'static str, Vec<u8>, String)> {
    let image = |name: &'static str, blocks: u32, flags: u32, image: &[u8]| {
        let mut input = (blocks as u16).to_be_bytes().to_vec();
        input.extend(flags.to_be_bytes());
        input.extend(image);
        let before = vec![0u8; 37_134];
        let mut text = format!("axp {blocks} {flags}\n");
        // The program passes ceiling 2.
        for (line, call) in [("repair", Call::Repair(flags)), ("trace", Call::TraceWithin(flags, 2))] {
            let (r, _) = expected(call, blocks, image, &before);
            let second = if r.answer == 0 { r.mask } else { r.detail };
            text += &format!("{line} {} {second} {}\n", r.answer, r.cells);
        }
        (name, input, text)
    };
    let size = |blocks: u32| Shape::base(blocks).size();
    let zero = vec![0u8; size(1)];
    let mut one = zero.clone();
    one[23] = 1;
    let mut bad = zero.clone();
    bad[40] = 3;
    // An image that is 0 but for ones and lost cells, each by its track number and position.
    let sparse = |blocks: u32, ones: &[(usize, usize)], lost: &[(usize, usize)]| {
        let shape = Shape::base(blocks);
        let mut image = vec![0u8; shape.size()];
        ones.iter().for_each(|(g, m)| image[g * shape.length() + m] = 1);
        lost.iter().for_each(|(g, m)| image[g * shape.length() + m] = LOST);
        image
    };
    let mut lost_and_bad = sparse(1, &[], &[(0, 10), (17, 22)]);
    lost_and_bad[40] = 3;
    // No blocks: 270 cells, and the whole of A3.
    let none = vec![0u8; size(0)];
    let mut none_bad = sparse(0, &[(2, 14)], &[(0, 10)]);
    none_bad[269] = 3;
    let whole: Vec<(usize, usize)> = (0..15).map(|m| (3, m)).collect();
    let mut random = Random(5);
    let rules = base(256);
    let (_, mut damaged) = random.record(rules);
    let tracks = 1 << 2 | 1 << 5 | 1 << 9 | 1 << 16;
    damage(&mut random, rules.shape, &mut damaged, tracks);
    // Lost cells in A1, flagged too, and in A5, the whole track; B6 is flagged and damaged.
    let (_, mut record) = random.record(base(2));
    damage(&mut random, Shape::base(2), &mut record, 1 << 1 | 1 << 15);
    record[31 + 7] = LOST;
    record[5 * 31..6 * 31].fill(LOST);
    // Noise in A3 and B8, neither of them flagged.
    let (_, mut each) = random.record(base(3));
    damage_each(&mut random, Shape::base(3), &mut each, 1 << 3 | 1 << 17);
    vec![
        image("listing", 1, 0, &one),
        image("count_0", 0, 0, &none),
        image("count_1", 1, 0, &zero),
        image("count_256", 256, 0, &vec![0; size(256)]),
        image("count_257", 257, 0, &vec![0; size(256)]),
        image("one_byte_less", 1, 0, &zero[1..]),
        image("one_byte_more", 1, 0, &vec![0; size(1) + 1]),
        image("one_byte_past_the_largest", 256, 0, &vec![0; size(256) + 1]),
        image("cell_value", 1, 0, &bad),
        image("flag_bit", 1, 1 << 18, &zero),
        image("too_many", 1, 15, &zero),
        image("repaired_256", 256, tracks, &damaged),
        image("each_set_traced", 3, 0, &each),
        image("each_set_no_record", 3, 1 << 4, &each),
        image("lost_repaired", 2, 1 << 1 | 1 << 15, &record),
        image("lost_zero", 1, 0, &sparse(1, &[], &[(1, 0), (17, 22)])),
        image("lost_traced", 1, 0, &sparse(1, &[(2, 0)], &[(1, 0)])),
        image("lost_no_record", 1, 0, &sparse(1, &[(2, 0), (3, 0)], &[(1, 0)])),
        image("lost_too_many", 1, 3, &sparse(1, &[], &[(2, 8), (3, 22)])),
        image("lost_flag_bit", 1, 1 << 18, &sparse(1, &[], &[(0, 0), (1, 0), (2, 0), (3, 0)])),
        image("lost_and_cell_value", 1, 0, &lost_and_bad),
        image("no_blocks_traced", 0, 0, &sparse(0, &[(1, 14), (17, 0)], &[])),
        image("no_blocks_repaired", 0, 1 << 3 | 1 << 9, &sparse(0, &whole, &[])),
        image("no_blocks_no_record", 0, 0, &sparse(0, &[(1, 0), (2, 0)], &[])),
        image("no_blocks_lost", 0, 0, &sparse(0, &[], &[(8, 14)])),
        image("no_blocks_lost_no_record", 0, 0, &sparse(0, &[(2, 0), (3, 0)], &[(1, 0)])),
        image("no_blocks_too_many", 0, 15, &none),
        image("no_blocks_flag_bit", 0, 1 << 18, &none),
        image("no_blocks_cell_value", 0, 0, &none_bad),
        image("no_blocks_one_byte_less", 0, 0, &zero[..269]),
        image("no_blocks_one_byte_more", 0, 0, &zero[..271]),
        image("no_blocks_length_of_one", 0, 0, &zero),
        image("no_blocks_no_image", 0, 0, &[]),
        ("short", vec![0, 1, 0, 0, 0], "axp short\n".to_string()),
    ]
}

#[test]
fn stored_inputs() {
    let cases = cases();
    let wanted: HashSet<PathBuf> = cases.iter().flat_map(|(name, ..)| files(name)).collect();
    let folder = fs::read_dir(root().join("tests/axp")).unwrap();
    let stored: HashSet<PathBuf> = folder.map(|e| e.unwrap().path()).collect();
    let (lost, stray) = (&wanted - &stored, &stored - &wanted);
    assert!(lost.is_empty() && stray.is_empty(), "lost: {lost:?}, stray: {stray:?}");
    for (name, input, text) in cases {
        let [stored_input, stored_text] = files(name).map(|file| fs::read(file).unwrap());
        assert!(stored_input == input, "the stored input of {name}");
        assert!(stored_text == text.as_bytes(), "the stored output of {name}");
        let mut axp = Command::new(root().join("build/axp"))
            .stdin(Stdio::piped())
            .stdout(Stdio::piped())
            .spawn()
            .expect("build/axp runs");
        let mut pipe = axp.stdin.take().unwrap();
        let writer = std::thread::spawn(move || {
            // The program reads no more than its buffer holds.
            let _ = pipe.write_all(&input);
        });
        let out = axp.wait_with_output().unwrap();
        writer.join().unwrap();
        assert_eq!(String::from_utf8(out.stdout).unwrap(), text, "{name}");
    }
}

/// Writes the stored inputs and outputs anew:
/// cargo test --release --test program -- --ignored
#[test]
#[ignore]
fn store() {
    for (name, input, text) in cases() {
        let [input_file, text_file] = files(name);
        fs::write(input_file, input).unwrap();
        fs::write(text_file, text).unwrap();
    }
}
