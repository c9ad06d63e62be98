//! The shipped archive against document 01's examples and against the second decoder, class after class.

use axp_tests::compare::{Tally, CLASSES};
use axp_tests::damage::{rounds, seed, Random};

fn compare(class: &str) {
    let (name, run) = CLASSES.into_iter().find(|(name, _)| *name == class).expect("a class");
    run(&mut Random::of(name), rounds(2400), &mut Tally::new(name, seed()));
}

#[test]
fn examples() {
    compare("examples");
}

#[test]
fn every_block_count() {
    compare("every_block_count");
}

#[test]
fn every_payload_bit() {
    compare("every_payload_bit");
}

#[test]
fn every_wrong_cell() {
    compare("every_wrong_cell");
}

#[test]
fn damaged_records() {
    compare("damaged_records");
}

#[test]
fn short_records() {
    compare("short_records");
}

#[test]
fn word_ends() {
    compare("word_ends");
}

#[test]
fn long_records() {
    compare("long_records");
}

#[test]
fn noise() {
    compare("noise");
}

#[test]
fn all_flag_words() {
    compare("all_flag_words");
}

#[test]
fn lengths_and_cells() {
    compare("lengths_and_cells");
}

#[test]
fn too_many_is_too_many() {
    compare("too_many_is_too_many");
}

#[test]
fn no_blocks() {
    compare("no_blocks");
}

#[test]
fn lost_cells() {
    compare("lost_cells");
}

#[test]
fn lost_limits() {
    compare("lost_limits");
}

#[test]
fn lost_noise() {
    compare("lost_noise");
}

#[test]
fn lost_and_bad_cells() {
    compare("lost_and_bad_cells");
}

#[test]
fn every_lost_cell() {
    compare("every_lost_cell");
}

#[test]
fn all_lost_words() {
    compare("all_lost_words");
}

#[test]
fn lost_in_every_count() {
    compare("lost_in_every_count");
}

#[test]
fn ceilings() {
    compare("ceilings");
}

#[test]
fn ceiling_numbers() {
    compare("ceiling_numbers");
}

#[test]
fn ceiling_2_as_before() {
    compare("ceiling_2_as_before");
}

#[test]
fn packed_and_back() {
    compare("packed_and_back");
}

#[test]
fn padding() {
    compare("padding");
}

#[test]
fn packed_lengths() {
    compare("packed_lengths");
}

#[test]
fn span_tables() {
    compare("span_tables");
}

#[test]
fn span_bursts() {
    compare("span_bursts");
}

#[test]
fn span_windows() {
    compare("span_windows");
}

#[test]
fn span_lost_cells() {
    compare("span_lost_cells");
}

#[test]
fn span_tracks() {
    compare("span_tracks");
}

#[test]
fn every_span() {
    compare("every_span");
}

#[test]
fn span_lengths() {
    compare("span_lengths");
}

#[test]
fn file_records() {
    compare("file_records");
}

#[test]
fn files_written() {
    compare("files_written");
}

#[test]
fn file_refusals() {
    compare("file_refusals");
}

#[test]
fn file_limits() {
    compare("file_limits");
}

#[test]
fn file_rules() {
    compare("file_rules");
}

#[test]
fn file_layouts() {
    compare("file_layouts");
}

#[test]
fn file_noise() {
    compare("file_noise");
}

#[test]
fn every_file_byte() {
    compare("every_file_byte");
}
