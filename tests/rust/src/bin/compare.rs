//! All classes of the comparison, and the compared calls by call and answer:
//! AXP_ROUNDS=84000 AXP_SEED=7 cargo run --release --offline
//! It fails at the first difference, and where a call was never compared with an answer that it can give.

use axp_tests::compare::{Tally, ANSWERS, CALLS, CLASSES};
use axp_tests::damage::{rounds, seed, Random};
use std::time::Instant;

fn main() {
    let (seed, rounds) = (seed(), rounds(2400));
    println!("seed {seed}, rounds {rounds}");
    let begin = Instant::now();
    let mut tally = Tally::new("", seed);
    for (name, class) in CLASSES {
        let (calls, time) = (tally.total(), Instant::now());
        tally.class = name;
        class(&mut Random::named(seed, name), rounds, &mut tally);
        println!("{name:21}{:9} calls{:9.1} s", tally.total() - calls, time.elapsed().as_secs_f64());
    }
    println!("\n{:12}{}", "answer", (0..ANSWERS).map(|n| format!("{n:9}")).collect::<String>());
    let mut missing = Vec::new();
    for ((call, answers), counts) in CALLS.iter().zip(&tally.counts) {
        let cell = |n: usize| if answers.contains(&n) { format!("{:9}", counts[n]) } else { format!("{:>9}", "-") };
        println!("{call:12}{}", (0..ANSWERS).map(cell).collect::<String>());
        missing.extend(answers.iter().filter(|&&n| counts[n] == 0).map(|n| format!("{call} {n}")));
    }
    println!("\n{} compared calls, {:.1} s", tally.total(), begin.elapsed().as_secs_f64());
    if !missing.is_empty() {
        eprintln!("never compared: {}", missing.join(", "));
        std::process::exit(1);
    }
    println!("all equal");
}
