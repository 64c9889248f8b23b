//! Feeds random and damaged records, sizes and slices to every exported
//! function and compares with the model.
//!
//! `cargo run --release --example fuzz -- [COUNT [SEED]]`; 1,000,000 calls with
//! seed 1 if not given. Exit status 1 if anything differs, if a function never gave
//! an answer that it can give, or if strips, versions, origins or marks weren't met in
//! all their ways.

use squeeze_compare::fuzz::{run, Report, ANSWERS, FUNCTIONS};

fn main() {
    let words: Vec<String> = std::env::args().skip(1).collect();
    let word = |k: usize, default: u64| match words.get(k).map(|word| word.parse()) {
        None => default,
        Some(Ok(value)) => value,
        Some(Err(_)) => usage(),
    };
    if words.len() > 2 {
        usage();
    }
    let (count, seed) = (word(0, 1_000_000), word(1, 1));
    let report = run(count, seed);
    print(&report, count, seed);
    let missing = report.never_met();
    let (strips, versions) = (report.strips.never_met(), report.versions.never_met());
    let (origins, marks) = (report.origins.never_met(), report.marks.never_met());
    let all_met = missing.is_empty()
        && strips.is_empty()
        && versions.is_empty()
        && origins.is_empty()
        && marks.is_empty();
    if !all_met {
        println!("never met: {missing:?} {strips:?} {versions:?} {origins:?} {marks:?}");
    }
    if !all_met || !report.differences.is_empty() {
        std::process::exit(1);
    }
}

fn usage() -> ! {
    eprintln!("usage: fuzz [COUNT [SEED]]");
    std::process::exit(1);
}

fn print(report: &Report, count: u64, seed: u64) {
    println!("{count} calls, seed {seed}; how often each answer was met");
    print!("{:<14}", "");
    for answer in 0..ANSWERS {
        print!(" {answer:>7}");
    }
    println!();
    for ((name, _), row) in FUNCTIONS.iter().zip(&report.met) {
        print!("{name:<14}");
        for times in row {
            print!(" {times:>7}");
        }
        println!();
    }
    println!("strips: how often each way was met");
    report.strips.print();
    println!("versions: how often each way was met");
    report.versions.print();
    println!("origins: how often each way was met");
    report.origins.print();
    println!("marks: how often each way was met");
    report.marks.print();
    println!("differences: {}", report.differences.len());
    for text in &report.differences {
        println!("{text}");
    }
}
