//! Every step and every pair of steps on small lists, with round trips.

use squeeze::{Record, Step};
use squeeze_compare::random::Random;
use squeeze_compare::runs::every_function;
use squeeze_compare::{must, Tally};

/// All four kinds of step on every range with ends up to `count` + 1.
fn steps(count: u16) -> Vec<Step> {
    let mut steps = Vec::new();
    for flags in 0..4 {
        for first in 0..=count {
            for number in 0..=count + 1 - first {
                let (horizontal, in_place) = (flags & 1 == 1, flags & 2 == 2);
                steps.push(Step {
                    horizontal,
                    in_place,
                    first,
                    number,
                });
            }
        }
    }
    steps
}

/// Records with one channel of each size, meta or not.
fn one_channel(largest: u32) -> Vec<Record> {
    let mut records = Vec::new();
    for width in 0..=largest {
        for height in 0..=largest {
            records.push(Record::new().channel(width, height));
            records.push(Record::new().meta_channel(width, height));
        }
    }
    records
}

/// Records with two channels: both plain, both meta, or the first meta.
fn two_channels(sides: &[u32]) -> Vec<Record> {
    let mut records = Vec::new();
    for &w in sides {
        for &h in sides {
            for &v in sides {
                for &g in sides {
                    records.push(Record::new().channel(w, h).channel(v, g));
                    records.push(Record::new().meta_channel(w, h).channel(v, g));
                    records.push(Record::new().meta_channel(w, h).meta_channel(v, g));
                }
            }
        }
    }
    records
}

fn check(random: &mut Random, tally: &mut Tally, record: &Record) {
    tally.add(must(every_function(random, record.bytes(), 4096)));
}

#[test]
fn no_step_single_steps_and_pairs_on_one_channel() {
    let (mut random, mut tally) = (Random::new(21), Tally::default());
    for record in one_channel(5) {
        check(&mut random, &mut tally, &record);
        for step in steps(1) {
            let one = record.clone().step(step);
            check(&mut random, &mut tally, &one);
            for second in steps(2) {
                check(&mut random, &mut tally, &one.clone().step(second));
            }
        }
    }
    tally.print("steps on one channel");
    assert_eq!(tally.met(), [0, 6, 8, 9, 11]);
    assert!(tally.0[0] > 1_000);
}

#[test]
fn single_steps_on_two_channels() {
    let (mut random, mut tally) = (Random::new(22), Tally::default());
    for record in two_channels(&[0, 1, 2, 3, 4, 5]) {
        check(&mut random, &mut tally, &record);
        for step in steps(2) {
            check(&mut random, &mut tally, &record.clone().step(step));
        }
    }
    tally.print("single steps on two channels");
    assert_eq!(tally.met(), [0, 6, 7, 8, 9, 11]);
}

#[test]
fn pairs_of_steps_on_two_channels() {
    let (mut random, mut tally) = (Random::new(23), Tally::default());
    for record in two_channels(&[2, 3]) {
        for first in steps(2) {
            for second in steps(4) {
                check(
                    &mut random,
                    &mut tally,
                    &record.clone().step(first).step(second),
                );
            }
        }
    }
    tally.print("pairs of steps on two channels");
    assert_eq!(tally.met(), [0, 6, 7, 8]);
}

#[test]
fn triples_of_steps() {
    let (mut random, mut tally) = (Random::new(24), Tally::default());
    let fitting = |count| {
        steps(count)
            .into_iter()
            .filter(move |s| s.number > 0 && s.first + s.number <= count)
    };
    for record in [Record::new().channel(5, 3), Record::new().channel(4, 9)] {
        for first in fitting(1) {
            for second in fitting(2) {
                for third in fitting(3) {
                    let plan = record.clone().step(first).step(second).step(third);
                    check(&mut random, &mut tally, &plan);
                }
            }
        }
    }
    tally.print("triples of steps");
    assert!(tally.0[0] > 1_000);
}
