//! Around each limit of document 01: sides, steps, channels, shifts, ranges and
//! sample totals.

use squeeze::{Record, Step};
use squeeze_compare::random::Random;
use squeeze_compare::runs::{every_function, round_trips, Run};
use squeeze_compare::{lists, must, records, Tally};
use squeeze_model::listing;

const SIDES: [u32; 8] = [0, 1, 2, 7, 8, 9, 16, 17];

fn step(horizontal: bool, in_place: bool, first: u16, number: u16) -> Step {
    Step {
        horizontal,
        in_place,
        first,
        number,
    }
}

#[test]
fn default_plans_of_one_to_four_channels() {
    let (mut random, mut tally) = (Random::new(51), Tally::default());
    for width in SIDES {
        for height in SIDES {
            for count in 1..=4 {
                for meta in 0..=2 {
                    let mut record = Record::new();
                    record = (0..meta).fold(record, |r, _| r.meta_channel(3, 2));
                    record = (0..count).fold(record, |r, _| r.channel(width, height));
                    tally.add(must(every_function(&mut random, record.bytes(), 4096)));
                }
            }
        }
    }
    tally.print("default plans around the sides' limits");
    assert_eq!(tally.met(), [0, 9]);
}

#[test]
fn default_plans_of_unlike_channels() {
    let (mut random, mut tally) = (Random::new(52), Tally::default());
    for _ in 0..4_000 {
        let like = (random.pick(&SIDES), random.pick(&SIDES));
        let mut record = Record::new();
        for _ in 0..1 + random.below(5) {
            let (width, height) = match random.below(3) {
                0 => (random.pick(&SIDES), random.pick(&SIDES)),
                _ => like,
            };
            record = record.channel(width, height);
        }
        tally.add(must(every_function(&mut random, record.bytes(), 4096)));
    }
    tally.print("default plans of unlike channels");
    assert_eq!(tally.met(), [0, 9]);
}

#[test]
fn longest_sides() {
    let mut random = Random::new(53);
    for (width, height) in [
        (65_535, 1),
        (1, 65_535),
        (65_534, 3),
        (9, 65_535),
        (65_535, 0),
        (65_536, 1),
        (3, 65_537),
        (65_536, 0),
        (1_048_575, 1),
        (1, 1_048_575),
        (1_048_575, 0),
    ] {
        let record = Record::new().channel(width, height);
        let expected = if height == 0 { 9 } else { 0 };
        let answer = must(every_function(&mut random, record.bytes(), 1 << 20));
        assert_eq!(answer, expected, "{width} by {height}");
    }
}

#[test]
fn steps_around_64() {
    let mut random = Random::new(54);
    for number in 60..=66 {
        // One channel stays; 60 steps on meta, or 30 in each direction on another.
        let meta = Record::new().meta_channel(9, 9);
        let record = (0..number).fold(meta, |r, k| r.step(step(k % 2 == 0, true, 0, 1)));
        let expected = if number <= 64 { 0 } else { 3 };
        let answer = must(every_function(&mut random, record.bytes(), 4096));
        assert_eq!(answer, expected, "{number} steps");

        let plain = Record::new().channel(9, 9);
        let record = (0..number).fold(plain, |r, k| r.step(step(k % 2 == 0, true, 0, 1)));
        let expected = match number {
            60 => 0,
            61..=64 => 10,
            _ => 3,
        };
        let answer = must(every_function(&mut random, record.bytes(), 4096));
        assert_eq!(answer, expected, "{number} steps, shift 30 after 60");
    }
}

#[test]
fn channels_around_256() {
    let (mut random, mut tally) = (Random::new(55), Tally::default());
    for number in [127, 128, 129, 254, 255, 256, 257] {
        for meta in [0, 1, number] {
            let mut record = Record::new();
            record = (0..meta).fold(record, |r, _| r.meta_channel(2, 2));
            record = (meta..number).fold(record, |r, _| r.channel(2, 2));
            tally.add(must(every_function(&mut random, record.bytes(), 4096)));
            let last = number as u16;
            for in_place in [true, false] {
                for (first, count) in [
                    (0, last),
                    (0, 1),
                    (last - 1, 1),
                    (last - 1, 2),
                    (last - 2, 2),
                    (last, 1),
                    (0, 256 - last.min(256)),
                    (0, 257 - last.min(257)),
                ] {
                    let plan = record.clone().step(step(true, in_place, first, count));
                    tally.add(must(every_function(&mut random, plan.bytes(), 4096)));
                }
            }
        }
    }
    tally.print("127 to 257 channels");
    assert_eq!(tally.met(), [0, 3, 6, 7, 8, 10, 11]);
}

#[test]
fn shifts_around_30() {
    let (mut random, mut tally) = (Random::new(56), Tally::default());
    for h in [0, 29, 30, 31, 32, 254, 255] {
        for v in [0, 29, 30, 31, 32, 254, 255] {
            let record = Record::new().shifted_channel(9, 9, h, v);
            tally.add(must(every_function(&mut random, record.bytes(), 4096)));
            for flags in 0..4 {
                let one = step(flags & 1 == 1, flags & 2 == 2, 0, 1);
                let plan = record.clone().step(one);
                tally.add(must(every_function(&mut random, plan.bytes(), 4096)));
                let two = plan.step(one);
                tally.add(must(every_function(&mut random, two.bytes(), 4096)));
            }
        }
    }
    tally.print("shifts around 30");
    assert_eq!(tally.met(), [0, 4, 8, 10, 11]);
}

#[test]
fn ends_of_ranges() {
    let (mut random, mut tally) = (Random::new(57), Tally::default());
    let ends = [
        0, 1, 2, 3, 4, 5, 255, 256, 32_767, 32_768, 65_531, 65_532, 65_533, 65_534, 65_535,
    ];
    for count in 1..=4 {
        let record = (0..count).fold(Record::new(), |r, _| r.channel(3, 3));
        for first in ends {
            for number in ends {
                for in_place in [true, false] {
                    let plan = record.clone().step(step(true, in_place, first, number));
                    tally.add(must(every_function(&mut random, plan.bytes(), 4096)));
                }
            }
        }
    }
    tally.print("ends of ranges");
    // 1 + 3 + 6 + 10 ranges that fit.
    assert_eq!((tally.0[0], tally.met()), (2 * 20, vec![0, 6]));
}

#[test]
#[rustfmt::skip]
fn sample_totals() {
    // Records around 16,777,216 samples, with slices of a few samples.
    let many = |side| (0..256).fold(Record::new(), |r, _| r.channel(side, side));
    let plain = |w, h| Record::new().channel(w, h);
    let first = step(true, true, 0, 1);
    let cases = [
        (plain(4096, 4096), 0, "one channel, exact"),
        (plain(65_535, 256).channel(256, 1), 0, "two channels, exact"),
        (Record::new().meta_channel(4096, 2048).channel(2048, 4096), 0, "meta counts too"),
        (Record::new().meta_channel(4096, 2048).channel(2049, 4096), 5, "meta counts too"),
        (plain(65_535, 256).channel(257, 1), 5, "one above"),
        (plain(4096, 4096).channel(1, 1), 5, "one above"),
        (plain(4096, 4096).channel(1, 0).step(first), 0, "an empty channel adds nothing"),
        (plain(65_536, 256), 0, "a strip, exact"),
        (plain(1_048_575, 16).channel(16, 1), 0, "a strip and a channel, exact"),
        (plain(16, 1_048_575).channel(17, 1), 5, "one above"),
        (plain(65_536, 65_536), 5, "a product of 33 bits"),
        (plain(1_048_575, 1_048_575), 5, "the largest channel"),
        (many(1_048_575), 5, "the largest list"),
        (many(256).step(step(true, true, 0, 0)), 6, "256 channels, exact"),
    ];
    let mut random = Random::new(58);
    for (record, expected, why) in cases {
        let answer = must(every_function(&mut random, record.bytes(), 100));
        assert_eq!(answer, expected, "{why}");
    }
}

#[test]
fn a_run_of_16777216_samples() {
    let record = Record::new().channel(4096, 4096);
    let input: Vec<i32> = (0..1u32 << 24)
        .map(|k| k.wrapping_mul(2_654_435_761) as i32)
        .collect();
    let slice = vec![5; 1 << 24];
    let mut outputs = Vec::new();
    for (back, read) in [(false, 0), (true, 1)] {
        let input = if read == 0 { &input } else { &outputs[0] };
        let run = Run {
            back,
            record: record.bytes(),
            input,
            output: &slice,
            work: &slice,
        };
        let outcome = must(run.compare());
        assert_eq!(outcome.answer, 0);
        outputs.push(outcome.output);
    }
    assert!(outputs[1] == input);
}

/// Empty slices straight from Rust, whose pointers lead nowhere.
#[test]
fn empty_slices() {
    let empty = Record::new().channel(0, 5).channel(8, 0);
    let refused = Err(squeeze::Refusal::Count);
    assert_eq!(
        squeeze::rebuild(empty.bytes(), &[], &mut [], &mut []),
        Ok(())
    );
    assert_eq!(squeeze::write(empty.bytes(), &[], &mut [], &mut []), Ok(()));
    assert_eq!(squeeze::rebuild_picture(&[], &[]), refused.clone());
    assert_eq!(squeeze::write_pyramid(&[], &[]), refused);
    for horizontal in [true, false] {
        let size = squeeze::Size {
            width: 0,
            height: 0,
        };
        let sizes = squeeze::TileSizes::of_output(horizontal, size);
        assert_eq!(squeeze::tile(&sizes, &[], &[], &[], &[], &mut []), Ok(()));
    }
}

#[test]
fn room_for_the_listing() {
    let (mut random, mut tally) = (Random::new(59), Tally::default());
    for _ in 0..3_000 {
        let record = records::some(&mut random);
        let length = listing::listing(&record).map_or(40, |text| text.len());
        for room in [0, 1, length - 1, length, length + 1, 8191, 8192, 9000] {
            for numbers in [0, 1, 2] {
                tally.add(must(lists::compare_room(&record, room, numbers)));
            }
        }
    }
    tally.print("room for the listing");
    assert_eq!(tally.met(), (0..13).collect::<Vec<_>>());
    assert!(tally.0[0] > 8_000 && tally.0[12] > 8_000);
    // The longest listing has 256 channels and 64 steps.
    let mut longest = (0..192).fold(Record::new(), |r, _| r.shifted_channel(200, 400, 10, 10));
    longest = (0..64).fold(longest, |r, k| r.step(step(true, false, 100 + k, 1)));
    let length = listing::listing(longest.bytes()).unwrap().len();
    assert_eq!(must(lists::compare_room(longest.bytes(), length, 1)), 0);
    assert_eq!(
        must(lists::compare_room(longest.bytes(), length - 1, 1)),
        12
    );
    assert!(length > 3_000 && length <= 8_192);
}

#[test]
fn random_records() {
    let (mut random, mut tally) = (Random::new(60), Tally::default());
    for _ in 0..60_000 {
        let record = records::some(&mut random);
        tally.add(must(every_function(&mut random, &record, 5_000)));
    }
    tally.print("random records");
    assert_eq!(tally.met(), (0..12).collect::<Vec<_>>());
}

#[test]
fn random_plans_there_and_back() {
    let mut random = Random::new(61);
    let mut accepted = 0;
    while accepted < 8_000 {
        let record = records::ordinary(&mut random);
        if let Ok(layout) = squeeze::layout(&record) {
            let samples = random.samples(layout.samples());
            must(round_trips(&record, &samples));
            accepted += 1;
        }
    }
}
