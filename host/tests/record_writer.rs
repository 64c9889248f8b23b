//! The record's writer: channels and steps as numbers, every refusal, every
//! limit of a number, of a count and of a slice. What is written is read back.
//! Versions have a test of their own, `versions.rs`.

use squeeze_compare::parts::{self, Parts, CUTS, VALUES};
use squeeze_compare::random::Random;
use squeeze_compare::runs::every_function;
use squeeze_compare::{must, Tally};

fn parts(channels: &[[u32; 4]], steps: &[[u32; 3]]) -> Parts {
    Parts {
        version: 1,
        channels: channels.concat(),
        steps: steps.concat(),
    }
}

/// With more numbers behind those of the channels and those of the steps.
fn rest(parts: &Parts, channels: usize, steps: usize) -> Parts {
    let mut more = parts.clone();
    more.channels.extend((0..channels).map(|_| 1));
    more.steps.extend((0..steps).map(|_| 1));
    more
}

fn plain(width: u32, height: u32) -> [u32; 4] {
    [width, height, 0, 0]
}

fn meta(width: u32, height: u32) -> [u32; 4] {
    [width, height, 255, 255]
}

/// A meta channel, three others and two steps, all accepted.
fn sound() -> Parts {
    parts(
        &[meta(5, 3), plain(20, 9), [300, 2, 7, 29], plain(20, 9)],
        &[[2, 0, 1], [1, 2, 3]],
    )
}

#[test]
fn written_records() {
    let one = parts(&[plain(20, 9)], &[]);
    let (answer, record) = must(one.compare_room(12, 2));
    assert_eq!(answer, 0);
    assert_eq!(record, [1, 6, 0, 20, 0, 9, 0, 0, 0, 0x23, 0x23, 0x23]);
    let (answer, record) = must(sound().compare_room(52, 1));
    let written = [
        [1, 6, 0, 5, 0, 3, 0, 255, 255].as_slice(),
        &[1, 6, 0, 20, 0, 9, 0, 0, 0],
        &[1, 6, 0, 44, 1, 2, 0, 7, 29],
        &[1, 6, 0, 20, 0, 9, 0, 0, 0],
        &[2, 5, 0, 2, 0, 0, 1, 0],
        &[2, 5, 0, 1, 2, 0, 3, 0],
    ];
    assert_eq!((answer, record), (0, written.concat()));
    assert_eq!(must(one.compare()), 0);
    assert_eq!(must(sound().compare()), 0);
}

#[test]
#[rustfmt::skip]
fn refusals() {
    let many = |number, width| parts(&vec![plain(width, 1); number], &[]);
    let steps = |number, step| parts(&[plain(9, 9)], &vec![step; number]);
    let one = |channel| parts(&[channel], &[]);
    let step = |step| parts(&[plain(9, 9)], &[step]);
    let (big, long) = (65_536, 1_048_576);
    let cases = [
        (parts(&[], &[]), 3, "no number at all"),
        (rest(&parts(&[], &[]), 3, 0), 3, "three numbers are no channel"),
        (rest(&parts(&[], &[[9, 9, 9]]), 3, 2), 3, "no channel, before flags and remainders"),
        (many(257, 0), 3, "257 channels"),
        (many(257, long), 3, "257 channels, before their sides"),
        (steps(65, [1, 0, 1]), 3, "65 steps"),
        (steps(65, [4, big, 0]), 3, "65 steps, before their flags and ranges"),
        (one(plain(long, 9)), 4, "a width of 1,048,576"),
        (one(plain(9, long)), 4, "a height of 1,048,576"),
        (one(plain(long + 9, 9)), 4, "a width that would be 9 if cut"),
        (one(plain(u32::MAX, u32::MAX)), 4, "the largest sides, before samples"),
        (one(meta(long, 0)), 4, "a meta channel's width, before the default plan"),
        (one([9, 9, 31, 0]), 4, "a horizontal shift of 31"),
        (one([9, 9, 0, 31]), 4, "a vertical shift of 31"),
        (one([9, 9, 256, 0]), 4, "a shift that would be 0 if cut"),
        (one([9, 9, 0, u32::MAX]), 4, "the largest shift"),
        (one([9, 9, 255, 0]), 4, "half meta"),
        (one([9, 9, 255, 511]), 4, "not meta, though 511 would be 255 if cut"),
        (one([9, 9, 511, 511]), 4, "both 511"),
        (parts(&[plain(1, 1), meta(1, 1)], &[]), 4, "a meta channel second"),
        (step([4, 0, 1]), 4, "flag bit 2"),
        (step([256, 0, 1]), 4, "flags that would be 0 if cut"),
        (step([u32::MAX, 0, 1]), 4, "all flags"),
        (parts(&[plain(9, 9)], &[[1, 9, 9], [4, 0, 1]]), 4, "a later step's flags, before a range"),
        (parts(&[plain(4096, 4096), plain(1, 1)], &[[4, 0, 1]]), 4, "flags, before samples"),
        (parts(&[plain(4096, 4096), plain(1, 1)], &[]), 5, "one sample above 16,777,216"),
        (parts(&[plain(long - 1, long - 1); 256], &[[0, 0, 0]]), 5, "the largest list, before the range"),
        (one(meta(65_535, 257)), 5, "samples, before the default plan"),
        (one(meta(9, 9)), 11, "a default plan and only a meta channel"),
        (rest(&one(meta(9, 9)), 1, 2), 11, "two numbers are no step; the plan before remainders"),
        (step([1, 0, 0]), 6, "a range of nothing"),
        (step([1, 1, 1]), 6, "a range past the end"),
        (step([1, big, 1]), 6, "a first channel of 65,536"),
        (step([1, 0, big + 1]), 6, "a number that would be 1 if cut"),
        (step([1, u32::MAX, 1]), 6, "2^32 - 1 and 1 are not 0"),
        (step([1, u32::MAX, u32::MAX]), 6, "nor is twice 2^32 - 1 small"),
        (step([1, 1 << 31, 1 << 31]), 6, "nor 2^31 and 2^31"),
        (parts(&[plain(9, 9)], &[[3, 0, 1], [3, 1, 1], [3, 2, big]]), 6, "the third step's"),
        (parts(&[meta(9, 9), plain(9, 9)], &[[3, 0, 2]]), 7, "meta and another"),
        (parts(&[meta(9, 9), plain(0, 9)], &[[1, 0, 2]]), 7, "kinds, before place and sides"),
        (parts(&[meta(0, 9)], &[[1, 0, 1]]), 8, "meta, not in place, before sides"),
        (parts(&[[0, 9, 30, 30]], &[[1, 0, 1]]), 9, "width 0, before shifts"),
        (parts(&[plain(1, 9)], &[[3, 0, 1], [3, 1, 1]]), 9, "the residual of a side of 1"),
        (one(plain(0, 20)), 9, "the default plan meets width 0"),
        (parts(&[[9, 9, 30, 0]], &[[1, 0, 1]]), 10, "horizontal shift 31"),
        (parts(&[plain(1, 1); 256], &[[1, 0, 1]]), 10, "257 channels after the step"),
        (many(129, 9), 10, "the default plan leaves 258 channels"),
        (parts(&[plain(9, 9)], &[[1, 0, 1], [3, 0, 0], [4, 0, 0]]), 4, "flags, before the ranges"),
        (parts(&[plain(9, 9)], &[[1, 0, 1], [3, 0, 0], [1, big, 0]]), 6, "the first refused step"),
        (rest(&sound(), 1, 0), 12, "a number after the channels"),
        (rest(&sound(), 2, 0), 12, "two numbers after the channels"),
        (rest(&sound(), 3, 0), 12, "three numbers after the channels"),
        (rest(&sound(), 0, 1), 12, "a number after the steps"),
        (rest(&sound(), 3, 2), 12, "remainders of both"),
        (rest(&one(plain(9, 9)), 0, 2), 12, "a default plan and two numbers"),
        (rest(&step([1, 1, 1]), 1, 1), 6, "the range, before remainders"),
        (rest(&many(256, 1), 1, 0), 12, "256 channels and a number are not 257"),
        (rest(&steps(64, [1, 0, 1]), 0, 2), 10, "64 steps and two numbers are not 65"),
        (sound(), 0, "all accepted"),
        (one(plain(0, 0)), 0, "an empty channel"),
        (one(plain(65_535, 256)), 0, "the longest side of tag 1"),
        (one(plain(long - 1, 16)), 0, "the longest side"),
        (one([9, 9, 29, 29]), 0, "shifts that the default plan makes 30"),
        (parts(&[[1, 1, 30, 30]; 256], &[]), 0, "256 channels, shifts 30, no step to take"),
        (parts(&[meta(1, 1)], &[[2, 0, 1]; 64]), 0, "64 steps"),
    ];
    let mut tally = Tally::default();
    for (parts, expected, why) in cases {
        assert_eq!(must(parts.compare()), expected, "{why}");
        tally.add(expected);
        let unknown = Parts { version: 3, ..parts };
        let expected = if expected == 3 { 3 } else { 4 };
        assert_eq!(must(unknown.compare()), expected, "{why}, version 3");
    }
    assert_eq!(tally.met(), [0, 3, 4, 5, 6, 7, 8, 9, 10, 11, 12]);
}

/// The largest number that any place like this one takes, and what a larger one
/// is answered with, whatever the model says.
fn largest_at(place: usize, channels: usize) -> (u32, u32) {
    match place.checked_sub(channels) {
        None if place % 4 < 2 => (1_048_575, 4),
        None => (255, 4),
        Some(place) if place.is_multiple_of(3) => (3, 4),
        Some(_) => (65_535, 6),
    }
}

/// The number at a place, channels' numbers first.
fn number(parts: &mut Parts, place: usize) -> &mut u32 {
    let channels = parts.channels.len();
    match place.checked_sub(channels) {
        None => &mut parts.channels[place],
        Some(place) => &mut parts.steps[place],
    }
}

#[test]
fn every_number_in_every_place() {
    let mut tally = Tally::default();
    let base = sound();
    let channels = base.channels.len();
    for place in 0..channels + base.steps.len() {
        let before = *number(&mut base.clone(), place);
        let cut = CUTS.map(|bits| before.wrapping_add(bits));
        for value in VALUES.into_iter().chain(cut) {
            let mut parts = base.clone();
            *number(&mut parts, place) = value;
            let answer = must(parts.compare());
            let (largest, refusal) = largest_at(place, channels);
            if value > largest {
                assert_eq!(answer, refusal, "{value} in {place}");
            }
            tally.add(answer);
        }
    }
    tally.print("every number in every place");
    assert_eq!(tally.met(), [0, 4, 5, 6, 7, 8, 9, 10]);
}

#[test]
fn two_numbers_in_every_two_places() {
    let mut tally = Tally::default();
    let base = sound();
    let places = base.channels.len() + base.steps.len();
    let values = [
        0,
        1,
        3,
        30,
        31,
        255,
        256,
        65_535,
        65_536,
        1_048_575,
        1_048_576,
        u32::MAX,
    ];
    for first in 0..places {
        for second in first + 1..places {
            for value in values {
                for other in values {
                    let mut parts = base.clone();
                    *number(&mut parts, first) = value;
                    *number(&mut parts, second) = other;
                    tally.add(must(parts.compare()));
                }
            }
        }
    }
    tally.print("two numbers in every two places");
    assert_eq!(tally.met(), [0, 4, 5, 6, 7, 8, 9, 10]);
}

#[test]
fn counts_and_remainders() {
    let mut tally = Tally::default();
    for channels in [0, 1, 2, 191, 192, 193, 255, 256, 257, 300] {
        for steps in [0, 1, 2, 63, 64, 65, 66] {
            // A step in place on the first of the meta channels, always allowed.
            let whole = Parts {
                version: 1,
                channels: meta(2, 1).repeat(channels),
                steps: [2, 0, 1].repeat(steps),
            };
            for (c, s) in [(0, 0), (1, 0), (2, 0), (3, 0), (0, 1), (0, 2), (3, 2)] {
                let answer = must(rest(&whole, c, s).compare());
                let expected = match (channels, steps) {
                    (0, _) | (257.., _) | (_, 65..) => 3,
                    (_, 0) => 11,
                    _ if channels + steps > 256 => 10,
                    _ if c + s > 0 => 12,
                    _ => 0,
                };
                assert_eq!(answer, expected, "{channels} {steps}, {c} and {s} more");
                tally.add(answer);
            }
        }
    }
    tally.print("counts and remainders");
    assert_eq!(tally.met(), [0, 3, 10, 11, 12]);
}

#[test]
fn lengths_of_slices() {
    let longest = parts(&[meta(1, 1); 192], &[[2, 0, 1]; 64]);
    assert_eq!(longest.bytes(), 192 * 9 + 64 * 8);
    let strips = parts(&[meta(65_536, 1); 192], &[[2, 0, 1]; 64]);
    assert_eq!(strips.bytes(), 192 * 13 + 64 * 8);
    let refused = parts(&[meta(9, 9)], &[]);
    let one = parts(&[plain(20, 9)], &[]);
    let sound = sound();
    let accepted = [&longest, &strips, &sound, &one].map(|parts| (parts, 0));
    for (parts, answer) in accepted.into_iter().chain([(&refused, 11)]) {
        let need = parts.bytes();
        for room in [0, 1, 8, need - 1, need, need + 1, 2 * need, 4096] {
            for numbers in 0..=3 {
                let expected = match answer {
                    0 if room < need || numbers == 0 => 12,
                    _ => answer,
                };
                let (answer, _) = must(parts.compare_room(room, numbers));
                assert_eq!(answer, expected, "{room} bytes, {numbers} numbers");
            }
        }
    }
}

/// One channel and no step or one step, over small alphabets.
#[test]
fn small_lists_exhaustively() {
    let mut tally = Tally::default();
    let sides = [0, 1, 8, 9, 65_535, 65_536, 1_048_575, 1_048_576];
    let shifts = [0, 29, 30, 31, 255, 256, 511];
    let mut steps = vec![vec![]];
    for flags in [0, 1, 2, 3, 4, 256, 259] {
        for first in [0, 1, 65_535, 65_536, u32::MAX] {
            for number in [0, 1, 2, 65_536, 65_537, u32::MAX] {
                steps.push(vec![flags, first, number]);
            }
        }
    }
    for code in 0..sides.len().pow(2) * shifts.len().pow(2) {
        let (w, h) = (sides[code % 8], sides[code / 8 % 8]);
        let (hshift, vshift) = (shifts[code / 64 % 7], shifts[code / 448]);
        for steps in &steps {
            let parts = Parts {
                version: 1,
                channels: vec![w, h, hshift, vshift],
                steps: steps.clone(),
            };
            tally.add(must(parts.compare()));
        }
    }
    tally.print("one channel and up to one step, as numbers");
    assert_eq!(tally.met(), [0, 4, 5, 6, 8, 9, 10, 11]);
}

/// Random numbers; a record that is written goes through every other function.
#[test]
fn random_numbers() {
    let (mut random, mut tally) = (Random::new(101), Tally::default());
    for _ in 0..60_000 {
        let parts = parts::some(&mut random);
        let answer = must(parts.compare());
        if answer == 0 {
            let (_, record) = must(parts.compare_room(parts.bytes(), 1));
            assert_eq!(must(every_function(&mut random, &record, 2_000)), 0);
        }
        tally.add(answer);
    }
    tally.print("random numbers");
    assert_eq!(tally.met(), [0, 3, 4, 5, 6, 7, 8, 9, 10, 11, 12]);
    assert!(tally.0[0] > 10_000);
}
