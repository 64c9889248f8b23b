//! Short records, exhaustively: every one goes through the listing, the plan
//! run and the writer, an accepted one on a round trip in both directions.

use squeeze_compare::random::Random;
use squeeze_compare::records::{strip_field, HOUSE};
use squeeze_compare::runs::every_function;
use squeeze_compare::{must, Tally};

struct Check {
    random: Random,
    tally: Tally,
}

impl Check {
    fn new() -> Check {
        Check {
            random: Random::new(11),
            tally: Tally::default(),
        }
    }

    fn record(&mut self, bytes: &[u8]) {
        self.tally
            .add(must(every_function(&mut self.random, bytes, 200)));
    }
}

/// Calls `visit` with every word of `length` letters.
fn words(alphabet: &[u8], length: usize, visit: &mut impl FnMut(&[u8])) {
    let mut digits = vec![0; length];
    let mut word = vec![alphabet[0]; length];
    loop {
        visit(&word);
        let Some(k) = (0..length).find(|&k| digits[k] + 1 < alphabet.len()) else {
            return;
        };
        digits[..k].fill(0);
        word[..k].fill(alphabet[0]);
        digits[k] += 1;
        word[k] = alphabet[digits[k]];
    }
}

/// Every channel field with sides and shifts from these.
fn channel_fields(sides: &[u8], shifts: &[u8]) -> Vec<Vec<u8>> {
    let mut fields = Vec::new();
    words(sides, 2, &mut |side| {
        words(shifts, 2, &mut |shift| {
            fields.push(vec![1, 6, 0, side[0], 0, side[1], 0, shift[0], shift[1]]);
        });
    });
    fields
}

/// Every field of tag 3 with sides of four bytes from these and shifts from those
/// given.
fn strip_fields(shifts: &[u8]) -> Vec<Vec<u8>> {
    let mut sides = Vec::new();
    for high in [[0, 0], [1, 0], [15, 0], [16, 0], [0, 1], [255, 255]] {
        words(&[0, 255], 2, &mut |low| sides.push([low, &high].concat()));
    }
    let mut fields = Vec::new();
    for width in &sides {
        for height in &sides {
            words(shifts, 2, &mut |shift| {
                fields.push([&[3, 10, 0], &width[..], height, shift].concat());
            });
        }
    }
    fields
}

/// Every step field with flags and ranges from these.
fn step_fields(flags: &[u8], ends: &[u16]) -> Vec<Vec<u8>> {
    let mut fields = Vec::new();
    for &flag in flags {
        for first in ends {
            for number in ends {
                let mut field = vec![2, 5, 0, flag];
                field.extend_from_slice(&first.to_le_bytes());
                field.extend_from_slice(&number.to_le_bytes());
                fields.push(field);
            }
        }
    }
    fields
}

#[test]
fn up_to_two_bytes() {
    let mut check = Check::new();
    let every: Vec<u8> = (0..=255).collect();
    for length in 0..=2 {
        words(&every, length, &mut |bytes| check.record(bytes));
    }
    check.tally.print("records of up to two bytes");
    assert_eq!(check.tally.total(), 1 + 256 + 65_536);
    // The empty record lacks a channel, every other one has a cut head.
    assert_eq!((check.tally.0[1], check.tally.0[3]), (65_792, 1));
}

#[test]
fn every_head() {
    let mut check = Check::new();
    for tag in 0..=255 {
        for length in [
            0, 1, 4, 5, 6, 7, 8, 9, 10, 11, 255, 256, 261, 262, 266, 65_535_u16,
        ] {
            for rest in [0, 1, 4, 5, 6, 7, 8, 9, 10, 11, 262, 266] {
                let mut bytes = vec![tag];
                bytes.extend_from_slice(&length.to_le_bytes());
                bytes.resize(3 + rest, 0);
                check.record(&bytes);
            }
        }
    }
    check.tally.print("every tag with some lengths");
    assert_eq!(check.tally.met(), [0, 1, 2, 3, 4]);
}

#[test]
fn one_channel_field() {
    let mut check = Check::new();
    words(&[0, 1, 8, 9, 30, 31, 255], 6, &mut |body| {
        check.record(&[&[1, 6, 0], body].concat());
    });
    check.tally.print("one channel field");
    assert_eq!(check.tally.met(), [0, 4, 5, 9, 10, 11]);
}

/// Sides whose bytes are at the ends of tag 1, of the limit, and past it.
#[test]
fn one_strip_field() {
    let mut check = Check::new();
    for field in strip_fields(&[0, 20, 31, 255]) {
        check.record(&field);
    }
    check.tally.print("one strip field");
    assert_eq!(check.tally.met(), [0, 4, 5, 9, 10, 11]);
}

#[test]
fn one_step_field() {
    let mut check = Check::new();
    words(&[0, 1, 2, 3, 4, 128, 255], 5, &mut |body| {
        check.record(&[&[2, 5, 0], body].concat());
    });
    check.tally.print("one step field");
    assert_eq!(check.tally.met(), [3, 4]);
}

#[test]
fn channel_and_step() {
    let mut check = Check::new();
    let steps = step_fields(&[0, 1, 2, 3, 4, 255], &[0, 1, 2, 255, 65_535]);
    for channel in channel_fields(&[0, 1, 2, 9], &[0, 29, 30, 31, 255]) {
        for step in &steps {
            check.record(&[&channel[..], step].concat());
        }
    }
    check.tally.print("a channel and a step");
    assert_eq!(check.tally.met(), [0, 4, 6, 8, 9, 10]);
}

#[test]
fn two_channels() {
    let mut check = Check::new();
    let channels = channel_fields(&[0, 1, 9], &[0, 1, 30, 255]);
    for first in &channels {
        for second in &channels {
            check.record(&[&first[..], second].concat());
        }
    }
    check.tally.print("two channels");
    assert_eq!(check.tally.met(), [0, 4, 9, 10, 11]);
}

/// A strip and a channel in either order, meta or not, right or wrong, alone and
/// before a step.
#[test]
fn strips_and_channels() {
    let mut check = Check::new();
    let channels = channel_fields(&[0, 9], &[0, 255]);
    let steps = step_fields(&[0, 3], &[0, 1]);
    for strip in strip_fields(&[0, 255]) {
        for channel in &channels {
            for pair in [[&strip, channel], [channel, &strip]] {
                let pair = pair.map(|field| &field[..]).concat();
                check.record(&pair);
                for step in &steps {
                    check.record(&[&pair[..], step].concat());
                }
            }
        }
    }
    check.tally.print("a strip and a channel");
    assert_eq!(check.tally.met(), [0, 4, 5, 6, 8, 9, 11]);
}

/// Every record of up to four of these fields, tag 4 in every place among them.
#[test]
fn versions_among_fields() {
    let mut check = Check::new();
    let fields: [&[u8]; 8] = [
        &HOUSE,
        &[4, 1, 0, 1],
        &[4, 0, 0],
        &[4, 2, 0, 2, 0],
        &[1, 6, 0, 9, 0, 9, 0, 255, 255],
        &[1, 6, 0, 9, 0, 9, 0, 0, 0],
        &[1, 6, 0, 33, 0, 1, 0, 0, 30],
        &[2, 5, 0, 3, 0, 0, 1, 0],
    ];
    for number in 0..=4 {
        words(&[0, 1, 2, 3, 4, 5, 6, 7], number, &mut |word| {
            let record: Vec<&[u8]> = word.iter().map(|&k| fields[usize::from(k)]).collect();
            check.record(&record.concat());
        });
    }
    check.tally.print("versions among fields");
    assert_eq!(check.tally.total(), 1 + 8 + 64 + 512 + 4096);
    assert_eq!(check.tally.met(), [0, 2, 3, 4, 10, 11]);
}

#[test]
fn two_channels_and_a_step() {
    let mut check = Check::new();
    let channels = channel_fields(&[0, 1, 5], &[0, 30, 255]);
    let steps = step_fields(&[0, 1, 2, 3], &[0, 1, 2, 3]);
    for first in &channels {
        for second in &channels {
            for step in &steps {
                check.record(&[&first[..], second, step].concat());
            }
        }
    }
    check.tally.print("two channels and a step");
    assert_eq!(check.tally.met(), [0, 4, 6, 7, 8, 9, 10]);
}

#[test]
fn step_and_channel() {
    let mut check = Check::new();
    let channels = channel_fields(&[0, 5], &[0, 31, 255]);
    let steps = step_fields(&[0, 3, 4], &[0, 1]);
    let strips = [65_536, 1].map(|width| strip_field(width, 1, 0, 0));
    for channel in channels.iter().chain(&strips) {
        for step in &steps {
            check.record(&[&step[..], channel].concat());
            check.record(&[&channel[..], step, channel].concat());
        }
    }
    check.tally.print("a channel after a step");
    assert_eq!(check.tally.met(), [2, 4]);
}
