//! Damaged records: sound ones cut at each byte, with each byte changed, with
//! a byte more or less.

use squeeze::{Record, Step, Version};
use squeeze_compare::random::Random;
use squeeze_compare::runs::every_function;
use squeeze_compare::{lists, must, records, Tally};

fn sound() -> Vec<Vec<u8>> {
    let step = |horizontal, in_place, first, number| Step {
        horizontal,
        in_place,
        first,
        number,
    };
    let records = [
        Record::new().channel(300, 9),
        Record::new().channel(20, 9),
        Record::new().channel(9, 9).channel(9, 9).channel(9, 9),
        Record::new().meta_channel(5, 3).channel(8, 8),
        Record::new().channel(4, 5).step(step(true, true, 0, 1)),
        Record::new()
            .meta_channel(6, 2)
            .channel(7, 7)
            .channel(3, 4)
            .step(step(false, true, 0, 1))
            .step(step(true, false, 2, 2))
            .step(step(false, false, 3, 1)),
        Record::new()
            .shifted_channel(9, 2, 29, 30)
            .step(step(true, true, 0, 1)),
        Record::new().meta_channel(65_536, 0).channel(9, 9),
        Record::new()
            .channel(3, 1_048_575)
            .channel(7, 5)
            .shifted_channel(65_537, 0, 1, 2)
            .step(step(false, false, 0, 2)),
        Record::under(Version::HOUSE).channel(33, 9),
        Record::under(Version::HOUSE)
            .meta_channel(6, 2)
            .channel(20, 9)
            .step(step(true, false, 1, 1)),
    ];
    records.map(|record| record.bytes().to_vec()).to_vec()
}

#[test]
fn cut_at_each_byte() {
    let (mut random, mut tally) = (Random::new(71), Tally::default());
    for record in sound() {
        for length in 0..=record.len() {
            tally.add(must(every_function(&mut random, &record[..length], 4096)));
        }
    }
    tally.print("records cut at each byte");
    assert_eq!(tally.met(), [0, 1, 3, 9, 11]);
}

#[test]
fn each_byte_changed_to_each_other() {
    let mut tally = Tally::default();
    for record in sound() {
        let mut damaged = record.clone();
        for at in 0..record.len() {
            for byte in 0..=255 {
                damaged[at] = byte;
                tally.add(must(lists::compare(&damaged)));
            }
            damaged[at] = record[at];
        }
    }
    tally.print("each byte changed");
    assert_eq!(tally.met(), [0, 1, 2, 4, 5, 6, 7, 8, 9, 10]);
}

#[test]
fn each_bit_changed_in_every_function() {
    let (mut random, mut tally) = (Random::new(72), Tally::default());
    for record in sound() {
        let mut damaged = record.clone();
        for bit in 0..8 * record.len() {
            damaged[bit / 8] ^= 1 << (bit % 8);
            tally.add(must(every_function(&mut random, &damaged, 4096)));
            damaged[bit / 8] ^= 1 << (bit % 8);
        }
    }
    tally.print("each bit changed");
    assert!(tally.0[0] > 100 && tally.0[1] > 100);
}

#[test]
fn each_byte_doubled_or_left_out() {
    let (mut random, mut tally) = (Random::new(73), Tally::default());
    for record in sound() {
        for at in 0..record.len() {
            let mut less = record.clone();
            less.remove(at);
            tally.add(must(every_function(&mut random, &less, 4096)));
            let mut more = record.clone();
            more.insert(at, record[at]);
            tally.add(must(every_function(&mut random, &more, 4096)));
        }
    }
    tally.print("each byte doubled or left out");
    assert!(tally.0[1] > 100);
}

#[test]
fn several_changes() {
    let (mut random, mut tally) = (Random::new(74), Tally::default());
    for _ in 0..30_000 {
        let mut record = records::ordinary(&mut random);
        for _ in 0..1 + random.below(3) {
            records::damage(&mut random, &mut record);
        }
        tally.add(must(every_function(&mut random, &record, 4096)));
    }
    tally.print("several changes");
    assert_eq!(tally.met(), (0..12).collect::<Vec<_>>());
}
