//! Rectangle calls: all kinds and groups with sides, shifts and positions
//! around the tile sides.

use squeeze::{GridQuery, Kind};
use squeeze_compare::random::Random;
use squeeze_compare::{must, rects, Tally};

const SHIFTS: [(u8, u8); 12] = [
    (0, 0),
    (1, 0),
    (0, 1),
    (3, 7),
    (10, 10),
    (13, 13),
    (14, 2),
    (30, 30),
    (31, 0),
    (0, 31),
    (255, 255),
    (255, 254),
];

#[test]
fn every_kind_and_group() {
    let mut tally = Tally::default();
    let sides = [
        0,
        1,
        127,
        128,
        129,
        255,
        1024,
        2047,
        2048,
        8191,
        65_535,
        65_536,
        1_048_575,
        1_048_576,
        u32::MAX,
    ];
    let positions = [
        (0, 0),
        (1, 0),
        (0, 1),
        (7, 1),
        (8, 63),
        (8191, 511),
        (65_535, 65_535),
    ];
    for code in 0..4 * 4 * 6 {
        let (output, stored) = (Kind(code % 4), Kind(code / 4 % 4));
        let group = [128, 256, 512, 1024, 0, 384][usize::from(code / 16)];
        for (hshift, vshift) in SHIFTS {
            for width in sides {
                for (gx, gy) in positions {
                    let height = 300;
                    let query = GridQuery {
                        width,
                        height,
                        hshift,
                        vshift,
                        output,
                        stored,
                        group,
                        gx,
                        gy,
                    };
                    tally.add(must(rects::compare(&query, 4)));
                    let turned = GridQuery {
                        width: height,
                        height: width,
                        ..query
                    };
                    tally.add(must(rects::compare(&turned, 4)));
                }
            }
        }
    }
    tally.print("rectangles of every kind and group");
    assert_eq!(tally.met(), [0, 4, 14]);
}

#[test]
fn every_shift() {
    let mut tally = Tally::default();
    for hshift in 0..=255 {
        for vshift in 0..=255 {
            for (output, stored) in [(0, 0), (1, 1), (2, 1), (2, 0)] {
                let query = GridQuery {
                    width: 3000,
                    height: 2000,
                    hshift,
                    vshift,
                    output: Kind(output),
                    stored: Kind(stored),
                    group: 256,
                    gx: 1,
                    gy: 1,
                };
                tally.add(must(rects::compare(&query, 4)));
            }
        }
    }
    tally.print("rectangles of every shift");
    // 31 shifts each way and meta, which only None on None takes.
    assert_eq!(tally.0[0], 4 * 31 * 31 + 1);
    assert_eq!(tally.0[14], 3);
}

#[test]
fn random_rectangles() {
    let (mut random, mut tally) = (Random::new(41), Tally::default());
    for _ in 0..300_000 {
        let query = GridQuery {
            width: side(&mut random),
            height: side(&mut random),
            hshift: random.below(9) as u8,
            vshift: random.below(9) as u8,
            output: Kind(random.below(3) as u8),
            stored: Kind(random.below(3) as u8),
            group: random.pick(&[128, 256, 512, 1024]),
            gx: random.below(600) as u16,
            gy: random.below(40) as u16,
        };
        tally.add(must(rects::compare(&query, 4)));
    }
    tally.print("random rectangles");
    assert_eq!(tally.met(), [0, 4, 14]);
}

/// Any side up to a limit, mostly: 16 bits, 20 bits, or now and then 32.
fn side(random: &mut Random) -> u32 {
    let bits = random.pick(&[16, 16, 16, 20, 20, 20, 20, 32]);
    random.bits() as u32 >> (32 - bits)
}

#[test]
fn lengths_of_the_rectangle() {
    let query = GridQuery {
        width: 9,
        height: 9,
        hshift: 0,
        vshift: 0,
        output: Kind::NONE,
        stored: Kind::NONE,
        group: 128,
        gx: 0,
        gy: 0,
    };
    for length in 0..=9 {
        let expected = if length == 4 { 0 } else { 12 };
        assert_eq!(must(rects::compare(&query, length)), expected);
    }
}
