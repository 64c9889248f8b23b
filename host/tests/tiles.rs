//! Tile calls: small sizes exhaustively, sides around a block of eight at
//! random, and squeezes cut into tiles against the uncut squeeze.

use squeeze_compare::cuts::{check_cut, check_strip, fitting, Size, Uncut};
use squeeze_compare::random::Random;
use squeeze_compare::tiles::Tile;
use squeeze_compare::{must, Tally};

fn compare(
    random: &mut Random,
    horizontal: u32,
    sizes: [Size; 3],
    lines: [usize; 2],
    lengths: [usize; 3],
) -> u32 {
    let inputs = [lengths[0], lengths[1], lines[0], lines[1]].map(|n| random.samples(n));
    let out = random.samples(lengths[2]);
    let inputs = [0, 1, 2, 3].map(|k: usize| &inputs[k][..]);
    let tile = Tile {
        horizontal,
        sizes,
        inputs,
        out: &out,
    };
    must(tile.compare()).answer
}

#[test]
fn every_size_up_to_four() {
    let (mut random, mut tally) = (Random::new(31), Tally::default());
    for code in 0..5usize.pow(6) {
        let side = |k: u32| code / 5usize.pow(k) % 5;
        let sizes = [(side(0), side(1)), (side(2), side(3)), (side(4), side(5))];
        let lengths = sizes.map(|(w, h)| w * h);
        for horizontal in [0, 1] {
            tally.add(compare(&mut random, horizontal, sizes, [0, 0], lengths));
        }
    }
    tally.print("tiles of every six sides up to four");
    // Crossing side 0 to 4, output side 0 to 4, in two directions.
    assert_eq!((tally.0[0], tally.met()), (2 * 5 * 5, vec![0, 13]));
}

#[test]
fn every_line_and_slice() {
    let (mut random, mut tally) = (Random::new(32), Tally::default());
    for (w, h, horizontal) in sides(0..=4) {
        let sizes = fitting(horizontal, (w, h));
        let across = if horizontal { h } else { w };
        let lines = [0, across, across + 1, across.saturating_sub(1), 2 * across];
        for next in lines {
            for prev in lines {
                for change in 0..27 {
                    let mut lengths = sizes.map(|(w, h)| w * h);
                    for (k, length) in lengths.iter_mut().enumerate() {
                        match change / 3usize.pow(k as u32) % 3 {
                            0 => {}
                            1 => *length += 1,
                            _ => *length = length.saturating_sub(1),
                        }
                    }
                    let horizontal = u32::from(horizontal);
                    tally.add(compare(
                        &mut random,
                        horizontal,
                        sizes,
                        [next, prev],
                        lengths,
                    ));
                }
            }
        }
    }
    tally.print("tiles with every line and slice");
    assert_eq!(tally.met(), [0, 12, 13]);
}

fn sides(range: std::ops::RangeInclusive<usize>) -> impl Iterator<Item = (usize, usize, bool)> {
    let pairs = range
        .clone()
        .flat_map(move |w| range.clone().map(move |h| (w, h)));
    pairs.flat_map(|(w, h)| [(w, h, false), (w, h, true)])
}

#[test]
fn sides_around_blocks_of_eight() {
    let (mut random, mut tally) = (Random::new(33), Tally::default());
    for (w, h, horizontal) in sides(0..=35) {
        let sizes = fitting(horizontal, (w, h));
        let across = if horizontal { h } else { w };
        for lines in [[0, 0], [0, across], [across, 0], [across, across]] {
            let lengths = sizes.map(|(w, h)| w * h);
            let direction = if horizontal {
                random.pick(&[1, 2, 1 << 31])
            } else {
                0
            };
            tally.add(compare(&mut random, direction, sizes, lines, lengths));
        }
    }
    tally.print("tiles with sides up to 35");
    assert_eq!(tally.met(), [0]);
}

#[test]
fn longest_sides() {
    let mut random = Random::new(34);
    for (horizontal, size) in [
        (true, (65_535, 2)),
        (false, (2, 65_535)),
        (true, (1, 65_535)),
        (true, (65_536, 3)),
        (true, (1_048_575, 9)),
        (true, (2, 1_048_575)),
        (false, (9, 1_048_575)),
        (false, (1_048_575, 3)),
        (false, (1_048_575, 0)),
    ] {
        let sizes = fitting(horizontal, size);
        let lengths = sizes.map(|(w, h)| w * h);
        let answer = compare(&mut random, horizontal.into(), sizes, [0, 0], lengths);
        assert_eq!(answer, 0);
    }
}

#[test]
fn cut_squeezes() {
    let mut random = Random::new(35);
    let mut tiles = 0;
    for _ in 0..2_000 {
        let uncut = Uncut::random(&mut random, Random::samples);
        tiles += check_cut(&mut random, &uncut).len();
    }
    println!("cut squeezes: 2000 cases, {tiles} tiles");
    assert!(tiles > 10_000);
}

/// The longest sides cut, along the squeeze and across it, into tiles above and
/// below the longest side of tag 1.
#[test]
fn cut_long_sides() {
    let mut random = Random::new(36);
    let mut tiles = 0;
    let long = [0, 65_534, 65_536, 131_074, 1_048_574, 1_048_575];
    for horizontal in [true, false] {
        let draw = Random::samples;
        let along = Uncut::of_sides(&mut random, draw, horizontal, 1_048_575, 3);
        let whole = along.whole();
        for across in [[0, 2], [2, 3]] {
            tiles += check_strip(&mut random, &along, &whole, across, &long).len();
        }
        let across = Uncut::of_sides(&mut random, draw, horizontal, 3, 1_048_575);
        let whole = across.whole();
        for ends in long.windows(2) {
            let ends = [ends[0], ends[1]];
            tiles += check_strip(&mut random, &across, &whole, ends, &[0, 2, 3]).len();
        }
    }
    assert_eq!(tiles, 2 * (2 * 5 + 5 * 2));
}
