//! Long strips (document 02, A.8): sides above 65,535 in records, lists, tile
//! calls and rectangles, by hand from the paper's words; tag 3 cut and mixed with
//! tag 1; the longest strips through writer and plan run.

use squeeze::{layout, listing, write_record, Channel, GridQuery, Kind, Record, Step};
use squeeze_compare::parts::Parts;
use squeeze_compare::random::Random;
use squeeze_compare::records::strip_field;
use squeeze_compare::runs::{self, every_function, Run};
use squeeze_compare::tiles::Tile;
use squeeze_compare::{lists, must, rects, Tally};
use std::fs;
use std::path::Path;

/// The longest side of tag 1, and the longest of all.
const SHORT: u32 = 65_535;
const LONG: u32 = 1_048_575;

/// A field of tag 1.
fn short(width: u16, height: u16) -> Vec<u8> {
    let ([w0, w1], [h0, h1]) = (width.to_le_bytes(), height.to_le_bytes());
    vec![1, 6, 0, w0, w1, h0, h1, 0, 0]
}

/// A field of tag 3.
fn strip(width: u32, height: u32) -> Vec<u8> {
    strip_field(width, height, 0, 0)
}

fn meta_strip(width: u32, height: u32) -> Vec<u8> {
    strip_field(width, height, 255, 255)
}

/// A field of tag 2.
fn step(flags: u8, first: u8, number: u8) -> Vec<u8> {
    vec![2, 5, 0, flags, first, 0, number, 0]
}

/// Every function on the record of each row's fields; gives the answers met.
fn check(rows: &[(Vec<Vec<u8>>, u32, &str)]) -> Tally {
    let joined = rows
        .iter()
        .map(|(fields, expected, why)| (fields.concat(), *expected, *why));
    runs::rows(121, 1 << 20, &joined.collect::<Vec<_>>())
}

#[test]
#[rustfmt::skip]
fn form_of_a_record() {
    let other = |tag: u8, length: u8| [vec![tag, length, 0], vec![1; length.into()]].concat();
    let many = |number| vec![short(1, 1); number];
    let rows = [
        (vec![vec![3]], 1, "a head of one byte"),
        (vec![vec![3, 10]], 1, "a head of two bytes"),
        (vec![strip(65_536, 1)[..12].to_vec()], 1, "a body cut by one byte"),
        (vec![strip(1, 1)[..12].to_vec()], 1, "a cut is met before a channel that fits tag 1"),
        (vec![vec![3, 6, 0]], 1, "a cut is met before a length that isn't the tag's"),
        (vec![other(3, 6)], 2, "length 6 under tag 3"),
        (vec![other(3, 9)], 2, "length 9 under tag 3"),
        (vec![other(3, 11)], 2, "length 11 under tag 3"),
        (vec![[vec![3, 10, 1], vec![0; 266]].concat()], 2, "length 266 under tag 3"),
        (vec![other(1, 10)], 2, "length 10 under tag 1"),
        (vec![other(2, 10)], 2, "length 10 under tag 2"),
        (vec![short(9, 9), step(1, 0, 1), strip(65_536, 1)], 2, "tag 3 after a step"),
        (vec![short(9, 9), step(1, 0, 1), strip(1, 1)], 2, "the same, and fits tag 1"),
        (vec![step(1, 0, 1), strip(65_536, 1)], 2, "tag 3 after a step, no channel yet"),
        (vec![strip(65_536, 1); 257], 3, "257 strips"),
        (vec![many(256).concat(), strip(65_536, 1)], 3, "a strip as the 257th"),
        (vec![many(256).concat(), strip(1, 1)], 3, "the same, and fits tag 1"),
        (vec![strip(65_535, 65_535)], 4, "tag 3 for 65,535 by 65,535"),
        (vec![strip(1, 1)], 4, "tag 3 for 1 by 1"),
        (vec![strip(0, 0)], 4, "tag 3 for a channel without samples"),
        (vec![meta_strip(65_535, 1)], 4, "tag 3 for a meta channel that fits tag 1"),
        (vec![strip(1_048_576, 1)], 4, "1,048,576, whose lower 20 bits are 0"),
        (vec![strip(1, 1_048_576)], 4, "across"),
        (vec![strip(1_048_576, 0)], 4, "a side above the limit, no samples"),
        (vec![meta_strip(0, 1_048_576)], 4, "a meta side above the limit"),
        (vec![strip(1_048_576 + 9, 9)], 4, "a side that would be 9 if cut to 20 bits"),
        (vec![strip(1 << 24, 9)], 4, "2^24"),
        (vec![strip(u32::MAX, 1)], 4, "the largest number"),
        (vec![strip(u32::MAX, u32::MAX)], 4, "the largest numbers, before samples"),
        (vec![strip_field(65_536, 1, 31, 0)], 4, "a horizontal shift of 31"),
        (vec![strip_field(65_536, 1, 0, 31)], 4, "a vertical shift of 31"),
        (vec![strip_field(65_536, 1, 255, 0)], 4, "half meta"),
        (vec![short(9, 9), meta_strip(65_536, 1)], 4, "a meta strip after another channel"),
        (vec![strip(65_536, 1), meta_strip(65_536, 1)], 4, "a meta strip after a strip"),
        (vec![strip(1, 1), vec![3]], 4, "field by field: the tag before a cut"),
        (vec![strip(1_048_576, 1), step(4, 0, 1)], 4, "a side, before flags"),
    ];
    assert_eq!(check(&rows).met(), [1, 2, 3, 4]);
}

#[test]
#[rustfmt::skip]
fn plan_of_a_record() {
    let shifted = |h, v| strip_field(65_536, 1, h, v);
    let rows = [
        (vec![strip(65_536, 1)], 0, "65,536 by 1"),
        (vec![strip(1, 65_536)], 0, "1 by 65,536"),
        (vec![strip(LONG, 1)], 0, "1,048,575 by 1"),
        (vec![strip(1, LONG)], 0, "1 by 1,048,575"),
        (vec![strip(65_536, 16)], 0, "an exact million"),
        (vec![strip(65_536, 1), short(20, 9), strip(3, 65_537)], 0, "both tags, by turns"),
        (vec![short(20, 9), strip(0, LONG), step(0, 0, 1)], 0, "a strip without samples"),
        (vec![meta_strip(65_536, 1), short(9, 9)], 0, "a meta strip"),
        (vec![meta_strip(65_536, 1), step(3, 0, 1), step(2, 1, 1)], 0, "a meta strip, squeezed"),
        (vec![shifted(29, 30), step(1, 0, 1)], 0, "a strip's shift becomes 30"),
        (vec![strip(LONG, 17)], 5, "1,048,575 by 17"),
        (vec![strip(17, LONG)], 5, "17 by 1,048,575"),
        (vec![strip(LONG, 16), short(17, 1)], 5, "one sample too many"),
        (vec![strip(65_536, 257), step(1, 7, 0)], 5, "samples, before the range"),
        (vec![strip(65_536, 65_536)], 5, "2^32 samples are not 0"),
        (vec![strip(LONG, LONG); 256], 5, "the largest list"),
        (vec![meta_strip(LONG, 17)], 5, "meta samples count"),
        (vec![meta_strip(65_536, 1)], 11, "a default plan and only a meta strip"),
        (vec![strip(65_536, 1), step(1, 1, 1)], 6, "a range past the end"),
        (vec![meta_strip(65_536, 1), strip(65_536, 1), step(3, 0, 2)], 7, "meta and another"),
        (vec![meta_strip(65_536, 1), step(1, 0, 1)], 8, "a meta strip, not in place"),
        (vec![strip(65_536, 0)], 9, "the default plan meets height 0"),
        (vec![strip(0, 65_536)], 9, "the default plan meets width 0"),
        (vec![strip(LONG, 0), step(0, 0, 1)], 9, "a step on height 0"),
        (vec![shifted(30, 0), step(1, 0, 1)], 10, "a strip's shift would be 31"),
        (vec![shifted(20, 0)], 10, "the default plan meets shift 31"),
        (vec![vec![strip(65_536, 1); 256].concat(), step(1, 0, 1)], 10, "257 strips afterwards"),
    ];
    assert_eq!(check(&rows).met(), [0, 5, 6, 7, 8, 9, 10, 11]);
}

#[test]
fn listings() {
    let rows = [
        (
            vec![strip(1, LONG), step(2, 0, 1)],
            "steps 1\nv in 0 1\nchannels 2\n1 524288 0 1\n1 524287 0 1\ncoarse 0\n",
        ),
        (
            vec![strip(LONG, 16), short(2, 2), step(3, 1, 1)],
            "steps 1\nh in 1 1\nchannels 3\n1048575 16 0 0\n1 2 1 0\n1 2 1 0\ncoarse 0\n",
        ),
        (
            vec![meta_strip(LONG, 1), meta_strip(0, 65_536), short(8, 8)],
            "steps 0\nchannels 3\n1048575 1 m m\n0 65536 m m\n8 8 0 0\ncoarse 3\n",
        ),
        (
            vec![strip(65_536, 2), short(65_535, 2), step(1, 0, 2)],
            "steps 1\nh out 0 2\nchannels 4\n32768 2 1 0\n32768 2 1 0\n32768 2 1 0\n\
             32767 2 1 0\ncoarse 0\n",
        ),
        (
            vec![strip(65_536, 1)],
            "steps 13\nh in 0 1\nh in 0 1\nh in 0 1\nh in 0 1\nh in 0 1\nh in 0 1\nh in 0 1\n\
             h in 0 1\nh in 0 1\nh in 0 1\nh in 0 1\nh in 0 1\nh in 0 1\nchannels 14\n\
             8 1 13 0\n8 1 13 0\n16 1 12 0\n32 1 11 0\n64 1 10 0\n128 1 9 0\n256 1 8 0\n\
             512 1 7 0\n1024 1 6 0\n2048 1 5 0\n4096 1 4 0\n8192 1 3 0\n16384 1 2 0\n\
             32768 1 1 0\ncoarse 2\n",
        ),
    ];
    for (fields, text) in rows {
        let record = fields.concat();
        assert_eq!(must(lists::compare(&record)), 0);
        assert_eq!(listing(&record).unwrap(), text);
    }
}

/// As many seven-digit sides and steps as a record can have; the room that holds
/// every listing holds theirs.
#[test]
fn long_listings() {
    let strips = vec![strip_field(LONG, 0, 30, 30); 128].concat();
    let others = vec![short(9, 9); 64].concat();
    let steps = (128..192).flat_map(|first| step(1, first, 1));
    let record: Vec<u8> = [strips, others].concat().into_iter().chain(steps).collect();
    let length = listing(&record).unwrap().len();
    // Head lines; step lines; strips; averages 5 by 9, residuals 4 by 9; coarse.
    let lines = 9 + 64 * 12 + 13 + 128 * 16 + 128 * 8 + 9;
    assert_eq!(length, lines);
    assert_eq!(must(lists::compare_room(&record, length, 1)), 0);
    assert_eq!(must(lists::compare_room(&record, length - 1, 1)), 12);
    assert!(length <= squeeze::LISTING_ROOM);
}

/// At the end of a field the record is another one; everywhere else it is cut.
#[test]
fn cut_at_every_byte() {
    let fields = [
        meta_strip(65_536, 1),
        short(20, 9),
        strip(3, LONG),
        short(65_535, 2),
        strip(70_000, 5),
        step(3, 0, 1),
        step(0, 2, 3),
    ];
    let tally = runs::cuts(122, 4096, &fields, &[3, 11, 0, 0, 0, 0, 0, 0]);
    assert_eq!((tally.0[1], tally.met()), (73 - 7, vec![0, 1, 3, 11]));
}

/// Every list of up to three of these, with and without a step: the record has each
/// channel under its own tag, the core writes the same bytes, and every function
/// takes them.
#[test]
fn both_tags_mixed() {
    let kinds = [
        (Channel::meta(SHORT, 1), 1),
        (Channel::meta(65_536, 1), 3),
        (Channel::meta(0, LONG), 3),
        (Channel::new(9, SHORT), 1),
        (Channel::new(65_536, 2), 3),
        (Channel::new(LONG, 0), 3),
        (Channel::new(20, 9), 1),
    ];
    let mut lists: Vec<Vec<(Channel, u8)>> = kinds.map(|kind| vec![kind]).to_vec();
    for _ in 2..=3 {
        let longer = |list: &Vec<_>| kinds.map(|kind| [&list[..], &[kind]].concat());
        let longer: Vec<_> = lists.iter().flat_map(longer).collect();
        lists.extend(longer);
    }
    let (mut random, mut tally, mut mixed) = (Random::new(123), Tally::default(), 0);
    for list in &lists {
        let (channels, own): (Vec<_>, Vec<_>) = list.iter().copied().unzip();
        let record = channels.iter().copied();
        let record = record.fold(Record::new(), Record::add_channel);
        let last = Step {
            horizontal: true,
            in_place: true,
            first: list.len() as u16 - 1,
            number: 1,
        };
        for (record, step) in [(record.clone(), None), (record.step(last), Some(2))] {
            let own: Vec<u8> = own.iter().copied().chain(step).collect();
            assert_eq!(tags(record.bytes()), own);
            tally.add(must(every_function(&mut random, record.bytes(), 200)));
            if let Some(parts) = Parts::of_record(record.bytes()) {
                must(parts.compare());
            }
            mixed += usize::from(own.contains(&1) && own.contains(&3));
        }
    }
    tally.print("both tags mixed");
    assert_eq!(tally.met(), [0, 4, 9, 11]);
    assert!(tally.0[0] > 100 && mixed > 500, "{tally:?}, {mixed}");
}

/// The tags of a record's fields.
fn tags(bytes: &[u8]) -> Vec<u8> {
    match bytes {
        [] => vec![],
        [tag, length, 0, rest @ ..] => [vec![*tag], tags(&rest[usize::from(*length)..])].concat(),
        _ => panic!("a field of such a length: {bytes:?}"),
    }
}

/// A side around a limit, and what it is answered with: under tag 3, as a number of
/// a list, in a tile call and in a rectangle call, the other side 1.
struct Row {
    side: u32,
    tag_3: u32,
    list: u32,
    tile: u32,
    rect: u32,
}

#[rustfmt::skip]
const SIDES: [Row; 5] = [
    Row { side: 65_535,        tag_3: 4, list: 0, tile: 0,  rect: 0 },
    Row { side: 65_536,        tag_3: 0, list: 0, tile: 0,  rect: 0 },
    Row { side: 1_048_575,     tag_3: 0, list: 0, tile: 0,  rect: 0 },
    Row { side: 1_048_576,     tag_3: 4, list: 4, tile: 13, rect: 4 },
    Row { side: 4_294_967_295, tag_3: 4, list: 4, tile: 5,  rect: 4 },
];

/// Along the rows and along the columns.
fn both_ways(side: u32) -> [(u32, u32); 2] {
    [(side, 1), (1, side)]
}

#[test]
fn sides_in_records() {
    let mut random = Random::new(124);
    for Row { side, tag_3, .. } in SIDES {
        for (w, h) in both_ways(side) {
            let answer = must(every_function(&mut random, &strip(w, h), 1 << 20));
            assert_eq!(answer, tag_3, "{w} by {h}");
        }
    }
    for (w, h) in [(65_535, 1), (1, 65_535)] {
        assert_eq!(must(every_function(&mut random, &short(w, h), 1 << 20)), 0);
    }
}

/// The record that a list is written as, in the paper's bytes.
#[test]
fn sides_in_lists() {
    for Row { side, list, .. } in SIDES {
        for (w, h) in both_ways(side) {
            let parts = Parts {
                version: 1,
                channels: vec![5, 3, 255, 255, w, h, 2, 1],
                steps: vec![3, 0, 1],
            };
            assert_eq!(must(parts.compare()), list, "{w} by {h}");
            let field = match side {
                SHORT => [&short(w as u16, h as u16)[..7], &[2, 1]].concat(),
                _ => strip_field(w, h, 2, 1),
            };
            let palette = vec![1, 6, 0, 5, 0, 3, 0, 255, 255];
            let written = [palette, field, step(3, 0, 1)].concat();
            for room in written.len() - 1..=written.len() + 1 {
                let (answer, record) = must(parts.compare_room(room, 1));
                let too_short = list == 0 && room < written.len();
                assert_eq!(answer, if too_short { 12 } else { list }, "{w} by {h}");
                assert_eq!(answer == 0, record.starts_with(&written), "{w} by {h}");
            }
        }
    }
}

/// Question 4 of a list comes after 3 and before 5 to 11 and 12.
#[test]
#[rustfmt::skip]
fn lists_by_hand() {
    let list = |channels: &[[u32; 4]], steps: &[[u32; 3]]| Parts {
        version: 1,
        channels: channels.concat(),
        steps: steps.concat(),
    };
    let rows = [
        (list(&[[LONG + 1, 1, 0, 0]; 257], &[]), 3, "257 channels, before their sides"),
        (list(&[[LONG + 1, 1, 0, 0]], &[[0, 0, 0]; 65]), 3, "65 steps, before a side"),
        (list(&[[LONG, 1, 255, 255], [LONG + 1, 0, 255, 255]], &[]), 4, "a side, before the plan"),
        (list(&[[u32::MAX; 4]], &[]), 4, "the largest numbers"),
        (list(&[[u32::MAX, u32::MAX, 0, 0]; 256], &[]), 4, "sums that no 64 bits hold"),
        (list(&[[LONG, LONG, 0, 0]; 256], &[]), 5, "the largest list of sides"),
        (list(&[[65_536, 65_536, 0, 0]], &[]), 5, "2^32 samples are not 0"),
        (list(&[[LONG, 17, 0, 0]], &[]), 5, "1,048,575 by 17"),
        (list(&[[65_536, 0, 0, 0]], &[]), 9, "the default plan meets height 0"),
        (list(&[[LONG, 16, 0, 0], [16, 1, 0, 0]], &[]), 0, "16,777,216 samples"),
        (list(&[[16, LONG, 13, 12]], &[]), 0, "shifts that the default plan makes 14 and 29"),
    ];
    let mut tally = Tally::default();
    for (parts, expected, why) in rows {
        assert_eq!(must(parts.compare()), expected, "{why}");
        tally.add(expected);
    }
    assert_eq!(tally.met(), [0, 3, 4, 5, 9]);
}

/// A squeeze of one line with so long an output: along the squeeze, or across it.
fn line_tile(horizontal: bool, along: bool, side: usize) -> [(usize, usize); 3] {
    let (rest, half) = (side / 2, side - side / 2);
    let lines = if along {
        [(half, 1), (rest, 1), (side, 1)]
    } else {
        [(1, side), (0, side), (1, side)]
    };
    lines.map(|(l, c)| if horizontal { (l, c) } else { (c, l) })
}

/// The answer of a tile call with slices of these lengths.
fn tile_answer(horizontal: bool, sizes: [(usize, usize); 3], lengths: [usize; 3]) -> u32 {
    let samples = |n: usize| (0..n).map(|k| (k * k % 999) as i32).collect::<Vec<i32>>();
    let [avg, residual, out] = lengths.map(samples);
    let tile = Tile {
        horizontal: horizontal.into(),
        sizes,
        inputs: [&avg, &residual, &[], &[]],
        out: &out,
    };
    must(tile.compare()).answer
}

#[test]
fn sides_in_tile_calls() {
    for Row { side, tile, .. } in SIDES {
        for (horizontal, along) in [(true, true), (true, false), (false, true), (false, false)] {
            let sizes = line_tile(horizontal, along, side as usize);
            let lengths = sizes.map(|(w, h)| if tile == 0 { w * h } else { 0 });
            assert_eq!(tile_answer(horizontal, sizes, lengths), tile, "{sizes:?}");
        }
    }
}

#[test]
#[rustfmt::skip]
fn tile_calls() {
    let max = u32::MAX as usize;
    let rows = [
        ([(1 << 19, 1), (1 << 19, 1), (1 << 20, 1)], 13, "1,048,576 by 1"),
        ([(1 << 15, 1 << 16), (1 << 15, 1 << 16), (1 << 16, 1 << 16)], 5, "65,536 by 65,536"),
        ([(1 << 19, 16), (1 << 19, 16), (1 << 20, 16)], 13, "as many samples as there may be"),
        ([(1 << 19, 17), (1 << 19, 17), (1 << 20, 17)], 5, "samples, before sides"),
        ([(1 << 19, 0), ((1 << 19) - 1, 0), ((1 << 20) - 1, 0)], 0, "1,048,575 by 0"),
        ([(1 << 19, 0), (1 << 19, 0), (1 << 20, 0)], 13, "1,048,576 by 0"),
        ([(0, 1 << 20), (0, 1 << 20), (0, 1 << 20)], 13, "0 by 1,048,576"),
        ([(0, max), (0, max), (0, max)], 13, "0 by 4,294,967,295"),
        ([(1, max), (0, max), (1, max)], 5, "1 by 4,294,967,295"),
        ([(1 << 19, 16), ((1 << 19) - 1, 16), ((1 << 20) - 1, 16)], 12, "no slices"),
    ];
    let mut tally = Tally::default();
    for (sizes, expected, why) in rows {
        for (horizontal, sizes) in [(true, sizes), (false, sizes.map(|(w, h)| (h, w)))] {
            assert_eq!(tile_answer(horizontal, sizes, [0, 0, 0]), expected, "{why}");
            tally.add(expected);
        }
    }
    assert_eq!(tally.met(), [0, 5, 12, 13]);
}

/// HF on LF of a strip 1,048,575 by 16, the tiles 128 by 128, the first.
const RECT: GridQuery = GridQuery {
    width: LONG,
    height: 16,
    hshift: 0,
    vshift: 0,
    output: Kind::HF,
    stored: Kind::LF,
    group: 128,
    gx: 0,
    gy: 0,
};

#[test]
fn sides_in_rectangles() {
    for Row { side, rect, .. } in SIDES {
        for (width, height) in both_ways(side) {
            let query = GridQuery {
                width,
                height,
                output: Kind::NONE,
                stored: Kind::NONE,
                ..RECT
            };
            assert_eq!(must(rects::compare(&query, 4)), rect, "{side}");
            let whole = if rect == 0 {
                Ok([0, 0, width, height])
            } else {
                Err(rect)
            };
            assert_eq!(rects::model_rect(&query), whole, "{side}");
        }
    }
}

#[test]
#[rustfmt::skip]
fn rectangles() {
    let (none, lf) = (Kind::NONE, Kind::LF);
    let above = GridQuery { width: LONG + 1, ..RECT };
    let rows = [
        (RECT, Ok([0, 0, 128, 16]), "the first tile"),
        (GridQuery { gx: 8191, ..RECT }, Ok([896, 0, 127, 16]), "the last, in the last of LF"),
        (GridQuery { gx: 8191, stored: none, ..RECT }, Ok([1_048_448, 0, 127, 16]), "on None"),
        (GridQuery { gx: 8192, ..RECT }, Ok([0; 4]), "past the end"),
        (GridQuery { gx: u16::MAX, ..RECT }, Ok([0; 4]), "as far as a position goes"),
        (GridQuery { gx: 512, width: 65_537, stored: none, ..RECT }, Ok([65_536, 0, 1, 16]), "the 65,537th"),
        (GridQuery { gx: 512, width: 65_536, ..RECT }, Ok([0; 4]), "no 65,537th"),
        (GridQuery { gx: 127, output: lf, group: 1024, stored: none, ..RECT }, Ok([1_040_384, 0, 8_191, 16]), "LF"),
        (GridQuery { gx: 127, output: lf, group: 1024, ..RECT }, Ok([0, 0, 8_191, 16]), "LF on LF"),
        (GridQuery { width: 16, height: LONG, gy: 8191, ..RECT }, Ok([0, 896, 16, 127]), "across"),
        (GridQuery { output: none, stored: none, hshift: 255, vshift: 255, ..RECT }, Ok([0, 0, LONG, 16]), "meta"),
        (GridQuery { hshift: 255, vshift: 255, ..RECT }, Err(14), "a meta strip has no tiles"),
        (above, Err(4), "a side above the limit"),
        (GridQuery { height: LONG + 1, width: 0, ..RECT }, Err(4), "and no samples"),
        (GridQuery { group: 0, ..above }, Err(4), "sides, before the group"),
        (GridQuery { output: none, ..above }, Err(4), "sides, before kinds"),
        (GridQuery { width: u32::MAX, height: u32::MAX, ..RECT }, Err(4), "the largest numbers"),
        (GridQuery { group: 0, ..RECT }, Err(14), "no such group"),
    ];
    for (query, expected, why) in rows {
        assert_eq!(rects::model_rect(&query), expected, "{why}");
        let answer = expected.err().unwrap_or(0);
        assert_eq!(must(rects::compare(&query, 4)), answer, "{why}");
        let cut = expected.err().unwrap_or(12);
        assert_eq!(must(rects::compare(&query, 3)), cut, "{why}, three numbers");
    }
}

/// Records of before: the same bytes from every writer, and read as ever.
#[test]
fn old_records_keep_their_bytes() {
    let step = |horizontal, in_place, first, number| Step {
        horizontal,
        in_place,
        first,
        number,
    };
    let (long, tall) = (Channel::new(SHORT, 256), Channel::new(2, SHORT));
    let rows: [(&[Channel], &[Step], &[u8]); 4] = [
        (&[Channel::new(20, 9)], &[], b"\x01\x06\0\x14\0\x09\0\0\0"),
        (&[long], &[], b"\x01\x06\0\xff\xff\0\x01\0\0"),
        (
            &[Channel::meta(300, 1), tall],
            &[step(true, true, 0, 1), step(false, false, 2, 1)],
            b"\x01\x06\0\x2c\x01\x01\0\xff\xff\x01\x06\0\x02\0\xff\xff\0\0\
              \x02\x05\0\x03\0\0\x01\0\x02\x05\0\0\x02\0\x01\0",
        ),
        (
            &[Channel {
                shifts: Some((1, 30)),
                ..Channel::new(7, 5)
            }],
            &[step(true, false, 0, 1)],
            b"\x01\x06\0\x07\0\x05\0\x01\x1e\x02\x05\0\x01\0\0\x01\0",
        ),
    ];
    for (channels, steps, bytes) in rows {
        let record = Record::from_parts(channels, steps).unwrap();
        assert_eq!(record.bytes(), bytes);
        assert_eq!(must(lists::compare(bytes)), 0);
        let parts = Parts::of_record(bytes).unwrap();
        assert_eq!(
            must(parts.compare_room(bytes.len(), 1)),
            (0, bytes.to_vec())
        );
    }
    let text = "steps 3\nh in 0 1\nv in 0 1\nh in 0 1\nchannels 4\n5 5 2 1\n5 5 2 1\n\
                10 4 1 1\n10 9 1 0\ncoarse 2\n";
    assert_eq!(listing(rows[0].2).unwrap(), text);
}

/// The records of the vectors, which are older than tag 3, are written again.
#[test]
fn records_of_the_vectors() {
    let data = Path::new(env!("CARGO_MANIFEST_DIR")).join("tests/data");
    let mut written = 0;
    for entry in fs::read_dir(data).expect("a directory") {
        let path = entry.expect("a directory entry").path();
        if path
            .extension()
            .is_none_or(|extension| extension != "record")
        {
            continue;
        }
        let bytes = fs::read(&path).expect("a record that can be read");
        let parts = Parts::of_record(&bytes).expect("a form");
        let mut record = vec![0; squeeze::RECORD_ROOM];
        let length = write_record(1, &parts.channels, &parts.steps, &mut record).unwrap();
        assert_eq!(record[..length], bytes, "{}", path.display());
        written += 1;
    }
    assert!(written >= 10, "{written} records");
}

/// Steps of the default plan: a side's halvings until it is at most 8, and for
/// chroma up to two more.
#[test]
fn default_plans() {
    let rows = [
        ((65_536, 1), 13),
        ((65_537, 1), 14),
        ((LONG, 1), 17),
        ((LONG, 16), 18),
        ((16, LONG), 18),
        ((8, LONG), 17),
    ];
    for ((width, height), steps) in rows {
        let record = Record::new().channel(width, height).checked().unwrap();
        assert_eq!(must(lists::compare(record.bytes())), 0);
        let layout = layout(record.bytes()).unwrap();
        assert_eq!(layout.steps.len(), steps, "{width} by {height}");
        let [first, second] = [0, 1].map(|k| layout.channels[k]);
        assert!(first.width <= 8 && first.height <= 8 && first.samples() >= second.samples());
    }
}

/// The longest strips through writer and plan run: compared with plain Rust, and
/// rebuilt exactly.
#[test]
fn strips_of_16777200_samples() {
    const SAMPLES: usize = 16_777_200;
    let any: Vec<i32> = (0..SAMPLES as u32)
        .map(|k| k.wrapping_mul(2_654_435_761) as i32)
        .collect();
    for (width, height) in [(LONG, 16), (16, LONG)] {
        let record = strip(width, height);
        let picture = run(&record, true, &run(&record, false, &any, SAMPLES), SAMPLES);
        assert!(picture == any, "{width} by {height} came back changed");
        run(&record, true, &any, SAMPLES - 1);
    }
}

/// The output of a run with a work slice of this length; one that isn't the
/// picture's is refused.
fn run(record: &[u8], back: bool, input: &[i32], work: usize) -> Vec<i32> {
    let outcome = must(
        Run {
            back,
            record,
            input,
            output: &vec![5; input.len()],
            work: &vec![6; work],
        }
        .compare(),
    );
    let expected = if work == input.len() { 0 } else { 12 };
    assert_eq!(outcome.answer, expected);
    outcome.output
}
