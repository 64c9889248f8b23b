//! Every refusal by number: input, expected number, why. Each record goes
//! through the listing, the plan run and the writer.

use squeeze::{GridQuery, Kind, Record, Refusal, Step};
use squeeze_compare::runs::{self, Run};
use squeeze_compare::tiles::Tile;
use squeeze_compare::{must, rects, Tally};

fn step(flags: u8, first: u16, number: u16) -> Step {
    let (horizontal, in_place) = (flags & 1 == 1, flags & 2 == 2);
    Step {
        horizontal,
        in_place,
        first,
        number,
    }
}

fn one() -> Record {
    Record::new().channel(9, 9)
}

fn channels(number: usize, width: u32) -> Record {
    (0..number).fold(Record::new(), |record, _| record.channel(width, 1))
}

fn steps(record: Record, number: usize, step: Step) -> Record {
    (0..number).fold(record, |record, _| record.step(step))
}

/// A record and more bytes after it.
fn then(record: Record, bytes: &[u8]) -> Vec<u8> {
    [record.bytes(), bytes].concat()
}

fn check(cases: &[(Vec<u8>, u32, &str)]) -> Tally {
    runs::rows(3, 4096, cases)
}

#[test]
#[rustfmt::skip]
fn form_of_a_record() {
    let bytes = |record: Record| record.bytes().to_vec();
    let shifts = |h, v| Record::new().shifted_channel(1, 1, h, v).bytes().to_vec();
    let long = [1, 6, 0, 9, 0, 9, 0, 0, 0];
    let cases = [
        (vec![1], 1, "a head of one byte"),
        (vec![1, 6], 1, "a head of two bytes"),
        (vec![77, 6], 1, "a cut head is met before an unknown tag"),
        (vec![77, 1, 0], 1, "a length past the end is met before an unknown tag"),
        (long[..8].to_vec(), 1, "a body cut by one byte"),
        (then(one(), &[1]), 1, "a second head cut"),
        (then(one(), &[0, 0, 0]), 2, "tag 0"),
        (then(one(), &[4, 1, 0, 2]), 2, "tag 4 after a channel"),
        (then(one(), &[5, 0, 0]), 2, "tag 5"),
        (vec![1, 5, 0, 9, 0, 9, 0, 0], 2, "a channel with a step's length"),
        (vec![2, 6, 0, 1, 0, 0, 1, 0, 0], 2, "a step with a channel's length"),
        (vec![1, 0, 0], 2, "a channel of length 0"),
        (then(one().step(step(1, 0, 1)), &long), 2, "a channel after a step"),
        (vec![], 3, "no field"),
        (bytes(Record::new().step(step(1, 0, 1))), 3, "a step and no channel"),
        (bytes(channels(257, 0)), 3, "257 channels"),
        (then(channels(257, 0), &[9]), 3, "the field too many is met before a cut head"),
        (bytes(steps(one(), 65, step(1, 9, 9))), 3, "65 steps, before their range"),
        (then(channels(256, 0), &[1, 6, 0, 0, 0, 0, 0, 31, 0]), 3, "count before shifts"),
        (shifts(31, 0), 4, "a horizontal shift of 31"),
        (shifts(0, 31), 4, "a vertical shift of 31"),
        (shifts(255, 0), 4, "half meta"),
        (shifts(254, 254), 4, "both 254"),
        (bytes(one().meta_channel(1, 1)), 4, "a meta channel second"),
        (then(one(), &[2, 5, 0, 4, 0, 0, 1, 0]), 4, "flag bit 2"),
        (then(one(), &[2, 5, 0, 128, 0, 0, 1, 0]), 4, "flag bit 7"),
        (then(one(), &[2, 5, 0, 4, 0, 0, 1, 0, 7]), 4, "field by field: flags before a cut"),
        (vec![2, 5, 0, 4, 0, 0, 1, 0], 4, "a step's flags before the missing channel"),
    ];
    assert_eq!(check(&cases).met(), [1, 2, 3, 4]);
}

#[test]
#[rustfmt::skip]
fn plan_of_a_record() {
    let meta = |w, h| Record::new().meta_channel(w, h);
    let plain = |w, h| Record::new().channel(w, h);
    let deep = |h, v| Record::new().shifted_channel(9, 9, h, v);
    let cases = [
        (plain(4096, 4096).channel(1, 1), 5, "one sample above 16,777,216"),
        (plain(4096, 4096).channel(1, 1).step(step(0, 7, 0)), 5, "samples before the range"),
        (meta(65535, 65535), 5, "samples before the default plan"),
        (meta(9, 9), 11, "a default plan and only a meta channel"),
        (meta(9, 9).meta_channel(0, 0), 11, "two meta channels"),
        (one().step(step(1, 0, 0)), 6, "a range of nothing"),
        (one().step(step(1, 1, 0)), 6, "nothing at the end"),
        (one().step(step(1, 1, 1)), 6, "a range past the end"),
        (one().step(step(1, 0, 2)), 6, "a range that ends past the end"),
        (one().step(step(1, 65535, 1)), 6, "65535 + 1 is not 0"),
        (one().step(step(1, 65535, 65535)), 6, "nor is 65535 + 65535 small"),
        (meta(9, 9).channel(9, 9).step(step(3, 0, 2)), 7, "meta and another"),
        (meta(9, 9).channel(0, 9).step(step(1, 0, 2)), 7, "kinds before place and sides"),
        (meta(9, 9).step(step(1, 0, 1)), 8, "meta, not in place"),
        (meta(0, 9).step(step(0, 0, 1)), 8, "place before sides"),
        (plain(0, 9).step(step(1, 0, 1)), 9, "width 0"),
        (plain(9, 0).step(step(1, 0, 1)), 9, "height 0"),
        (Record::new().shifted_channel(9, 0, 30, 30).step(step(1, 0, 1)), 9, "sides before shifts"),
        (plain(1, 9).step(step(3, 0, 1)).step(step(3, 1, 1)), 9, "the residual of a side of 1"),
        (plain(0, 20), 9, "the default plan meets width 0"),
        (deep(30, 0).step(step(1, 0, 1)), 10, "horizontal shift 31"),
        (deep(0, 30).step(step(0, 0, 1)), 10, "vertical shift 31"),
        (channels(256, 1).step(step(1, 0, 1)), 10, "257 channels"),
        (channels(129, 9), 10, "the default plan leaves 258 channels"),
        (deep(30, 30), 10, "the default plan meets shift 31"),
        (channels(128, 9).step(step(1, 0, 128)), 0, "256 channels are allowed"),
        (deep(30, 0).step(step(0, 0, 1)), 0, "the other direction's shift may be 30"),
        (meta(9, 9).step(step(3, 0, 1)), 0, "meta in place"),
    ];
    let cases = cases.map(|(record, number, why)| (record.bytes().to_vec(), number, why));
    assert_eq!(check(&cases).met(), [0, 5, 6, 7, 8, 9, 10, 11]);
}

/// What a call that is answered so answers with so many numbers for the mark: none is
/// refused after everything else.
fn marks(answer: u32) -> [(usize, u32); 4] {
    let none = if answer == 0 { 12 } else { answer };
    [(0, none), (1, answer), (2, answer), (9, answer)]
}

#[test]
fn lengths_of_slices() {
    let record = Record::new().channel(4, 3);
    let full = Record::new().channel(4096, 4096);
    let over = Record::new().channel(4096, 4096).channel(1, 1);
    let cases = [
        (&record, [12, 12, 12], 0, "all fit"),
        (&record, [11, 12, 12], 12, "input too short"),
        (&record, [13, 12, 12], 12, "input too long"),
        (&record, [12, 11, 12], 12, "output too short"),
        (&record, [12, 13, 12], 12, "output too long"),
        (&record, [12, 12, 11], 12, "work too short"),
        (&record, [12, 12, 0], 12, "no work"),
        (&record, [12, 12, 24], 12, "work too long"),
        (&record, [0, 0, 0], 12, "nothing lent"),
        (&full, [0, 0, 0], 12, "16,777,216 samples are allowed"),
        (&over, [0, 0, 0], 5, "the total is judged before the slices"),
    ];
    for (record, [input, output, work], expected, why) in cases {
        for back in [true, false] {
            let run = Run {
                back,
                record: record.bytes(),
                input: &vec![1; input],
                output: &vec![2; output],
                work: &vec![3; work],
            };
            assert_eq!(must(run.compare()).answer, expected, "{why}, back: {back}");
            for (numbers, expected) in marks(expected) {
                let answer = must(run.compare_room(numbers)).answer;
                assert_eq!(answer, expected, "{why}, {numbers} for the mark");
            }
        }
    }
}

/// Sizes of averages, residuals and output; lengths of the two lines and of the
/// three slices; for a horizontal call.
type TileCase = (
    [(usize, usize); 3],
    [usize; 2],
    [usize; 3],
    u32,
    &'static str,
);

#[rustfmt::skip]
const TILES: [TileCase; 17] = [
    ([(2, 3), (2, 3), (4, 3)], [3, 3], [6, 6, 12], 0, "all fit"),
    ([(3, 3), (2, 3), (5, 3)], [0, 3], [9, 6, 15], 0, "a tail average"),
    ([(4097, 4096), (2, 3), (4, 3)], [9, 9], [0, 0, 0], 5, "averages, before sizes"),
    ([(2, 3), (1 << 32, 1 << 32), (4, 3)], [0, 0], [6, 6, 12], 5, "a product of 2^64"),
    ([(2, 3), (2, 3), (usize::MAX, 2)], [0, 0], [6, 6, 12], 5, "output"),
    ([(usize::MAX, 0), (usize::MAX, 0), (0, 0)], [0, 0], [0, 0, 0], 13, "sides, no samples"),
    ([(2, 3), (3, 3), (5, 3)], [0, 0], [6, 9, 15], 13, "a residual more than averages"),
    ([(4, 3), (2, 3), (6, 3)], [0, 0], [12, 6, 18], 13, "two averages more"),
    ([(2, 3), (2, 3), (5, 3)], [0, 0], [6, 6, 15], 13, "output width"),
    ([(2, 3), (2, 4), (4, 3)], [0, 0], [6, 8, 12], 13, "residual height"),
    ([(2, 3), (2, 3), (4, 2)], [0, 0], [6, 6, 8], 13, "output height"),
    ([(1 << 19, 1), (1 << 19, 1), (1 << 20, 1)], [0, 0], [0, 0, 0], 13, "a side of 1,048,576"),
    ([(2, 3), (2, 3), (4, 3)], [2, 0], [6, 6, 12], 13, "a next line too short"),
    ([(2, 3), (2, 3), (4, 3)], [0, 4], [0, 6, 12], 13, "a line, before the slices"),
    ([(2, 3), (2, 3), (4, 3)], [0, 0], [5, 6, 12], 12, "averages too short"),
    ([(2, 3), (2, 3), (4, 3)], [0, 0], [6, 7, 12], 12, "residuals too long"),
    ([(2, 3), (2, 3), (4, 3)], [0, 0], [6, 6, 11], 12, "output too short"),
];

#[test]
fn tile_calls() {
    for (sizes, lines, lengths, expected, why) in TILES {
        let samples = |n: usize| (0..n as i32).collect::<Vec<i32>>();
        let inputs = [lengths[0], lengths[1], lines[0], lines[1]].map(samples);
        let inputs = [0, 1, 2, 3].map(|k: usize| &inputs[k][..]);
        let out = samples(lengths[2]);
        let turned = sizes.map(|(w, h)| (h, w));
        for (horizontal, sizes) in [(1, sizes), (0, turned)] {
            let tile = Tile {
                horizontal,
                sizes,
                inputs,
                out: &out,
            };
            assert_eq!(must(tile.compare()).answer, expected, "{why}, {horizontal}");
            for (numbers, expected) in marks(expected) {
                let answer = must(tile.compare_room(numbers)).answer;
                assert_eq!(answer, expected, "{why}, {numbers} for the mark");
            }
        }
    }
}

const RECT: GridQuery = rects::DOCUMENT_01;

#[test]
#[rustfmt::skip]
fn rectangle_calls() {
    let meta = GridQuery { hshift: 255, vshift: 255, ..RECT };
    let (none, lf, hf) = (Kind::NONE, Kind::LF, Kind::HF);
    let cases = [
        (RECT, 4, 0, "HF on LF"),
        (GridQuery { hshift: 31, ..RECT }, 4, 4, "a shift of 31"),
        (GridQuery { vshift: 255, ..RECT }, 4, 4, "half meta"),
        (GridQuery { vshift: 31, group: 0, ..RECT }, 4, 4, "shifts before the group"),
        (GridQuery { group: 64, ..RECT }, 4, 14, "half the least group"),
        (GridQuery { group: 255, ..RECT }, 4, 14, "between two groups"),
        (GridQuery { group: 2048, ..RECT }, 4, 14, "twice the largest group"),
        (GridQuery { output: Kind(3), ..RECT }, 4, 14, "no such output kind"),
        (GridQuery { stored: Kind(3), ..RECT }, 4, 14, "no such stored kind"),
        (GridQuery { output: none, ..RECT }, 4, 14, "None on LF"),
        (GridQuery { output: none, stored: hf, ..RECT }, 4, 14, "None on HF"),
        (GridQuery { output: lf, stored: hf, ..RECT }, 4, 14, "LF on HF"),
        (GridQuery { output: lf, stored: hf, width: 0, ..RECT }, 4, 14, "an empty LF on HF"),
        (meta, 4, 14, "a meta channel"),
        (GridQuery { output: none, stored: none, ..meta }, 4, 0, "a meta channel, None on None"),
        (GridQuery { output: none, stored: none, group: 1, ..RECT }, 4, 14, "None, no such group"),
        (RECT, 3, 12, "a rectangle of three numbers"),
        (RECT, 5, 12, "a rectangle of five numbers"),
        (GridQuery { group: 64, ..RECT }, 0, 14, "the group before the slice"),
    ];
    for (query, length, expected, why) in cases {
        assert_eq!(must(rects::compare(&query, length)), expected, "{why}");
    }
}

#[test]
fn numbers_and_names() {
    for (k, refusal) in Refusal::ALL.into_iter().enumerate() {
        assert_eq!(refusal.number(), k as u32 + 1);
        assert_eq!(Refusal::from_number(refusal.number()), Some(refusal));
        let text = refusal.to_string();
        assert!(text.starts_with(&format!("refused {}: ", k + 1)), "{text}");
    }
    for number in [0, 15, u32::MAX] {
        assert_eq!(Refusal::from_number(number), None);
    }
}
