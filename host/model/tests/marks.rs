//! Marks (document 02, A.3) in the model alone: the rows by hand, refused calls, and the
//! law between the writer's mark and that of rebuilding.

mod by_hand;

use by_hand::marks::{lines, runs, ABOVE, BELOW, HIGHEST, LOWEST};
use by_hand::origins::refused;
use squeeze_model::marks::outside;
use squeeze_model::run::{rebuild, rebuild_marked, write, write_marked};
use squeeze_model::tile::{tile, tile_marked, Sizes};
use squeeze_model::{list, record};

#[test]
fn ends_of_the_range() {
    let samples = [i32::MIN, BELOW, LOWEST, -1, 0, HIGHEST, ABOVE, i32::MAX];
    let expected = [true, true, false, false, false, false, true, true];
    assert_eq!(samples.map(outside), expected);
}

/// The sizes of so many lines, with so many averages and residuals.
fn sizes(horizontal: bool, averages: usize, residuals: usize, lines: usize) -> Sizes {
    let size = |along| {
        if horizontal {
            (along, lines)
        } else {
            (lines, along)
        }
    };
    Sizes {
        horizontal,
        avg: size(averages),
        residual: size(residuals),
        output: size(averages + residuals),
    }
}

/// As a row and as a column; the output is that of the call without a mark, and the
/// second number stays.
#[test]
fn lines_by_hand() {
    for ([avg, res, next, prev], expected, why) in lines() {
        for horizontal in [true, false] {
            let sizes = sizes(horizontal, avg.len(), res.len(), 1);
            let mut out = vec![7; avg.len() + res.len()];
            let mut plain = out.clone();
            let mut mark = [9, 9];
            let answer = tile_marked(&sizes, &avg, &res, &next, &prev, &mut out, &mut mark);
            assert_eq!((answer, mark), (0, [expected.into(), 9]), "{why}");
            assert_eq!(tile(&sizes, &avg, &res, &next, &prev, &mut plain), 0);
            assert_eq!(out, plain, "{why}");
        }
    }
}

#[test]
fn runs_by_hand() {
    for (record, pyramid, picture, expected, why) in runs() {
        let expected = (0, [expected.into(), 9]);
        for (call, from, to) in [
            (rebuild_marked as Marked, &pyramid, &picture),
            (write_marked, &picture, &pyramid),
        ] {
            let (mut out, mut work, mut mark) = (vec![7; to.len()], vec![7; to.len()], [9, 9]);
            let answer = call(&record, from, &mut out, &mut work, &mut mark);
            assert_eq!((answer, mark), expected, "{why}");
            assert_eq!(&out, to, "{why}");
            assert!(work.iter().all(|&sample| sample == 0));
        }
    }
}

type Marked = fn(&[u8], &[i32], &mut [i32], &mut [i32], &mut [u32]) -> u32;
type Unmarked = fn(&[u8], &[i32], &mut [i32], &mut [i32]) -> u32;

/// Nothing of any slice has changed.
#[test]
fn refused_runs() {
    let sound = runs()
        .into_iter()
        .map(|(record, ..)| (record, 12, "no mark"));
    let cases = refused().into_iter().chain(sound);
    for (record, expected, why) in cases {
        let samples = record::judge(&record).map_or(5, |plan| list::total(plan.layout()));
        let room = if expected == 12 { 0 } else { 2 };
        for call in [rebuild_marked as Marked, write_marked] {
            let [mut out, mut work] = [7, 8].map(|sample| vec![sample; samples]);
            let mut mark = vec![9; room];
            let input = vec![ABOVE; samples];
            let answer = call(&record, &input, &mut out, &mut work, &mut mark);
            assert_eq!(answer, expected, "{why}");
            assert!(mark.iter().all(|&number| number == 9));
            assert!(out.iter().all(|&s| s == 7) && work.iter().all(|&s| s == 8));
        }
    }
}

#[test]
fn refused_tiles() {
    let large = 1 << 13;
    let cases = [
        (
            sizes(true, large, large, large),
            [2, 2, 4],
            2,
            5,
            "too many samples",
        ),
        (
            sizes(true, 2, 3, 1),
            [2, 3, 5],
            2,
            13,
            "sizes that don't fit",
        ),
        (
            sizes(true, 2, 3, 1),
            [2, 3, 5],
            0,
            13,
            "sizes, before the mark",
        ),
        (sizes(true, 2, 2, 1), [2, 2, 3], 2, 12, "output too short"),
        (sizes(true, 2, 2, 1), [2, 2, 4], 0, 12, "no mark"),
        (
            sizes(false, 0, 0, 0),
            [0, 0, 0],
            0,
            12,
            "no mark, and nothing else",
        ),
    ];
    for (sizes, [avg, residual, out], room, expected, why) in cases {
        let (avg, residual) = (vec![ABOVE; avg], vec![BELOW; residual]);
        let (mut out, mut mark) = (vec![7; out], vec![9; room]);
        let answer = tile_marked(&sizes, &avg, &residual, &[], &[], &mut out, &mut mark);
        assert_eq!(answer, expected, "{why}");
        assert!(out.iter().all(|&s| s == 7) && mark.iter().all(|&n| n == 9));
    }
}

/// A call without lines, or whose lines are empty, reads nothing.
#[test]
fn empty_tiles() {
    for horizontal in [true, false] {
        for (averages, residuals, lines) in [(3, 3, 0), (3, 2, 0), (0, 0, 3), (0, 0, 0)] {
            let sizes = sizes(horizontal, averages, residuals, lines);
            let outer = vec![ABOVE; lines];
            let mut mark = [9];
            let answer = tile_marked(&sizes, &[], &[], &outer, &outer, &mut [], &mut mark);
            assert_eq!((answer, mark), (0, [0]));
        }
    }
}

/// Samples of any kind, from a small generator: near the ends, mostly.
struct Samples(u64);

impl Samples {
    fn next(&mut self) -> i32 {
        self.0 = self
            .0
            .wrapping_mul(6_364_136_223_846_793_005)
            .wrapping_add(1);
        let bits = (self.0 >> 33) as i32;
        match bits & 15 {
            0 => HIGHEST - (bits >> 4 & 3) + 1,
            1 => LOWEST + (bits >> 4 & 3) - 1,
            2 => bits << 8,
            _ => bits >> 4 & 1023,
        }
    }

    fn take(&mut self, number: usize) -> Vec<i32> {
        (0..number).map(|_| self.next()).collect()
    }
}

/// A run with and without a mark give the same; the mark.
fn both(marked: Marked, unmarked: Unmarked, record: &[u8], from: &[i32]) -> (Vec<i32>, bool) {
    let [mut out, mut plain, mut work] = [1, 2, 3].map(|sample| vec![sample; from.len()]);
    let mut mark = [9];
    assert_eq!(marked(record, from, &mut out, &mut work, &mut mark), 0);
    assert_eq!(unmarked(record, from, &mut plain, &mut work), 0);
    assert_eq!(out, plain);
    assert!(mark[0] < 2);
    (out, mark[0] == 1)
}

/// A picture and its pyramid have one mark, whichever way round.
#[test]
fn both_ways_alike() {
    let mut samples = Samples(161);
    let mut met = [0; 2];
    for _ in 0..400 {
        for (record, from, ..) in runs() {
            let picture = samples.take(from.len());
            let (pyramid, forward) = both(write_marked, write, &record, &picture);
            let (again, back) = both(rebuild_marked, rebuild, &record, &pyramid);
            assert_eq!((again, back), (picture, forward), "{record:02x?}");
            met[usize::from(back)] += 1;
        }
    }
    assert!(met.iter().all(|&times| times > 1_000), "{met:?}");
}

/// What the pairs of a tile call read or make, as whole slices: averages, residuals and
/// output, and of the outer lines what is read. An average lies between its two samples
/// where these are inside, so it adds nothing.
#[test]
fn slices_tell_the_same() {
    let mut samples = Samples(162);
    let mut met = [0; 2];
    for case in 0..20_000 {
        let (horizontal, residuals) = (case & 1 == 1, case >> 1 & 3);
        let (averages, lines) = (residuals + (case >> 3 & 1), 1 + (case >> 4 & 1));
        let sizes = sizes(horizontal, averages, residuals, lines);
        let avg = samples.take(averages * lines);
        let res = samples.take(residuals * lines);
        let next = samples.take(lines * (case >> 5 & 1));
        let prev = samples.take(lines * (case >> 6 & 1));
        let (mut out, mut mark) = (vec![0; (averages + residuals) * lines], [9]);
        assert_eq!(
            tile_marked(&sizes, &avg, &res, &next, &prev, &mut out, &mut mark),
            0
        );
        let some = |slice: &[i32]| slice.iter().any(|&sample| outside(sample));
        let outer = residuals > 0 && (some(&prev) || averages == residuals && some(&next));
        let expected = some(&res) || some(&out) || outer;
        assert_eq!(
            mark,
            [expected.into()],
            "{sizes:?} {avg:?} {res:?} {next:?} {prev:?}"
        );
        met[usize::from(expected)] += 1;
    }
    assert!(met.iter().all(|&times| times > 4_000), "{met:?}");
}
