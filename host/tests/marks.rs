//! Marks (document 02, A.3): lines and runs by hand, each of a pair's six samples alone
//! outside in every place, one bad sample in each channel of a pyramid, channels that no
//! step touches, refused calls, and squeezes cut into tiles against the uncut one.

#[path = "../model/tests/by_hand/mod.rs"]
mod by_hand;

use by_hand::marks::{lines, runs, ABOVE, BELOW, HIGHEST, LOWEST};
use by_hand::origins::{plan, refused, three, H_IN, H_OUT, V_IN, V_OUT};
use by_hand::{channel, house, meta};
use squeeze::{rebuild_picture_marked, write_pyramid_marked};
use squeeze_compare::cuts::{check_cut, fitting, Draw, Size, Uncut};
use squeeze_compare::random::Random;
use squeeze_compare::runs::{round_trips, Run};
use squeeze_compare::tiles::Tile;
use squeeze_compare::{must, records, Outcome, Tally};
use squeeze_model::forward::rows_forward;
use squeeze_model::{list, record};
use std::ops::RangeInclusive;
use std::slice::from_ref;

/// The plain range, in document 02's numbers.
const PLAIN: RangeInclusive<i32> = -268_435_456..=268_435_455;

fn outside(sample: i32) -> bool {
    !PLAIN.contains(&sample)
}

/// How many samples lie outside.
fn count_outside(samples: &[i32]) -> usize {
    samples.iter().filter(|&&sample| outside(sample)).count()
}

/// A line of a tile call.
#[derive(Clone, Debug, Default)]
struct Line {
    avg: Vec<i32>,
    res: Vec<i32>,
    next: Vec<i32>,
    prev: Vec<i32>,
}

impl Line {
    /// What the writer makes of the samples of a line.
    fn of_samples(samples: &[i32]) -> Line {
        let residuals = samples.len() / 2;
        let (mut avg, mut res) = (vec![0; samples.len() - residuals], vec![0; residuals]);
        rows_forward(samples.len(), samples, &mut avg, &mut res);
        Line {
            avg,
            res,
            ..Line::default()
        }
    }

    /// The highest or the lowest sample everywhere.
    fn at_an_end(&self, k: usize) -> Line {
        let end = [HIGHEST, LOWEST][k % 2];
        Line {
            avg: vec![end; self.avg.len()],
            res: vec![0; self.res.len()],
            next: vec![end; self.next.len()],
            prev: vec![end; self.prev.len()],
        }
    }
}

/// Lines of a rectangle: rows, or columns.
fn rectangle(horizontal: bool, lines: &[&[i32]]) -> Vec<i32> {
    if horizontal {
        return lines.concat();
    }
    let length = lines.first().map_or(0, |line| line.len());
    let across = (0..length).flat_map(|k| lines.iter().map(move |line| line[k]));
    across.collect()
}

/// The tile call of these lines.
fn call(horizontal: bool, lines: &[Line]) -> Outcome {
    let part = |of: fn(&Line) -> &[i32]| {
        let lines: Vec<&[i32]> = lines.iter().map(of).collect();
        rectangle(horizontal, &lines)
    };
    let inputs = [
        part(|line| &line.avg),
        part(|line| &line.res),
        part(|line| &line.next),
        part(|line| &line.prev),
    ];
    let along = lines[0].avg.len() + lines[0].res.len();
    let size = if horizontal {
        (along, lines.len())
    } else {
        (lines.len(), along)
    };
    let outcome = must(
        Tile {
            horizontal: horizontal.into(),
            sizes: fitting(horizontal, size),
            inputs: inputs.each_ref().map(|slice| &slice[..]),
            out: &vec![7; along * lines.len()],
        }
        .compare(),
    );
    assert_eq!(outcome.answer, 0);
    outcome
}

/// Numbers of lines: blocks of eight, of sixteen, and odd ones.
const ACROSS: [usize; 12] = [1, 2, 3, 5, 7, 8, 9, 15, 16, 17, 23, 31];

/// The line in every place among others, which lie at the ends of the range; rows and
/// columns. Gives how many calls that was.
fn check_in_every_lane(line: &Line, expected: bool, why: &str) -> usize {
    for across in ACROSS {
        let mut lines: Vec<Line> = (0..across).map(|k| line.at_an_end(k)).collect();
        for lane in 0..across {
            let other = std::mem::replace(&mut lines[lane], line.clone());
            for horizontal in [true, false] {
                let marked = call(horizontal, &lines).marked;
                assert_eq!(marked, expected, "{why}: {line:?}, {lane} of {across}");
            }
            lines[lane] = other;
        }
    }
    2 * ACROSS.iter().sum::<usize>()
}

#[test]
fn lines_by_hand() {
    for ([avg, res, next, prev], expected, why) in lines() {
        let line = Line {
            avg,
            res,
            next,
            prev,
        };
        check_in_every_lane(&line, expected, why);
    }
}

/// Samples of a line, all 0 but those of pair `k`.
fn with_pair(length: usize, k: usize, pair: [i32; 2]) -> Vec<i32> {
    let mut samples = vec![0; length];
    samples[2 * k..2 * k + 2].copy_from_slice(&pair);
    samples
}

/// Lines with `end`, or samples beside it, in one place, and of each how many of its
/// samples are outside where `end` is, the line's output among them; and whether a pair
/// reads it or it is copied.
fn lines_with(end: i32, pairs: usize, tail: bool) -> Vec<(Line, usize, bool, &'static str)> {
    let length = 2 * pairs + usize::from(tail);
    let inward = -end.signum();
    let mut cases = Vec::new();
    for k in 0..pairs {
        let pair = |pair| Line::of_samples(&with_pair(length, k, pair));
        let mut residual = Line::of_samples(&vec![0; length]);
        residual.res[k] = end;
        cases.push((
            pair([end, end + inward]),
            2,
            true,
            "average, and first sample",
        ));
        cases.push((residual, 1, true, "residual"));
        cases.push((pair([end, end + 2 * inward]), 1, true, "first sample"));
        cases.push((pair([end + 2 * inward, end]), 1, true, "second sample"));
    }
    if tail {
        let samples = [vec![0; length - 1], vec![end]].concat();
        let why = "average that is copied, and its copy";
        cases.push((Line::of_samples(&samples), 2, true, why));
    }
    let line = Line::of_samples(&vec![0; length]);
    let next = Line {
        next: vec![end],
        ..line.clone()
    };
    let prev = Line {
        prev: vec![end],
        ..line
    };
    cases.push((next, 1, pairs > 0 && !tail, "next line"));
    cases.push((prev, 1, pairs > 0, "previous line"));
    cases
}

/// Each of a pair's six samples alone outside by one, or at the end of the range, where
/// it doesn't count: at both ends, in each place of lines up to four pairs and a tail,
/// in every lane, as rows and as columns. An average can't be outside where both samples
/// are inside: there it is one of them too.
#[test]
fn each_sample_alone() {
    let (mut calls, mut marks) = (0, [0; 2]);
    for (pairs, tail) in (0..=4).flat_map(|pairs| [(pairs, false), (pairs, true)]) {
        if pairs == 0 && !tail {
            continue;
        }
        for end in [ABOVE, HIGHEST, LOWEST, BELOW] {
            for (line, number, read, why) in lines_with(end, pairs, tail) {
                let out = call(true, from_ref(&line)).output;
                let all = [&line.avg[..], &line.res, &line.next, &line.prev, &out].concat();
                let number = if outside(end) { number } else { 0 };
                assert_eq!(count_outside(&all), number, "{why}: {line:?}");
                let expected = outside(end) && read;
                calls += check_in_every_lane(&line, expected, why);
                marks[usize::from(expected)] += 1;
            }
        }
    }
    println!("each sample alone: {calls} calls");
    // As many outside as inside, but for six lines that no pair reads, at both ends.
    assert_eq!(marks, [206 + 2 * 6, 206 - 2 * 6]);
}

#[test]
fn runs_by_hand() {
    for (record, pyramid, picture, expected, why) in runs() {
        let there = rebuild_picture_marked(&record, &pyramid);
        assert_eq!(there, Ok((picture.clone(), expected)), "{why}");
        let here = write_pyramid_marked(&record, &picture);
        assert_eq!(here, Ok((pyramid.clone(), expected)), "{why}");
        must(round_trips(&record, &picture));
        must(round_trips(&record, &pyramid));
    }
}

/// Rebuilds a pyramid and writes it again, with one mark.
fn both_ways(record: &[u8], pyramid: &[i32]) -> bool {
    let slice = vec![7; pyramid.len()];
    let run = |back, input: &[i32]| {
        let run = Run {
            back,
            record,
            input,
            output: &slice,
            work: &slice,
        };
        let outcome = must(run.compare());
        assert_eq!(outcome.answer, 0);
        outcome
    };
    let there = run(true, pyramid);
    let here = run(false, &there.output);
    assert_eq!((&here.output[..], here.marked), (pyramid, there.marked));
    there.marked
}

/// Records, and a digit for each channel of the pyramid: 1 if a step touches it.
#[rustfmt::skip]
fn touched() -> Vec<(Vec<u8>, String, &'static str)> {
    let two = |steps: &[[u8; 3]]| plan([channel(5, 4), channel(6, 3)].concat(), steps);
    let one = |steps: &[[u8; 3]]| plan(channel(17, 18), steps);
    let all = |number| "1".repeat(number);
    vec![
        (channel(8, 8), "0".into(), "no step"),
        (house(&channel(32, 32)), "0".into(), "no step under version 2"),
        (house(&three(32, 9)), "000".into(), "three, no step"),
        (channel(20, 13), all(4), "a default plan"),
        (channel(33, 70), all(8), "a longer one"),
        (three(9, 9), all(13), "chroma steps, not in place"),
        (house(&channel(65, 40)), all(4), "a default plan under version 2"),
        ([meta(5, 3), channel(20, 9)].concat(), "0".to_string() + &all(4), "a palette, default plan"),
        (plan([meta(5, 3), channel(4, 4)].concat(), &[[H_IN, 0, 1]]), "110".into(), "a palette that is squeezed"),
        (plan([meta(5, 3), meta(4, 2), channel(4, 4)].concat(), &[[V_IN, 1, 1]]), "0110".into(), "the second of two palettes"),
        (plan([meta(3, 2), channel(4, 4)].concat(), &[[V_OUT, 1, 1]]), "011".into(), "all but the palette"),
        (two(&[[H_IN, 0, 1]]), "110".into(), "in place, the first of two"),
        (two(&[[V_IN, 1, 1]]), "011".into(), "in place, the second of two"),
        (two(&[[H_OUT, 0, 1]]), "101".into(), "not in place, the first of two"),
        (two(&[[V_OUT, 1, 1]]), "011".into(), "not in place, the second of two"),
        (two(&[[H_OUT, 0, 2]]), all(4), "not in place, both"),
        (two(&[[H_OUT, 0, 1], [V_OUT, 0, 1]]), "1011".into(), "averages squeezed again, a channel between"),
        (two(&[[H_OUT, 0, 1], [V_IN, 2, 1]]), "1011".into(), "a residual squeezed again, behind a channel"),
        (two(&[[H_IN, 0, 1], [V_IN, 1, 1]]), "1110".into(), "a residual squeezed again, before a channel"),
        (two(&[[H_IN, 0, 1], [V_OUT, 1, 1]]), "1101".into(), "the same, not in place"),
        (two(&[[H_IN, 1, 1], [H_IN, 2, 1], [V_OUT, 2, 2]]), "011111".into(), "residuals of residuals"),
        (plan([channel(5, 4), channel(3, 3), channel(6, 3)].concat(), &[[H_OUT, 0, 1], [V_OUT, 2, 1]]), "10111".into(), "around a channel"),
        (one(&[[H_IN, 0, 1], [V_IN, 0, 2], [H_OUT, 1, 3], [V_OUT, 0, 1]]), all(8), "four steps on one channel"),
        (one(&[[V_OUT, 0, 1], [H_OUT, 1, 1], [V_IN, 2, 1]]), all(4), "each on the last residual"),
    ]
}

/// One sample that isn't 0, at every place of a pyramid's channels; at four of a large
/// one.
#[test]
fn one_sample_in_each_channel() {
    let mut marks = [0; 2];
    for (record, digits, why) in touched() {
        let plan = record::judge(&record).expect(why);
        let layout = plan.layout();
        assert_eq!(layout.len(), digits.len(), "{why}");
        let mut pyramid = vec![0; list::total(layout)];
        let mut start = 0;
        for (channel, digit) in layout.iter().zip(digits.chars()) {
            let samples = channel.samples();
            let places = match samples {
                0..400 => (0..samples).collect(),
                _ => vec![0, 1, samples / 2, samples - 1],
            };
            for (at, end) in places.into_iter().flat_map(at_each_end) {
                pyramid[start + at] = end;
                let marked = both_ways(&record, &pyramid);
                let expected = digit == '1' && outside(end);
                assert_eq!(marked, expected, "{why}: {end} at {at} of {channel:?}");
                marks[usize::from(marked)] += 1;
                pyramid[start + at] = 0;
            }
            start += samples;
        }
    }
    println!("one sample in each channel: {marks:?}");
    assert!(marks.iter().all(|&number| number > 5_000), "{marks:?}");
}

/// A place with each sample at an end of the range or beside it.
fn at_each_end(place: usize) -> [(usize, i32); 4] {
    [ABOVE, HIGHEST, LOWEST, BELOW].map(|end| (place, end))
}

/// Any samples, in a run without a step and in channels that no step touches: the same
/// samples there and back, and no mark.
#[test]
fn what_no_step_touches() {
    let mut random = Random::new(171);
    let rows = touched();
    let still = rows.iter().filter(|(_, digits, _)| digits.contains('0'));
    let mut met = 0;
    for (record, digits, why) in still {
        let plan = record::judge(record).expect(why);
        for _ in 0..50 {
            let mut pyramid = Vec::new();
            for (channel, digit) in plan.layout().iter().zip(digits.chars()) {
                let samples = channel.samples();
                pyramid.extend(match digit {
                    '0' => random.samples(samples),
                    _ => vec![0; samples],
                });
            }
            met += count_outside(&pyramid);
            assert!(!both_ways(record, &pyramid), "{why}");
        }
    }
    assert!(met > 10_000, "{met}");
}

/// A refused run has no mark: the numbers for it stay, which the comparison looks at.
/// Without a number: 12, after every other question.
#[test]
fn refused_runs() {
    let mut tally = Tally::default();
    let sound = runs().into_iter().map(|(record, ..)| (record, 0, "sound"));
    for (record, answer, why) in refused().into_iter().chain(sound) {
        let samples = record::judge(&record).map_or(5, |plan| list::total(plan.layout()));
        for (back, more, numbers) in [true, false]
            .into_iter()
            .flat_map(|back| (0..6).map(move |k| (back, k / 3, k % 3)))
        {
            let run = Run {
                back,
                record: &record,
                input: &vec![ABOVE; samples + more],
                output: &vec![1; samples],
                work: &vec![2; samples],
            };
            let expected = match answer {
                0 if more > 0 || numbers == 0 => 12,
                answer => answer,
            };
            let outcome = must(run.compare_room(numbers));
            assert_eq!(outcome.answer, expected, "{why}, {more} more, {numbers}");
            assert!(answer == 0 || !outcome.marked);
            tally.add(expected);
        }
    }
    assert_eq!(tally.met(), (0..13).collect::<Vec<_>>());
}

/// The same of tile calls.
#[test]
fn refused_tiles() {
    let (large, side) = (1 << 13, 1 << 20);
    let cases = [
        (
            [(large, large), (large, large), (2 * large, large)],
            [0; 3],
            5,
            "samples",
        ),
        (
            [(2, 1), (3, 1), (5, 1)],
            [2, 3, 5],
            13,
            "a residual more than averages",
        ),
        (
            [(side, 0), (side, 0), (2 * side, 0)],
            [0; 3],
            13,
            "a side above the limit",
        ),
        ([(2, 1), (2, 1), (4, 1)], [2, 2, 3], 12, "output too short"),
        ([(2, 1), (2, 1), (4, 1)], [2, 2, 4], 0, "sound"),
        ([(0, 3), (0, 3), (0, 3)], [0; 3], 0, "nothing to write"),
    ];
    for (sizes, lengths, answer, why) in cases {
        let [avg, residual, out] = lengths.map(|length| vec![ABOVE; length]);
        for (horizontal, numbers) in [0, 1].into_iter().flat_map(|h| (0..3).map(move |n| (h, n))) {
            let turned = sizes.map(|(w, h)| if horizontal == 1 { (w, h) } else { (h, w) });
            let tile = Tile {
                horizontal,
                sizes: turned,
                inputs: [&avg, &residual, &[], &[]],
                out: &out,
            };
            let expected = if numbers == 0 && answer == 0 {
                12
            } else {
                answer
            };
            let outcome = must(tile.compare_room(numbers));
            assert_eq!(outcome.answer, expected, "{why}, {numbers}");
        }
    }
}

/// Kinds of samples: over all 32 bits, and near the plain range.
const DRAWS: [Draw; 2] = [Random::samples, Random::near_plain];

/// Tiles of any size against the model, with a few samples or some hundred.
#[test]
fn tiles_of_any_samples() {
    let mut random = Random::new(172);
    let mut marks = [[0; 2]; 2];
    for case in 0..40_000 {
        let horizontal = random.once_in(2);
        let sides = if random.once_in(2) { 4 } else { 36 };
        let (width, height) = (random.below(sides), random.below(sides));
        let across = if horizontal { height } else { width };
        let draw = DRAWS[case % 2];
        let sizes = fitting(horizontal, (width, height));
        let area = |(w, h): Size| w * h;
        let outer = [0, 1].map(|_| random.pick(&[0, across]));
        let lengths = [area(sizes[0]), area(sizes[1]), outer[0], outer[1]];
        let inputs = lengths.map(|number| draw(&mut random, number));
        let tile = Tile {
            horizontal: horizontal.into(),
            sizes,
            inputs: inputs.each_ref().map(|slice| &slice[..]),
            out: &vec![7; width * height],
        };
        let outcome = must(tile.compare());
        assert_eq!(outcome.answer, 0);
        marks[case % 2][usize::from(outcome.marked)] += 1;
    }
    println!("tiles of any samples: {marks:?}");
    assert!(
        marks.as_flattened().iter().all(|&number| number > 1_000),
        "{marks:?}"
    );
}

/// Runs by random plans against the model, there and back with one mark.
#[test]
fn runs_of_any_samples() {
    let mut random = Random::new(173);
    let mut marks = [[0; 2]; 2];
    for case in 0..20_000 {
        let record = records::ordinary(&mut random);
        let Ok(plan) = record::judge(&record) else {
            continue;
        };
        let samples = DRAWS[case % 2](&mut random, list::total(plan.layout()));
        let marked = both_ways(&record, &samples);
        marks[case % 2][usize::from(marked)] += 1;
    }
    println!("runs of any samples: {marks:?}");
    assert!(
        marks.as_flattened().iter().all(|&number| number > 500),
        "{marks:?}"
    );
}

/// The tiles of a squeeze, which is cut across and along at random, are marked where the
/// uncut squeeze is and only there: refused calls between them mark nothing.
#[test]
fn cut_squeezes() {
    let mut random = Random::new(174);
    let (mut wholes, mut tiles) = ([0; 2], [0; 2]);
    let mut some = 0;
    for _ in 0..3_000 {
        let uncut = Uncut::random(&mut random, Random::near_plain);
        let marks = check_cut(&mut random, &uncut);
        let marked = marks.iter().filter(|&&marked| marked).count();
        wholes[usize::from(marked > 0)] += 1;
        tiles[0] += marks.len() - marked;
        tiles[1] += marked;
        some += usize::from(marked > 0 && marked < marks.len());
    }
    println!("cut squeezes: {wholes:?}, tiles {tiles:?}, {some} marked in part");
    assert!(wholes.iter().all(|&number| number > 500), "{wholes:?}");
    assert!(some > 500, "{some}");
}
