//! Null pointers for empty slices: every function, every slice, every mix of
//! null pointers and others. The answers and contents are those of pointers that
//! lead nowhere, as Rust's empty slices have.

use squeeze::ffi;
use std::ptr;

/// A record of twelve samples, and one whose picture has none.
const RECORD: &[u8] = &[1, 6, 0, 4, 0, 3, 0, 0, 0];
const NO_SAMPLES: &[u8] = &[1, 6, 0, 0, 0, 5, 0, 0, 0];

/// Where a slice lies: null if it is empty and bit `k` of `nulls` is set.
fn at<T>(slice: &mut [T], nulls: u32, k: u32) -> *mut T {
    if slice.is_empty() && nulls >> k & 1 == 1 {
        ptr::null_mut()
    } else {
        slice.as_mut_ptr()
    }
}

#[test]
fn rebuild_and_write() {
    let cases = [
        (&[][..], [0, 0, 0], 3, "no record and no samples"),
        (&[], [3, 3, 3], 3, "no record"),
        (NO_SAMPLES, [0, 0, 0], 0, "a picture without samples"),
        (RECORD, [0, 0, 0], 12, "no samples"),
        (RECORD, [0, 12, 12], 12, "nothing to read"),
        (RECORD, [12, 0, 12], 12, "nothing to fill"),
        (RECORD, [12, 12, 0], 12, "no work"),
    ];
    for (record, lengths, expected, why) in cases {
        for nulls in 0..16 {
            for call in [ffi::squeeze_rebuild, ffi::squeeze_write] {
                let mut record = record.to_vec();
                let [mut input, mut output, mut work] = lengths.map(|n| vec![5; n]);
                // SAFETY: each pointer leads to so many elements, or is an empty
                // slice's; nothing overlaps.
                let answer = unsafe {
                    call(
                        at(&mut record, nulls, 0),
                        record.len(),
                        at(&mut input, nulls, 1),
                        input.len(),
                        at(&mut output, nulls, 2),
                        output.len(),
                        at(&mut work, nulls, 3),
                        work.len(),
                    )
                };
                assert_eq!(answer, expected, "{why}, nulls {nulls:04b}");
                let kept = output.iter().chain(&work).all(|&sample| sample == 5);
                assert!(kept, "{why}, nulls {nulls:04b}");
            }
        }
    }
}

#[test]
fn rebuild_and_write_marked() {
    let cases = [
        (&[][..], 0, 0, 3, "nothing at all"),
        (&[], 0, 1, 3, "no record and no samples"),
        (NO_SAMPLES, 0, 0, 12, "a picture without samples, no mark"),
        (NO_SAMPLES, 0, 1, 0, "a picture without samples"),
        (RECORD, 0, 0, 12, "no samples and no mark"),
        (RECORD, 0, 1, 12, "no samples"),
        (RECORD, 12, 0, 12, "no mark"),
        (RECORD, 12, 1, 0, "a run"),
    ];
    for (record, samples, numbers, expected, why) in cases {
        for nulls in 0..32 {
            for call in [ffi::squeeze_rebuild_marked, ffi::squeeze_write_marked] {
                let mut record = record.to_vec();
                let [mut input, mut output, mut work] = [samples; 3].map(|n| vec![5; n]);
                let mut mark = vec![77; numbers];
                // SAFETY: as above.
                let answer = unsafe {
                    call(
                        at(&mut record, nulls, 0),
                        record.len(),
                        at(&mut input, nulls, 1),
                        input.len(),
                        at(&mut output, nulls, 2),
                        output.len(),
                        at(&mut work, nulls, 3),
                        work.len(),
                        at(&mut mark, nulls, 4),
                        mark.len(),
                    )
                };
                assert_eq!(answer, expected, "{why}, nulls {nulls:05b}");
                let left = if expected == 0 { 0 } else { 77 };
                assert_eq!(mark, vec![left; numbers], "{why}, nulls {nulls:05b}");
            }
        }
    }
}

#[test]
fn tile() {
    // Along the squeeze and across it: averages, residuals; then the lengths of
    // averages, residuals, next line, previous line and output.
    let cases = [
        ([0, 0], 0, [0, 0, 0, 0, 0], 0, "nothing at all"),
        ([3, 3], 0, [0, 0, 0, 0, 0], 0, "no lines"),
        ([0, 0], 3, [0, 0, 0, 0, 0], 0, "lines without samples"),
        ([1, 0], 2, [2, 0, 0, 0, 2], 0, "no residuals"),
        ([1, 0], 2, [2, 0, 2, 2, 2], 0, "no residuals, neighbours"),
        ([2, 2], 1, [2, 2, 0, 0, 4], 0, "no neighbours"),
        ([2, 2], 9, [18, 18, 0, 0, 36], 0, "nine lines, alone"),
        ([2, 2], 1, [2, 2, 1, 0, 4], 0, "no line before"),
        ([2, 2], 1, [2, 2, 0, 1, 4], 0, "no line after"),
        ([2, 2], 1, [0, 2, 0, 0, 4], 12, "no averages"),
        ([2, 2], 1, [2, 0, 0, 0, 4], 12, "residuals left out"),
        ([2, 2], 1, [2, 2, 0, 0, 0], 12, "no output"),
        ([2, 0], 1, [0, 0, 0, 0, 0], 13, "sizes that don't fit"),
    ];
    for ([averages, residuals], across, lengths, expected, why) in cases {
        for horizontal in [1, 0] {
            let size = |along| {
                if horizontal == 1 {
                    (along, across)
                } else {
                    (across, along)
                }
            };
            let sizes = [averages, residuals, averages + residuals].map(size);
            let call = |nulls| {
                let [mut avg, mut res, mut next, mut prev, mut out] =
                    lengths.map(|n| (0..n).map(|k| 7 * k % 5).collect::<Vec<i32>>());
                // SAFETY: as above.
                let answer = unsafe {
                    ffi::squeeze_tile(
                        horizontal,
                        sizes[0].0,
                        sizes[0].1,
                        sizes[1].0,
                        sizes[1].1,
                        sizes[2].0,
                        sizes[2].1,
                        at(&mut avg, nulls, 0),
                        avg.len(),
                        at(&mut res, nulls, 1),
                        res.len(),
                        at(&mut next, nulls, 2),
                        next.len(),
                        at(&mut prev, nulls, 3),
                        prev.len(),
                        at(&mut out, nulls, 4),
                        out.len(),
                    )
                };
                (answer, out)
            };
            let marked = |nulls, numbers| {
                let [mut avg, mut res, mut next, mut prev, mut out] =
                    lengths.map(|n| (0..n).map(|k| 7 * k % 5).collect::<Vec<i32>>());
                let mut mark = vec![77; numbers];
                // SAFETY: as above.
                let answer = unsafe {
                    ffi::squeeze_tile_marked(
                        horizontal,
                        sizes[0].0,
                        sizes[0].1,
                        sizes[1].0,
                        sizes[1].1,
                        sizes[2].0,
                        sizes[2].1,
                        at(&mut avg, nulls, 0),
                        avg.len(),
                        at(&mut res, nulls, 1),
                        res.len(),
                        at(&mut next, nulls, 2),
                        next.len(),
                        at(&mut prev, nulls, 3),
                        prev.len(),
                        at(&mut out, nulls, 4),
                        out.len(),
                        at(&mut mark, nulls, 5),
                        mark.len(),
                    )
                };
                (answer, out, mark)
            };
            let without = call(0);
            assert_eq!(without.0, expected, "{why}, {horizontal}");
            for nulls in 1..32 {
                assert_eq!(
                    call(nulls),
                    without,
                    "{why}, {horizontal}, nulls {nulls:05b}"
                );
            }
            let refused = if expected == 0 { 12 } else { expected };
            let left = if expected == 0 { 0 } else { 77 };
            for nulls in 0..64 {
                let (answer, out, mark) = marked(nulls, 1);
                assert_eq!((answer, out), without, "{why}, nulls {nulls:06b}");
                assert_eq!(mark, [left], "{why}, nulls {nulls:06b}");
                let (answer, _, mark) = marked(nulls, 0);
                assert_eq!(
                    (answer, mark),
                    (refused, vec![]),
                    "{why}, nulls {nulls:06b}"
                );
            }
        }
    }
}

#[test]
fn listing() {
    let cases = [
        (&[][..], 0, 0, 3, "nothing at all"),
        (&[], 100, 1, 3, "no record"),
        (RECORD, 0, 0, 12, "no text and no length"),
        (RECORD, 0, 1, 12, "no text"),
        (RECORD, 100, 0, 12, "no length"),
        (RECORD, 100, 1, 0, "a listing"),
    ];
    for (record, room, numbers, expected, why) in cases {
        for nulls in 0..8 {
            let mut record = record.to_vec();
            let (mut text, mut length) = (vec![b'#'; room], vec![9; numbers]);
            // SAFETY: as above.
            let answer = unsafe {
                ffi::squeeze_listing(
                    at(&mut record, nulls, 0),
                    record.len(),
                    at(&mut text, nulls, 1),
                    text.len(),
                    at(&mut length, nulls, 2),
                    length.len(),
                )
            };
            assert_eq!(answer, expected, "{why}, nulls {nulls:03b}");
            let kept = text.iter().all(|&b| b == b'#') && length.iter().all(|&n| n == 9);
            assert_eq!(kept, expected != 0, "{why}, nulls {nulls:03b}");
        }
    }
}

#[test]
fn layout() {
    let step = [RECORD, &[2, 5, 0, 1, 0, 0, 1, 0]].concat();
    let cases = [
        (&[][..], [0, 0, 0, 0], 3, "nothing at all"),
        (&[], [4, 3, 8, 2], 3, "no record"),
        (RECORD, [0, 0, 0, 0], 12, "no slices"),
        (RECORD, [4, 0, 4, 1], 0, "no step, and none for steps"),
        (RECORD, [0, 3, 4, 1], 12, "no counts"),
        (RECORD, [4, 3, 0, 1], 12, "no channels"),
        (RECORD, [4, 3, 4, 0], 12, "no origins"),
        (&step, [4, 0, 8, 2], 12, "a step, and none for steps"),
        (&step, [4, 3, 8, 2], 0, "a step"),
    ];
    for (record, lengths, expected, why) in cases {
        for nulls in 0..32 {
            let mut record = record.to_vec();
            let [mut counts, mut steps, mut channels, mut origins] = lengths.map(|n| vec![77; n]);
            // SAFETY: as above.
            let answer = unsafe {
                ffi::squeeze_layout(
                    at(&mut record, nulls, 0),
                    record.len(),
                    at(&mut counts, nulls, 1),
                    counts.len(),
                    at(&mut steps, nulls, 2),
                    steps.len(),
                    at(&mut channels, nulls, 3),
                    channels.len(),
                    at(&mut origins, nulls, 4),
                    origins.len(),
                )
            };
            assert_eq!(answer, expected, "{why}, nulls {nulls:05b}");
            let numbers = [counts, steps, channels, origins].concat();
            let kept = numbers.iter().all(|&n| n == 77);
            assert_eq!(kept, expected != 0, "{why}, nulls {nulls:05b}");
        }
    }
}

#[test]
fn record() {
    let (one, step) = (&[9, 9, 0, 0][..], &[1, 0, 1][..]);
    let cases = [
        (&[][..], &[][..], 0, 0, 3, "nothing at all"),
        (&[], step, 100, 1, 3, "no channels"),
        (one, &[], 9, 1, 0, "no steps: the default plan"),
        (one, &[], 0, 1, 12, "no steps and no record"),
        (one, step, 0, 1, 12, "no record"),
        (one, step, 17, 0, 12, "no length"),
        (one, step, 0, 0, 12, "neither"),
        (one, step, 17, 1, 0, "a record"),
    ];
    for (channels, steps, room, numbers, expected, why) in cases {
        for nulls in 0..16 {
            let (mut channels, mut steps) = (channels.to_vec(), steps.to_vec());
            let (mut record, mut length) = (vec![7; room], vec![77; numbers]);
            // SAFETY: as above.
            let answer = unsafe {
                ffi::squeeze_record(
                    1,
                    at(&mut channels, nulls, 0),
                    channels.len(),
                    at(&mut steps, nulls, 1),
                    steps.len(),
                    at(&mut record, nulls, 2),
                    record.len(),
                    at(&mut length, nulls, 3),
                    length.len(),
                )
            };
            assert_eq!(answer, expected, "{why}, nulls {nulls:04b}");
            let kept = record.iter().all(|&b| b == 7) && length.iter().all(|&n| n == 77);
            assert_eq!(kept, expected != 0, "{why}, nulls {nulls:04b}");
        }
    }
}

#[test]
fn grid_rect() {
    for (group, expected) in [(256, 12), (255, 14)] {
        let rect = ptr::null_mut();
        // SAFETY: an empty slice.
        let answer = unsafe { ffi::squeeze_grid_rect(9, 9, 0, 0, 0, 0, group, 0, 0, rect, 0) };
        assert_eq!(answer, expected);
    }
}
