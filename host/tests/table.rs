//! Document 01's table, its printed listing and its wrong but natural cases, on
//! core and model.

use squeeze::{Record, Step};
use squeeze_compare::tiles::Tile;
use squeeze_compare::{lists, must, rects};
use squeeze_model::{listing, pair};

/// One line of samples, taken as a row and as a column.
fn line(avg: &[i32], residual: &[i32], next: &[i32], prev: &[i32]) -> Vec<i32> {
    let (a, r) = (avg.len(), residual.len());
    let out = vec![99; a + r];
    let call = |horizontal, sizes| {
        let inputs = [avg, residual, next, prev];
        let tile = Tile {
            horizontal,
            sizes,
            inputs,
            out: &out,
        };
        let outcome = must(tile.compare());
        assert_eq!(outcome.answer, 0);
        outcome.output
    };
    let row = call(1, [(a, 1), (r, 1), (a + r, 1)]);
    let column = call(0, [(1, a), (1, r), (1, a + r)]);
    assert_eq!(row, column);
    row
}

#[test]
fn tendencies() {
    let rows = [
        ((10, 7, 4), 2),
        ((4, 7, 10), -2),
        ((5, 9, 3), 0),
        ((0, 0, -8), 1),
        ((9, 3, 3), 0),
        ((100, 99, 0), 3),
    ];
    for ((a, b, c), expected) in rows {
        assert_eq!(pair::tendency(a, b, c), expected, "model, {a} {b} {c}");
        // With residual 0 the pair's difference is the tendency.
        let two = line(&[b], &[0], &[c], &[a]);
        assert_eq!(two[0] - two[1], expected, "core, {a} {b} {c}");
    }
}

#[test]
fn lines() {
    assert_eq!(line(&[10, 4], &[1, 0], &[], &[]), [11, 9, 4, 4]);
    assert_eq!(line(&[10, 4], &[1], &[], &[]), [11, 9, 4]);
    assert_eq!(line(&[7], &[-1], &[7], &[7]), [7, 8]);
    let wrapped = line(&[2147483647], &[2], &[], &[]);
    assert_eq!(wrapped, [-2147483648, 2147483646]);
}

#[test]
fn default_plans() {
    let rows = [
        ((8, 8), "steps 0\nchannels 1\n"),
        ((8, 9), "steps 1\nv in 0 1\nchannels 2\n"),
        ((9, 9), "steps 2\nv in 0 1\nh in 0 1\nchannels 3\n"),
    ];
    for ((width, height), head) in rows {
        let record = Record::new().channel(width, height);
        assert_eq!(must(lists::compare(record.bytes())), 0);
        let text = listing::listing(record.bytes()).unwrap();
        assert!(text.starts_with(head), "{width} by {height}: {text}");
    }
}

#[test]
fn rectangle() {
    assert_eq!(must(rects::compare(&rects::DOCUMENT_01, 4)), 0);
    let model = rects::model_rect(&rects::DOCUMENT_01);
    assert_eq!(model, Ok([256, 0, 256, 200]));
}

#[test]
fn printed_listing() {
    let record = [0x01, 0x06, 0x00, 0x14, 0x00, 0x09, 0x00, 0x00, 0x00];
    let text = "steps 3\nh in 0 1\nv in 0 1\nh in 0 1\nchannels 4\n5 5 2 1\n5 5 2 1\n\
                10 4 1 1\n10 9 1 0\ncoarse 2\n";
    assert_eq!(squeeze::listing(&record).unwrap(), text);
    assert_eq!(listing::listing(&record).unwrap(), text);
    assert_eq!(must(lists::compare(&record)), 0);
    assert_eq!(must(lists::compare_room(&record, text.len(), 1)), 0);
}

#[test]
fn wrong_but_natural() {
    // Halving d by a shift: -1 must give 0.
    assert_eq!(line(&[5], &[-1], &[], &[]), [5, 6]);
    // Ending a tile on its own average would start 10 9.
    assert_eq!(line(&[10], &[1], &[4], &[]), [11, 9]);
    assert_eq!(line(&[10], &[1], &[], &[]), [10, 9]);
    assert_eq!(line(&[4], &[0], &[], &[9]), [4, 4]);
    // Residuals of a step that is not in place go after the last channel.
    let step = Step {
        horizontal: true,
        in_place: false,
        first: 0,
        number: 1,
    };
    let record = Record::new().channel(4, 1).channel(7, 7).step(step);
    assert_eq!(must(lists::compare(record.bytes())), 0);
    let text = "steps 1\nh out 0 1\nchannels 3\n2 1 1 0\n7 7 0 0\n2 1 1 0\ncoarse 3\n";
    assert_eq!(squeeze::listing(record.bytes()).unwrap(), text);
}
