//! Plan versions (document 02, A.11) in the model alone: the rows by hand, and the
//! longest default plans.

mod by_hand;

use by_hand::{channel, default_plans, forms, house, meta, numbers, plans, version};
use squeeze_model::list::{coarse_count, Channel};
use squeeze_model::plan::default_plan;
use squeeze_model::version::Version;
use squeeze_model::{record, record_writer, MAX_SAMPLES, MAX_SIDE};

/// The answer of a record: 0 or a refusal's number.
fn answer(record: &[u8]) -> u32 {
    record::judge(record).err().unwrap_or(0)
}

#[test]
fn forms_and_plans() {
    for (record, expected, why) in forms() {
        assert_eq!(answer(&record), expected, "{why}");
    }
    for (record, [standard, other], why) in plans() {
        assert_eq!(answer(&record), standard, "{why}, version 1");
        assert_eq!(answer(&house(&record)), other, "{why}, version 2");
    }
}

#[test]
fn numbers_and_their_records() {
    for (call, expected, why) in numbers() {
        let (mut record, mut length) = ([7; 100], [9]);
        let answer = record_writer::write_record(
            call.version,
            &call.channels,
            &call.steps,
            &mut record,
            &mut length,
        );
        assert_eq!(answer, expected, "{why}");
        let written = &record[..if answer == 0 { length[0] as usize } else { 0 }];
        assert!(record[written.len()..].iter().all(|&byte| byte == 7));
        if answer == 0 {
            let read = record::read(written).expect("a form");
            assert_eq!(read.version.number(), call.version, "{why}");
            assert_eq!(written.starts_with(&by_hand::HOUSE), call.version == 2);
        } else {
            assert_eq!(length, [9], "{why}");
        }
    }
}

#[test]
fn values_of_the_field() {
    for value in 0..=255 {
        let expected = if value == 2 { 0 } else { 4 };
        let record = [version(value), channel(9, 9)].concat();
        assert_eq!(answer(&record), expected, "value {value}");
    }
}

#[test]
fn default_plans_by_hand() {
    for plan in default_plans() {
        let text = squeeze_model::listing::listing(&plan.record).expect("accepted");
        let lines: Vec<&str> = text.lines().skip(1).collect();
        assert_eq!(lines[..plan.lines.len()], plan.lines);
        assert!(lines[plan.lines.len()].starts_with("channels "));
    }
}

#[test]
fn coarse_counts() {
    let list = |record: &[u8]| record::read(record).expect("a form").channels;
    let small = list(&[meta(300, 1), channel(8, 8), channel(32, 8), channel(33, 1)].concat());
    assert_eq!(coarse_count(&small, Version::Standard.side()), 2);
    assert_eq!(coarse_count(&small, Version::House.side()), 3);
}

fn plain(width: u32, height: u32) -> Channel {
    Channel {
        width,
        height,
        shifts: Some((0, 0)),
    }
}

/// The most steps of a default plan of so many channels of one size and these dots.
/// A plan grows with the height, so of each width the largest height is tried.
fn longest(version: Version, alike: u64, dots: &[Channel]) -> usize {
    let most = |width: u32| {
        let samples = MAX_SAMPLES - dots.len() as u64;
        let height = samples / (alike * u64::from(width));
        let height = height.min(MAX_SIDE.into()) as u32;
        let mut list = vec![plain(width, height); alike as usize];
        list.extend_from_slice(dots);
        default_plan(version, &list).expect("a plan").len()
    };
    (1..=MAX_SIDE).map(most).max().expect("a width")
}

/// Three channels have chroma steps under version 1, and fewer samples each.
#[test]
fn longest_default_plans() {
    let lengths = |version| {
        [
            longest(version, 1, &[]),
            longest(version, 2, &[plain(1, 1)]),
        ]
    };
    assert_eq!(lengths(Version::Standard), [19, 20]);
    assert_eq!(lengths(Version::House), [15, 15]);
}
