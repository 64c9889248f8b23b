//! Plan versions (document 02, A.11): the rows by hand on core and model, sizes
//! around both stops there and back, records with steps of their own, records cut,
//! written and read again.

#[path = "../model/tests/by_hand/mod.rs"]
mod by_hand;

use by_hand::{channel, default_plans, forms, house, meta, numbers, plans, shifted, step};
use by_hand::{Numbers, HOUSE, SIDES};
use squeeze::{layout, listing, rebuild_picture, write_pyramid, Channel, Record, Version};
use squeeze_compare::parts::{Parts, CUTS, VALUES, VERSIONS};
use squeeze_compare::random::Random;
use squeeze_compare::records::{self, strip_field};
use squeeze_compare::runs::{self, every_function};
use squeeze_compare::{lists, must, Tally};

#[test]
fn form_of_a_record() {
    assert_eq!(runs::rows(131, 4096, &forms()).met(), [0, 1, 2, 3, 4]);
}

/// Every value of the field, alone, before a channel, after one and second.
#[test]
fn every_value() {
    let mut rows = Vec::new();
    for value in 0..=255 {
        let (field, one) = (by_hand::version(value), channel(40, 9));
        let (alone, first) = if value == 2 { (3, 0) } else { (4, 4) };
        rows.push((field.clone(), alone, "alone"));
        rows.push(([&field[..], &one].concat(), first, "before a channel"));
        rows.push(([&one[..], &field].concat(), 2, "after a channel"));
        rows.push(([&HOUSE[..], &field, &one].concat(), 2, "second"));
    }
    let tally = runs::rows(132, 4096, &rows);
    assert_eq!((tally.0[0], tally.0[3], tally.0[4]), (1, 1, 2 * 255));
}

#[test]
fn plan_of_a_record() {
    let mut rows = Vec::new();
    for (record, [standard, other], why) in plans() {
        rows.push((house(&record), other, why));
        rows.push((record, standard, why));
    }
    let tally = runs::rows(133, 4096, &rows);
    assert_eq!(tally.met(), [0, 5, 6, 7, 8, 9, 10, 11]);
}

fn parts(call: Numbers) -> Parts {
    let Numbers {
        version,
        channels,
        steps,
    } = call;
    Parts {
        version,
        channels,
        steps,
    }
}

/// With room enough, and with too little: the version is judged before the slices.
#[test]
fn records_of_numbers() {
    let mut tally = Tally::default();
    for (call, expected, why) in numbers() {
        let parts = parts(call);
        assert_eq!(must(parts.compare()), expected, "{why}");
        let need = parts.bytes();
        for (room, length) in [(0, 1), (need.saturating_sub(1), 1), (need, 0)] {
            let expected = if expected == 0 { 12 } else { expected };
            let (answer, _) = must(parts.compare_room(room, length));
            assert_eq!(answer, expected, "{why}, {room} bytes, {length} numbers");
        }
        tally.add(expected);
    }
    assert_eq!(tally.met(), [0, 3, 4, 5, 6, 7, 8, 9, 10, 11, 12]);
}

/// A list that both versions take, with numbers around every limit as its version,
/// and numbers that would be 1 or 2 if cut.
#[test]
fn numbers_as_versions() {
    let cut = CUTS.iter().flat_map(|bits| [bits + 1, bits | 2]);
    let mut accepted = Vec::new();
    for version in VALUES.into_iter().chain(VERSIONS).chain(cut) {
        let parts = Parts {
            version,
            channels: vec![5, 3, 255, 255, 300, 40, 2, 1],
            steps: vec![],
        };
        let answer = must(parts.compare());
        let known = version == 1 || version == 2;
        assert_eq!(answer, if known { 0 } else { 4 }, "version {version}");
        accepted.extend(known.then_some(version));
    }
    assert_eq!(accepted, [1, 2, 1, 2]);
}

#[test]
fn default_plans_by_hand() {
    for plan in default_plans() {
        assert_eq!(must(lists::compare(&plan.record)), 0);
        let text = listing(&plan.record).unwrap();
        let head = [format!("steps {}", plan.lines.len())];
        let lines: Vec<&str> = text.lines().take(1 + plan.lines.len()).collect();
        assert_eq!(lines, [&head, &plan.lines[..]].concat());
        let layout = layout(&plan.record).unwrap();
        assert_eq!(layout.version, Version(plan.version));
        let side = if plan.version == 2 { 32 } else { 8 };
        let first = layout.channels[layout.metas()];
        assert!(first.width <= side && first.height <= side, "{layout:?}");
    }
}

/// The same records through every function, there and back.
#[test]
fn pictures_there_and_back() {
    let (mut random, mut tally) = (Random::new(134), Tally::default());
    for plan in default_plans() {
        let largest = 4 * 65 * 65 + 50;
        tally.add(must(every_function(&mut random, &plan.record, largest)));
    }
    tally.print("default plans under both versions");
    assert_eq!((tally.0[0], tally.total()), (350, 350));
}

/// Up to 32 by 32 there is no step under version 2: the list stays, all of it is
/// coarse, and the pyramid is the picture.
#[test]
fn small_pictures_have_no_step() {
    let mut random = Random::new(135);
    for (w, h) in [
        (1, 1),
        (8, 8),
        (9, 9),
        (32, 1),
        (1, 32),
        (31, 32),
        (32, 31),
        (32, 32),
    ] {
        for (metas, number) in [(0, 1), (0, 3), (1, 3), (0, 4), (2, 4)] {
            let palettes = vec![Channel::meta(300, 1); metas];
            let channels = [palettes, vec![Channel::new(w, h); number]].concat();
            let record = Record::from_parts_under(Version::HOUSE, &channels, &[]).unwrap();
            assert_eq!(must(lists::compare(record.bytes())), 0);
            let layout = layout(record.bytes()).unwrap();
            assert!(layout.steps.is_empty() && layout.channels == channels);
            assert_eq!(layout.coarse, channels.len());
            let picture = random.samples(layout.samples());
            assert_eq!(write_pyramid(record.bytes(), &picture), Ok(picture.clone()));
            assert_eq!(rebuild_picture(record.bytes(), &picture), Ok(picture));
        }
    }
}

/// The whole text, where chroma would have been squeezed.
#[test]
fn listings() {
    let three = vec![channel(33, 20); 3].concat();
    let rows = [
        (
            house(&three),
            "steps 1\nh in 0 3\nchannels 6\n17 20 1 0\n17 20 1 0\n17 20 1 0\n\
             16 20 1 0\n16 20 1 0\n16 20 1 0\ncoarse 6\n",
        ),
        (
            house(&[meta(300, 1), channel(20, 9)].concat()),
            "steps 0\nchannels 2\n300 1 m m\n20 9 0 0\ncoarse 2\n",
        ),
        (
            house(&[channel(32, 40), channel(64, 80)].concat()),
            "steps 1\nv in 0 2\nchannels 4\n32 20 0 1\n64 40 0 1\n32 20 0 1\n64 40 0 1\ncoarse 1\n",
        ),
        (
            channel(20, 9),
            "steps 3\nh in 0 1\nv in 0 1\nh in 0 1\nchannels 4\n5 5 2 1\n5 5 2 1\n\
             10 4 1 1\n10 9 1 0\ncoarse 2\n",
        ),
    ];
    for (record, text) in rows {
        assert_eq!(must(lists::compare(&record)), 0);
        assert_eq!(listing(&record).unwrap(), text);
    }
}

/// A record with steps of its own under both versions: every function gives the same
/// but for the listing's last line. Gives both coarse counts.
fn both_versions(random: &mut Random, record: &[u8]) -> [usize; 2] {
    let other = house(record);
    let fronts = [record, &other].map(|record| {
        assert_eq!(must(every_function(random, record, 1 << 14)), 0);
        let text = listing(record).unwrap();
        let (front, _) = text.rsplit_once("coarse ").expect("a coarse line");
        front.to_string()
    });
    assert_eq!(fronts[0], fronts[1]);
    let layouts = [record, &other].map(|record| layout(record).unwrap());
    assert_eq!(layouts[0].steps, layouts[1].steps);
    assert_eq!(layouts[0].channels, layouts[1].channels);
    let samples = random.samples(layouts[0].samples());
    assert_eq!(
        write_pyramid(record, &samples),
        write_pyramid(&other, &samples)
    );
    assert_eq!(
        rebuild_picture(record, &samples),
        rebuild_picture(&other, &samples)
    );
    layouts.map(|layout| layout.coarse)
}

/// Only the coarse line differs, and it takes the version's side.
#[test]
#[rustfmt::skip]
fn steps_of_its_own() {
    let h = || step(3, 0, 1);
    let rows = [
        (vec![channel(16, 8), h()], [2, 2], "8 by 8"),
        (vec![channel(17, 8), h()], [0, 2], "9 by 8, then 8 by 8"),
        (vec![channel(64, 32), h()], [0, 2], "32 by 32"),
        (vec![channel(65, 32), h()], [0, 0], "33 by 32, then 32 by 32"),
        (vec![channel(32, 33), h()], [0, 0], "16 by 33"),
        (vec![channel(64, 64), h(), step(2, 0, 1)], [0, 2], "32 by 32 twice, then 32 by 64"),
        (vec![meta(300, 1), channel(40, 20), step(3, 1, 1)], [1, 3], "a palette"),
        (vec![meta(300, 1), channel(40, 20), h()], [2, 2], "a palette, squeezed; 40 by 20"),
        (vec![channel(20, 20), channel(8, 8), channel(33, 1), step(3, 1, 1)], [0, 3], "20 by 20 first"),
        (vec![channel(8, 8), channel(20, 20), channel(33, 1), step(1, 0, 1)], [1, 2], "8 by 8 first"),
        (vec![strip_field(65_536, 0, 0, 0), channel(20, 20), step(3, 1, 1)], [0, 0], "a strip first"),
        (vec![vec![channel(20, 20); 3].concat(), step(1, 1, 2)], [0, 5], "chroma, as a step of its own"),
    ];
    let mut random = Random::new(136);
    for (fields, coarse, why) in rows {
        assert_eq!(both_versions(&mut random, &fields.concat()), coarse, "{why}");
    }
}

/// The same of random plans; some have the two counts equal, some not.
#[test]
fn random_steps_of_its_own() {
    let mut random = Random::new(137);
    let mut met = [0, 0];
    while met[0] + met[1] < 2_000 {
        let record = records::ordinary(&mut random);
        let own = Parts::of_record(&record).is_some_and(|parts| !parts.steps.is_empty());
        if own && layout(&record).is_ok() {
            let [standard, other] = both_versions(&mut random, &record);
            assert!(standard <= other);
            met[usize::from(standard < other)] += 1;
        }
    }
    assert!(met.iter().all(|&times| times > 200), "{met:?}");
}

/// At the end of a field the record is another one; everywhere else it is cut.
#[test]
fn cut_at_every_byte() {
    let fields = [
        HOUSE.to_vec(),
        meta(50, 1),
        channel(33, 65),
        strip_field(3, 65_536, 0, 0),
        shifted(33, 64, 1, 2),
        step(3, 0, 1),
        step(0, 3, 1),
    ];
    let tally = runs::cuts(138, 4096, &fields, &[3, 3, 11, 0, 0, 0, 0, 0]);
    assert_eq!((tally.0[1], tally.met()), (60 - 7, vec![0, 1, 3, 11]));
}

/// Whatever is accepted is written again as it was, version and all; and the record
/// under version 2 is the field and the record under version 1.
#[test]
fn one_record() {
    let mut random = Random::new(139);
    let mut met = [0, 0];
    for _ in 0..40_000 {
        let record = records::some(&mut random);
        let Ok(read) = layout(&record) else { continue };
        let mut parts = Parts::of_record(&record).expect("a form");
        assert_eq!(parts.version, u32::from(read.version.0));
        let written = must(parts.compare_room(record.len(), 1));
        assert_eq!(written, (0, record.clone()));
        met[parts.version as usize - 1] += 1;
        parts.version = 3 - parts.version;
        let (answer, other) = must(parts.compare_room(parts.bytes(), 1));
        match parts.version {
            _ if answer != 0 => {}
            1 => assert_eq!(house(&other), record),
            _ => assert_eq!(other, house(&record)),
        }
    }
    println!("records written again, of version 1 and 2: {met:?}");
    assert!(met.iter().all(|&times| times > 1_500), "{met:?}");
}

/// Records of version 1, which the writer leaves as they were before versions.
#[test]
fn old_records_keep_their_bytes() {
    let rows = [
        vec![channel(20, 9)],
        vec![channel(640, 480); 3],
        vec![
            meta(300, 1),
            channel(65_535, 2),
            step(3, 0, 1),
            step(0, 2, 1),
        ],
        vec![strip_field(70_000, 3, 0, 0)],
    ];
    for bytes in rows.map(|fields| fields.concat()) {
        let parts = Parts::of_record(&bytes).expect("a form");
        assert_eq!((parts.version, must(parts.compare())), (1, 0));
        let written = must(parts.compare_room(bytes.len(), 1));
        assert_eq!(written, (0, bytes));
    }
}

/// 256 strips and 64 steps under version 2: more than a plan can have, in as many
/// bytes as any record. The longest that is accepted is written and read.
#[test]
fn room_for_every_record() {
    let call = |channels: Vec<u32>, steps: Vec<u32>| Parts {
        version: 2,
        channels,
        steps,
    };
    let largest = call([65_536, 1, 255, 255].repeat(256), [2, 0, 1].repeat(64));
    assert_eq!((largest.bytes(), squeeze::RECORD_ROOM), (3_844, 3_844));
    assert_eq!(must(largest.compare()), 10);
    let metas = [1_048_575, 0, 255, 255].repeat(255);
    let longest = call([&metas[..], &[32, 32, 30, 30]].concat(), vec![]);
    assert_eq!((longest.bytes(), must(longest.compare())), (3_328, 0));
    let steps = call([65_536, 1, 255, 255].repeat(192), [2, 0, 1].repeat(64));
    assert_eq!((steps.bytes(), must(steps.compare())), (3_012, 0));
    for parts in [longest, steps] {
        let need = parts.bytes();
        assert_eq!(must(parts.compare_room(need - 1, 1)).0, 12);
        let (answer, record) = must(parts.compare_room(need, 1));
        let text = listing(&record).unwrap();
        assert!(answer == 0 && text.len() <= squeeze::LISTING_ROOM);
    }
}

/// The steps of every accepted default plan of one channel, and of two alike and a
/// dot, with sides just past a power of two, where a plan grows.
fn default_lengths(version: Version) -> Vec<usize> {
    let mut lengths = Vec::new();
    for code in 0..20 * 20 {
        let (w, h) = ((1 << (code % 20)) + 1, (1 << (code / 20)) + 1);
        let one = Record::under(version).channel(w, h);
        let three = one.clone().channel(w, h).channel(1, 1);
        for record in [one, three] {
            if must(lists::compare(record.bytes())) == 0 {
                lengths.push(layout(record.bytes()).unwrap().steps.len());
            }
        }
    }
    lengths
}

/// At most 20 steps under version 1 and 15 under version 2; the model's test looks at
/// every width.
#[test]
fn longest_default_plans() {
    for (version, most) in [(Version::STANDARD, 20), (Version::HOUSE, 15)] {
        let lengths = default_lengths(version);
        assert_eq!(lengths.iter().max(), Some(&most));
        // One channel where the powers' exponents add up to at most 23; with a second
        // like it, 22.
        assert_eq!(lengths.len(), 280 + 264);
    }
}

/// Every two sides, unlike channels among them, under version 2.
#[test]
fn unlike_channels() {
    let (mut random, mut tally) = (Random::new(140), Tally::default());
    for (w, h) in SIDES.iter().flat_map(|&w| SIDES.map(|h| (w, h))) {
        for third in [(w, h), (1, 1), (h, w), (0, 0)] {
            for second in [(w, h), (h, w), (8, 65)] {
                let list = [(w, h), second, third].map(|(w, h)| channel(w, h));
                let record = house(&list.concat());
                tally.add(must(every_function(&mut random, &record, 1 << 14)));
            }
        }
    }
    tally.print("unlike channels under version 2");
    assert_eq!(tally.met(), [0, 9]);
}
