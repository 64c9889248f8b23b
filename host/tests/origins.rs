//! Origins (document 02, A.4): layouts by hand on core and model, refused records, room
//! around what is needed, the laws of origins on random plans, what a late residual
//! changes, and wrong ways to carry origins, each with an input that shows it.

#[path = "../model/tests/by_hand/mod.rs"]
mod by_hand;

use by_hand::meta;
use by_hand::origins::{layouts, origins, plan, refused, three, H_IN, H_OUT};
use squeeze::{layout, listing, rebuild_picture, Channel, Layout, Version};
use squeeze_compare::layouts::{compare, compare_room, need, rooms, Room};
use squeeze_compare::random::Random;
use squeeze_compare::runs::{self, every_function};
use squeeze_compare::{lists, must, records, Tally};
use squeeze_model::list::{self, Step};
use squeeze_model::origins::{after_step, own_positions};
use squeeze_model::plan::Plan;
use squeeze_model::record;

fn numbers(origins: &[usize]) -> Vec<u32> {
    origins.iter().map(|&origin| origin as u32).collect()
}

#[test]
fn origins_by_hand() {
    let mut random = Random::new(151);
    for (record, expected, why) in origins() {
        assert_eq!(must(every_function(&mut random, &record, 1 << 14)), 0);
        let layout = layout(&record).unwrap();
        assert_eq!(numbers(&layout.origins), expected, "{why}");
        check_laws(&record, &layout);
    }
}

#[test]
fn layouts_by_hand() {
    for (record, expected, why) in layouts() {
        let mut slices = expected.each_ref().map(|numbers| vec![7; numbers.len()]);
        let [counts, steps, channels, origins] = &mut slices;
        let answer = squeeze::layout_numbers(&record, counts, steps, channels, origins);
        assert_eq!((answer, slices), (Ok(()), expected), "{why}");
    }
}

/// Every number from 1 to 11, whatever the room; and 12 for every record that has a
/// layout.
#[test]
fn refusals() {
    let mut tally = Tally::default();
    for (record, expected, why) in refused() {
        for room in rooms(need(&record)) {
            assert_eq!(must(compare_room(&record, room)), expected, "{why}");
            tally.add(expected);
        }
    }
    assert_eq!(tally.met(), (1..12).collect::<Vec<_>>());
    assert_eq!(runs::rows(152, 4096, &refused()).met(), tally.met());
    for (record, _, why) in layouts() {
        assert_eq!(must(compare_room(&record, [0; 4])), 12, "{why}");
    }
}

/// What a record with a layout answers with so much room.
fn answer_with(room: Room, need: Room) -> u32 {
    let short = room.iter().zip(&need).any(|(room, need)| room < need);
    if short {
        12
    } else {
        0
    }
}

/// Every mix of lengths around the need of each slice: refused with 12 exactly where one
/// is too short, and numbers past the need stay.
#[test]
fn room_around_the_need() {
    let mut tally = Tally::default();
    for (record, expected, why) in layouts() {
        let need = expected.map(|numbers| numbers.len());
        let lengths = need.map(|n| [0, n.saturating_sub(1), n, n + 1, 2 * n + 9]);
        for mix in 0..5 * 5 * 5 * 5 {
            let digits = [mix % 5, mix / 5 % 5, mix / 25 % 5, mix / 125];
            let room = [0, 1, 2, 3].map(|k| lengths[k][digits[k]]);
            let answer = must(compare_room(&record, room));
            assert_eq!(answer, answer_with(room, need), "{why}, {room:?}");
            tally.add(answer);
        }
    }
    tally.print("rooms around the need");
    // Three lengths of each slice are enough; all five where there is no step.
    assert_eq!(tally.0[0], 5 * 81 + 135);
}

/// 64 steps that leave 256 channels take all the room that holds every layout.
#[test]
fn room_for_every_layout() {
    let record = plan(meta(9, 9).repeat(192), &[[H_IN, 0, 1]; 64]);
    let need = need(&record);
    assert_eq!(need, squeeze::LAYOUT_ROOM);
    for room in rooms(need) {
        assert_eq!(must(compare_room(&record, room)), answer_with(room, need));
    }
    check_laws(&record, &layout(&record).unwrap());
}

/// What holds of every accepted record, from its layout and its channels alone.
fn check_laws(bytes: &[u8], layout: &Layout) {
    let before = record::read(bytes).expect("accepted").channels;
    assert_eq!(layout.picture_channels(), before.len());
    assert_eq!(layout.origins.len(), layout.channels.len());
    let mut totals = vec![0; before.len()];
    for (channel, &origin) in layout.channels.iter().zip(&layout.origins) {
        totals[origin] += channel.samples();
    }
    for (k, channel) in before.iter().enumerate() {
        assert_eq!(totals[k], channel.samples(), "the samples of channel {k}");
        let (at, averages) = averages(layout, k, channel);
        assert_eq!(layout.averages(k), Some(at), "the averages of channel {k}");
        assert_eq!(layout.channels[at], averages);
        assert_eq!(layout.refines(at), None);
        assert!(layout.refinements(k).all(|r| layout.refines(r) == Some(k)));
    }
    assert_eq!(listing(bytes).unwrap(), text(layout));
}

/// What the steps leave of channel `k` of the list before the plan, and where: each step
/// on it halves a side, and each in-place one before it moves it.
fn averages(layout: &Layout, k: usize, channel: &list::Channel) -> (usize, Channel) {
    let mut at = k;
    let (mut width, mut height) = (channel.width, channel.height);
    let mut shifts = channel.shifts;
    for step in &layout.steps {
        let (first, number) = (usize::from(step.first), usize::from(step.number));
        if (first..first + number).contains(&at) {
            let side = if step.horizontal {
                &mut width
            } else {
                &mut height
            };
            *side = side.div_ceil(2);
            let (h, v) = if step.horizontal { (1, 0) } else { (0, 1) };
            shifts = shifts.map(|(hshift, vshift)| (hshift + h, vshift + v));
        } else if step.in_place && at >= first + number {
            at += number;
        }
    }
    let averages = Channel {
        width,
        height,
        shifts,
    };
    (at, averages)
}

/// The listing that a layout would have.
fn text(layout: &Layout) -> String {
    let mut lines = vec![format!("steps {}", layout.steps.len())];
    for step in &layout.steps {
        let direction = if step.horizontal { "h" } else { "v" };
        let place = if step.in_place { "in" } else { "out" };
        lines.push(format!(
            "{direction} {place} {} {}",
            step.first, step.number
        ));
    }
    lines.push(format!("channels {}", layout.channels.len()));
    for channel in &layout.channels {
        let size = format!("{} {}", channel.width, channel.height);
        lines.push(match channel.shifts {
            Some((h, v)) => format!("{size} {h} {v}"),
            None => format!("{size} m m"),
        });
    }
    lines.push(format!("coarse {}\n", layout.coarse));
    lines.join("\n")
}

/// A random record that the model accepts, ordinary, with 256 channels or any, and its
/// layout.
fn accepted(random: &mut Random) -> (Vec<u8>, Layout) {
    loop {
        let bytes = match random.below(8) {
            0 => records::doubled(random),
            1..=4 => records::ordinary(random),
            _ => records::some(random),
        };
        if record::judge(&bytes).is_ok() {
            let layout = layout(&bytes).expect("accepted by the model");
            return (bytes, layout);
        }
    }
}

#[test]
fn laws_of_random_plans() {
    let mut random = Random::new(153);
    let (mut residuals, mut house) = (0, 0);
    for _ in 0..10_000 {
        let (record, layout) = accepted(&mut random);
        assert_eq!(must(lists::compare(&record)), 0);
        check_laws(&record, &layout);
        residuals += layout.channels.len() - layout.picture_channels();
        house += usize::from(layout.version == Version::HOUSE);
    }
    println!("10000 layouts with {residuals} residuals, {house} of version 2");
    assert!(residuals > 50_000 && house > 200, "{residuals}, {house}");
}

/// Random records, refused ones among them, with every room around the need.
#[test]
fn random_rooms() {
    let (mut random, mut tally) = (Random::new(154), Tally::default());
    for _ in 0..20_000 {
        let record = records::some(&mut random);
        must(compare(&record));
        for room in rooms(need(&record)) {
            tally.add(must(compare_room(&record, room)));
        }
    }
    tally.print("layouts of random records");
    assert_eq!(tally.met(), (0..13).collect::<Vec<_>>());
}

/// The picture channels in which two pictures differ.
fn differing(record: &[u8], one: &[i32], other: &[i32]) -> Vec<usize> {
    let mut start = 0;
    let mut differing = Vec::new();
    let channels = record::read(record).expect("accepted").channels;
    for (k, channel) in channels.iter().enumerate() {
        let range = start..start + channel.samples();
        start = range.end;
        differing.extend((one[range.clone()] != other[range]).then_some(k));
    }
    differing
}

/// Changes one sample of each channel of a pyramid, one after the other: each time one
/// picture channel changes, the origin. Gives how many of these were residuals.
fn late_samples(random: &mut Random, record: &[u8], layout: &Layout) -> usize {
    let pyramid = random.samples(layout.samples());
    let picture = rebuild_picture(record, &pyramid).unwrap();
    let (mut start, mut residuals) = (0, 0);
    for (k, channel) in layout.channels.iter().enumerate() {
        if channel.samples() > 0 {
            let mut late = pyramid.clone();
            late[start + random.below(channel.samples())] ^= 1 << random.below(32);
            let other = rebuild_picture(record, &late).unwrap();
            assert_eq!(differing(record, &picture, &other), [layout.origins[k]]);
            residuals += usize::from(layout.refines(k).is_some());
        }
        start += channel.samples();
    }
    residuals
}

#[test]
fn a_late_residual_changes_its_origin_only() {
    let mut random = Random::new(155);
    let mut residuals = 0;
    for (record, _, _) in origins() {
        residuals += late_samples(&mut random, &record, &layout(&record).unwrap());
    }
    for _ in 0..3_000 {
        let (record, layout) = accepted(&mut random);
        if layout.samples() <= 4_096 {
            residuals += late_samples(&mut random, &record, &layout);
        }
    }
    println!("{residuals} residuals came late");
    assert!(residuals > 10_000, "{residuals}");
}

/// A way to carry origins over a step; `after_step` is the right one.
type Carry = fn(&[usize], &Step) -> Vec<usize>;

/// The origins that a plan leaves if they are carried so.
fn carried(plan: &Plan, carry: Carry) -> Vec<usize> {
    let own = own_positions(plan.lists[0].len());
    plan.steps
        .iter()
        .fold(own, |origins, step| carry(&origins, step))
}

/// The right way, but a residual takes what `taken` gives of the position of the channel
/// squeezed and of its own.
fn residuals_take(origins: &[usize], step: &Step, taken: fn(usize, usize) -> usize) -> Vec<usize> {
    let mut next = origins.to_vec();
    let at = step.residuals_at(origins.len());
    for (n, k) in step.range().enumerate() {
        next.insert(at + n, taken(k, at + n));
    }
    next
}

fn own_position(origins: &[usize], step: &Step) -> Vec<usize> {
    residuals_take(origins, step, |_, own| own)
}

fn squeezed_position(origins: &[usize], step: &Step) -> Vec<usize> {
    residuals_take(origins, step, |squeezed, _| squeezed)
}

fn zeros(origins: &[usize], step: &Step) -> Vec<usize> {
    vec![0; origins.len() + step.range().len()]
}

fn averages_take_theirs(origins: &[usize], step: &Step) -> Vec<usize> {
    let mut next = after_step(origins, step);
    step.range().for_each(|k| next[k] = k);
    next
}

/// The origins stay where they are, whatever moves; those of residuals are written over
/// them.
fn written_over(origins: &[usize], step: &Step) -> Vec<usize> {
    let mut next = origins.to_vec();
    next.resize(origins.len() + step.range().len(), 0);
    let at = step.residuals_at(origins.len());
    for (n, k) in step.range().enumerate() {
        next[at + n] = origins[k];
    }
    next
}

/// Those of residuals aren't written.
fn left_open(origins: &[usize], step: &Step) -> Vec<usize> {
    let residuals = vec![0; step.range().len()];
    [origins, &residuals].concat()
}

fn always_at_the_end(origins: &[usize], step: &Step) -> Vec<usize> {
    [origins, &origins[step.range()]].concat()
}

fn always_behind_the_range(origins: &[usize], step: &Step) -> Vec<usize> {
    let (front, rest) = origins.split_at(step.range().end);
    [front, &origins[step.range()], rest].concat()
}

fn last_residual_first(origins: &[usize], step: &Step) -> Vec<usize> {
    let mut next = origins.to_vec();
    let at = step.residuals_at(origins.len());
    for k in step.range() {
        next.insert(at, origins[k]);
    }
    next
}

/// A wrong way, a record, what it gives there, what is right, and why it is wrong.
type Wrong = (
    Carry,
    Vec<u8>,
    &'static [usize],
    &'static [usize],
    &'static str,
);

#[rustfmt::skip]
fn wrong_ways() -> Vec<Wrong> {
    let with = |steps: &[[u8; 3]]| plan(three(4, 4), steps);
    vec![
        (own_position, with(&[[H_IN, 0, 1]]), &[0, 1, 1, 2], &[0, 0, 1, 2], "a residual is not its own origin"),
        (own_position, with(&[[H_OUT, 0, 1]]), &[0, 1, 2, 3], &[0, 1, 2, 0], "the picture has no channel 3"),
        (squeezed_position, with(&[[H_IN, 0, 1], [H_IN, 1, 1]]), &[0, 0, 1, 1, 2], &[0, 0, 0, 1, 2], "a residual of a residual"),
        (squeezed_position, with(&[[H_OUT, 1, 1], [H_OUT, 3, 1]]), &[0, 1, 2, 1, 3], &[0, 1, 2, 1, 1], "the same, not in place"),
        (squeezed_position, with(&[[H_IN, 0, 1], [H_OUT, 2, 1]]), &[0, 0, 1, 2, 2], &[0, 0, 1, 2, 1], "a channel that has moved"),
        (averages_take_theirs, with(&[[H_IN, 0, 1], [H_OUT, 2, 1]]), &[0, 0, 2, 2, 1], &[0, 0, 1, 2, 1], "averages keep their origin"),
        (written_over, with(&[[H_IN, 0, 1]]), &[0, 0, 2, 0], &[0, 0, 1, 2], "channels behind the range move"),
        (left_open, with(&[[H_OUT, 1, 1]]), &[0, 1, 2, 0], &[0, 1, 2, 1], "residuals at the end have origins"),
        (always_at_the_end, with(&[[H_IN, 1, 1]]), &[0, 1, 2, 1], &[0, 1, 1, 2], "in place is behind the range"),
        (always_behind_the_range, with(&[[H_OUT, 1, 1]]), &[0, 1, 1, 2], &[0, 1, 2, 1], "not in place is at the end"),
        (last_residual_first, with(&[[H_OUT, 1, 2]]), &[0, 1, 2, 2, 1], &[0, 1, 2, 1, 2], "residuals come in order"),
        (zeros, with(&[[H_IN, 2, 1]]), &[0, 0, 0, 0], &[0, 1, 2, 2], "there are three picture channels"),
    ]
}

/// Each gives something else than the core on its record.
#[test]
fn what_must_not_pass() {
    for (carry, record, wrong, right, why) in wrong_ways() {
        let plan = record::judge(&record).expect("accepted");
        assert_eq!(carried(&plan, carry), wrong, "{why}");
        assert_eq!(layout(&record).unwrap().origins, right, "{why}");
        assert_ne!(wrong, right, "{why}");
    }
}

/// On random plans each wrong way differs too, and the right one never.
#[test]
fn wrong_ways_on_random_plans() {
    let ways: [Carry; 10] = [
        after_step,
        own_position,
        squeezed_position,
        averages_take_theirs,
        written_over,
        left_open,
        always_at_the_end,
        always_behind_the_range,
        last_residual_first,
        zeros,
    ];
    let mut random = Random::new(156);
    let mut caught = ways.map(|_| 0);
    for _ in 0..4_000 {
        let (record, layout) = accepted(&mut random);
        let plan = record::judge(&record).expect("accepted");
        for (caught, carry) in caught.iter_mut().zip(ways) {
            *caught += usize::from(carried(&plan, carry) != layout.origins);
        }
    }
    println!("4000 plans; how many show each wrong way: {caught:?}");
    assert_eq!(caught[0], 0);
    assert!(caught[1..].iter().all(|&plans| plans > 200), "{caught:?}");
}
