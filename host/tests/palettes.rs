//! The coarse count with palettes, which are meta channels of any size at the
//! front of a list (document 02, A.2), under both versions.

use squeeze::{layout, Channel, Layout, Record, Step, Version};
use squeeze_compare::{lists, must};

fn step(horizontal: bool, first: u16) -> Step {
    Step {
        horizontal,
        in_place: true,
        first,
        number: 1,
    }
}

#[test]
fn by_hand() {
    let (palette, small_palette) = (Channel::meta(300, 1), Channel::meta(40, 2));
    let (picture, dot) = (Channel::new(20, 9), Channel::new(1, 1));
    let rows: [(&[Channel], &[Step], usize, &str); 7] = [
        (&[palette, picture], &[], 3, "of the rewritten list"),
        (
            &[palette, small_palette, picture],
            &[step(true, 1)],
            3,
            "one squeezed in place: its residual is meta",
        ),
        (
            &[palette, small_palette],
            &[step(true, 0), step(false, 2)],
            4,
            "palettes alone",
        ),
        (&[picture], &[], 2, "none"),
        (&[picture, dot], &[], 4, "not on past the first large one"),
        (&[palette, picture, dot], &[], 5, "nor with a palette"),
        (
            &[palette, picture, dot],
            &[step(true, 2)],
            1,
            "a picture that is left large ends it",
        ),
    ];
    for (channels, steps, coarse, why) in rows {
        let record = Record::from_parts(channels, steps).unwrap();
        assert_eq!(layout(record.bytes()).unwrap().coarse, coarse, "{why}");
        assert_eq!(must(lists::compare(record.bytes())), 0, "{why}");
    }
}

#[test]
fn every_short_list() {
    short_lists(Version::STANDARD, 8);
    short_lists(Version::HOUSE, 32);
}

/// Every list of one to three of these, with and without a step: core and model
/// agree, and the laws that clerks rely on hold. Enough lists are accepted, and
/// enough of them have a palette with a side above the version's.
fn short_lists(version: Version, side: u32) {
    let kinds = [
        Channel::meta(1, 1),
        Channel::meta(300, 1),
        Channel::meta(side, side + 1),
        Channel::new(side, side),
        Channel::new(side + 1, side),
        Channel::new(side, side + 1),
        Channel::new(1, 1),
    ];
    let mut lists: Vec<Vec<Channel>> = kinds.map(|kind| vec![kind]).to_vec();
    for _ in 2..=3 {
        let longer = |list: &Vec<Channel>| kinds.map(|kind| [&list[..], &[kind]].concat());
        lists = [lists.clone(), lists.iter().flat_map(longer).collect()].concat();
    }
    let (mut accepted, mut palettes) = (0, 0);
    for list in &lists {
        for steps in [&[][..], &[step(true, 0)], &[step(false, 1)]] {
            let record = Record::under(version);
            let record = list.iter().fold(record, |r, c| r.add_channel(*c));
            let record = steps.iter().fold(record, |r, s| r.step(*s));
            if must(lists::compare(record.bytes())) == 0 {
                let layout = layout(record.bytes()).unwrap();
                accepted += 1;
                palettes += usize::from(check_laws(&layout, side));
            }
        }
    }
    assert!(accepted > 500 && palettes > 100, "{accepted}, {palettes}");
}

/// Gives whether a meta channel has a side above the version's.
fn check_laws(layout: &Layout, side: u32) -> bool {
    let large = |c: &Channel| c.width > side || c.height > side;
    let metas = layout.metas();
    assert!(metas <= layout.coarse, "every leading meta channel counts");
    let others = &layout.channels[metas..];
    let whole = layout.coarse == layout.channels.len();
    assert_eq!(whole, !others.iter().any(large), "{layout:?}");
    let small = others.iter().take_while(|c| !large(c)).count();
    assert_eq!(layout.coarse, metas + small, "{layout:?}");
    layout.channels[..metas].iter().any(large)
}
