//! Origins (document 02, A.4) in the model alone: the rows by hand.

mod by_hand;

use by_hand::origins::{layouts, origins, refused};
use squeeze_model::layout::{layout, numbers, Numbers};

#[test]
fn origins_by_hand() {
    for (record, expected, why) in origins() {
        let [_, _, _, origins] = numbers(&record).expect(why);
        assert_eq!(origins, expected, "{why}");
    }
}

/// The call's answer with slices of these contents, and the slices afterwards.
fn call(record: &[u8], slices: &Numbers) -> (u32, Numbers) {
    let mut after = slices.clone();
    let answer = layout(record, after.each_mut().map(|slice| &mut slice[..]));
    (answer, after)
}

/// Into slices of the right length, and longer ones, whose last number stays.
#[test]
fn layouts_by_hand() {
    for (record, expected, why) in layouts() {
        let exact = expected.each_ref().map(|numbers| vec![7; numbers.len()]);
        assert_eq!(call(&record, &exact), (0, expected.clone()), "{why}");
        let longer = exact.map(|numbers| [numbers, vec![7]].concat());
        let after = expected.map(|numbers| [numbers, vec![7]].concat());
        assert_eq!(call(&record, &longer), (0, after), "{why}");
    }
}

/// One number too few in any slice: nothing is written.
#[test]
fn rooms_by_hand() {
    for (record, expected, why) in layouts() {
        for k in 0..4 {
            let mut short = expected.each_ref().map(|numbers| vec![7; numbers.len()]);
            if short[k].pop().is_some() {
                assert_eq!(call(&record, &short), (12, short), "{why}, slice {k}");
            }
        }
    }
}

/// Whatever the room.
#[test]
fn refused_by_hand() {
    for (record, expected, why) in refused() {
        for room in [0, 2000] {
            let slices = [room; 4].map(|room| vec![7; room]);
            assert_eq!(call(&record, &slices), (expected, slices), "{why}");
        }
    }
}
