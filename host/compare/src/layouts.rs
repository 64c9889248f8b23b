//! Layouts, compared: as numbers in slices of any length, and in the crate's form.

use crate::guard::Lent;
use crate::{expect, number};
use squeeze_model::layout::{self, Numbers};
use squeeze_model::list::{Channel, Step};
use squeeze_model::plan::Plan;
use squeeze_model::record;

/// How many numbers the slices have: counts, steps, channels and origins.
pub type Room = [usize; 4];

/// The numbers that a record's layout needs; for a refused one, those of a channel
/// and a step.
pub fn need(bytes: &[u8]) -> Room {
    let numbers = layout::numbers(bytes).ok();
    numbers.map_or([4, 3, 8, 2], |numbers| numbers.map(|slice| slice.len()))
}

/// Rooms around what is needed: just that, more in all, as much as any layout needs,
/// nothing; and in one of the four nothing, one too few, or one more.
pub fn rooms(need: Room) -> Vec<Room> {
    let mut rooms = vec![need, need.map(|n| n + 1), squeeze::LAYOUT_ROOM, [0; 4]];
    for k in 0..4 {
        for numbers in [0, need[k].saturating_sub(1), need[k] + 1] {
            let mut room = need;
            room[k] = numbers;
            rooms.push(room);
        }
    }
    rooms
}

/// The layout of a record in slices of just the length that it needs, and in the
/// crate's form. Gives the answer, 0 or a refusal's number.
pub fn compare(bytes: &[u8]) -> Result<u32, String> {
    let answer = compare_room(bytes, need(bytes))?;
    compare_typed(bytes)?;
    Ok(answer)
}

/// The C function with so many numbers in each slice. Gives the answer.
pub fn compare_room(bytes: &[u8], room: Room) -> Result<u32, String> {
    let before = room.map(|numbers| vec![0xeeee_eeee; numbers]);
    let mut model = before.clone();
    let expected = layout::layout(bytes, model.each_mut().map(Vec::as_mut_slice));
    let record = Lent::new(bytes, 0xa5);
    let mut lent = before.each_ref().map(|slice| Lent::new(slice, 0x5a5a_000b));
    let [counts, steps, channels, origins] = lent.each_mut().map(Lent::slice_mut);
    let answer = squeeze::layout_numbers(record.slice(), counts, steps, channels, origins);
    let answer = number(&answer);
    let hold = |slices: &Numbers| {
        lent.iter()
            .zip(slices)
            .all(|(lent, slice)| lent.holds(slice))
    };
    let same = answer == expected && record.holds(bytes) && hold(&model);
    let promise = answer == 0 || hold(&before);
    expect(same && promise, || {
        let left = lent.each_ref().map(Lent::slice);
        format!(
            "layout into {room:?}: core {answer}, model {expected}; record {bytes:02x?}\n\
             core: {left:?}\nmodel: {model:?}"
        )
    })?;
    Ok(answer)
}

/// The crate's layout against the model's plan.
fn compare_typed(bytes: &[u8]) -> Result<(), String> {
    let (ours, model) = (squeeze::layout(bytes), record::judge(bytes));
    let same = match (&ours, &model) {
        (Ok(layout), Ok(plan)) => *layout == as_layout(plan),
        (Err(refusal), Err(number)) => refusal.number() == *number,
        _ => false,
    };
    expect(same, || {
        format!("layout: core {ours:?}, model {model:?}; record {bytes:02x?}")
    })
}

fn as_layout(plan: &Plan) -> squeeze::Layout {
    let step = |s: &Step| squeeze::Step {
        horizontal: s.horizontal,
        in_place: s.in_place,
        first: s.first.try_into().expect("from a record"),
        number: s.number.try_into().expect("from a record"),
    };
    let channel = |c: &Channel| squeeze::Channel {
        width: c.width,
        height: c.height,
        shifts: c.shifts,
    };
    squeeze::Layout {
        version: squeeze::Version(plan.version.number() as u8),
        steps: plan.steps.iter().map(step).collect(),
        channels: plan.layout().iter().map(channel).collect(),
        origins: plan.origins(),
        coarse: plan.coarse(),
    }
}
