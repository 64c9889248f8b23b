//! Listings, compared.

use crate::guard::Lent;
use crate::{expect, layouts, raw};
use squeeze_model::list::Step;
use squeeze_model::listing;

/// The listing of a record with room for 8,192 bytes, and its layout. Gives the
/// answer, 0 or a refusal's number.
pub fn compare(bytes: &[u8]) -> Result<u32, String> {
    let model = listing::listing(bytes);
    let lent = Lent::new(bytes, 0xa5);
    let ours = squeeze::listing(lent.slice()).map_err(|refusal| refusal.number());
    expect(ours == model && lent.holds(bytes), || {
        format!("listing: record {bytes:02x?}\ncore: {ours:?}\nmodel: {model:?}")
    })?;
    layouts::compare(bytes)
}

/// A step in the model's form.
pub fn model_step(step: &squeeze::Step) -> Step {
    Step {
        horizontal: step.horizontal,
        in_place: step.in_place,
        first: step.first.into(),
        number: step.number.into(),
    }
}

/// The C function with `room` bytes for the text and `numbers` numbers for its
/// length. Gives the answer.
pub fn compare_room(bytes: &[u8], room: usize, numbers: usize) -> Result<u32, String> {
    let before = (vec![b'#'; room], vec![0xeeee_eeee; numbers]);
    let (mut model_text, mut model_length) = before.clone();
    let expected = listing::list_record(bytes, &mut model_text, &mut model_length);
    let lent = Lent::new(bytes, 0xa5);
    let mut text = Lent::new(&before.0, b'!');
    let mut length = Lent::new(&before.1, 0x5a5a_0007);
    let answer = raw::listing(lent.slice(), text.slice_mut(), length.slice_mut());
    let same = answer == expected
        && lent.holds(bytes)
        && text.holds(&model_text)
        && length.holds(&model_length);
    let promise = answer == 0 || (text.holds(&before.0) && length.holds(&before.1));
    expect(same && promise, || {
        format!(
            "listing into {room} bytes, {numbers} numbers: core {answer}, model {expected}, \
             length {:?}; record {bytes:02x?}",
            length.slice()
        )
    })?;
    Ok(answer)
}
