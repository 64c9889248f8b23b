//! Rectangle calls, compared.

use crate::guard::Lent;
use crate::{expect, raw};
use squeeze::{GridQuery, Kind};
use squeeze_model::{rect, refusal};

/// Document 01's own case: HF on LF at (9, 0), start (256, 0), size 256 by 200.
pub const DOCUMENT_01: GridQuery = GridQuery {
    width: 3000,
    height: 200,
    hshift: 0,
    vshift: 0,
    output: Kind::HF,
    stored: Kind::LF,
    group: 256,
    gx: 9,
    gy: 0,
};

/// The C function with a rectangle slice of `length` numbers, and the safe
/// function where that is 4. Gives the answer.
pub fn compare(query: &GridQuery, length: usize) -> Result<u32, String> {
    let before = vec![0xeeee_eeee_u32; length];
    let (expected, after) = model(query, &before);
    let mut lent = Lent::new(&before, 0x5a5a_0006);
    let answer = raw::grid_rect(query, lent.slice_mut());
    let same = answer == expected && lent.holds(&after);
    expect(same, || {
        format!(
            "rectangle: core {answer} {:?}, model {expected} {after:?}; {query:?}",
            lent.slice()
        )
    })?;
    if length == 4 {
        compare_safe(query, expected, &after)?;
    }
    Ok(answer)
}

/// What the model gives for a query: questions 4 and 13.
pub fn model_rect(query: &GridQuery) -> Result<[u32; 4], u32> {
    rect::grid_rect(&rect::Query {
        width: query.width,
        height: query.height,
        hshift: query.hshift,
        vshift: query.vshift,
        output: query.output.0,
        stored: query.stored.0,
        group: query.group,
        gx: query.gx,
        gy: query.gy,
    })
}

/// The same, then the slice's length.
fn model(query: &GridQuery, before: &[u32]) -> (u32, Vec<u32>) {
    let answer = model_rect(query);
    match answer {
        Err(number) => (number, before.to_vec()),
        Ok(_) if before.len() != 4 => (refusal::LENGTH, before.to_vec()),
        Ok(rect) => (0, rect.to_vec()),
    }
}

fn compare_safe(query: &GridQuery, expected: u32, rect: &[u32]) -> Result<(), String> {
    let answer = squeeze::grid_rect(query);
    let same = match answer {
        Ok(r) => expected == 0 && rect == [r.x, r.y, r.width, r.height],
        Err(refusal) => expected == refusal.number(),
    };
    expect(same, || {
        format!("rectangle, safe function: {answer:?} for {expected} {rect:?}; {query:?}")
    })
}
