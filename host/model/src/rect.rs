//! The rectangle of a channel at a grid position.

use crate::list::Channel;
use crate::refusal;

/// What a rectangle call is given.
#[derive(Clone, Copy, Debug, PartialEq, Eq)]
pub struct Query {
    /// The channel's width.
    pub width: u32,
    /// The channel's height.
    pub height: u32,
    /// Its horizontal shift; 255 in both for meta.
    pub hshift: u8,
    /// Its vertical shift.
    pub vshift: u8,
    /// Output kind: 0 None, 1 LF, 2 HF.
    pub output: u8,
    /// Stored kind.
    pub stored: u8,
    /// Group dimension.
    pub group: u32,
    /// Grid column.
    pub gx: u16,
    /// Grid row.
    pub gy: u16,
}

const NONE: u8 = 0;
const LF: u8 = 1;
const HF: u8 = 2;

/// x, y, width and height, or the refusal of question 4 or 13.
pub fn grid_rect(query: &Query) -> Result<[u32; 4], u32> {
    let shifts = [query.hshift.into(), query.vshift.into()];
    let channel = Channel::of_numbers([query.width, query.height, shifts[0], shifts[1]])?;
    if ![128, 256, 512, 1024].contains(&query.group) {
        return Err(refusal::KIND);
    }
    let lf = 8 * query.group;
    match (query.output, query.stored) {
        (NONE, NONE) => Ok([0, 0, query.width, query.height]),
        _ if channel.meta() => Err(refusal::KIND),
        (LF, NONE | LF) => Ok(cut(query, lf)),
        (HF, NONE | LF | HF) => Ok(cut(query, query.group)),
        _ => Err(refusal::KIND),
    }
}

/// The rectangle by tiles of the output kind's dimension.
fn cut(query: &Query, dimension: u32) -> [u32; 4] {
    let lf = 8 * query.group;
    let across = |side, at, shift| {
        let (start, size) = span(side, at, dimension >> shift);
        (origin(query, start, lf >> shift), size)
    };
    let (x, width) = across(query.width, query.gx, query.hshift);
    let (y, height) = across(query.height, query.gy, query.vshift);
    if width == 0 || height == 0 {
        return [0; 4];
    }
    [x, y, width, height]
}

/// Start and size of the tile at a position along one side.
fn span(side: u32, at: u16, tile: u32) -> (u32, u32) {
    let start = u32::from(at) * tile;
    let left = side.saturating_sub(start);
    (start, left.min(tile))
}

/// Where a start lies in what is stored. The LF tile side is 0 only where the
/// rectangle is empty.
fn origin(query: &Query, start: u32, lf_tile: u32) -> u32 {
    if query.output == query.stored {
        0
    } else if query.stored == NONE {
        start
    } else {
        start.checked_rem(lf_tile).unwrap_or(0)
    }
}
