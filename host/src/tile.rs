//! Tiles of one squeeze, and the rectangles that they cover.

use crate::{answer, ffi, marked, Refusal};

/// Width and height of a rectangle of samples.
#[derive(Clone, Copy, Debug, PartialEq, Eq, Hash)]
pub struct Size {
    /// Samples in a row.
    pub width: usize,
    /// Rows.
    pub height: usize,
}

/// The sizes of a tile call. They have to fit: along the squeeze the output has
/// the averages' side and the residuals' side together, and there is at most
/// one average more than residuals; across it all three sides are equal. No side
/// is above 1,048,575.
#[derive(Clone, Copy, Debug, PartialEq, Eq, Hash)]
pub struct TileSizes {
    /// Along the rows; else along the columns.
    pub horizontal: bool,
    /// The rectangle of averages.
    pub avg: Size,
    /// The rectangle of residuals.
    pub residual: Size,
    /// The rectangle of output samples.
    pub output: Size,
}

impl TileSizes {
    /// The sizes that fit an output tile.
    pub fn of_output(horizontal: bool, output: Size) -> TileSizes {
        let Size { width, height } = output;
        let (avg, residual) = if horizontal {
            let rest = width / 2;
            (
                Size {
                    width: width - rest,
                    height,
                },
                Size {
                    width: rest,
                    height,
                },
            )
        } else {
            let rest = height / 2;
            (
                Size {
                    width,
                    height: height - rest,
                },
                Size {
                    width,
                    height: rest,
                },
            )
        };
        TileSizes {
            horizontal,
            avg,
            residual,
            output,
        }
    }
}

/// One tile of an inverse squeeze. `next` is the next tile's first line of
/// averages and `prev` the last line that the tile before wrote, columns in a
/// horizontal squeeze and rows in a vertical one; empty where there is none.
///
/// ```
/// use squeeze::{tile, Size, TileSizes};
///
/// let sizes = TileSizes::of_output(true, Size { width: 4, height: 1 });
/// let mut out = [0; 4];
/// tile(&sizes, &[10, 4], &[1, 0], &[], &[], &mut out)?;
/// assert_eq!(out, [11, 9, 4, 4]);
/// # Ok::<(), squeeze::Refusal>(())
/// ```
pub fn tile(
    sizes: &TileSizes,
    avg: &[i32],
    residual: &[i32],
    next: &[i32],
    prev: &[i32],
    out: &mut [i32],
) -> Result<(), Refusal> {
    // SAFETY: references are aligned and not null, for empty slices too, and
    // the mutable one overlaps nothing.
    answer(unsafe {
        ffi::squeeze_tile(
            u32::from(sizes.horizontal),
            sizes.avg.width,
            sizes.avg.height,
            sizes.residual.width,
            sizes.residual.height,
            sizes.output.width,
            sizes.output.height,
            avg.as_ptr(),
            avg.len(),
            residual.as_ptr(),
            residual.len(),
            next.as_ptr(),
            next.len(),
            prev.as_ptr(),
            prev.len(),
            out.as_mut_ptr(),
            out.len(),
        )
    })
}

/// [`tile`](fn@tile), and its mark, as [`rebuild_marked`](crate::rebuild_marked)
/// explains it: of the pairs of this tile, and of the averages that it copies. `prev`
/// counts where there is a pair, and `next` where there is one and no average more than
/// residuals. A squeeze that is cut into tiles is marked exactly if one of them is.
///
/// ```
/// use squeeze::{tile_marked, Size, TileSizes};
///
/// let sizes = TileSizes::of_output(true, Size { width: 2, height: 1 });
/// let mut out = [0; 2];
/// assert!(!tile_marked(&sizes, &[0], &[0], &[268_435_455], &[], &mut out)?);
/// assert!(tile_marked(&sizes, &[0], &[0], &[268_435_456], &[], &mut out)?);
/// # Ok::<(), squeeze::Refusal>(())
/// ```
pub fn tile_marked(
    sizes: &TileSizes,
    avg: &[i32],
    residual: &[i32],
    next: &[i32],
    prev: &[i32],
    out: &mut [i32],
) -> Result<bool, Refusal> {
    let mut mark = [0];
    // SAFETY: as in `tile`.
    answer(unsafe {
        ffi::squeeze_tile_marked(
            u32::from(sizes.horizontal),
            sizes.avg.width,
            sizes.avg.height,
            sizes.residual.width,
            sizes.residual.height,
            sizes.output.width,
            sizes.output.height,
            avg.as_ptr(),
            avg.len(),
            residual.as_ptr(),
            residual.len(),
            next.as_ptr(),
            next.len(),
            prev.as_ptr(),
            prev.len(),
            out.as_mut_ptr(),
            out.len(),
            mark.as_mut_ptr(),
            mark.len(),
        )
    })?;
    Ok(marked(mark))
}

/// The kind of grid that a channel is cut by. Other numbers than the three
/// named ones can be made; the core refuses them.
#[derive(Clone, Copy, Debug, PartialEq, Eq, Hash)]
pub struct Kind(pub u8);

impl Kind {
    /// Not cut.
    pub const NONE: Kind = Kind(0);
    /// Cut by the LF dimension, 8 times the group dimension.
    pub const LF: Kind = Kind(1);
    /// Cut by the group dimension.
    pub const HF: Kind = Kind(2);
}

/// Which rectangle is asked for.
#[derive(Clone, Copy, Debug, PartialEq, Eq, Hash)]
pub struct GridQuery {
    /// The channel's width, at most 1,048,575.
    pub width: u32,
    /// The channel's height, at most 1,048,575.
    pub height: u32,
    /// Its horizontal shift; 255 in both for a meta channel.
    pub hshift: u8,
    /// Its vertical shift.
    pub vshift: u8,
    /// The kind that the tile is wanted in.
    pub output: Kind,
    /// The kind that the channel is stored in.
    pub stored: Kind,
    /// Group dimension: 128, 256, 512 or 1,024.
    pub group: u32,
    /// Grid column.
    pub gx: u16,
    /// Grid row.
    pub gy: u16,
}

/// A rectangle of samples inside a stored channel or tile.
#[derive(Clone, Copy, Debug, PartialEq, Eq, Hash)]
pub struct Rect {
    /// Left column.
    pub x: u32,
    /// Top row.
    pub y: u32,
    /// Samples in a row.
    pub width: u32,
    /// Rows.
    pub height: u32,
}

/// The rectangle of a channel at a grid position.
///
/// ```
/// use squeeze::{grid_rect, GridQuery, Kind, Rect};
///
/// let query = GridQuery {
///     width: 3000, height: 200, hshift: 0, vshift: 0,
///     output: Kind::HF, stored: Kind::LF, group: 256, gx: 9, gy: 0,
/// };
/// assert_eq!(grid_rect(&query)?, Rect { x: 256, y: 0, width: 256, height: 200 });
/// # Ok::<(), squeeze::Refusal>(())
/// ```
pub fn grid_rect(query: &GridQuery) -> Result<Rect, Refusal> {
    let mut rect = [0u32; 4];
    // SAFETY: an array is aligned, not null, and overlaps nothing.
    answer(unsafe {
        ffi::squeeze_grid_rect(
            query.width,
            query.height,
            query.hshift,
            query.vshift,
            query.output.0,
            query.stored.0,
            query.group,
            query.gx,
            query.gy,
            rect.as_mut_ptr(),
            rect.len(),
        )
    })?;
    let [x, y, width, height] = rect;
    Ok(Rect {
        x,
        y,
        width,
        height,
    })
}
