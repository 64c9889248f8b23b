//! Squeeze of JPEG XL's Modular mode for Rust programs. The work is done by a
//! proved core, linked as a static archive; this crate lends it slices and
//! turns its answers into `Result`s.
//!
//! A *record* describes the channels of a picture and the plan. A *picture* is
//! its samples, row by row, channel after channel. A *pyramid* has the same
//! number of samples in the order of upload, coarse channels first.
//!
//! ```
//! use squeeze::{rebuild_picture, write_pyramid, Record, Refusal};
//!
//! fn main() -> Result<(), Refusal> {
//!     // One channel, 20 by 9, and no steps: the default plan.
//!     let record = Record::new().channel(20, 9).checked()?;
//!     let picture: Vec<i32> = (0..180).map(|i| i % 20 + 3 * (i / 20)).collect();
//!
//!     let pyramid = write_pyramid(record.bytes(), &picture)?;
//!     let back = rebuild_picture(record.bytes(), &pyramid)?;
//!     assert_eq!(back, picture);
//!     Ok(())
//! }
//! ```
//!
//! [`Record::checked`] has the core's own writer make the record, so that a plan
//! that can't be run is refused where it is made. `Record::under(Version::HOUSE)` in
//! place of `Record::new()` has the plan for larger screens ([`Version`]); every call
//! follows the version that its record says.
//!
//! [`layout`](fn@layout) tells what a record means: its steps, the channels of its
//! pyramid, and which channel of the picture each of them refines.
//!
//! Where a picture may have impossible samples, [`rebuild_marked`] and its kin say
//! whether one left the plain range, which they explain.
//!
//! The core takes any record, any sizes and any slices; what it can't use it
//! refuses with a reason, and then the slices keep their contents. No call needs
//! more than 64 KiB of stack.

#![warn(missing_docs)]

#[doc(hidden)]
pub mod ffi;
mod layout;
mod record;
mod refusal;
mod tile;

pub use layout::{layout, layout_numbers, Channel, Layout, Step, Version, LAYOUT_ROOM};
pub use record::{write_record, Record, RECORD_ROOM};
pub use refusal::Refusal;
pub use tile::{grid_rect, tile, tile_marked, GridQuery, Kind, Rect, Size, TileSizes};

/// The bytes that hold every listing.
pub const LISTING_ROOM: usize = 8192;

/// Rebuilds the picture of a pyramid. All three slices have one length, the
/// record's number of samples. `work` may hold anything; it is all zero after
/// success.
pub fn rebuild(
    record: &[u8],
    pyramid: &[i32],
    picture: &mut [i32],
    work: &mut [i32],
) -> Result<(), Refusal> {
    // SAFETY: references are aligned and not null, for empty slices too, and
    // mutable ones overlap nothing.
    answer(unsafe {
        ffi::squeeze_rebuild(
            record.as_ptr(),
            record.len(),
            pyramid.as_ptr(),
            pyramid.len(),
            picture.as_mut_ptr(),
            picture.len(),
            work.as_mut_ptr(),
            work.len(),
        )
    })
}

/// [`rebuild`], and whether the run is marked: whether it leaves the plain range,
/// -268,435,456 to 268,435,455. A run that isn't marked has read and made no sample
/// outside in any step, and its picture is the standard's. One that is marked has a
/// pair with such a sample, which may be its average, its residual, the next average,
/// the output before it or one of the two that it makes; or it has copied such an
/// average. What no step reads doesn't count. A refused call has no mark.
///
/// ```
/// use squeeze::{rebuild_marked, Record, Refusal, Step};
///
/// let step = Step { horizontal: true, in_place: true, first: 0, number: 1 };
/// let record = Record::new().channel(2, 1).step(step).checked()?;
/// let (mut picture, mut work) = ([0; 2], [0; 2]);
///
/// let marked = rebuild_marked(record.bytes(), &[268_435_455, 0], &mut picture, &mut work)?;
/// assert_eq!((marked, picture), (false, [268_435_455; 2]));
///
/// // The residual lies outside, and both samples of the picture inside.
/// let marked = rebuild_marked(record.bytes(), &[0, 536_870_911], &mut picture, &mut work)?;
/// assert_eq!((marked, picture), (true, [268_435_455, -268_435_456]));
/// # Ok::<(), Refusal>(())
/// ```
pub fn rebuild_marked(
    record: &[u8],
    pyramid: &[i32],
    picture: &mut [i32],
    work: &mut [i32],
) -> Result<bool, Refusal> {
    let mut mark = [0];
    // SAFETY: as in `rebuild`.
    answer(unsafe {
        ffi::squeeze_rebuild_marked(
            record.as_ptr(),
            record.len(),
            pyramid.as_ptr(),
            pyramid.len(),
            picture.as_mut_ptr(),
            picture.len(),
            work.as_mut_ptr(),
            work.len(),
            mark.as_mut_ptr(),
            mark.len(),
        )
    })?;
    Ok(marked(mark))
}

/// Writes the pyramid of a picture: the reverse of [`rebuild`].
pub fn write(
    record: &[u8],
    picture: &[i32],
    pyramid: &mut [i32],
    work: &mut [i32],
) -> Result<(), Refusal> {
    // SAFETY: as in `rebuild`.
    answer(unsafe {
        ffi::squeeze_write(
            record.as_ptr(),
            record.len(),
            picture.as_ptr(),
            picture.len(),
            pyramid.as_mut_ptr(),
            pyramid.len(),
            work.as_mut_ptr(),
            work.len(),
        )
    })
}

/// [`write`](fn@write), and the mark that [`rebuild_marked`] gives for the pyramid
/// written.
pub fn write_marked(
    record: &[u8],
    picture: &[i32],
    pyramid: &mut [i32],
    work: &mut [i32],
) -> Result<bool, Refusal> {
    let mut mark = [0];
    // SAFETY: as in `rebuild`.
    answer(unsafe {
        ffi::squeeze_write_marked(
            record.as_ptr(),
            record.len(),
            picture.as_ptr(),
            picture.len(),
            pyramid.as_mut_ptr(),
            pyramid.len(),
            work.as_mut_ptr(),
            work.len(),
            mark.as_mut_ptr(),
            mark.len(),
        )
    })?;
    Ok(marked(mark))
}

/// [`rebuild`] into slices of its own.
pub fn rebuild_picture(record: &[u8], pyramid: &[i32]) -> Result<Vec<i32>, Refusal> {
    let mut picture = vec![0; pyramid.len()];
    let mut work = vec![0; pyramid.len()];
    rebuild(record, pyramid, &mut picture, &mut work)?;
    Ok(picture)
}

/// [`rebuild_marked`] into slices of its own: the picture, and its mark.
pub fn rebuild_picture_marked(record: &[u8], pyramid: &[i32]) -> Result<(Vec<i32>, bool), Refusal> {
    let mut picture = vec![0; pyramid.len()];
    let mut work = vec![0; pyramid.len()];
    let marked = rebuild_marked(record, pyramid, &mut picture, &mut work)?;
    Ok((picture, marked))
}

/// [`write`](fn@write) into slices of its own.
pub fn write_pyramid(record: &[u8], picture: &[i32]) -> Result<Vec<i32>, Refusal> {
    let mut pyramid = vec![0; picture.len()];
    let mut work = vec![0; picture.len()];
    write(record, picture, &mut pyramid, &mut work)?;
    Ok(pyramid)
}

/// [`write_marked`] into slices of its own: the pyramid, and its mark.
pub fn write_pyramid_marked(record: &[u8], picture: &[i32]) -> Result<(Vec<i32>, bool), Refusal> {
    let mut pyramid = vec![0; picture.len()];
    let mut work = vec![0; picture.len()];
    let marked = write_marked(record, picture, &mut pyramid, &mut work)?;
    Ok((pyramid, marked))
}

/// The listing of a record: the plan's steps, the channels that it leaves and
/// how many of them are coarse, which [`Layout::coarse`] explains.
pub fn listing(record: &[u8]) -> Result<String, Refusal> {
    let mut text = vec![0u8; LISTING_ROOM];
    let mut length = [0];
    // SAFETY: as in `rebuild`.
    answer(unsafe {
        ffi::squeeze_listing(
            record.as_ptr(),
            record.len(),
            text.as_mut_ptr(),
            text.len(),
            length.as_mut_ptr(),
            length.len(),
        )
    })?;
    let length = length[0] as usize;
    assert!(length <= LISTING_ROOM, "a listing of {length} bytes");
    text.truncate(length);
    Ok(String::from_utf8(text).expect("a listing is plain text"))
}

fn answer(number: u32) -> Result<(), Refusal> {
    match Refusal::from_number(number) {
        _ if number == 0 => Ok(()),
        Some(refusal) => Err(refusal),
        None => panic!("the core answered {number}, which is no refusal"),
    }
}

/// A mark as the core gives it.
fn marked([number]: [u32; 1]) -> bool {
    match number {
        0 | 1 => number == 1,
        _ => panic!("the core gave {number} for a mark"),
    }
}
