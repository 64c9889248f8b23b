//! Seven of the C functions as a C program sees them, for arguments that the
//! safe functions can't express: other numbers than 0 and 1 for the direction,
//! room for the listing, for lengths and for marks, a rectangle of another length.

use squeeze::ffi::{
    squeeze_grid_rect, squeeze_listing, squeeze_rebuild_marked, squeeze_record, squeeze_tile,
    squeeze_tile_marked, squeeze_write_marked,
};

/// Averages, residuals, next line, previous line.
pub type Inputs<'a> = [&'a [i32]; 4];

/// One tile.
pub fn tile(horizontal: u32, sizes: [(usize, usize); 3], inputs: Inputs, out: &mut [i32]) -> u32 {
    let [(aw, ah), (rw, rh), (ow, oh)] = sizes;
    let [avg, res, next, prev] = inputs;
    // SAFETY: references are aligned, not null, and the mutable one overlaps nothing.
    unsafe {
        squeeze_tile(
            horizontal,
            aw,
            ah,
            rw,
            rh,
            ow,
            oh,
            avg.as_ptr(),
            avg.len(),
            res.as_ptr(),
            res.len(),
            next.as_ptr(),
            next.len(),
            prev.as_ptr(),
            prev.len(),
            out.as_mut_ptr(),
            out.len(),
        )
    }
}

/// One tile, and its mark.
pub fn tile_marked(
    horizontal: u32,
    sizes: [(usize, usize); 3],
    inputs: Inputs,
    out: &mut [i32],
    mark: &mut [u32],
) -> u32 {
    let [(aw, ah), (rw, rh), (ow, oh)] = sizes;
    let [avg, res, next, prev] = inputs;
    // SAFETY: references are aligned, not null, and mutable ones overlap nothing.
    unsafe {
        squeeze_tile_marked(
            horizontal,
            aw,
            ah,
            rw,
            rh,
            ow,
            oh,
            avg.as_ptr(),
            avg.len(),
            res.as_ptr(),
            res.len(),
            next.as_ptr(),
            next.len(),
            prev.as_ptr(),
            prev.len(),
            out.as_mut_ptr(),
            out.len(),
            mark.as_mut_ptr(),
            mark.len(),
        )
    }
}

/// The plan run, or the writer, and its mark.
pub fn run_marked(
    back: bool,
    record: &[u8],
    input: &[i32],
    output: &mut [i32],
    work: &mut [i32],
    mark: &mut [u32],
) -> u32 {
    let call = if back {
        squeeze_rebuild_marked
    } else {
        squeeze_write_marked
    };
    // SAFETY: as above.
    unsafe {
        call(
            record.as_ptr(),
            record.len(),
            input.as_ptr(),
            input.len(),
            output.as_mut_ptr(),
            output.len(),
            work.as_mut_ptr(),
            work.len(),
            mark.as_mut_ptr(),
            mark.len(),
        )
    }
}

/// A record's listing, and its length.
pub fn listing(record: &[u8], text: &mut [u8], length: &mut [u32]) -> u32 {
    // SAFETY: as above.
    unsafe {
        squeeze_listing(
            record.as_ptr(),
            record.len(),
            text.as_mut_ptr(),
            text.len(),
            length.as_mut_ptr(),
            length.len(),
        )
    }
}

/// The record of version, channels and steps, and its length.
pub fn record(
    version: u32,
    channels: &[u32],
    steps: &[u32],
    record: &mut [u8],
    length: &mut [u32],
) -> u32 {
    // SAFETY: as above.
    unsafe {
        squeeze_record(
            version,
            channels.as_ptr(),
            channels.len(),
            steps.as_ptr(),
            steps.len(),
            record.as_mut_ptr(),
            record.len(),
            length.as_mut_ptr(),
            length.len(),
        )
    }
}

/// A rectangle.
pub fn grid_rect(query: &squeeze::GridQuery, rect: &mut [u32]) -> u32 {
    // SAFETY: as above.
    unsafe {
        squeeze_grid_rect(
            query.width,
            query.height,
            query.hshift,
            query.vshift,
            query.output.0,
            query.stored.0,
            query.group,
            query.gx,
            query.gy,
            rect.as_mut_ptr(),
            rect.len(),
        )
    }
}
