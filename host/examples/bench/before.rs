//! Whole runs and tile calls of an earlier commit's archive, where `SQUEEZE_BEFORE_DIR`
//! named one when this was built.

use squeeze::TileSizes;

/// A record, the slice that is read, the slice that is filled, the work slice. Gives
/// the answer: an earlier core may not know the record's fields.
pub type Run = fn(&[u8], &[i32], &mut [i32], &mut [i32]) -> u32;

/// Sizes, averages, residuals and the output, without outer lines.
pub type Tile = fn(&TileSizes, &[i32], &[i32], &mut [i32]) -> u32;

#[cfg(squeeze_before)]
mod archive {
    use squeeze::TileSizes;

    macro_rules! run {
        ($name:ident, $function:ident) => {
            pub fn $name(record: &[u8], from: &[i32], to: &mut [i32], work: &mut [i32]) -> u32 {
                extern "C" {
                    fn $function(
                        record: *const u8,
                        record_len: usize,
                        from: *const i32,
                        from_len: usize,
                        to: *mut i32,
                        to_len: usize,
                        work: *mut i32,
                        work_len: usize,
                    ) -> u32;
                }
                // SAFETY: pointers and lengths are those of slices.
                unsafe {
                    $function(
                        record.as_ptr(),
                        record.len(),
                        from.as_ptr(),
                        from.len(),
                        to.as_mut_ptr(),
                        to.len(),
                        work.as_mut_ptr(),
                        work.len(),
                    )
                }
            }
        };
    }

    run!(rebuild, before_rebuild);
    run!(write, before_write);

    pub fn tile(sizes: &TileSizes, avg: &[i32], residual: &[i32], out: &mut [i32]) -> u32 {
        extern "C" {
            fn before_tile(
                horizontal: u32,
                aw: usize,
                ah: usize,
                rw: usize,
                rh: usize,
                ow: usize,
                oh: usize,
                avg: *const i32,
                avg_len: usize,
                res: *const i32,
                res_len: usize,
                next: *const i32,
                next_len: usize,
                prev: *const i32,
                prev_len: usize,
                out: *mut i32,
                out_len: usize,
            ) -> u32;
        }
        let none: &[i32] = &[];
        // SAFETY: as above.
        unsafe {
            before_tile(
                sizes.horizontal.into(),
                sizes.avg.width,
                sizes.avg.height,
                sizes.residual.width,
                sizes.residual.height,
                sizes.output.width,
                sizes.output.height,
                avg.as_ptr(),
                avg.len(),
                residual.as_ptr(),
                residual.len(),
                none.as_ptr(),
                0,
                none.as_ptr(),
                0,
                out.as_mut_ptr(),
                out.len(),
            )
        }
    }
}

#[cfg(squeeze_before)]
pub const RUNS: Option<[Run; 2]> = Some([archive::rebuild, archive::write]);
#[cfg(squeeze_before)]
pub const TILE: Option<Tile> = Some(archive::tile);

#[cfg(not(squeeze_before))]
pub const RUNS: Option<[Run; 2]> = None;
#[cfg(not(squeeze_before))]
pub const TILE: Option<Tile> = None;
