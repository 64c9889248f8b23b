//! The ten functions of `include/squeeze.h`. Each asks for aligned pointers and
//! for slices that don't overlap, an empty slice for any pointer, null among
//! them; nothing else. Each answers 0 or the number of a refusal. Public for the
//! comparisons, which pass what the safe functions can't express.

extern "C" {
    pub fn squeeze_rebuild(
        record: *const u8,
        record_len: usize,
        pyramid: *const i32,
        pyramid_len: usize,
        picture: *mut i32,
        picture_len: usize,
        work: *mut i32,
        work_len: usize,
    ) -> u32;

    pub fn squeeze_rebuild_marked(
        record: *const u8,
        record_len: usize,
        pyramid: *const i32,
        pyramid_len: usize,
        picture: *mut i32,
        picture_len: usize,
        work: *mut i32,
        work_len: usize,
        mark: *mut u32,
        mark_len: usize,
    ) -> u32;

    pub fn squeeze_write(
        record: *const u8,
        record_len: usize,
        picture: *const i32,
        picture_len: usize,
        pyramid: *mut i32,
        pyramid_len: usize,
        work: *mut i32,
        work_len: usize,
    ) -> u32;

    pub fn squeeze_write_marked(
        record: *const u8,
        record_len: usize,
        picture: *const i32,
        picture_len: usize,
        pyramid: *mut i32,
        pyramid_len: usize,
        work: *mut i32,
        work_len: usize,
        mark: *mut u32,
        mark_len: usize,
    ) -> u32;

    pub fn squeeze_tile(
        horizontal: u32,
        aw: usize,
        ah: usize,
        rw: usize,
        rh: usize,
        ow: usize,
        oh: usize,
        avg: *const i32,
        avg_len: usize,
        res: *const i32,
        res_len: usize,
        next: *const i32,
        next_len: usize,
        prev: *const i32,
        prev_len: usize,
        out: *mut i32,
        out_len: usize,
    ) -> u32;

    pub fn squeeze_tile_marked(
        horizontal: u32,
        aw: usize,
        ah: usize,
        rw: usize,
        rh: usize,
        ow: usize,
        oh: usize,
        avg: *const i32,
        avg_len: usize,
        res: *const i32,
        res_len: usize,
        next: *const i32,
        next_len: usize,
        prev: *const i32,
        prev_len: usize,
        out: *mut i32,
        out_len: usize,
        mark: *mut u32,
        mark_len: usize,
    ) -> u32;

    pub fn squeeze_listing(
        record: *const u8,
        record_len: usize,
        text: *mut u8,
        text_len: usize,
        length: *mut u32,
        length_len: usize,
    ) -> u32;

    pub fn squeeze_layout(
        record: *const u8,
        record_len: usize,
        counts: *mut u32,
        counts_len: usize,
        steps: *mut u32,
        steps_len: usize,
        channels: *mut u32,
        channels_len: usize,
        origins: *mut u32,
        origins_len: usize,
    ) -> u32;

    pub fn squeeze_record(
        version: u32,
        channels: *const u32,
        channels_len: usize,
        steps: *const u32,
        steps_len: usize,
        record: *mut u8,
        record_len: usize,
        length: *mut u32,
        length_len: usize,
    ) -> u32;

    pub fn squeeze_grid_rect(
        width: u32,
        height: u32,
        hshift: u8,
        vshift: u8,
        output: u8,
        stored: u8,
        group: u32,
        gx: u16,
        gy: u16,
        rect: *mut u32,
        rect_len: usize,
    ) -> u32;
}
