//! Reads and writes outside a lent slice: every slice ends, or begins, at a page
//! that can't be touched, so one element too far ends the program.

#![cfg(target_os = "linux")]

use squeeze::{Size, TileSizes};
use squeeze_compare::parts::{self, Parts};
use squeeze_compare::random::Random;
use squeeze_compare::{layouts, number, raw, records, rects, Tally};
use squeeze_model::{layout, list, listing, marks, record, record_writer, run, tile};
use std::ffi::c_void;
use std::ptr;

extern "C" {
    fn mmap(at: *mut c_void, len: usize, prot: i32, flags: i32, fd: i32, off: i64) -> *mut c_void;
    fn mprotect(at: *mut c_void, len: usize, prot: i32) -> i32;
    fn munmap(at: *mut c_void, len: usize) -> i32;
}

/// Holds for pages of up to 64 KiB.
const PAGE: usize = 1 << 16;

/// Memory between two pages that can't be touched.
struct Fenced {
    base: *mut u8,
    room: usize,
}

impl Fenced {
    fn new(bytes: usize) -> Fenced {
        let room = bytes.div_ceil(PAGE).max(1) * PAGE;
        let whole = room + 2 * PAGE;
        // SAFETY: new private memory; the protected pages are inside it.
        unsafe {
            let base = mmap(ptr::null_mut(), whole, 3, 0x22, -1, 0).cast::<u8>();
            assert_ne!(base as isize, -1, "mmap");
            assert_eq!(mprotect(base.cast(), PAGE, 0), 0);
            assert_eq!(mprotect(base.add(PAGE + room).cast(), PAGE, 0), 0);
            Fenced { base, room }
        }
    }

    /// `contents` at the end of the memory, or at its beginning.
    fn lend<T: Copy>(&mut self, contents: &[T], at_end: bool) -> &mut [T] {
        let bytes = size_of_val(contents);
        assert!(bytes <= self.room);
        let skip = if at_end { self.room - bytes } else { 0 };
        // SAFETY: inside the memory, and aligned, as pages are and sizes are
        // multiples of T's.
        unsafe {
            let start = self.base.add(PAGE + skip).cast::<T>();
            ptr::copy_nonoverlapping(contents.as_ptr(), start, contents.len());
            std::slice::from_raw_parts_mut(start, contents.len())
        }
    }
}

impl Drop for Fenced {
    fn drop(&mut self) {
        // SAFETY: what `new` mapped.
        unsafe { munmap(self.base.cast(), self.room + 2 * PAGE) };
    }
}

fn fences<const N: usize>() -> [Fenced; N] {
    [(); N].map(|()| Fenced::new(1 << 18))
}

#[test]
fn whole_runs() {
    let mut random = Random::new(91);
    let [mut f0, mut f1, mut f2, mut f3] = fences();
    let mut accepted = 0;
    for k in 0..20_000 {
        let bytes = records::some(&mut random);
        let samples = some_samples(&bytes);
        let input = random.samples(samples);
        let end = k % 2 == 0;
        let lent = f0.lend(&bytes, end);
        let read = f1.lend(&input, end);
        let (out, work) = (f2.lend(&input, end), f3.lend(&input, end));
        let (mut model_out, mut model_work) = (input.clone(), input.clone());
        let (answer, expected) = if k % 4 < 2 {
            let model = run::rebuild(&bytes, &input, &mut model_out, &mut model_work);
            (squeeze::rebuild(lent, read, out, work), model)
        } else {
            let model = run::write(&bytes, &input, &mut model_out, &mut model_work);
            (squeeze::write(lent, read, out, work), model)
        };
        assert_eq!(number(&answer), expected, "{bytes:02x?}");
        assert!(out == model_out && work == model_work);
        accepted += u32::from(expected == 0);
    }
    assert!(accepted > 2_000);
}

/// The samples of a record, up to some thousands; a few for a refused one.
fn some_samples(record: &[u8]) -> usize {
    match record::judge(record) {
        Ok(plan) => list::total(plan.layout()).min(1 << 14),
        Err(_) => 5,
    }
}

/// With one number for the mark, or none.
#[test]
fn marked_runs() {
    let mut random = Random::new(97);
    let [mut f0, mut f1, mut f2, mut f3, mut f4] = fences();
    let mut marks = [0; 2];
    for k in 0..20_000 {
        let bytes = records::some(&mut random);
        let input = random.near_plain(some_samples(&bytes));
        let (back, end) = (k % 4 < 2, k % 2 == 0);
        let mut model_mark = vec![9; random.pick(&[0, 1, 1, 1])];
        let lent = f0.lend(&bytes, end);
        let read = f1.lend(&input, end);
        let (out, work) = (f2.lend(&input, end), f3.lend(&input, end));
        let mark = f4.lend(&model_mark, end);
        let (mut model_out, mut model_work) = (input.clone(), input.clone());
        let model = match back {
            true => run::rebuild_marked,
            false => run::write_marked,
        };
        let answer = raw::run_marked(back, lent, read, out, work, mark);
        let expected = model(
            &bytes,
            &input,
            &mut model_out,
            &mut model_work,
            &mut model_mark,
        );
        assert_eq!(answer, expected, "{bytes:02x?}");
        assert!(out == model_out && work == model_work && mark == model_mark);
        if answer == 0 {
            marks[mark[0] as usize] += 1;
        }
    }
    assert!(marks.iter().all(|&number| number > 500), "{marks:?}");
}

#[test]
fn listings() {
    let (mut random, mut tally) = (Random::new(93), Tally::default());
    let [mut f0, mut f1, mut f2] = fences();
    for k in 0..20_000 {
        let end = k % 2 == 0;
        let bytes = records::some(&mut random);
        let room = listing::listing(&bytes).map_or(9, |text| text.len()) - random.below(2);
        let (mut model_text, mut model_length) = (vec![b'#'; room], [9]);
        let lent = f0.lend(&bytes, end);
        let text = f1.lend(&model_text, end);
        let length = f2.lend(&model_length, end);
        let answer = raw::listing(lent, text, length);
        let expected = listing::list_record(&bytes, &mut model_text, &mut model_length);
        assert_eq!(answer, expected, "{bytes:02x?}");
        assert!(text == model_text && length == model_length);
        tally.add(answer);
    }
    assert_eq!(tally.met(), (0..13).collect::<Vec<_>>());
}

/// Each slice of just its length, or one of them a number too short.
#[test]
fn layouts() {
    let (mut random, mut tally) = (Random::new(96), Tally::default());
    let [mut f0, mut f1, mut f2, mut f3, mut f4] = fences();
    for k in 0..20_000 {
        let end = k % 2 == 0;
        let bytes = records::some(&mut random);
        let mut room = layouts::need(&bytes);
        let short = random.below(4);
        room[short] = room[short].saturating_sub(random.below(2));
        let mut model = room.map(|numbers| vec![7; numbers]);
        let counts = f1.lend(&model[0], end);
        let steps = f2.lend(&model[1], end);
        let channels = f3.lend(&model[2], end);
        let origins = f4.lend(&model[3], end);
        let record = f0.lend(&bytes, end);
        let answer = squeeze::layout_numbers(record, counts, steps, channels, origins);
        let expected = layout::layout(&bytes, model.each_mut().map(Vec::as_mut_slice));
        assert_eq!(number(&answer), expected, "{bytes:02x?}");
        assert!([counts, steps, channels, origins] == model);
        tally.add(expected);
    }
    assert_eq!(tally.met(), (0..13).collect::<Vec<_>>());
}

#[test]
fn records_of_numbers() {
    let (mut random, mut tally) = (Random::new(94), Tally::default());
    let [mut f0, mut f1, mut f2, mut f3] = fences();
    for k in 0..20_000 {
        let end = k % 2 == 0;
        let parts = parts::some(&mut random);
        let room = parts.bytes();
        let Parts {
            version,
            channels,
            steps,
        } = parts;
        let room = room.saturating_sub(random.below(2));
        let (mut model_record, mut model_length) = (vec![7; room], [9]);
        let record = f2.lend(&model_record, end);
        let length = f3.lend(&model_length, end);
        let answer = raw::record(
            version,
            f0.lend(&channels, end),
            f1.lend(&steps, end),
            record,
            length,
        );
        let expected = record_writer::write_record(
            version,
            &channels,
            &steps,
            &mut model_record,
            &mut model_length,
        );
        assert_eq!(answer, expected, "{version} {channels:?} {steps:?}");
        assert!(record == model_record && length == model_length);
        tally.add(answer);
    }
    assert_eq!(tally.met(), [0, 3, 4, 5, 6, 7, 8, 9, 10, 11, 12]);
}

#[test]
fn rectangles() {
    let mut random = Random::new(95);
    let [mut fence] = fences();
    for k in 0..20_000 {
        let query = squeeze::GridQuery {
            width: random.below(1_100_000) as u32,
            height: random.below(1_100_000) as u32,
            hshift: random.below(32) as u8,
            vshift: random.below(9) as u8,
            output: squeeze::Kind(random.below(3) as u8),
            stored: squeeze::Kind(random.below(3) as u8),
            group: random.pick(&[128, 256, 512, 1024]),
            gx: random.below(600) as u16,
            gy: random.below(40) as u16,
        };
        let numbers = random.pick(&[0, 3, 4, 4, 4, 4, 5]);
        let rect = fence.lend(&vec![7; numbers], k % 2 == 0);
        let answer = raw::grid_rect(&query, rect);
        assert_eq!(Ok(answer), rects::compare(&query, numbers));
    }
}

#[test]
fn tiles() {
    let mut random = Random::new(92);
    let [mut f0, mut f1, mut f2, mut f3, mut f4, mut f5] = fences();
    let mut marks_met = [0; 2];
    for k in 0..20_000 {
        let end = k % 2 == 0;
        let horizontal = random.once_in(2);
        let (width, height) = (random.below(40), random.below(40));
        let sizes = TileSizes::of_output(horizontal, Size { width, height });
        let across = if horizontal { height } else { width };
        let line = |random: &mut Random| random.pick(&[0, across]);
        let area = |size: Size| size.width * size.height;
        let lengths = [
            area(sizes.avg),
            area(sizes.residual),
            line(&mut random),
            line(&mut random),
        ];
        let [avg, residual, next, prev] = lengths.map(|n| match k % 3 {
            0 => random.samples(n),
            _ => random.near_plain(n),
        });
        let mut model_out = vec![3; width * height];
        let out = f4.lend(&model_out, end);
        let inputs = [
            &*f0.lend(&avg, end),
            f1.lend(&residual, end),
            f2.lend(&next, end),
            f3.lend(&prev, end),
        ];
        let [lent_avg, lent_residual, lent_next, lent_prev] = inputs;
        let answer = squeeze::tile(&sizes, lent_avg, lent_residual, lent_next, lent_prev, out);
        assert_eq!(answer, Ok(()));
        let model_sizes = tile::Sizes {
            horizontal,
            avg: (sizes.avg.width, sizes.avg.height),
            residual: (sizes.residual.width, sizes.residual.height),
            output: (width, height),
        };
        tile::tile(&model_sizes, &avg, &residual, &next, &prev, &mut model_out);
        assert!(out == model_out);
        let all = [model_sizes.avg, model_sizes.residual, model_sizes.output];
        let mark = f5.lend(&[9], end);
        out.fill(3);
        assert_eq!(
            raw::tile_marked(horizontal.into(), all, inputs, out, mark),
            0
        );
        assert!(out == model_out);
        let expected = marks::tile_back(&model_sizes, &avg, &residual, &next, &prev);
        assert_eq!(mark, [expected.into()]);
        marks_met[usize::from(expected)] += 1;
    }
    assert!(
        marks_met.iter().all(|&number| number > 1_000),
        "{marks_met:?}"
    );
}
