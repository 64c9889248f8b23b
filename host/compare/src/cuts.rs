//! Squeezes cut into tiles as in document 01, beside the uncut ones.

use crate::must;
use crate::random::Random;
use crate::tiles::Tile;
use crate::Outcome;

/// Width and height.
pub type Size = (usize, usize);

/// The sizes of averages, residuals and output that fit an output rectangle.
pub fn fitting(horizontal: bool, (w, h): Size) -> [Size; 3] {
    if horizontal {
        [(w - w / 2, h), (w / 2, h), (w, h)]
    } else {
        [(w, h - h / 2), (w, h / 2), (w, h)]
    }
}

/// Draws that many samples.
pub type Draw = fn(&mut Random, usize) -> Vec<i32>;

/// A squeeze to be cut: sizes are the output's along and across.
pub struct Uncut {
    /// Along the rows.
    pub horizontal: bool,
    /// The output's side along the squeeze.
    pub along: usize,
    /// The output's side across it.
    pub across: usize,
    avg: Vec<i32>,
    residual: Vec<i32>,
    next: Vec<i32>,
    prev: Vec<i32>,
}

/// Samples of lines `along` by `across` of a rectangle with these strides.
fn part(
    from: &[i32],
    strides: Size,
    along: [usize; 2],
    across: [usize; 2],
    rows: bool,
) -> Vec<i32> {
    let mut out = Vec::new();
    let (outer, inner) = if rows {
        (across, along)
    } else {
        (along, across)
    };
    for o in outer[0]..outer[1] {
        for i in inner[0]..inner[1] {
            let (l, c) = if rows { (i, o) } else { (o, i) };
            out.push(from[l * strides.0 + c * strides.1]);
        }
    }
    out
}

impl Uncut {
    /// One with up to 40 samples along and 30 across.
    pub fn random(random: &mut Random, draw: Draw) -> Uncut {
        let (along, across) = (1 + random.below(40), 1 + random.below(30));
        let horizontal = random.once_in(2);
        Uncut::of_sides(random, draw, horizontal, along, across)
    }

    /// One of these sides, with outer lines or without.
    pub fn of_sides(
        random: &mut Random,
        draw: Draw,
        horizontal: bool,
        along: usize,
        across: usize,
    ) -> Uncut {
        let outer = |random: &mut Random| {
            let length = if random.once_in(2) { across } else { 0 };
            draw(random, length)
        };
        Uncut {
            horizontal,
            along,
            across,
            avg: draw(random, (along - along / 2) * across),
            residual: draw(random, along / 2 * across),
            next: outer(random),
            prev: outer(random),
        }
    }

    fn size(&self, along: usize, across: usize) -> Size {
        if self.horizontal {
            (along, across)
        } else {
            (across, along)
        }
    }

    /// Steps along and across in a rectangle that is `along` by the whole width.
    fn strides(&self, along: usize) -> Size {
        if self.horizontal {
            (1, along)
        } else {
            (self.across, 1)
        }
    }

    fn call(&self, sizes: [Size; 3], inputs: [&[i32]; 4], out: &[i32]) -> Outcome {
        let horizontal = self.horizontal.into();
        let tile = Tile {
            horizontal,
            sizes,
            inputs,
            out,
        };
        let outcome = must(tile.compare());
        assert_eq!(outcome.answer, 0);
        outcome
    }

    /// The uncut squeeze.
    pub fn whole(&self) -> Outcome {
        let sizes = fitting(self.horizontal, self.size(self.along, self.across));
        let inputs = [&self.avg[..], &self.residual, &self.next, &self.prev];
        self.call(sizes, inputs, &vec![-9; self.along * self.across])
    }

    /// The strip from `a` to `b` across, tile by tile along `cuts`, which are
    /// even apart from the last.
    fn strip(&self, random: &mut Random, across: [usize; 2], cuts: &[usize]) -> Vec<Outcome> {
        let rows = self.horizontal;
        let (averages, residuals) = (self.along - self.along / 2, self.along / 2);
        let outer = |line: &[i32]| line.get(across[0]..across[1]).unwrap_or(&[]).to_vec();
        let average = |from: usize, to: usize| {
            part(&self.avg, self.strides(averages), [from, to], across, rows)
        };
        let mut prev = outer(&self.prev);
        let mut tiles = Vec::new();
        for ends in cuts.windows(2) {
            let ([r0, r1], [a0, a1]) = (
                [ends[0] / 2, ends[1] / 2],
                [ends[0] / 2, ends[1].div_ceil(2)],
            );
            let next = if ends[1] == self.along {
                outer(&self.next)
            } else {
                average(a1, a1 + 1)
            };
            let avg = average(a0, a1);
            let residual = part(
                &self.residual,
                self.strides(residuals),
                [r0, r1],
                across,
                rows,
            );
            let width = across[1] - across[0];
            let sizes = fitting(rows, self.size(ends[1] - ends[0], width));
            let before = random.samples((ends[1] - ends[0]) * width);
            let inputs = [&avg[..], &residual, &next, &prev];
            let outcome = self.call(sizes, inputs, &before);
            let out = &outcome.output;
            self.refused_call(sizes, inputs, out);
            let length = ends[1] - ends[0];
            let strides = if rows { (1, length) } else { (width, 1) };
            prev = part(out, strides, [length - 1, length], [0, width], rows);
            tiles.push(outcome);
        }
        tiles
    }

    /// A refused call between the others writes nothing.
    fn refused_call(&self, sizes: [Size; 3], inputs: [&[i32]; 4], out: &[i32]) {
        let mut wrong = sizes;
        wrong[1].0 += 7;
        let tile = Tile {
            horizontal: self.horizontal.into(),
            sizes: wrong,
            inputs,
            out,
        };
        let outcome = must(tile.compare());
        assert_eq!((outcome.answer, &outcome.output[..]), (13, out));
        assert!(!outcome.marked);
    }
}

/// Ends of parts of a side, each part a multiple of `unit` apart from the last.
pub fn cuts(random: &mut Random, side: usize, unit: usize) -> Vec<usize> {
    let mut ends = vec![0];
    let mut end = 0;
    while end < side {
        end += unit * (1 + random.below(9));
        ends.push(end.min(side));
    }
    ends
}

/// The tiles of a strip against the whole squeeze's output; gives whether each is
/// marked.
pub fn check_strip(
    random: &mut Random,
    uncut: &Uncut,
    whole: &Outcome,
    across: [usize; 2],
    ends: &[usize],
) -> Vec<bool> {
    let tiles = uncut.strip(random, across, ends);
    for (along, tile) in ends.windows(2).zip(&tiles) {
        let strides = uncut.strides(uncut.along);
        let along = [along[0], along[1]];
        let expected = part(&whole.output, strides, along, across, uncut.horizontal);
        assert!(tile.output == expected, "{along:?}, {across:?}");
    }
    tiles.iter().map(|tile| tile.marked).collect()
}

/// The squeeze cut at random, across and along, against the uncut one, which is marked
/// exactly if some tile is; gives whether each tile is marked.
pub fn check_cut(random: &mut Random, uncut: &Uncut) -> Vec<bool> {
    let whole = uncut.whole();
    let mut marks = Vec::new();
    for across in cuts(random, uncut.across, 1).windows(2) {
        let ends = cuts(random, uncut.along, 2);
        let across = [across[0], across[1]];
        marks.extend(check_strip(random, uncut, &whole, across, &ends));
    }
    assert_eq!(marks.contains(&true), whole.marked, "marks of tiles");
    marks
}
