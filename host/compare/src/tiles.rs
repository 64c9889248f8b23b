//! Tile calls, compared.

use crate::guard::Lent;
use crate::{expect, number, raw, Compared, Outcome};
use squeeze_model::tile;

/// One tile call.
#[derive(Clone, Copy, Debug)]
pub struct Tile<'a> {
    /// Horizontal unless 0.
    pub horizontal: u32,
    /// Width and height of averages, residuals and output.
    pub sizes: [(usize, usize); 3],
    /// Averages, residuals, next line, previous line.
    pub inputs: [&'a [i32]; 4],
    /// The output slice before the call.
    pub out: &'a [i32],
}

/// What the model answers, and the slices that it leaves.
struct Expected {
    answer: u32,
    out: Vec<i32>,
    mark: Vec<u32>,
}

impl Expected {
    /// The mark; a refused call has none.
    fn marked(&self) -> Option<bool> {
        (self.answer == 0).then(|| self.mark[0] == 1)
    }

    fn outcome(self) -> Outcome {
        Outcome {
            answer: self.answer,
            marked: self.marked().unwrap_or(false),
            output: self.out,
        }
    }
}

impl Tile<'_> {
    /// Calls both sides, without a mark and with one, and compares.
    pub fn compare(&self) -> Compared {
        let expected = self.model(&[0xeeee_eeee]);
        self.compare_call("C function", &expected, |inputs, out| {
            raw::tile(self.horizontal, self.sizes, inputs, out)
        })?;
        let sizes = self.safe_sizes();
        self.compare_call(
            "safe function",
            &expected,
            |[avg, residual, next, prev], out| {
                number(&squeeze::tile(&sizes, avg, residual, next, prev, out))
            },
        )?;
        let mut mark = None;
        self.compare_call(
            "marked function",
            &expected,
            |[avg, residual, next, prev], out| {
                let answer = squeeze::tile_marked(&sizes, avg, residual, next, prev, out);
                mark = answer.ok();
                number(&answer)
            },
        )?;
        expect(mark == expected.marked(), || {
            format!(
                "tile: marked {mark:?}, model {:?}; {self:?}",
                expected.marked()
            )
        })?;
        Ok(expected.outcome())
    }

    /// The marked C function with so many numbers for the mark.
    pub fn compare_room(&self, numbers: usize) -> Compared {
        let before = vec![0xeeee_eeee; numbers];
        let expected = self.model(&before);
        let mut mark = Lent::new(&before, 0x5a5a_000d);
        self.compare_call("marked C function", &expected, |inputs, out| {
            raw::tile_marked(self.horizontal, self.sizes, inputs, out, mark.slice_mut())
        })?;
        let kept = expected.answer == 0 || mark.holds(&before);
        expect(mark.holds(&expected.mark) && kept, || {
            let (ours, model) = (mark.slice(), &expected.mark);
            format!("tile: mark {ours:?}, model {model:?}; {self:?}")
        })?;
        Ok(expected.outcome())
    }

    /// One call of the core, which is lent every slice between guards.
    fn compare_call(
        &self,
        which: &str,
        expected: &Expected,
        call: impl FnOnce(raw::Inputs, &mut [i32]) -> u32,
    ) -> Result<(), String> {
        let lent = self.inputs.map(|slice| Lent::new(slice, 0x5a5a_0004));
        let mut out = Lent::new(self.out, 0x5a5a_0005);
        let answer = call(lent.each_ref().map(Lent::slice), out.slice_mut());
        let mut both = lent.iter().zip(self.inputs);
        let kept = both.all(|(lent, before)| lent.holds(before));
        let same = answer == expected.answer && kept && out.holds(&expected.out);
        let promise = answer == 0 || out.holds(self.out);
        expect(same && promise, || {
            format!(
                "tile, {which}: core {answer}, model {}; {self:?}, left {:?}",
                expected.answer,
                out.slice()
            )
        })
    }

    fn model(&self, mark: &[u32]) -> Expected {
        let [avg, residual, output] = self.sizes;
        let sizes = tile::Sizes {
            horizontal: self.horizontal != 0,
            avg,
            residual,
            output,
        };
        let [avg, residual, next, prev] = self.inputs;
        let (mut out, mut mark) = (self.out.to_vec(), mark.to_vec());
        let answer = tile::tile_marked(&sizes, avg, residual, next, prev, &mut out, &mut mark);
        Expected { answer, out, mark }
    }

    fn safe_sizes(&self) -> squeeze::TileSizes {
        let size = |(width, height)| squeeze::Size { width, height };
        squeeze::TileSizes {
            horizontal: self.horizontal != 0,
            avg: size(self.sizes[0]),
            residual: size(self.sizes[1]),
            output: size(self.sizes[2]),
        }
    }
}
