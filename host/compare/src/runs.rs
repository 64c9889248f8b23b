//! Plan run and writer, compared.

use crate::guard::Lent;
use crate::random::Random;
use crate::{expect, lists, must, number, raw, Compared, Outcome, Tally};
use squeeze::Refusal;
use squeeze_model::{list, record, refusal, run};

/// One call of the plan run or of the writer.
#[derive(Clone, Copy)]
pub struct Run<'a> {
    /// The plan run; else the writer.
    pub back: bool,
    /// The record.
    pub record: &'a [u8],
    /// The slice that is read.
    pub input: &'a [i32],
    /// The output slice before the call.
    pub output: &'a [i32],
    /// The work slice before the call.
    pub work: &'a [i32],
}

type Plain = fn(&[u8], &[i32], &mut [i32], &mut [i32]) -> Result<(), Refusal>;
type Marked = fn(&[u8], &[i32], &mut [i32], &mut [i32]) -> Result<bool, Refusal>;

/// What the model answers, and the slices that it leaves.
struct Expected {
    answer: u32,
    output: Vec<i32>,
    work: Vec<i32>,
    mark: Vec<u32>,
}

impl Expected {
    /// The mark; a refused call has none.
    fn marked(&self) -> Option<bool> {
        (self.answer == 0).then(|| self.mark[0] == 1)
    }

    fn outcome(self) -> Outcome {
        Outcome {
            answer: self.answer,
            marked: self.marked().unwrap_or(false),
            output: self.output,
        }
    }
}

impl Run<'_> {
    /// Calls both sides, without a mark and with one, and compares.
    pub fn compare(&self) -> Compared {
        let expected = self.model(&[0xeeee_eeee]);
        let (unmarked, marked): (Plain, Marked) = match self.back {
            true => (squeeze::rebuild, squeeze::rebuild_marked),
            false => (squeeze::write, squeeze::write_marked),
        };
        self.compare_call(&expected, |record, input, output, work| {
            number(&unmarked(record, input, output, work))
        })?;
        let mut mark = None;
        self.compare_call(&expected, |record, input, output, work| {
            let answer = marked(record, input, output, work);
            mark = answer.ok();
            number(&answer)
        })?;
        expect(mark == expected.marked(), || {
            let marks = format!("marked {mark:?}, model {:?}; ", expected.marked());
            marks + &self.difference(expected.answer, expected.answer)
        })?;
        Ok(expected.outcome())
    }

    /// The marked C function with so many numbers for the mark.
    pub fn compare_room(&self, numbers: usize) -> Compared {
        let before = vec![0xeeee_eeee; numbers];
        let expected = self.model(&before);
        let mut mark = Lent::new(&before, 0x5a5a_000c);
        self.compare_call(&expected, |record, input, output, work| {
            raw::run_marked(self.back, record, input, output, work, mark.slice_mut())
        })?;
        let kept = expected.answer == 0 || mark.holds(&before);
        expect(mark.holds(&expected.mark) && kept, || {
            let marks = format!("mark {:?}, model {:?}; ", mark.slice(), expected.mark);
            marks + &self.difference(expected.answer, expected.answer)
        })?;
        Ok(expected.outcome())
    }

    /// One call of the core, which is lent every slice between guards.
    fn compare_call(
        &self,
        expected: &Expected,
        call: impl FnOnce(&[u8], &[i32], &mut [i32], &mut [i32]) -> u32,
    ) -> Result<(), String> {
        let record = Lent::new(self.record, 0xa5);
        let input = Lent::new(self.input, 0x5a5a_0001);
        let mut output = Lent::new(self.output, 0x5a5a_0002);
        let mut work = Lent::new(self.work, 0x5a5a_0003);
        let answer = call(
            record.slice(),
            input.slice(),
            output.slice_mut(),
            work.slice_mut(),
        );
        let same = answer == expected.answer
            && record.holds(self.record)
            && input.holds(self.input)
            && output.holds(&expected.output)
            && work.holds(&expected.work);
        expect(same, || self.difference(answer, expected.answer))?;
        self.check_promises(answer, output.slice(), work.slice())
    }

    fn model(&self, mark: &[u32]) -> Expected {
        let mut output = self.output.to_vec();
        let mut work = self.work.to_vec();
        let mut mark = mark.to_vec();
        let call = match self.back {
            true => run::rebuild_marked,
            false => run::write_marked,
        };
        let answer = call(self.record, self.input, &mut output, &mut work, &mut mark);
        Expected {
            answer,
            output,
            work,
            mark,
        }
    }

    /// What holds of every call, whatever the model says.
    fn check_promises(&self, answer: u32, output: &[i32], work: &[i32]) -> Result<(), String> {
        let kept = output == self.output && work == self.work;
        let zero = work.iter().all(|&sample| sample == 0);
        let promise = if answer == 0 { zero } else { kept };
        expect(promise, || self.difference(answer, answer))
    }

    fn difference(&self, answer: u32, expected: u32) -> String {
        format!(
            "{}: core {answer}, model {expected}; record {:02x?}, {} in, {} out, {} work, input {:?}",
            if self.back { "rebuild" } else { "write" },
            self.record,
            self.input.len(),
            self.output.len(),
            self.work.len(),
            &self.input[..self.input.len().min(64)],
        )
    }
}

/// Both directions on one accepted record and slices of the right length: the
/// writer on `samples` and back, the plan run on `samples` and forward again. Both
/// runs of a round trip have one mark.
pub fn round_trips(record: &[u8], samples: &[i32]) -> Result<(), String> {
    for back in [false, true] {
        let there = run_both(back, record, samples)?;
        let here = run_both(!back, record, &there.output)?;
        let accepted = there.answer == 0 && here.answer == 0;
        let same = here.output == samples && here.marked == there.marked;
        expect(accepted && same, || {
            format!("round trip, back first: {back}; record {record:02x?}")
        })?;
    }
    Ok(())
}

fn run_both(back: bool, record: &[u8], input: &[i32]) -> Compared {
    let output = vec![0x1111_1111; input.len()];
    let work = vec![-3; input.len()];
    Run {
        back,
        record,
        input,
        output: &output,
        work: &work,
    }
    .compare()
}

/// Listing, plan run and writer on one record. An accepted record of up to
/// `largest` samples makes both round trips with samples from `random`; any
/// other is run with slices of a few samples. Gives the listing's answer.
pub fn every_function(random: &mut Random, record: &[u8], largest: usize) -> Result<u32, String> {
    let answer = lists::compare(record)?;
    let samples = match record::judge(record) {
        Ok(plan) => list::total(plan.layout()),
        Err(_) => 3,
    };
    if answer == 0 && samples <= largest {
        round_trips(record, &random.samples(samples))?;
        return Ok(0);
    }
    let length = samples.min(largest);
    for back in [false, true] {
        let outcome = run_both(back, record, &random.samples(length))?;
        let expected = if answer == 0 { refusal::LENGTH } else { answer };
        expect(outcome.answer == expected, || {
            format!(
                "listing {answer}, run {}; record {record:02x?}",
                outcome.answer
            )
        })?;
    }
    Ok(answer)
}

/// Every function on the record of each row, which must be answered as the row
/// says, for the reason beside it; gives the answers met.
pub fn rows(seed: u64, largest: usize, rows: &[(Vec<u8>, u32, &str)]) -> Tally {
    let (mut random, mut tally) = (Random::new(seed), Tally::default());
    for (record, expected, why) in rows {
        let answer = must(every_function(&mut random, record, largest));
        assert_eq!(answer, *expected, "{why}");
        tally.add(answer);
    }
    tally
}

/// Every function on a record of these fields, cut at every byte: after so many whole
/// fields it is another record, answered so, and anywhere else refused with 1. Gives
/// the answers met.
pub fn cuts(seed: u64, largest: usize, fields: &[Vec<u8>], answers: &[u32]) -> Tally {
    let ends = (0..=fields.len()).map(|number| fields[..number].concat().len());
    let ends: Vec<usize> = ends.collect();
    assert_eq!(ends.len(), answers.len(), "an answer for each end");
    let whole = fields.concat();
    let (mut random, mut tally) = (Random::new(seed), Tally::default());
    for length in 0..=whole.len() {
        let at = ends.iter().position(|&end| end == length);
        let expected = at.map_or(refusal::CUT_FIELD, |at| answers[at]);
        let answer = must(every_function(&mut random, &whole[..length], largest));
        assert_eq!(answer, expected, "{length} bytes");
        tally.add(answer);
    }
    tally
}
