//! The ways in which calls meet something that a change brought, counted: so that a
//! test can say that its inputs met them all.

use squeeze_model::{record, refusal};

/// How often each way was met.
pub struct Ways<W: 'static> {
    known: &'static [(W, &'static str)],
    times: Vec<u64>,
}

impl<W: Copy + PartialEq> Ways<W> {
    /// None met yet, of these, which a report calls so.
    pub fn new(known: &'static [(W, &'static str)]) -> Ways<W> {
        Ways {
            known,
            times: vec![0; known.len()],
        }
    }

    /// Counts the ways of a call.
    pub fn add(&mut self, ways: impl IntoIterator<Item = W>) {
        for way in ways {
            let at = self.known.iter().position(|known| known.0 == way);
            self.times[at.expect("every way is listed")] += 1;
        }
    }

    /// The ways that were never met.
    pub fn never_met(&self) -> Vec<W> {
        let ways = self.known.iter().zip(&self.times);
        let never = ways.filter(|(_, times)| **times == 0);
        never.map(|((way, _), _)| *way).collect()
    }

    /// Prints what each way is called, and how often it was met.
    pub fn print(&self) {
        for ((_, name), times) in self.known.iter().zip(&self.times) {
            println!("{times:>8} {name}");
        }
    }
}

/// The field at which a record is refused with `answer`, or what is left of a cut
/// one, and where it begins; none where the end lacks something.
pub(crate) fn refused_field(bytes: &[u8], answer: u32) -> Option<(usize, &[u8])> {
    // Where only a channel is missing as yet, one more is not refused with 3.
    let more: &[u8] = match answer {
        refusal::COUNT => &[1, 6, 0, 1, 0, 1, 0, 0, 0],
        _ => &[],
    };
    let mut start = 0;
    while let [_, low, high, body @ ..] = &bytes[start..] {
        let length = usize::from(u16::from_le_bytes([*low, *high]));
        if length > body.len() {
            break;
        }
        let end = start + 3 + length;
        if record::read(&[&bytes[..end], more].concat()) == Err(answer) {
            return Some((start, &bytes[start..end]));
        }
        start = end;
    }
    Some((start, &bytes[start..])).filter(|(_, rest)| !rest.is_empty())
}
