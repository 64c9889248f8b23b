//! Plans on 16 million samples beside the default plan, most of which cost more.

// Two programs include this file, and each uses some of it.
#![allow(dead_code)]

use squeeze::{Channel, Record, Step, Version};
use squeeze_compare::lists::model_step;
use squeeze_model::list;

/// A plan, and what it is called in the tables.
pub struct Plan {
    pub name: String,
    pub record: Record,
    pub samples: usize,
}

/// Horizontal, in place, first channel, number.
type StepWords = (bool, bool, usize, usize);

/// Channels, and steps on the list as it then is.
pub struct Draft {
    record: Record,
    pub list: Vec<list::Channel>,
}

impl Draft {
    pub fn new(channels: &[Channel]) -> Draft {
        let record = channels
            .iter()
            .copied()
            .fold(Record::new(), Record::add_channel);
        let list = squeeze_model::record::read(record.bytes())
            .expect("a form")
            .channels;
        Draft { record, list }
    }

    /// With one step more, if it is accepted.
    pub fn step(&self, (horizontal, in_place, first, number): StepWords) -> Option<Draft> {
        let step = Step {
            horizontal,
            in_place,
            first: first as u16,
            number: number as u16,
        };
        let list = list::take_step(&self.list, &model_step(&step)).ok()?;
        let record = self.record.clone().step(step);
        Some(Draft { record, list })
    }

    /// A step on every channel: there are twice as many afterwards.
    fn double(self, horizontal: bool, in_place: bool) -> Draft {
        let count = self.list.len();
        self.step((horizontal, in_place, 0, count))
            .expect("accepted")
    }

    /// A step, not in place, on the first channel that isn't a single sample: all
    /// that lies behind it moves.
    pub fn shift(self) -> Draft {
        let (at, channel) = self
            .list
            .iter()
            .enumerate()
            .find(|(_, c)| c.samples() > 1)
            .expect("one");
        let horizontal = channel.width > 1;
        self.step((horizontal, false, at, 1)).expect("accepted")
    }

    pub fn finish(self, name: String) -> Plan {
        let samples = list::total(&self.list);
        let record = self.record.checked().expect("accepted");
        Plan {
            name,
            record,
            samples,
        }
    }
}

/// A channel of nearly 16,777,216 samples.
const LARGE: (u32, u32) = (4096, 4095);

/// So many channels of a size, then the large one.
fn before_large(number: usize, width: u32, height: u32) -> Draft {
    let mut channels = vec![Channel::new(width, height); number];
    channels.push(Channel::new(LARGE.0, LARGE.1));
    Draft::new(&channels)
}

fn place(in_place: bool) -> &'static str {
    if in_place {
        "in place"
    } else {
        "not in place"
    }
}

/// 60 steps on a channel of one sample before the large one: nothing moves.
pub fn idle(in_place: bool) -> Plan {
    let draft = before_large(1, 1, 1);
    let draft = (0..60).fold(draft, |draft, k| {
        draft.step((k % 2 == 0, in_place, 0, 1)).expect("accepted")
    });
    draft.finish(format!("60 steps that move nothing, {}", place(in_place)))
}

/// 64 steps that each take one sample from before the large channel to the end.
pub fn shifts() -> Plan {
    let draft = before_large(64, 2, 1);
    let draft = (0..64).fold(draft, |draft, _| draft.shift());
    draft.finish("64 steps that move all by a sample".into())
}

/// Steps on all channels, then, up to 64 steps, some that move all.
pub fn doubled(width: u32, height: u32, horizontal: &[bool], in_place: bool) -> Plan {
    let mut draft = Draft::new(&[Channel::new(width, height)]);
    for &horizontal in horizontal {
        draft = draft.double(horizontal, in_place);
    }
    let rest = (64 - horizontal.len()).min(256 - draft.list.len());
    draft = (0..rest).fold(draft, |draft, _| draft.shift());
    let letter = |&horizontal: &bool| if horizontal { 'h' } else { 'v' };
    draft.finish(format!(
        "{width} x {height}, {} on all, {}; {rest} that move all",
        horizontal.iter().map(letter).collect::<String>(),
        place(in_place)
    ))
}

/// One channel by the default plan of version 2, which stops at 32.
pub fn house() -> Plan {
    Plan {
        name: "4096 x 4096 under version 2".into(),
        record: Record::under(Version::HOUSE).channel(4096, 4096),
        samples: 4096 * 4096,
    }
}

/// Three channels of one size, by the default plan: chroma steps first.
pub fn chroma(side: u32) -> Plan {
    Draft::new(&[Channel::new(side, side); 3]).finish(format!("three channels {side} x {side}"))
}

/// 64 steps not in place on one channel: each in the first half of the list as it
/// then is, by turns horizontal and vertical.
pub fn out_of_place() -> Plan {
    let draft = Draft::new(&[Channel::new(4096, 4096)]);
    let draft = (0..64).fold(draft, |draft, k| {
        draft.step((k % 2 == 0, false, k / 2, 1)).expect("accepted")
    });
    draft.finish("64 steps not in place, one channel".into())
}

/// 64 steps not in place on 128 channels, two at a time.
pub fn pairs_of_128() -> Plan {
    let draft = Draft::new(&[Channel::new(512, 256); 128]);
    let draft = (0..64).fold(draft, |draft, k| {
        draft.step((k % 2 == 0, false, 2 * k, 2)).expect("accepted")
    });
    draft.finish("64 steps not in place, 128 channels".into())
}

/// One step in place on 128 channels, which leaves 256.
pub fn to_256() -> Plan {
    let draft = Draft::new(&[Channel::new(512, 256); 128]);
    draft
        .double(true, true)
        .finish("256 channels from 128".into())
}
