//! Plans: the default one, and the lists that a plan goes through.

use crate::list::{check_total, coarse_count, take_step, Channel, Step};
use crate::version::Version;
use crate::{origins, refusal};

/// The default plan, or refusal 11.
pub fn default_plan(version: Version, list: &[Channel]) -> Result<Vec<Step>, u32> {
    let meta = list.iter().filter(|c| c.meta()).count();
    let others: Vec<&Channel> = list.iter().filter(|c| !c.meta()).collect();
    let Some(leader) = others.first() else {
        return Err(refusal::ONLY_META);
    };
    let (w, h) = (leader.width, leader.height);
    let mut steps = Vec::new();
    let alike = others.len() > 2 && (others[1].width, others[1].height) == (w, h);
    if version.chroma() && alike {
        chroma_steps(meta, w, h, &mut steps);
    }
    all_steps(meta, others.len(), (w, h), version.side(), &mut steps);
    Ok(steps)
}

/// The steps on the second and third channel that is not meta.
fn chroma_steps(meta: usize, w: u32, h: u32, steps: &mut Vec<Step>) {
    let step = |horizontal| Step {
        horizontal,
        in_place: false,
        first: meta as u32 + 1,
        number: 2,
    };
    if w > 1 {
        steps.push(step(true));
    }
    if h > 1 {
        steps.push(step(false));
    }
}

/// The in-place steps on all `n` channels that are not meta, while a side is above
/// `stop`.
fn all_steps(meta: usize, n: usize, size: (u32, u32), stop: u32, steps: &mut Vec<Step>) {
    let (mut w, mut h) = size;
    let step = |horizontal| Step {
        horizontal,
        in_place: true,
        first: meta as u32,
        number: n as u32,
    };
    if w <= h && h > stop {
        steps.push(step(false));
        h = h.div_ceil(2);
    }
    while w > stop || h > stop {
        if w > stop {
            steps.push(step(true));
            w = w.div_ceil(2);
        }
        if h > stop {
            steps.push(step(false));
            h = h.div_ceil(2);
        }
    }
}

/// An accepted plan: its steps, and the lists before, between and after them.
#[derive(Clone, Debug, PartialEq, Eq)]
pub struct Plan {
    /// The version.
    pub version: Version,
    /// The steps; the default plan's if none were given.
    pub steps: Vec<Step>,
    /// One list more than steps.
    pub lists: Vec<Vec<Channel>>,
}

impl Plan {
    /// The list that the plan leaves.
    pub fn layout(&self) -> &[Channel] {
        &self.lists[self.steps.len()]
    }

    /// How many of its channels are coarse.
    pub fn coarse(&self) -> usize {
        coarse_count(self.layout(), self.version.side())
    }

    /// The origin of each of its channels.
    pub fn origins(&self) -> Vec<usize> {
        let mut origins = origins::own_positions(self.lists[0].len());
        for step in &self.steps {
            origins = origins::after_step(&origins, step);
        }
        origins
    }
}

/// Questions 5 to 11 for a list of good form and the steps given.
pub fn judge(version: Version, list: Vec<Channel>, given: Vec<Step>) -> Result<Plan, u32> {
    check_total(&list)?;
    let steps = if given.is_empty() {
        default_plan(version, &list)?
    } else {
        given
    };
    let mut lists = vec![list];
    for (k, step) in steps.iter().enumerate() {
        let next = take_step(&lists[k], step)?;
        lists.push(next);
    }
    Ok(Plan {
        version,
        steps,
        lists,
    })
}
