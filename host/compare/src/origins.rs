//! The ways in which a call for a layout meets origins: what the steps of a plan do to
//! them, and the room that they are given.

use crate::layouts::Room;
use squeeze_model::list::{Channel, Step};
use squeeze_model::plan::Plan;
use squeeze_model::version::Version;
use squeeze_model::{record, MAX_CHANNELS};
use std::collections::BTreeSet;

/// What was met.
#[derive(Clone, Copy, Debug, PartialEq, Eq)]
#[allow(missing_docs)]
pub enum Way {
    NoStep,
    Behind,
    Between,
    Moved,
    ResidualIn,
    ResidualOut,
    ResidualTwice,
    TwoOrigins,
    OneTwice,
    Meta,
    MetaResidual,
    NoSample,
    Chroma,
    ChromaMeta,
    House,
    FullIn,
    FullOut,
    FullBoth,
    Longer,
    NoSteps,
    ShortCounts,
    ShortSteps,
    ShortChannels,
    ShortOrigins,
    NoRoom,
}

/// Every way, and what the report says of it.
pub const WAYS: [(Way, &str); 25] = [
    (Way::NoStep, "no step: own positions, 0"),
    (Way::Behind, "in place, channels behind the range, 0"),
    (Way::Between, "not in place, channels behind the range, 0"),
    (Way::Moved, "averages that have moved, 0"),
    (
        Way::ResidualIn,
        "a residual, in place, channels behind it, 0",
    ),
    (Way::ResidualOut, "a residual, not in place, 0"),
    (Way::ResidualTwice, "a residual's residual, 0"),
    (Way::TwoOrigins, "a range of two origins or more, 0"),
    (Way::OneTwice, "a range with an origin twice, 0"),
    (Way::Meta, "meta channels, 0"),
    (Way::MetaResidual, "a residual that is meta, 0"),
    (Way::NoSample, "a residual without a sample is made, 0"),
    (Way::Chroma, "default plan: chroma steps, 0"),
    (Way::ChromaMeta, "the same behind a meta channel, 0"),
    (Way::House, "default plan: version 2, 0"),
    (Way::FullIn, "squeezed to 256 channels, all in place, 0"),
    (Way::FullOut, "the same, none in place, 0"),
    (Way::FullBoth, "the same, some in place, 0"),
    (Way::Longer, "room: every slice longer than needed, 0"),
    (Way::NoSteps, "room: no step, and none for steps, 0"),
    (Way::ShortCounts, "room: counts alone too short, 12"),
    (Way::ShortSteps, "room: steps alone too short, 12"),
    (Way::ShortChannels, "room: channels alone too short, 12"),
    (Way::ShortOrigins, "room: origins alone too short, 12"),
    (Way::NoRoom, "room: none at all, 12"),
];

/// The ways of a call that needed some room, was given some, and was answered so.
pub fn of_layout(bytes: &[u8], need: Room, room: Room, answer: u32) -> Vec<Way> {
    let (Ok(form), Ok(plan)) = (record::read(bytes), record::judge(bytes)) else {
        return vec![];
    };
    if answer != 0 {
        return of_short(need, room).into_iter().collect();
    }
    let default = match &form.steps[..] {
        [] => of_default(&plan),
        _ => vec![],
    };
    [default, of_plan(&plan), of_room(need, room)].concat()
}

/// Those that are so.
fn only<const N: usize>(ways: [(Way, bool); N]) -> Vec<Way> {
    let ways = ways.into_iter().filter(|(_, so)| *so);
    ways.map(|(way, _)| way).collect()
}

fn of_room(need: Room, room: Room) -> Vec<Way> {
    let longer = need.iter().zip(&room).all(|(need, room)| need < room);
    only([(Way::Longer, longer), (Way::NoSteps, room[1] == 0)])
}

/// The way of a room that is too small.
fn of_short(need: Room, room: Room) -> Option<Way> {
    let short = [0, 1, 2, 3].map(|k| room[k] < need[k]);
    match short {
        _ if room == [0; 4] => Some(Way::NoRoom),
        [true, false, false, false] => Some(Way::ShortCounts),
        [false, true, false, false] => Some(Way::ShortSteps),
        [false, false, true, false] => Some(Way::ShortChannels),
        [false, false, false, true] => Some(Way::ShortOrigins),
        _ => None,
    }
}

fn of_default(plan: &Plan) -> Vec<Way> {
    let chroma = plan.steps.iter().any(|step| !step.in_place);
    let house = plan.version == Version::House && !plan.steps.is_empty();
    only([
        (Way::Chroma, chroma),
        (Way::ChromaMeta, chroma && plan.lists[0][0].meta()),
        (Way::House, house),
    ])
}

fn of_plan(plan: &Plan) -> Vec<Way> {
    let full = plan.layout().len() == MAX_CHANNELS && !plan.steps.is_empty();
    let in_place = plan.steps.iter().filter(|step| step.in_place).count();
    let (none, all) = (in_place == 0, in_place == plan.steps.len());
    let taken = taken(plan);
    let some = |check: fn(&Taken) -> bool| taken.iter().any(check);
    only([
        (Way::NoStep, plan.steps.is_empty()),
        (Way::FullIn, full && all),
        (Way::FullOut, full && none),
        (Way::FullBoth, full && !all && !none),
        (Way::Behind, some(|t| t.behind() && t.step.in_place)),
        (Way::Between, some(|t| t.behind() && !t.step.in_place)),
        (Way::Moved, some(|t| t.moved())),
        (
            Way::ResidualIn,
            some(|t| t.deep(1) && t.step.in_place && t.behind()),
        ),
        (Way::ResidualOut, some(|t| t.deep(1) && !t.step.in_place)),
        (Way::ResidualTwice, some(|t| t.deep(2))),
        (Way::TwoOrigins, some(|t| t.different() > 1)),
        (
            Way::OneTwice,
            some(|t| t.different() < t.step.range().len()),
        ),
        (Way::Meta, some(|t| t.meta())),
        (Way::MetaResidual, some(|t| t.meta() && t.deep(1))),
        (Way::NoSample, some(|t| t.no_sample())),
    ])
}

/// A step, the list that took it, and of each of its channels the origin and how many
/// times it was made a residual.
struct Taken<'a> {
    step: &'a Step,
    list: &'a [Channel],
    made: Vec<(usize, usize)>,
}

fn taken(plan: &Plan) -> Vec<Taken<'_>> {
    let mut made: Vec<(usize, usize)> = (0..plan.lists[0].len()).map(|k| (k, 0)).collect();
    let taken = plan.steps.iter().zip(&plan.lists).map(|(step, list)| {
        let before = made.clone();
        let squeezed = before[step.range()].iter();
        let at = step.residuals_at(list.len());
        made.splice(at..at, squeezed.map(|(origin, times)| (*origin, times + 1)));
        Taken {
            step,
            list,
            made: before,
        }
    });
    taken.collect()
}

impl Taken<'_> {
    /// Whether there are channels behind the range.
    fn behind(&self) -> bool {
        self.step.range().end < self.list.len()
    }

    /// Whether the range has averages that stand elsewhere than at first.
    fn moved(&self) -> bool {
        let moved = |k: usize| matches!(self.made[k], (origin, 0) if origin != k);
        self.step.range().any(moved)
    }

    /// Whether the range has a channel that was made a residual so many times.
    fn deep(&self, least: usize) -> bool {
        let mut range = self.made[self.step.range()].iter();
        range.any(|(_, times)| *times >= least)
    }

    /// How many origins the range has.
    fn different(&self) -> usize {
        let range = self.made[self.step.range()].iter();
        range
            .map(|(origin, _)| origin)
            .collect::<BTreeSet<_>>()
            .len()
    }

    fn meta(&self) -> bool {
        self.list[self.step.range().start].meta()
    }

    /// Whether a residual is made that has no sample.
    fn no_sample(&self) -> bool {
        let mut range = self.list[self.step.range()].iter();
        range.any(|channel| channel.halves(self.step.horizontal).1.samples() == 0)
    }
}
