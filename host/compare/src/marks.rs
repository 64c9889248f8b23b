//! The ways in which a marked call meets the plain range (document 02, A.3), and the
//! room that it is given for the mark.

use crate::runs::Run;
use crate::tiles::Tile;
use crate::Outcome;
use squeeze_model::marks::outside;

/// What was met.
#[derive(Clone, Copy, Debug, PartialEq, Eq)]
#[allow(missing_docs)]
pub enum Way {
    RebuildInside,
    RebuildOutside,
    RebuildNoMark,
    WriteInside,
    WriteOutside,
    WriteNoMark,
    RunBetween,
    RunAside,
    TileInside,
    TileOutside,
    TileNoMark,
    TileLines,
    TileUnread,
}

/// Every way, and what the report says of it.
pub const WAYS: [(Way, &str); 13] = [
    (Way::RebuildInside, "rebuild: not marked, 0"),
    (Way::RebuildOutside, "rebuild: marked, 0"),
    (Way::RebuildNoMark, "rebuild: no number for the mark, 12"),
    (Way::WriteInside, "write: not marked, 0"),
    (Way::WriteOutside, "write: marked, 0"),
    (Way::WriteNoMark, "write: no number for the mark, 12"),
    (
        Way::RunBetween,
        "run: marked, picture and pyramid inside, 0",
    ),
    (Way::RunAside, "run: not marked, a sample outside, 0"),
    (Way::TileInside, "tile: not marked, 0"),
    (Way::TileOutside, "tile: marked, 0"),
    (Way::TileNoMark, "tile: no number for the mark, 12"),
    (Way::TileLines, "tile: marked for an outer line alone, 0"),
    (
        Way::TileUnread,
        "tile: not marked, an outer line outside, 0",
    ),
];

/// Those that are so.
fn only<const N: usize>(ways: [(Way, bool); N]) -> Vec<Way> {
    let ways = ways.into_iter().filter(|(_, so)| *so);
    ways.map(|(way, _)| way).collect()
}

fn some_outside(samples: &[i32]) -> bool {
    samples.iter().any(|&sample| outside(sample))
}

/// The ways of a run that was answered so; with one number for the mark, `whole`.
pub fn of_run(run: &Run, whole: &Outcome, outcome: &Outcome) -> Vec<Way> {
    let [inside, marked, no_mark] = match run.back {
        true => [Way::RebuildInside, Way::RebuildOutside, Way::RebuildNoMark],
        false => [Way::WriteInside, Way::WriteOutside, Way::WriteNoMark],
    };
    if outcome.answer != 0 {
        return only([(no_mark, whole.answer == 0)]);
    }
    let ends = some_outside(run.input) || some_outside(&outcome.output);
    only([
        (inside, !outcome.marked),
        (marked, outcome.marked),
        (Way::RunBetween, outcome.marked && !ends),
        (Way::RunAside, !outcome.marked && ends),
    ])
}

/// The ways of a tile call, likewise.
pub fn of_tile(tile: &Tile, whole: &Outcome, outcome: &Outcome) -> Vec<Way> {
    if outcome.answer != 0 {
        return only([(Way::TileNoMark, whole.answer == 0)]);
    }
    let [avg, residual, next, prev] = tile.inputs.map(some_outside);
    let others = avg || residual || some_outside(&outcome.output);
    only([
        (Way::TileInside, !outcome.marked),
        (Way::TileOutside, outcome.marked),
        (Way::TileLines, outcome.marked && !others),
        (Way::TileUnread, !outcome.marked && (next || prev)),
    ])
}
