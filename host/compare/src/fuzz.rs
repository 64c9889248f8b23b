//! Random calls of every exported function, compared with the model.

use crate::cuts::Draw;
use crate::random::Random;
use crate::runs::Run;
use crate::tiles::Tile;
use crate::ways::Ways;
use crate::{layouts, lists, marks, origins, parts, records, rects, strips, versions};
use squeeze::{GridQuery, Kind, LISTING_ROOM, RECORD_ROOM};
use squeeze_model::{list, listing, record, run as model_run};

/// The exported functions, in the order of the report's rows, and the answers
/// that each can give.
pub const FUNCTIONS: [(&str, &[usize]); 10] = [
    ("rebuild", &[0, 1, 2, 3, 4, 5, 6, 7, 8, 9, 10, 11, 12]),
    ("write", &[0, 1, 2, 3, 4, 5, 6, 7, 8, 9, 10, 11, 12]),
    ("tile", &[0, 5, 12, 13]),
    (
        "rebuild_marked",
        &[0, 1, 2, 3, 4, 5, 6, 7, 8, 9, 10, 11, 12],
    ),
    ("write_marked", &[0, 1, 2, 3, 4, 5, 6, 7, 8, 9, 10, 11, 12]),
    ("tile_marked", &[0, 5, 12, 13]),
    ("listing", &[0, 1, 2, 3, 4, 5, 6, 7, 8, 9, 10, 11, 12]),
    ("layout", &[0, 1, 2, 3, 4, 5, 6, 7, 8, 9, 10, 11, 12]),
    ("record", &[0, 3, 4, 5, 6, 7, 8, 9, 10, 11, 12]),
    ("grid_rect", &[0, 4, 12, 14]),
];

/// Answers 0 to 14.
pub const ANSWERS: usize = 15;

/// The answer of a call, and the ways in which it met a strip, a version, origins and
/// marks, if it did.
#[derive(Default)]
struct Met {
    answer: u32,
    strip: Option<strips::Way>,
    version: Option<versions::Way>,
    origins: Vec<origins::Way>,
    marks: Vec<marks::Way>,
}

/// What was met, or what differs.
type Call = Result<Met, String>;

/// How often each function gave each answer, and what differed.
pub struct Report {
    /// One row for each function, one column for each answer.
    pub met: [[u64; ANSWERS]; FUNCTIONS.len()],
    /// How often strips were met in each of their ways.
    pub strips: Ways<strips::Way>,
    /// How often versions were.
    pub versions: Ways<versions::Way>,
    /// How often origins were.
    pub origins: Ways<origins::Way>,
    /// How often marks were.
    pub marks: Ways<marks::Way>,
    /// The first differences found.
    pub differences: Vec<String>,
}

impl Report {
    fn new() -> Report {
        Report {
            met: Default::default(),
            strips: Ways::new(&strips::WAYS),
            versions: Ways::new(&versions::WAYS),
            origins: Ways::new(&origins::WAYS),
            marks: Ways::new(&marks::WAYS),
            differences: vec![],
        }
    }

    /// The answers that a function can give and didn't.
    pub fn never_met(&self) -> Vec<(&'static str, usize)> {
        let mut missing = Vec::new();
        for ((name, answers), row) in FUNCTIONS.iter().zip(&self.met) {
            let never = answers.iter().filter(|&&answer| row[answer] == 0);
            missing.extend(never.map(|&answer| (*name, answer)));
        }
        missing
    }

    fn add(&mut self, function: usize, call: Call) {
        match call {
            Ok(met) => {
                self.met[function][met.answer as usize] += 1;
                self.strips.add(met.strip);
                self.versions.add(met.version);
                self.origins.add(met.origins);
                self.marks.add(met.marks);
            }
            Err(text) => self.differences.push(text),
        }
    }
}

/// That many calls. It stops at the tenth difference.
pub fn run(count: u64, seed: u64) -> Report {
    let mut random = Random::new(seed);
    let mut report = Report::new();
    for _ in 0..count {
        match random.below(14) {
            0..=1 => report.add(0, whole_run(&mut random, true, None)),
            2..=3 => report.add(1, whole_run(&mut random, false, None)),
            4..=5 => report.add(2, tile(&mut random, None)),
            6 => report.add(3, marked(&mut random, |r, room| whole_run(r, true, room))),
            7 => report.add(4, marked(&mut random, |r, room| whole_run(r, false, room))),
            8 => report.add(5, marked(&mut random, tile)),
            9 => report.add(6, listing_text(&mut random)),
            10 => report.add(7, layout(&mut random)),
            11..=12 => report.add(8, record_of_numbers(&mut random)),
            _ => report.add(9, grid_rect(&mut random)),
        }
        if report.differences.len() == 10 {
            break;
        }
    }
    report
}

/// Samples up to which a run is given slices of the right length, mostly and now
/// and then, which is for strips.
const LARGEST: usize = 1 << 14;
const LARGEST_STRIP: usize = 1 << 18;

/// A call with none, one or two numbers for the mark.
fn marked(random: &mut Random, call: fn(&mut Random, Option<usize>) -> Call) -> Call {
    let numbers = random.pick(&[0, 1, 1, 1, 1, 2]);
    call(random, Some(numbers))
}

/// A run; with so many numbers for the mark if that is given.
fn whole_run(random: &mut Random, back: bool, numbers: Option<usize>) -> Call {
    let bytes = records::some(random);
    let samples = match record::judge(&bytes) {
        Ok(plan) => list::total(plan.layout()),
        Err(_) => random.below(20),
    };
    let largest = if random.once_in(4) {
        LARGEST_STRIP
    } else {
        LARGEST
    };
    let fitting = if samples > largest { 40 } else { samples };
    let mut lengths = [fitting; 3];
    if random.once_in(6) {
        let k = random.below(3);
        lengths[k] = random.pick(&[0, fitting.saturating_sub(1), fitting + 1, 2 * fitting]);
    }
    let input = run_input(random, &bytes, back, lengths[0]);
    let [output, work] = [lengths[1], lengths[2]].map(|length| random.samples(length));
    let run = Run {
        back,
        record: &bytes,
        input: &input,
        output: &output,
        work: &work,
    };
    let whole = run.compare()?;
    let outcome = numbers.map(|numbers| run.compare_room(numbers));
    let outcome = outcome.transpose()?;
    let answer = outcome.as_ref().unwrap_or(&whole).answer;
    Ok(Met {
        answer,
        strip: strips::of_run(&run, answer),
        version: versions::of_record(&bytes, answer),
        marks: outcome.map_or(vec![], |outcome| marks::of_run(&run, &whole, &outcome)),
        ..Met::default()
    })
}

/// Samples for a run: over all 32 bits, or a picture near the plain range; its pyramid,
/// now and then with one sample at an end of the range or next to it.
fn run_input(random: &mut Random, bytes: &[u8], back: bool, length: usize) -> Vec<i32> {
    if random.once_in(2) {
        return random.samples(length);
    }
    let picture = random.near_plain(length);
    let mut pyramid = picture.clone();
    if !back || model_run::write(bytes, &picture, &mut pyramid, &mut picture.clone()) != 0 {
        return picture;
    }
    random.move_to_an_end(&mut pyramid);
    pyramid
}

/// Sides of a tile around its limits.
const TILE_SIDES: [usize; 11] = [
    0,
    1,
    2,
    65_535,
    65_536,
    1_048_575,
    1_048_576,
    1 << 25,
    u32::MAX as usize,
    1 << 32,
    usize::MAX,
];

/// The length of a tile's slice or line, if that isn't too costly: up to that of a
/// short strip.
fn fitting(length: usize) -> usize {
    if length <= 65_537 {
        length
    } else {
        40
    }
}

/// A tile; with so many numbers for the mark if that is given.
fn tile(random: &mut Random, numbers: Option<usize>) -> Call {
    let horizontal = random.pick(&[0, 0, 0, 1, 1, 1, 2, u32::MAX]);
    let mut sizes = tile_sizes(random, horizontal != 0);
    if random.once_in(8) {
        let k = random.below(6);
        let side = random.pick(&TILE_SIDES);
        match k % 2 {
            0 => sizes[k / 2].0 = side,
            _ => sizes[k / 2].1 = side,
        }
    }
    let across = if horizontal != 0 {
        sizes[0].1
    } else {
        sizes[0].0
    };
    let line = |random: &mut Random| match random.below(12) {
        0 => random.below(20),
        1..=5 => 0,
        _ => fitting(across),
    };
    let lines = [line(random), line(random)];
    let length = |random: &mut Random, (w, h): (usize, usize)| {
        let fitting = fitting(w.saturating_mul(h));
        match random.below(20) {
            0 => random.pick(&[0, fitting + 1, fitting / 2]),
            _ => fitting,
        }
    };
    let lengths = sizes.map(|size| length(random, size));
    let draw = random.pick(&[Random::samples as Draw, Random::near_plain]);
    let inputs = [lengths[0], lengths[1], lines[0], lines[1]].map(|n| draw(random, n));
    let out = random.samples(lengths[2]);
    let tile = Tile {
        horizontal,
        sizes,
        inputs: [&inputs[0], &inputs[1], &inputs[2], &inputs[3]],
        out: &out,
    };
    let whole = tile.compare()?;
    let outcome = numbers.map(|numbers| tile.compare_room(numbers));
    let outcome = outcome.transpose()?;
    let answer = outcome.as_ref().unwrap_or(&whole).answer;
    Ok(Met {
        answer,
        strip: strips::of_tile(&sizes, answer),
        marks: outcome.map_or(vec![], |outcome| marks::of_tile(&tile, &whole, &outcome)),
        ..Met::default()
    })
}

/// Sizes that mostly fit an output rectangle.
fn tile_sizes(random: &mut Random, horizontal: bool) -> [(usize, usize); 3] {
    let side = |random: &mut Random| match random.below(8) {
        0 => 16 + random.below(40),
        _ => random.below(20),
    };
    let (w, h) = match random.below(40) {
        0 => random.pick(&[
            (65_535, 256),
            (65_535, 257),
            (4096, 4097),
            (65_536, 1),
            (1, 65_537),
            (65_536, 65_536),
            (1_048_575, 16),
            (1_048_575, 17),
            (0, 1_048_575),
            (0, 1_048_576),
            (1_048_576, 1),
        ]),
        _ => (side(random), side(random)),
    };
    // Now and then some residuals too few, and as many averages too many.
    let moved = random.pick(&[0, 0, 0, 0, 0, 0, 0, 1, 2]);
    let rest = |side: usize| (side / 2).saturating_sub(moved);
    if horizontal {
        [(w - rest(w), h), (rest(w), h), (w, h)]
    } else {
        [(w, h - rest(h)), (w, rest(h)), (w, h)]
    }
}

fn listing_text(random: &mut Random) -> Call {
    let bytes = records::some(random);
    lists::compare(&bytes)?;
    let length = listing::listing(&bytes).map_or(40, |text| text.len());
    let rooms = [0, length - 1, length, length, length + 1, LISTING_ROOM];
    let (room, numbers) = (random.pick(&rooms), random.pick(&[0, 1, 1, 1, 1, 1, 2]));
    let answer = lists::compare_room(&bytes, room, numbers)?;
    Ok(Met {
        answer,
        strip: strips::of_record(&bytes, answer),
        version: versions::of_record(&bytes, answer),
        ..Met::default()
    })
}

fn layout(random: &mut Random) -> Call {
    let bytes = match random.below(8) {
        0 => records::doubled(random),
        1..=2 => records::ordinary(random),
        _ => records::some(random),
    };
    layouts::compare(&bytes)?;
    let need = layouts::need(&bytes);
    let room = random.pick(&layouts::rooms(need));
    let answer = layouts::compare_room(&bytes, room)?;
    Ok(Met {
        answer,
        strip: strips::of_record(&bytes, answer),
        version: versions::of_record(&bytes, answer),
        origins: origins::of_layout(&bytes, need, room, answer),
        ..Met::default()
    })
}

fn record_of_numbers(random: &mut Random) -> Call {
    let parts = parts::some(random);
    parts.compare()?;
    let bytes = parts.bytes();
    let rooms = [
        0,
        bytes.saturating_sub(1),
        bytes,
        bytes,
        bytes + 1,
        RECORD_ROOM,
    ];
    let (room, numbers) = (random.pick(&rooms), random.pick(&[0, 1, 1, 1, 1, 1, 2]));
    let (answer, _) = parts.compare_room(room, numbers)?;
    Ok(Met {
        answer,
        strip: strips::of_parts(&parts, answer),
        version: versions::of_parts(&parts, answer),
        ..Met::default()
    })
}

fn grid_rect(random: &mut Random) -> Call {
    let side = |random: &mut Random| match random.below(3) {
        0 => random.pick(&[0, 1, 127, 128, 1023, 1024, 1025, 8191, 8192, 65_535]),
        1 => random.below(4096) as u32,
        _ => random.below(1 << 20) as u32,
    };
    let shift = |random: &mut Random| random.pick(&[0, 0, 0, 1, 2, 3, 7, 10, 13, 14, 29, 30]);
    let mut query = GridQuery {
        width: side(random),
        height: side(random),
        hshift: shift(random),
        vshift: shift(random),
        output: Kind(random.below(3) as u8),
        stored: Kind(random.below(3) as u8),
        group: random.pick(&[128, 256, 512, 1024]),
        gx: random.pick(&[0, 0, 1, 2, 3, 9, 64, 511, 8191, 65_535]),
        gy: random.pick(&[0, 0, 1, 2, 3, 9, 64, 511, 8191, 65_535]),
    };
    match random.below(16) {
        0 => query.hshift = random.pick(&[30, 31, 254, 255]),
        1 => (query.hshift, query.vshift) = (255, random.pick(&[0, 31, 255, 255, 255])),
        2 => query.output = Kind(random.pick(&[0, 3, 255])),
        3 => query.stored = Kind(random.pick(&[0, 3, 255])),
        4 => query.group = random.pick(&[0, 64, 127, 129, 2048, u32::MAX]),
        5 => query.width = random.pick(&records::LONG_SIDES),
        6 => query.height = random.pick(&records::LONG_SIDES),
        _ => {}
    }
    let answer = rects::compare(&query, random.pick(&[4, 4, 4, 4, 4, 4, 0, 3, 5]))?;
    Ok(Met {
        answer,
        strip: strips::of_rect(&query, answer),
        ..Met::default()
    })
}
