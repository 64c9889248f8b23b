//! Samples over all 32 bits: corners in every combination, a small range
//! exhaustively, and many at random. Both directions of each pair.

use squeeze::Record;
use squeeze_compare::must;
use squeeze_compare::random::Random;
use squeeze_compare::runs::round_trips;
use squeeze_compare::tiles::Tile;

const CORNERS: [i32; 19] = [
    i32::MIN,
    i32::MIN + 1,
    i32::MIN + 2,
    -(1 << 30) - 1,
    -(1 << 30),
    -(1 << 28),
    -3,
    -2,
    -1,
    0,
    1,
    2,
    3,
    (1 << 28) - 1,
    1 << 28,
    1 << 30,
    (1 << 30) + 1,
    i32::MAX - 1,
    i32::MAX,
];

/// Pairs, each alone in its line, with previous output and next average: as
/// rows of two samples and as columns of two samples.
#[derive(Default)]
struct Pairs {
    prev: Vec<i32>,
    avg: Vec<i32>,
    next: Vec<i32>,
    residual: Vec<i32>,
    compared: usize,
}

impl Pairs {
    fn push(&mut self, prev: i32, avg: i32, next: i32, residual: i32) {
        self.prev.push(prev);
        self.avg.push(avg);
        self.next.push(next);
        self.residual.push(residual);
        if self.avg.len() == 65_535 {
            self.compare();
        }
    }

    /// Compares what is there, and empties it.
    fn compare(&mut self) {
        let n = self.avg.len();
        let inputs = [&self.avg[..], &self.residual, &self.next, &self.prev];
        let out = vec![-9; 2 * n];
        for (horizontal, sizes) in [(1, [(1, n), (1, n), (2, n)]), (0, [(n, 1), (n, 1), (n, 2)])] {
            let tile = Tile {
                horizontal,
                sizes,
                inputs,
                out: &out,
            };
            assert_eq!(must(tile.compare()).answer, 0);
        }
        let compared = self.compared + n;
        *self = Pairs {
            compared,
            ..Pairs::default()
        };
    }
}

#[test]
fn corners_in_every_combination() {
    let mut pairs = Pairs::default();
    for prev in CORNERS {
        for avg in CORNERS {
            for next in CORNERS {
                for residual in CORNERS {
                    pairs.push(prev, avg, next, residual);
                }
            }
        }
    }
    pairs.compare();
    println!("corner pairs: {} cases", pairs.compared);
    assert_eq!(pairs.compared, 19usize.pow(4));
}

/// Each pair alone in its call, so that its mark is its own.
#[test]
fn marks_at_the_corners() {
    let corners = [
        i32::MIN,
        -(1 << 28) - 1,
        -(1 << 28),
        -1,
        0,
        2,
        (1 << 28) - 1,
        1 << 28,
        i32::MAX,
    ];
    let mut marks = [0; 2];
    for code in 0..corners.len().pow(4) {
        let inputs = [0, 1, 2, 3].map(|k| [corners[code / corners.len().pow(k) % corners.len()]]);
        for (horizontal, output) in [(1, (2, 1)), (0, (1, 2))] {
            let tile = Tile {
                horizontal,
                sizes: [(1, 1), (1, 1), output],
                inputs: inputs.each_ref().map(|sample| &sample[..]),
                out: &[-9; 2],
            };
            let outcome = must(tile.compare());
            assert_eq!(outcome.answer, 0);
            let all = [&inputs.concat()[..], &outcome.output].concat();
            let outside = |sample: &i32| !(-(1 << 28)..1 << 28).contains(sample);
            assert_eq!(outcome.marked, all.iter().any(outside), "{tile:?}");
            marks[usize::from(outcome.marked)] += 1;
        }
    }
    println!("corner pairs by mark: {marks:?}");
    assert!(marks.iter().all(|&number| number > 500), "{marks:?}");
}

#[test]
fn a_small_range_exhaustively() {
    let mut pairs = Pairs::default();
    for prev in -16..=16 {
        for avg in -16..=16 {
            for next in -16..=16 {
                for residual in -3..=3 {
                    pairs.push(prev, avg, next, residual);
                }
            }
        }
    }
    pairs.compare();
    println!("small pairs: {} cases", pairs.compared);
    assert_eq!(pairs.compared, 33usize.pow(3) * 7);
}

#[test]
fn random_pairs() {
    let mut random = Random::new(81);
    let mut pairs = Pairs::default();
    for k in 0..1_000_000 {
        let any = [0; 4].map(|_| random.sample());
        let near = random.bits() as i32;
        let close = [0; 4].map(|_| near.wrapping_add(random.below(2001) as i32 - 1000));
        let [prev, avg, next, residual] = if k % 2 == 0 { any } else { close };
        pairs.push(prev, avg, next, residual);
    }
    pairs.compare();
    assert_eq!(pairs.compared, 1_000_000);
}

/// All pictures of four samples over some corners, as a row and as a column,
/// by one step: the writer's pairs, and the plan run's back.
#[test]
fn corner_pictures() {
    let few = [i32::MIN, -(1 << 30), -1, 0, 2, (1 << 30) + 1, i32::MAX];
    let mut samples = Vec::new();
    for code in 0..few.len().pow(4) {
        samples.extend([0, 1, 2, 3].map(|k| few[code / few.len().pow(k) % few.len()]));
    }
    let lines = (samples.len() / 4) as u32;
    let step = |horizontal| squeeze::Step {
        horizontal,
        in_place: true,
        first: 0,
        number: 1,
    };
    let rows = Record::new().channel(4, lines).step(step(true));
    must(round_trips(rows.bytes(), &samples));
    let mut turned = Vec::new();
    for k in 0..4 {
        turned.extend(samples.iter().skip(k).step_by(4));
    }
    let columns = Record::new().channel(lines, 4).step(step(false));
    must(round_trips(columns.bytes(), &turned));
    println!("corner pictures: {lines} lines of four in each direction, both ways");
}

#[test]
fn default_plans_over_all_bits() {
    let mut random = Random::new(82);
    for (width, height, count) in [(257, 129, 3), (64, 64, 4), (100, 333, 1), (333, 100, 2)] {
        let record = (0..count).fold(Record::new(), |r, _| r.channel(width, height));
        let number = (width * height) as usize * count;
        let any: Vec<i32> = (0..number).map(|_| random.bits() as i32).collect();
        let mixed = random.samples(number);
        let extremes: Vec<i32> = (0..number)
            .map(|_| random.pick(&[i32::MIN, i32::MAX]))
            .collect();
        for samples in [any, mixed, extremes, vec![i32::MIN; number]] {
            must(round_trips(record.bytes(), &samples));
        }
    }
}
