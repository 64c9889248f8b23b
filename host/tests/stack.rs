//! The stack that each exported call takes: measured on painted stacks, and all
//! calls run on a thread with 96 KiB. Accepted and refused records, with as many
//! steps and channels as there may be.

#![cfg(target_os = "linux")]

use squeeze::{Record, Step};
use squeeze_compare::parts::Parts;
use squeeze_compare::random::Random;
use squeeze_compare::{lists, number, raw, records, rects};
use squeeze_model::{list, record};
use std::ffi::c_void;
use std::process::Command;
use std::sync::Mutex;
use std::thread;

/// What no call may exceed, in bytes.
const BOUND: usize = 64 << 10;
/// The stack of the small thread.
const SMALL: usize = 96 << 10;
/// The painted stack, large enough for a core that takes too much.
const LARGE: usize = 1 << 20;

/// Larger than any C library's.
#[repr(C, align(16))]
struct Attributes([u64; 16]);

extern "C" {
    fn pthread_attr_init(attributes: *mut Attributes) -> i32;
    fn pthread_attr_setstack(attributes: *mut Attributes, at: *mut c_void, len: usize) -> i32;
    fn pthread_attr_destroy(attributes: *mut Attributes) -> i32;
    fn pthread_create(
        thread: *mut usize,
        attributes: *const Attributes,
        start: extern "C" fn(*mut c_void) -> *mut c_void,
        argument: *mut c_void,
    ) -> i32;
    fn pthread_join(thread: usize, result: *mut *mut c_void) -> i32;
}

const PAINT: u64 = 0x5a5a_c3c3_9696_a5a5;

/// Memory for a stack, all of it painted.
struct Painted {
    memory: Vec<[u64; 8]>,
}

/// What the thread is given, and where its stack stood at the call.
struct Job<'a> {
    call: &'a mut dyn FnMut(),
    top: usize,
}

extern "C" fn start(argument: *mut c_void) -> *mut c_void {
    // SAFETY: `bytes_of` passes a job that nobody else uses until the thread ends.
    let job = unsafe { &mut *argument.cast::<Job>() };
    let here = 0u8;
    job.top = &raw const here as usize;
    (job.call)();
    std::ptr::null_mut()
}

impl Painted {
    fn new() -> Painted {
        Painted {
            memory: vec![[PAINT; 8]; LARGE / 64 + 64],
        }
    }

    /// The bytes of stack that a call takes: from its caller's frame down to the
    /// last word that lost its paint.
    fn bytes_of(&mut self, call: &mut dyn FnMut()) -> usize {
        self.memory.fill([PAINT; 8]);
        let mut job = Job { call, top: 0 };
        let mut attributes = Attributes([0; 16]);
        let mut thread = 0;
        let base = self.memory.as_mut_ptr();
        // A stack begins at a page.
        let skip = base.addr().wrapping_neg() % 4096 / 64;
        // SAFETY: the stack is memory of this painting, which stays until the
        // thread has been joined; so does the job.
        unsafe {
            let stack = base.add(skip).cast();
            assert_eq!(pthread_attr_init(&mut attributes), 0);
            assert_eq!(pthread_attr_setstack(&mut attributes, stack, LARGE), 0);
            let argument = (&raw mut job).cast();
            assert_eq!(pthread_create(&mut thread, &attributes, start, argument), 0);
            assert_eq!(pthread_join(thread, std::ptr::null_mut()), 0);
            assert_eq!(pthread_attr_destroy(&mut attributes), 0);
        }
        let words = self.memory.as_flattened();
        let kept = words[8 * skip..].iter().take_while(|&&word| word == PAINT);
        let lowest = words[8 * skip..].as_ptr().addr() + 8 * kept.count();
        job.top - lowest
    }
}

/// The exported functions.
const FUNCTIONS: [&str; 10] = [
    "rebuild",
    "rebuild_marked",
    "write",
    "write_marked",
    "listing",
    "layout",
    "record",
    "tile",
    "tile_marked",
    "grid_rect",
];

/// A record, and the slices of every call.
struct Calls<'a> {
    record: &'a [u8],
    parts: Parts,
    input: Vec<i32>,
    output: Vec<i32>,
    work: Vec<i32>,
    text: Vec<u8>,
    length: [u32; 1],
    numbers: [Vec<u32>; 4],
    mark: [u32; 1],
}

impl Calls<'_> {
    /// Where the record has no form, the writer is given 257 channels.
    fn new(record: &[u8]) -> Calls<'_> {
        let samples = match record::judge(record) {
            Ok(plan) => list::total(plan.layout()),
            Err(_) => 3,
        };
        let too_many = || Parts {
            version: 1,
            channels: [1, 1, 0, 0].repeat(257),
            steps: vec![],
        };
        Calls {
            record,
            parts: Parts::of_record(record).unwrap_or_else(too_many),
            input: (0..samples as i32).collect(),
            output: vec![1; samples],
            work: vec![2; samples],
            text: vec![3; squeeze::LISTING_ROOM],
            length: [4],
            numbers: squeeze::LAYOUT_ROOM.map(|room| vec![5; room]),
            mark: [6],
        }
    }

    /// One call of a function; gives the answer.
    fn call(&mut self, function: &str) -> u32 {
        let Calls {
            record,
            parts,
            input,
            ..
        } = self;
        let (output, work) = (&mut self.output, &mut self.work);
        let (text, length) = (&mut self.text, &mut self.length);
        let [counts, steps, channels, origins] = &mut self.numbers;
        let mark = &mut self.mark;
        match function {
            "rebuild" => number(&squeeze::rebuild(record, input, output, work)),
            "write" => number(&squeeze::write(record, input, output, work)),
            "rebuild_marked" => raw::run_marked(true, record, input, output, work, mark),
            "write_marked" => raw::run_marked(false, record, input, output, work, mark),
            "listing" => raw::listing(record, text, length),
            "layout" => {
                let layout = squeeze::layout_numbers(record, counts, steps, channels, origins);
                number(&layout)
            }
            "record" => raw::record(parts.version, &parts.channels, &parts.steps, text, length),
            "tile" => tiles(raw::tile),
            "tile_marked" => tiles(|horizontal, sizes, inputs, out| {
                raw::tile_marked(horizontal, sizes, inputs, out, mark)
            }),
            _ => rectangle(),
        }
    }
}

/// Tiles of nine blocks and a rest, with and without neighbours, both ways.
fn tiles(mut tile: impl FnMut(u32, [(usize, usize); 3], raw::Inputs, &mut [i32]) -> u32) -> u32 {
    static ONES: [i32; 35 * 75] = [1; 35 * 75];
    let mut out = OUT.lock().expect("one thread at a time");
    let mut answer = 0;
    for (horizontal, line) in [(1, 0), (1, 75), (0, 0), (0, 75)] {
        let size = |along| match horizontal {
            0 => (75, along),
            _ => (along, 75),
        };
        let inputs = [35 * 75, 34 * 75, line, line].map(|length| &ONES[..length]);
        answer |= tile(horizontal, [35, 34, 69].map(size), inputs, &mut out[..]);
    }
    answer
}

static OUT: Mutex<[i32; 69 * 75]> = Mutex::new([0; 69 * 75]);

fn rectangle() -> u32 {
    raw::grid_rect(&rects::DOCUMENT_01, &mut [0; 4])
}

/// What a function answers on a record that the others answer `answer`.
fn expected(function: &str, answer: u32) -> u32 {
    match function {
        "tile" | "tile_marked" | "grid_rect" => 0,
        _ => answer,
    }
}

fn step(horizontal: bool, in_place: bool, first: usize, number: u16) -> Step {
    Step {
        horizontal,
        in_place,
        first: first as u16,
        number,
    }
}

/// Records with as much of everything as there may be, under both versions, which
/// answer alike: bytes, answer, why.
#[rustfmt::skip]
fn full_records() -> Vec<(Vec<u8>, u32, &'static str)> {
    let plain = |count, w, h| (0..count).fold(Record::new(), |r, _| r.channel(w, h));
    let meta = |count, w, h| (0..count).fold(Record::new(), |r, _| r.meta_channel(w, h));
    let steps = |record: Record, step: &dyn Fn(usize) -> Step, count| {
        (0..count).fold(record, |r, k| r.step(step(k)))
    };
    let out_each = |k| step(k % 2 == 0, false, k, 1);
    let in_first = |k| step(k % 2 == 0, true, 0, 1);
    let out_first = |k| step(k % 2 == 0, false, 0, 1);
    let cases = [
        (steps(plain(192, 4, 3), &out_each, 64), 0, "256 channels after 64 steps, not in place"),
        (steps(plain(192, 4, 3), &|k| step(k % 2 == 0, true, 2 * k, 1), 64), 0, "256 channels after 64 steps, in place"),
        (steps(meta(192, 4, 3), &in_first, 64), 0, "256 meta channels after 64 steps"),
        (steps(meta(1, 9, 9), &in_first, 64), 0, "64 steps on one meta channel"),
        (steps(meta(100, 2, 2).channel(9, 9), &in_first, 64), 0, "meta channels before another"),
        (steps(plain(1, 999, 999), &out_first, 60), 0, "60 steps on one channel, shifts 30"),
        (steps(plain(4, 40, 40), &|k| step(k % 2 == 0, false, 0, [4, 3][k % 2]), 60), 0, "60 ranges"),
        (plain(128, 9, 9).step(step(true, true, 0, 128)), 0, "256 channels after one step"),
        (plain(256, 1, 1), 0, "256 channels, no step"),
        (plain(1, 4097, 4095), 0, "a default plan of 19 steps, under version 2 of 15"),
        (plain(3, 2049, 2729), 0, "a default plan of 20 steps, two of them not in place, under version 2 of 14"),
        (plain(1, 1_048_575, 16), 0, "a default plan on the longest side"),
        (plain(1, 16, 1_048_575), 0, "a default plan on the longest side, across"),
        (steps(meta(192, 65_536, 1), &in_first, 64), 0, "256 channels after 64 steps, strips among them"),
        (meta(255, 1_048_575, 0).channel(8, 8), 0, "255 strips without samples"),
        (plain(13, 1100, 1100), 0, "a default plan with 221 channels after it"),
        (meta(200, 1, 1).channel(700, 300), 0, "a default plan after 200 meta channels"),
        (steps(plain(192, 4, 3), &out_each, 63).step(step(true, true, 0, 9)), 10, "64th step refused"),
        (steps(plain(193, 4, 3), &out_each, 64), 10, "257 channels at the last step"),
        (plain(257, 1, 1), 3, "257 channels"),
        (steps(plain(192, 4, 3), &out_each, 65), 3, "65 steps"),
    ];
    let under = |version: &[u8]| {
        let record = |record: &Record| [version, record.bytes()].concat();
        cases.iter().map(|(r, answer, why)| (record(r), *answer, *why)).collect::<Vec<_>>()
    };
    [under(&[]), under(&records::HOUSE)].concat()
}

/// A list and up to 64 steps, all accepted.
fn long_plan(random: &mut Random) -> Vec<u8> {
    let (metas, others) = (random.below(60), 1 + random.below(150));
    let mut record = Record::new();
    for k in 0..metas + others {
        let (w, h) = (random.below(9) as u32, random.below(9) as u32);
        record = if k < metas {
            record.meta_channel(w, h)
        } else {
            record.channel(w, h)
        };
    }
    let mut list = record::read(record.bytes()).expect("a form").channels;
    for _ in 0..64 {
        for _ in 0..20 {
            let first = random.below(list.len());
            let place = random.once_in(2);
            let step = step(random.once_in(2), place, first, 1 + random.below(4) as u16);
            if let Ok(next) = list::take_step(&list, &lists::model_step(&step)) {
                (record, list) = (record.step(step), next);
                break;
            }
        }
    }
    record.bytes().to_vec()
}

#[test]
fn at_most_64_kib_for_any_call() {
    let mut stack = Painted::new();
    let mut needs = FUNCTIONS.map(|_| (0, ""));
    let mut measure = |record: &[u8], answer, why| {
        let mut calls = Calls::new(record);
        for (function, need) in FUNCTIONS.iter().zip(&mut needs) {
            let mut answered = 0;
            let bytes = stack.bytes_of(&mut || answered = calls.call(function));
            assert_eq!(answered, expected(function, answer), "{function}: {why}");
            if bytes > need.0 {
                *need = (bytes, why);
            }
        }
    };
    for (record, answer, why) in full_records() {
        measure(&record, answer, why);
    }
    let mut random = Random::new(111);
    for _ in 0..400 {
        measure(&long_plan(&mut random), 0, "64 random steps");
        let record = records::ordinary(&mut random);
        let answer = record::judge(&record).err().unwrap_or(0);
        measure(&record, answer, "a random record");
    }
    println!("the most bytes of stack that each function took:");
    for (function, (bytes, why)) in FUNCTIONS.iter().zip(needs) {
        println!("{function:<14} {bytes:>7}  {why}");
    }
    assert!(needs.iter().all(|need| need.0 <= BOUND), "{needs:?}");
}

/// Runs the test below in a process of its own: where the stack is too small, a
/// message is better than the end of all tests.
#[test]
fn every_call_on_a_thread_of_96_kib() {
    let child = Command::new(std::env::current_exe().expect("this program"))
        .args(["--exact", "on_a_small_stack", "--ignored", "--nocapture"])
        .output()
        .expect("this program starts again");
    let text = String::from_utf8_lossy(&child.stdout);
    let last = text.lines().rfind(|line| line.starts_with("on 96 KiB"));
    assert!(
        child.status.success() && text.contains("1 passed"),
        "{}, the last call: {last:?}",
        child.status
    );
}

#[test]
#[ignore = "every_call_on_a_thread_of_96_kib runs it"]
fn on_a_small_stack() {
    let full = full_records();
    let run = || {
        for (record, answer, why) in &full {
            let mut calls = Calls::new(record);
            for function in FUNCTIONS {
                println!("on 96 KiB: {function}, {why}");
                assert_eq!(calls.call(function), expected(function, *answer));
            }
        }
    };
    thread::scope(|scope| {
        let small = thread::Builder::new().stack_size(SMALL);
        let thread = small.spawn_scoped(scope, run).expect("a thread");
        thread.join().expect("it ends");
    });
}
