//! The preview program: files read and written, previews, and bad files.

#[path = "../examples/preview/coarse.rs"]
mod coarse;
#[path = "../examples/preview/command.rs"]
mod command;
#[path = "../examples/preview/pnm.rs"]
mod pnm;

use pnm::Picture;
use squeeze::{write_pyramid, Channel, Record, Version};
use std::fs;
use std::path::{Path, PathBuf};

fn picture(width: usize, height: usize, channels: usize, maxval: u16) -> Picture {
    let number = width * height * channels;
    let sample = |k: usize| (k * 37 % (usize::from(maxval) + 1)) as u16;
    Picture {
        width,
        height,
        channels,
        maxval,
        samples: (0..number).map(sample).collect(),
    }
}

#[test]
fn one_picture_in_four_forms() {
    let gray = [
        &b"P2\n3 2\n255\n1 2 3 4 5 255\n"[..],
        b"P2 # a comment\n#another\n3 # and one\n2\n255\n1 2 3\n4 5 255",
        b"P5 3 2 255\n\x01\x02\x03\x04\x05\xff",
        b"P5\n# white space may be a comment's\n3\t2\r\n255 \x01\x02\x03\x04\x05\xff and more",
    ];
    for bytes in gray {
        let read = pnm::parse(bytes).unwrap();
        assert_eq!(
            (read.width, read.height, read.channels, read.maxval),
            (3, 2, 1, 255)
        );
        assert_eq!(read.samples, [1, 2, 3, 4, 5, 255]);
    }
    let colour = [
        &b"P3 1 2 300 1 2 300 4 5 6"[..],
        b"P6 1 2 300\n\0\x01\0\x02\x01\x2c\0\x04\0\x05\0\x06",
    ];
    for bytes in colour {
        let read = pnm::parse(bytes).unwrap();
        assert_eq!(
            (read.width, read.height, read.channels, read.maxval),
            (1, 2, 3, 300)
        );
        assert_eq!(read.samples, [1, 2, 300, 4, 5, 6]);
        assert_eq!(read.planes(), [1, 4, 2, 5, 300, 6]);
    }
}

#[test]
fn written_and_read_again() {
    for (channels, maxval) in [(1, 1), (1, 255), (1, 256), (3, 255), (3, 65_535)] {
        let before = picture(7, 5, channels, maxval);
        assert_eq!(pnm::parse(&pnm::format(&before)), Ok(before));
    }
}

#[test]
fn bad_files() {
    let cases: [(&[u8], &str); 22] = [
        (b"", "not a portable"),
        (b"P", "not a portable"),
        (b"P1 1 1 1", "not a portable"),
        (b"P4 1 1 1", "not a portable"),
        (b"GIF89a", "not a portable"),
        (b"P5", "cut: no width"),
        (b"P5 9", "cut: no height"),
        (b"P5 9 9", "cut: no maxval"),
        (b"P5 9 # 9 9 255", "cut: no height"),
        (b"P59 9 255\n", "no white space before the width"),
        (b"P5 x 9 255\n", "no number for the width"),
        (b"P5 -9 9 255\n", "no number for the width"),
        (b"P5 0 9 255\n", "0 by 9 has no samples"),
        (b"P5 9 0 255\n", "9 by 0 has no samples"),
        (b"P5 1048576 1 255\n", "too large"),
        (b"P5 4097 4096 255\n", "too large"),
        (b"P6 4096 4096 255\n", "too large"),
        (b"P5 99999999999999999999999 1 255\n", "too large"),
        (b"P5 1 1 0\n\0", "maxval 0"),
        (b"P5 1 1 65536\n\0\0", "maxval 65536"),
        (b"P5 2 2 255\n\0\0\0", "cut: fewer than 4"),
        (b"P2 2 2 255\n1 2 3 ", "cut"),
    ];
    for (bytes, reason) in cases {
        let message = pnm::parse(bytes).unwrap_err();
        assert!(message.contains(reason), "{message:?} for {reason:?}");
        assert!(!message.contains('\n'));
    }
    let above: [(&[u8], &str); 4] = [
        (b"P5 1 1 7\n\x08", "above maxval 7"),
        (b"P2 1 1 7 8", "above maxval 7"),
        (b"P2 1 1 7 70000", "above 65535"),
        (b"P2 1 1 7 x", "no number"),
    ];
    for (bytes, reason) in above {
        assert!(pnm::parse(bytes).unwrap_err().contains(reason), "{reason}");
    }
}

#[test]
fn every_cut_of_a_file_is_refused() {
    for form in [&b"P6 2 2 255\nabcdefghijkl"[..], b"P5 2 1 256\n\0a\0b"] {
        assert!(pnm::parse(form).is_ok());
        for length in 0..form.len() {
            assert!(pnm::parse(&form[..length]).is_err(), "{length} bytes");
        }
    }
}

#[test]
fn flat_pictures_give_flat_previews() {
    for (width, height) in [
        (1, 1),
        (8, 8),
        (9, 9),
        (100, 3),
        (1, 100),
        (65_535, 2),
        (3, 70_000),
        (640, 480),
    ] {
        for channels in [1, 3] {
            for (version, side) in [(Version::STANDARD, 8), (Version::HOUSE, 32)] {
                flat_preview(&picture(width, height, channels, 65_535), version, side);
            }
        }
    }
}

/// A picture of one shade in each channel, like `picture`: the preview has no side
/// above the version's, and these shades.
fn flat_preview(picture: &Picture, version: Version, side: usize) {
    let shades = [40_000, 7, 65_535];
    let mut flat = picture.clone();
    let samples = flat.samples.iter_mut().enumerate();
    samples.for_each(|(k, sample)| *sample = shades[k % picture.channels]);
    let small = coarse::preview(&flat, version).unwrap();
    let Picture {
        width: w,
        height: h,
        samples,
        ..
    } = small.picture;
    assert!((1..=side).contains(&w) && (1..=side).contains(&h));
    assert_eq!(samples.len(), w * h * picture.channels);
    assert!(small.arrived <= samples.len());
    for (k, sample) in samples.into_iter().enumerate() {
        assert_eq!(sample, shades[k % picture.channels], "{w} by {h}");
    }
}

#[test]
fn small_pictures_arrive_whole() {
    // A graymap without steps is its own preview; of a pixmap the first channel.
    let gray = picture(8, 5, 1, 255);
    let small = coarse::preview(&gray, Version::STANDARD).unwrap();
    assert_eq!((small.picture, small.arrived), (gray, 40));
    let colour = picture(8, 6, 3, 255);
    let small = coarse::preview(&colour, Version::STANDARD).unwrap();
    assert_eq!((small.picture.width, small.picture.height), (8, 6));
    assert_eq!(small.arrived, 8 * 6 + 2 * 4 * 3);
    let first = |p: &Picture| p.samples.iter().step_by(3).copied().collect::<Vec<u16>>();
    assert_eq!(first(&small.picture), first(&colour));
    // Under version 2 each channel does, up to 32 by 32.
    for (width, height, channels) in [(32, 32, 1), (32, 20, 3), (9, 31, 3)] {
        let whole = picture(width, height, channels, 255);
        let small = coarse::preview(&whole, Version::HOUSE).unwrap();
        assert_eq!(small.arrived, width * height * channels);
        assert_eq!(small.picture, whole);
    }
}

#[test]
fn palettes_are_not_shown() {
    for (channels, version) in [(1, 1), (3, 1), (1, 2), (3, 2)] {
        let version = Version(version);
        let drawn = picture(40, 9, channels, 255);
        let alone = coarse::preview(&drawn, version).unwrap();
        let palettes = [Channel::meta(300, 1), Channel::meta(3, 2)];
        let list = [&palettes[..], &vec![Channel::new(40, 9); channels]].concat();
        let record = Record::from_parts_under(version, &list, &[]).unwrap();
        let colours = vec![77; 306];
        let pyramid = write_pyramid(record.bytes(), &[colours, drawn.planes()].concat()).unwrap();
        let seats = coarse::shown(record.bytes(), &pyramid, channels, 255).unwrap();
        assert_eq!(seats.picture, alone.picture);
        assert_eq!(seats.arrived, 306 + alone.arrived);
        assert_eq!(seats.to_come, [&[0, 0], &alone.to_come[..]].concat());
    }
}

#[test]
fn averages_of_a_pair() {
    // 16 by 1: one step, average = first - (first - second) / 2 toward zero.
    let samples = [0, 1, 1, 0, 9, 4, 4, 9, 255, 0, 0, 255, 3, 3, 7, 9];
    let gray = Picture {
        samples: samples.to_vec(),
        ..picture(16, 1, 1, 255)
    };
    let small = coarse::preview(&gray, Version::STANDARD).unwrap();
    assert_eq!(small.picture.samples, [0, 1, 7, 6, 128, 127, 3, 8]);
}

#[test]
fn enlarged_by_a_factor() {
    let colour = Picture {
        width: 2,
        height: 1,
        channels: 3,
        maxval: 9,
        samples: vec![1, 2, 3, 4, 5, 6],
    };
    let large = colour.enlarged(2);
    assert_eq!((large.width, large.height), (4, 2));
    let row = [1, 2, 3, 1, 2, 3, 4, 5, 6, 4, 5, 6];
    assert_eq!(large.samples, [row, row].concat());
}

fn place(name: &str) -> PathBuf {
    Path::new(env!("CARGO_TARGET_TMPDIR")).join(name)
}

fn run(words: &[&Path]) -> Result<String, String> {
    let words: Vec<String> = words.iter().map(|w| w.display().to_string()).collect();
    command::run(&words)
}

#[test]
fn the_command() {
    let (input, output) = (place("pass.ppm"), place("pass-small.ppm"));
    fs::write(&input, pnm::format(&picture(100, 60, 3, 255))).unwrap();
    let text = run(&[&input, &output, Path::new("3")]).unwrap();
    assert_eq!(
        text,
        "7 by 8 samples from the first 88 of 18000\n\
         refinements to come: 7 for channel 0, 9 for channel 1, 9 for channel 2"
    );
    let small = pnm::parse(&fs::read(&output).unwrap()).unwrap();
    assert_eq!((small.width, small.height, small.channels), (21, 24, 3));
    let text = run(&[&input, &output, Path::new("1"), Path::new("2")]).unwrap();
    assert_eq!(
        text,
        "25 by 30 samples from the first 2250 of 18000\n\
         refinements to come: 3 for channel 0, 3 for channel 1, 3 for channel 2"
    );
    let small = pnm::parse(&fs::read(&output).unwrap()).unwrap();
    assert_eq!((small.width, small.height, small.channels), (25, 30, 3));
    fs::write(&input, pnm::format(&picture(8, 5, 1, 255))).unwrap();
    let text = run(&[&input, &output]).unwrap();
    assert_eq!(
        text,
        "8 by 5 samples from the first 40 of 40\nno refinement is to come"
    );
}

#[test]
fn a_bad_file_leaves_no_output() {
    let (input, output) = (place("bad.ppm"), place("bad-small.ppm"));
    let _ = fs::remove_file(&output);
    fs::write(&input, b"P6 9 9 255\nshort").unwrap();
    assert!(run(&[&input, &output]).unwrap_err().contains("cut"));
    assert!(run(&[&place("missing.ppm"), &output]).is_err());
    fs::write(&input, pnm::format(&picture(2, 2, 1, 255))).unwrap();
    for factor in ["0", "-1", "257", "x", ""] {
        let message = run(&[&input, &output, Path::new(factor)]).unwrap_err();
        assert!(message.contains("factor"), "{message}");
    }
    for (factor, version, says) in [
        ("65", "2", "factor"),
        ("1", "0", "version"),
        ("1", "x", "version"),
        ("1", "256", "version"),
        ("1", "3", "refused 4"),
    ] {
        let message = run(&[&input, &output, Path::new(factor), Path::new(version)]).unwrap_err();
        assert!(message.contains(says), "{message}");
    }
    assert!(run(&[&input]).unwrap_err().contains("usage"));
    assert!(!output.exists());
}

/// Exit status and messages of the program, which `cargo test` builds with the
/// other examples; `cargo test --test preview` alone doesn't.
#[test]
fn the_program() {
    let test = std::env::current_exe().unwrap();
    let program = test
        .parent()
        .unwrap()
        .with_file_name("examples")
        .join("preview");
    if !program.exists() {
        println!("the preview program isn't built: its exit status isn't tested");
        return;
    }
    let (input, output) = (place("program.pgm"), place("program-small.pgm"));
    fs::write(&input, pnm::format(&picture(30, 20, 1, 255))).unwrap();
    let call = |words: &[&Path]| {
        std::process::Command::new(&program)
            .args(words)
            .output()
            .unwrap()
    };
    let good = call(&[&input, &output]);
    assert!(good.status.success() && good.stderr.is_empty());
    assert_eq!(
        good.stdout,
        b"8 by 5 samples from the first 40 of 600\nrefinements to come: 4 for channel 0\n"
    );
    fs::remove_file(&output).unwrap();
    fs::write(&input, b"P5 30 20 255\n").unwrap();
    let bad = call(&[&input, &output]);
    assert_eq!(bad.status.code(), Some(1));
    let message = String::from_utf8(bad.stderr).unwrap();
    assert!(
        message.ends_with("cut: fewer than 600 samples\n"),
        "{message}"
    );
    assert_eq!(message.lines().count(), 1);
    assert!(bad.stdout.is_empty() && !output.exists());
}
