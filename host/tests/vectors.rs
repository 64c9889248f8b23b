//! Replays pictures and pyramids that libjxl agrees with: all of the directory
//! that `SQUEEZE_VECTORS` names, else the few in `tests/data/`.

use squeeze_compare::must;
use squeeze_compare::runs::Run;
use std::path::{Path, PathBuf};
use std::{env, fs};

fn directory() -> PathBuf {
    match env::var_os("SQUEEZE_VECTORS") {
        Some(directory) => PathBuf::from(directory),
        None => {
            println!("SQUEEZE_VECTORS isn't set: the few vectors in tests/data are replayed");
            Path::new(env!("CARGO_MANIFEST_DIR")).join("tests/data")
        }
    }
}

/// The names of all records in a directory.
fn names(directory: &Path) -> Vec<PathBuf> {
    let entries =
        fs::read_dir(directory).unwrap_or_else(|error| panic!("{}: {error}", directory.display()));
    let mut paths: Vec<PathBuf> = entries
        .map(|entry| entry.expect("a directory entry").path())
        .filter(|path| path.extension().is_some_and(|e| e == "record"))
        .collect();
    paths.sort();
    paths
}

fn samples(path: &Path) -> Vec<i32> {
    let bytes = fs::read(path).unwrap_or_else(|error| panic!("{}: {error}", path.display()));
    let (words, rest) = bytes.as_chunks::<4>();
    assert!(rest.is_empty(), "{}: a cut sample", path.display());
    words.iter().map(|&word| i32::from_le_bytes(word)).collect()
}

fn replay(path: &Path) {
    let record = fs::read(path).expect("a record that can be read");
    let picture = samples(&path.with_extension("picture"));
    let pyramid = samples(&path.with_extension("pyramid"));
    let slice = vec![77; picture.len()];
    for (back, input, expected) in [(true, &pyramid, &picture), (false, &picture, &pyramid)] {
        let run = Run {
            back,
            record: &record,
            input,
            output: &slice,
            work: &slice,
        };
        let outcome = must(run.compare());
        assert_eq!(outcome.answer, 0, "{}", path.display());
        assert!(
            outcome.output == *expected,
            "{}, back: {back}",
            path.display()
        );
    }
}

#[test]
fn every_vector_both_ways() {
    let directory = directory();
    let names = names(&directory);
    names.iter().for_each(|path| replay(path));
    println!("{} vectors from {}", names.len(), directory.display());
    assert!(names.len() >= 10, "{} vectors", names.len());
}
