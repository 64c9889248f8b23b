//! Makes the core's archive and links it. `SQUEEZE_ARCHIVE_DIR` may name a
//! directory that holds a ready `libsqueeze.a`; then no toolchain is needed.
//! `SQUEEZE_BEFORE_DIR` may name one with the archive of an earlier commit,
//! `libbefore.a` (`bench/archive.sh` makes it), for the benchmark to time beside it.

use std::env;
use std::path::{Path, PathBuf};
use std::process::Command;

fn main() {
    println!("cargo:rerun-if-env-changed=SQUEEZE_ARCHIVE_DIR");
    let dir = match env::var_os("SQUEEZE_ARCHIVE_DIR") {
        Some(dir) => ready_archive(PathBuf::from(dir)),
        None => make_archive(),
    };
    // For the test that links the archive to a C program.
    println!("cargo:rustc-env=SQUEEZE_ARCHIVE_USED={}", dir.display());
    println!("cargo:rustc-link-search=native={}", dir.display());
    println!("cargo:rustc-link-lib=static=squeeze");
    link_before();
}

fn link_before() {
    println!("cargo:rerun-if-env-changed=SQUEEZE_BEFORE_DIR");
    println!("cargo:rustc-check-cfg=cfg(squeeze_before)");
    if let Ok(dir) = env::var("SQUEEZE_BEFORE_DIR") {
        println!("cargo:rustc-cfg=squeeze_before");
        println!("cargo:rustc-link-search=native={dir}");
        println!("cargo:rustc-link-lib=static=before");
    }
}

fn ready_archive(dir: PathBuf) -> PathBuf {
    let archive = dir.join("libsqueeze.a");
    println!("cargo:rerun-if-changed={}", archive.display());
    if !archive.is_file() {
        panic!("SQUEEZE_ARCHIVE_DIR: there is no {}", archive.display());
    }
    dir
}

fn make_archive() -> PathBuf {
    let host = PathBuf::from(env::var_os("CARGO_MANIFEST_DIR").expect("set by cargo"));
    let top = host.parent().expect("host/ lies in the repository");
    println!("cargo:rerun-if-changed=../tools/archive.sh");
    watch_sources(&top.join("crates"));
    println!("cargo:rerun-if-changed=../crates.txt");
    run_archive(top);
    let dir = top.join("target").join("staticlib");
    if !dir.join("libsqueeze.a").is_file() {
        panic!("tools/archive.sh left no target/staticlib/libsqueeze.a");
    }
    dir
}

/// The folders of sources, and not what the toolchain keeps beside them.
fn watch_sources(crates: &Path) {
    let folders = std::fs::read_dir(crates).expect("crates/ can be read");
    for folder in folders.flatten() {
        for part in ["src", "specs", "proofs"] {
            let sources = folder.path().join(part);
            if sources.is_dir() {
                println!("cargo:rerun-if-changed={}", sources.display());
            }
        }
    }
}

fn run_archive(top: &Path) {
    let answer = Command::new(top.join("tools").join("archive.sh"))
        .arg("squeeze")
        .output();
    let output = match answer {
        Ok(output) => output,
        Err(error) => panic!("tools/archive.sh can't be started ({error})"),
    };
    if !output.status.success() {
        panic!(
            "tools/archive.sh failed ({}). Install the Rattle toolchain, `rt`, or set \
             SQUEEZE_ARCHIVE_DIR to a directory with a ready libsqueeze.a\n{}{}",
            output.status,
            String::from_utf8_lossy(&output.stdout),
            String::from_utf8_lossy(&output.stderr)
        );
    }
}
