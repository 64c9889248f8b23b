//! The program `squeeze-list` and its launcher: what they print, the status, what
//! is said while the program is proved, and two started together. On this
//! repository's program where the toolchain is found, and on small trees with an
//! `rt` that only plays the toolchain.

#![cfg(target_os = "linux")]

use squeeze_compare::random::Random;
use squeeze_compare::{records, Tally};
use squeeze_model::listing;
use std::ffi::{OsStr, OsString};
use std::io::{BufRead, BufReader, Read, Write};
use std::ops::Deref;
use std::os::unix::fs::{symlink, PermissionsExt};
use std::path::{Path, PathBuf};
use std::process::{Command, Output, Stdio};
use std::sync::OnceLock;
use std::{env, fs};

const RECORD: &[u8] = &[1, 6, 0, 20, 0, 9, 0, 0, 0];
const LISTING: &str = "steps 3\nh in 0 1\nv in 0 1\nh in 0 1\nchannels 4\n5 5 2 1\n5 5 2 1\n\
                       10 4 1 1\n10 9 1 0\ncoarse 2\n";

fn repository() -> &'static Path {
    let host = Path::new(env!("CARGO_MANIFEST_DIR"));
    host.parent().expect("host/ lies in the repository")
}

fn emptied(dir: PathBuf) -> PathBuf {
    let _ = fs::remove_dir_all(&dir);
    fs::create_dir_all(&dir).expect("a directory");
    dir
}

/// The directory of one test, gone when the test ends. It lies outside the
/// repository, since `rt check` wants every source below it to be a crate's.
struct Place(PathBuf);

impl Place {
    fn new(name: &str) -> Place {
        let name = format!("squeeze-list-{}-{name}", std::process::id());
        Place(emptied(env::temp_dir().join(name)))
    }
}

impl Deref for Place {
    type Target = Path;

    fn deref(&self) -> &Path {
        &self.0
    }
}

impl Drop for Place {
    fn drop(&mut self) {
        let _ = fs::remove_dir_all(&self.0);
    }
}

fn write_script(path: &Path, text: &str) {
    fs::write(path, text).expect("a script");
    fs::set_permissions(path, fs::Permissions::from_mode(0o755)).expect("its mode");
}

/// The search path without `rt`: a directory that has one is replaced by links to
/// the others of its files.
fn path_without_rt() -> OsString {
    let links = emptied(Path::new(env!("CARGO_TARGET_TMPDIR")).join("path-without-rt"));
    let path = env::var_os("PATH").expect("a search path");
    let mut dirs = Vec::new();
    for (k, dir) in env::split_paths(&path).enumerate() {
        if !dir.join("rt").exists() {
            dirs.push(dir);
            continue;
        }
        let replaced = links.join(k.to_string());
        fs::create_dir(&replaced).expect("a directory");
        for entry in fs::read_dir(dir)
            .expect("a directory of programs")
            .flatten()
        {
            if entry.file_name() != "rt" {
                symlink(entry.path(), replaced.join(entry.file_name())).expect("a link");
            }
        }
        dirs.push(replaced);
    }
    env::join_paths(dirs).expect("a search path")
}

/// A shell command in a tree.
fn shell(tree: &Path, path: &OsStr, command: &str) -> Command {
    let mut shell = Command::new("sh");
    shell
        .args(["-c", command])
        .current_dir(tree)
        .env("PATH", path);
    shell
}

fn run(tree: &Path, path: &OsStr, command: &str) -> Output {
    shell(tree, path, command).output().expect("sh starts")
}

fn text(bytes: &[u8]) -> String {
    String::from_utf8_lossy(bytes).into_owned()
}

/// That a command ended well and printed `expected`; gives what it said.
fn printed(output: Output, expected: &str) -> String {
    let said = text(&output.stderr);
    assert!(output.status.success(), "{}: {said}", output.status);
    assert_eq!(text(&output.stdout), expected, "{said}");
    said
}

/// Starts two launchers together, `times` times, each after `before`.
fn pairs(tree: &Path, path: &OsStr, times: usize, before: &dyn Fn()) -> Vec<[Output; 2]> {
    let start = || {
        let mut launcher = shell(tree, path, "exec ./squeeze-list < record");
        launcher.stdout(Stdio::piped()).stderr(Stdio::piped());
        launcher.spawn().expect("sh starts")
    };
    let pair = |_| {
        before();
        let two = [start(), start()];
        two.map(|child| child.wait_with_output().expect("it ends"))
    };
    (0..times).map(pair).collect()
}

// ---- on this repository's program

/// The search path and whether the repository's program is proved and built,
/// which the first start sees to; not where there is no toolchain.
fn built() -> Option<&'static OsString> {
    static PATH: OnceLock<Option<OsString>> = OnceLock::new();
    let build = || {
        let path = env::var_os("PATH").expect("a search path");
        if !env::split_paths(&path).any(|dir| dir.join("rt").is_file()) {
            println!("rt isn't found: squeeze-list is tested with a played toolchain only");
            return None;
        }
        let output = run(repository(), &path, "./squeeze-list < /dev/null");
        printed(output, "refused 3\n");
        Some(path)
    };
    PATH.get_or_init(build).as_ref()
}

/// A tree with the repository's sources and its proved program.
fn copy(name: &str) -> Place {
    let tree = Place::new(name);
    fs::create_dir_all(tree.join("target/bin")).expect("a directory");
    // Not what the toolchain keeps of each crate, which is large.
    let parts = "crates crates.txt squeeze-list target/bin/squeeze_list";
    let command = format!("tar -c --exclude=out {parts} | tar -x -C \"$COPY\"");
    let path = env::var_os("PATH").expect("a search path");
    let mut copied = shell(repository(), &path, &command);
    let status = copied.env("COPY", &*tree).status();
    assert!(status.expect("sh starts").success(), "{parts}");
    fs::write(tree.join("record"), RECORD).expect("a record");
    tree
}

#[test]
fn document_01s_listing() {
    let Some(path) = built() else { return };
    let command = r"printf '\001\006\000\024\000\011\000\000\000' | ./squeeze-list";
    assert_eq!(printed(run(repository(), path, command), LISTING), "");
    // Unchanged, so no toolchain is needed.
    let output = run(repository(), &path_without_rt(), command);
    assert_eq!(printed(output, LISTING), "");
}

#[test]
#[rustfmt::skip]
fn statuses() {
    let Some(path) = built() else { return };
    let tree = copy("statuses");
    printed(run(&tree, path, "./squeeze-list < record"), LISTING);
    let cases = [
        ("./squeeze-list < record", 0, LISTING, "", "a record"),
        ("./squeeze-list < /dev/null", 0, "refused 3\n", "", "no bytes: a listing too"),
        ("yes | ./squeeze-list", 0, "refused 1\n", "", "input without an end"),
        ("./squeeze-list < /dev/zero", 0, "refused 2\n", "", "zeros without an end"),
        ("head -c 4096 /dev/zero | ./squeeze-list", 0, "refused 2\n", "", "as many as are judged"),
        ("cd crates && ../squeeze-list < ../record", 0, LISTING, "", "from another directory"),
        ("ln -s squeeze-list link && ./link < record", 0, LISTING, "", "through a link"),
        ("./squeeze-list < record 2>&-", 0, LISTING, "", "nowhere to say anything"),
        ("./squeeze-list < record | true", 0, "", "", "a reader that is gone"),
        ("./squeeze-list < record > /dev/full", 1, "", "output can't be written", "a full disk"),
        ("./squeeze-list < record >&-", 1, "", "output is closed", "closed output"),
        ("./squeeze-list < record 1< record", 1, "", "output can't be written", "output to read from"),
        ("./squeeze-list < .", 1, "", "input can't be read", "a directory as input"),
        ("./squeeze-list <&-", 1, "", "input is closed", "closed input"),
        ("./squeeze-list 0> written", 1, "", "input can't be read", "input to write to"),
        ("./squeeze-list <&- >&-", 1, "", "input is closed", "both closed"),
        ("./squeeze-list <&- >&- 2>&-", 1, "", "", "all closed"),
    ];
    for (command, status, expected, says, why) in cases {
        let output = run(&tree, path, command);
        let said = text(&output.stderr);
        assert_eq!(output.status.code(), Some(status), "{why}: {said}");
        assert_eq!(text(&output.stdout), expected, "{why}: {said}");
        assert_eq!(said.is_empty(), says.is_empty(), "{why}: {said}");
        assert!(said.contains(says), "{why}: {said}");
    }
}

#[test]
fn ten_pairs_started_together() {
    let Some(path) = built() else { return };
    let tree = copy("pairs");
    let stamp = tree.join("target/squeeze-list.stamp");
    let unstamp = || {
        let _ = fs::remove_file(&stamp);
    };
    for pair in pairs(&tree, path, 10, &unstamp) {
        for output in pair {
            printed(output, LISTING);
        }
    }
    assert!(stamp.exists());
}

/// The toolchain builds again what it has proved before.
#[test]
fn a_program_that_is_gone() {
    let Some(path) = built() else { return };
    let tree = copy("gone");
    fs::remove_file(tree.join("target/bin/squeeze_list")).expect("a program");
    printed(run(&tree, path, "./squeeze-list < record"), LISTING);
    assert!(tree.join("target/squeeze-list.stamp").exists());
}

/// The program without its launcher, on standard input and output.
fn program(bytes: &[u8]) -> String {
    let mut child = Command::new(repository().join("target/bin/squeeze_list"))
        .stdin(Stdio::piped())
        .stdout(Stdio::piped())
        .spawn()
        .expect("the program starts");
    // It may end before it has read everything.
    let _ = child.stdin.take().expect("piped").write_all(bytes);
    let output = child.wait_with_output().expect("it ends");
    assert!(output.status.success(), "{bytes:02x?}");
    text(&output.stdout)
}

/// The first 4,096 bytes are judged; a refusal is one line.
#[test]
fn the_program_beside_the_model() {
    if built().is_none() {
        return;
    }
    let (mut random, mut tally) = (Random::new(122), Tally::default());
    for _ in 0..1_500 {
        let mut bytes = records::some(&mut random);
        if random.once_in(10) {
            // A field too long for the rest, for the judged bytes, or for neither.
            let length = random.pick(&[4080, 4093, 4094, 9000]);
            bytes.extend_from_slice(&[1, length as u8, (length >> 8) as u8]);
            bytes.resize(bytes.len() + random.pick(&[4093, 4094, 9000]), 0);
        }
        let judged = &bytes[..bytes.len().min(4096)];
        let (answer, expected) = match listing::listing(judged) {
            Ok(listing) => (0, listing),
            Err(number) => (number, format!("refused {number}\n")),
        };
        assert_eq!(program(&bytes), expected, "{bytes:02x?}");
        tally.add(answer);
    }
    tally.print("the program on random records");
    assert_eq!(tally.met(), (0..12).collect::<Vec<_>>());
}

// ---- with a played toolchain

/// A tree whose program prints how many bytes it read and their sum, and whose
/// `rt` notes each call, wants to be alone, and fails if there is a file `fails`.
/// Gives the search path too.
fn played(name: &str) -> (Place, OsString) {
    let tree = Place::new(name);
    for dir in ["crates/one/src", "crates/squeeze_list/src", "bin"] {
        fs::create_dir_all(tree.join(dir)).expect("a directory");
    }
    fs::copy(repository().join("squeeze-list"), tree.join("squeeze-list")).expect("a copy");
    fs::write(tree.join("crates.txt"), "one:\nsqueeze_list: one std\n").expect("a file");
    for file in [
        "crates/one/src/lib.rt",
        "crates/squeeze_list/src/main.rt",
        "record",
    ] {
        fs::write(tree.join(file), "text\n").expect("a file");
    }
    write_script(&tree.join("program"), "#!/bin/sh\ncksum\n");
    write_script(
        &tree.join("bin/rt"),
        "#!/bin/sh\n\
         echo \"${PWD##*/}: $*\" >> ../../calls\n\
         cd ../..\n\
         mkdir alone || exit 1\n\
         echo 'what the checker says'\n\
         echo 'rt: chose --jobs 2 for one'\n\
         echo 'logic=proved functions=1'\n\
         k=0; while [ -f wait ] && [ $k -lt 100 ]; do sleep 0.1; k=$((k + 1)); done\n\
         sleep 0.1\n\
         echo 'library two: modules loaded=3 checked=0'\n\
         echo 'rt: chose --jobs 2 for squeeze_list'\n\
         echo 'logic=proved functions=2'\n\
         rmdir alone\n\
         [ ! -f fails ] || { echo 'rt: FAILED: one' >&2; exit 1; }\n\
         [ -f builds_nothing ] || cp program crates/squeeze_list/out/squeeze_list\n\
         echo 'what the program prints'\n",
    );
    let path = env::var_os("PATH").expect("a search path");
    let dirs = [tree.join("bin")]
        .into_iter()
        .chain(env::split_paths(&path));
    let path = env::join_paths(dirs).expect("a search path");
    (tree, path)
}

/// How often `rt` was called, each time to prove and run the program.
fn calls(tree: &Path) -> usize {
    let calls = fs::read_to_string(tree.join("calls")).unwrap_or_default();
    assert!(
        calls.lines().all(|call| call == "squeeze_list: run"),
        "{calls}"
    );
    calls.lines().count()
}

/// What `cksum` prints for bytes.
fn sum(tree: &Path, bytes: &[u8]) -> String {
    fs::write(tree.join("summed"), bytes).expect("a file");
    let path = env::var_os("PATH").expect("a search path");
    text(&run(tree, &path, "cksum < summed").stdout)
}

#[test]
fn crate_by_crate_while_it_proves() {
    let (tree, path) = played("progress");
    fs::write(tree.join("wait"), "").expect("a file");
    let mut launcher = shell(&tree, &path, "exec ./squeeze-list < record");
    launcher.stdout(Stdio::piped()).stderr(Stdio::piped());
    let mut child = launcher.spawn().expect("sh starts");
    let mut lines = BufReader::new(child.stderr.take().expect("piped")).lines();
    let mut line = || lines.next().expect("a line").expect("text");
    assert_eq!(
        line(),
        "squeeze-list: proving the program's crates: one squeeze_list"
    );
    assert_eq!(line(), "squeeze-list: one proved");
    // The toolchain goes on only now: the line came while it was at work.
    fs::remove_file(tree.join("wait")).expect("it waited");
    assert_eq!(line(), "squeeze-list: squeeze_list proved");
    assert!(lines.next().is_none());
    let mut listed = String::new();
    child
        .stdout
        .take()
        .expect("piped")
        .read_to_string(&mut listed)
        .expect("text");
    assert_eq!(listed, sum(&tree, b"text\n"));
    assert!(child.wait().expect("it ends").success());
}

#[test]
fn a_proof_that_fails() {
    let (tree, path) = played("fails");
    fs::write(tree.join("fails"), "").expect("a file");
    for times in 1..=2 {
        let output = run(&tree, &path, "./squeeze-list < record");
        assert_eq!(
            (output.status.code(), text(&output.stdout)),
            (Some(1), String::new())
        );
        let said = text(&output.stderr);
        assert!(said.contains("what the checker says\n"), "{said}");
        assert!(said.ends_with("rt: FAILED: one\nsqueeze-list: the program isn't proved\n"));
        assert_eq!(calls(&tree), times);
    }
    fs::remove_file(tree.join("fails")).expect("a file");
    printed(
        run(&tree, &path, "./squeeze-list < record"),
        &sum(&tree, b"text\n"),
    );
}

#[test]
fn a_program_that_is_not_built() {
    let (tree, path) = played("unbuilt");
    fs::write(tree.join("builds_nothing"), "").expect("a file");
    let output = run(&tree, &path, "./squeeze-list < record");
    let said = text(&output.stderr);
    assert_eq!(
        (output.status.code(), text(&output.stdout)),
        (Some(1), String::new())
    );
    assert!(said.contains("start again"), "{said}");
    assert!(!tree.join("target/squeeze-list.stamp").exists());
}

#[test]
fn ten_pairs_prove_once_each() {
    let (tree, path) = played("alone");
    let unstamp = || {
        let _ = fs::remove_file(tree.join("target/squeeze-list.stamp"));
    };
    let listed = sum(&tree, b"text\n");
    let mut waited = 0;
    for pair in pairs(&tree, &path, 10, &unstamp) {
        for output in pair {
            waited += usize::from(printed(output, &listed).contains("another one is proving"));
        }
    }
    assert_eq!(calls(&tree), 10);
    println!("pairs of launchers: {waited} of 10 waited for the other");
    assert!(waited > 0);
}

#[test]
#[rustfmt::skip]
fn what_makes_it_prove_again() {
    let (tree, path) = played("changes");
    let start = || printed(run(&tree, &path, "./squeeze-list < record"), &sum(&tree, b"text\n"));
    start();
    let cases = [
        ("true", 0, "nothing"),
        ("rm calls; touch calls squeeze-list", 0, "files that aren't sources"),
        ("echo more >> crates/one/src/lib.rt", 1, "a source that is longer"),
        ("echo more > crates/one/more.rt", 1, "a new file"),
        ("rm crates/one/more.rt", 1, "a file that is gone"),
        ("touch -d '2001-02-03' crates/one/src/lib.rt", 1, "a source with an old date"),
        ("cp -p crates.txt c && mv c crates.txt", 1, "the list of crates, replaced"),
        ("cp -p bin/rt rt && mv rt bin/rt", 1, "another toolchain in its place"),
        ("mkdir other && mv bin/rt other && ln -s ../other/rt bin/rt", 1, "a toolchain elsewhere"),
        ("rm target/bin/squeeze_list", 1, "no program"),
        ("rm target/squeeze-list.stamp", 1, "no stamp"),
        ("rm -r target", 1, "nothing built"),
    ];
    for (command, times, why) in cases {
        // Times of files are no finer than some milliseconds.
        run(&tree, &path, &format!("sleep 0.05; {command}; sleep 0.05"));
        for expected in [times, 0] {
            let before = calls(&tree);
            start();
            assert_eq!(calls(&tree) - before, expected, "{why}");
        }
    }
}

#[test]
fn input_reaches_the_program_as_it_is() {
    let (tree, path) = played("input");
    let mut random = Random::new(121);
    for length in [0, 1, 9, 4095, 4096, 4097, 8191, 8192, 8193, 20_000, 200_000] {
        let bytes: Vec<u8> = (0..length).map(|_| random.bits() as u8).collect();
        fs::write(tree.join("record"), &bytes).expect("a record");
        let read = sum(&tree, &bytes[..length.min(8192)]);
        for command in ["./squeeze-list < record", "cat record | ./squeeze-list"] {
            printed(run(&tree, &path, command), &read);
        }
    }
    let slow = "(printf ab; sleep 0.2; printf 'c\\0'; sleep 0.2; printf '\\n') | ./squeeze-list";
    printed(run(&tree, &path, slow), &sum(&tree, b"abc\0\n"));
    printed(
        run(&tree, &path, "yes | ./squeeze-list"),
        &sum(&tree, &b"y\n".repeat(4096)),
    );
}

#[test]
fn a_program_that_fails() {
    let (tree, path) = played("program");
    for (program, why) in [("exit 7", "a status"), ("kill -SEGV $$", "a signal")] {
        write_script(
            &tree.join("program"),
            &format!("#!/bin/sh\necho text\n{program}\n"),
        );
        let _ = fs::remove_dir_all(tree.join("target"));
        let output = run(&tree, &path, "./squeeze-list < record");
        assert_eq!(
            (output.status.code(), text(&output.stdout)),
            (Some(1), String::new())
        );
        let said = text(&output.stderr);
        assert!(
            said.ends_with("squeeze-list: the program ended with an error\n"),
            "{why}: {said}"
        );
    }
}

#[test]
fn what_is_missing() {
    let (tree, path) = played("missing");
    let bin = tree.join("few");
    fs::create_dir(&bin).expect("a directory");
    for tool in [
        "bash", "cat", "cp", "find", "head", "mkdir", "mv", "readlink", "sed", "sh",
    ] {
        let found = env::split_paths(&path)
            .map(|dir| dir.join(tool))
            .find(|tool| tool.exists());
        symlink(found.expect(tool), bin.join(tool)).expect("a link");
    }
    let says = |says: &str| {
        let output = run(&tree, bin.as_os_str(), "./squeeze-list < record");
        let said = text(&output.stderr);
        assert_eq!(
            (output.status.code(), text(&output.stdout)),
            (Some(1), String::new())
        );
        assert!(said.lines().count() == 1 && said.contains(says), "{said}");
    };
    says("flock isn't found");
    let flock = env::split_paths(&path)
        .map(|dir| dir.join("flock"))
        .find(|tool| tool.exists());
    symlink(flock.expect("flock"), bin.join("flock")).expect("a link");
    says("rt, the Rattle toolchain, isn't found");
}
