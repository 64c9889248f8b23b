//! The stack of each exported function for every input: the frames of the
//! archive's machine code added up along its calls, which may not come round to
//! a function again. Needs `objdump`; `stack.rs` measures without it.

#![cfg(target_arch = "x86_64")]

use std::collections::BTreeMap;
use std::path::Path;
use std::process::Command;

/// What no call may exceed, in bytes.
const BOUND: usize = 64 << 10;

/// The functions of the C library that the archive calls; each takes little.
const OUTSIDE: [&str; 2] = ["memcpy", "memset"];

/// Bytes that a function takes itself, and the functions that it calls.
#[derive(Default)]
struct Function {
    frame: usize,
    calls: Vec<String>,
}

/// The functions of a disassembly with relocations.
fn functions(text: &str) -> BTreeMap<String, Function> {
    let mut functions = BTreeMap::<String, Function>::new();
    let mut name = String::new();
    for line in text.lines() {
        if let Some((_, head)) = line.split_once(" <") {
            name = head.strip_suffix(">:").unwrap_or(&name).to_string();
        }
        if name.is_empty() {
            continue;
        }
        let function = functions.entry(name.clone()).or_default();
        function.calls.extend(called(line).map(str::to_string));
        let words = line.split('\t').nth(1).unwrap_or("");
        function.frame += taken(words).unwrap_or_else(|| panic!("{name}: {words}"));
    }
    functions
}

/// The function that a line calls: by a relocation, or one of the same section.
fn called(line: &str) -> Option<&str> {
    if let Some((_, target)) = line.split_once("R_X86_64_PLT32") {
        let name = target.trim().split(['+', '-']).next()?;
        return Some(name.trim_start_matches(".text."));
    }
    let (_, target) = line.split_once("\tcall ")?;
    assert!(
        !target.contains('*'),
        "a call that can't be followed: {line}"
    );
    let (_, name) = target.split_once('<')?;
    name.strip_suffix('>').filter(|name| !name.contains('+'))
}

/// Bytes that an instruction takes from the stack; none where it can't be told.
fn taken(words: &str) -> Option<usize> {
    let (name, rest) = words.split_once(' ').unwrap_or((words, ""));
    let number = rest.trim().strip_prefix("$0x");
    let number = number.and_then(|number| number.strip_suffix(",%rsp"));
    let number = number.and_then(|number| u64::from_str_radix(number, 16).ok());
    match (name, number) {
        ("push", _) => Some(8),
        ("sub", Some(bytes)) => Some(bytes as usize),
        ("add", Some(bytes)) => Some((bytes as i64).min(0).unsigned_abs() as usize),
        ("cmp" | "test", _) => Some(0),
        _ => (!rest.trim_end().ends_with(",%rsp")).then_some(0),
    }
}

/// The most bytes below a function's caller, and the calls that take them.
fn need(functions: &BTreeMap<String, Function>, path: &[&str]) -> (usize, String) {
    let name = path[path.len() - 1];
    let Some(function) = functions.get(name) else {
        assert!(OUTSIDE.contains(&name), "{path:?} isn't in the archive");
        return (0, name.into());
    };
    let mut most = (0, String::new());
    for call in &function.calls {
        assert!(!path.contains(&&call[..]), "{path:?} calls {call} again");
        most = most.max(need(functions, &[path, &[&call[..]]].concat()));
    }
    // Each call leaves a return address.
    let bytes = 8 + function.frame + most.0;
    (bytes, format!("{name} {} > {}", function.frame, most.1))
}

#[test]
fn frames_added_up() {
    let archive = Path::new(env!("SQUEEZE_ARCHIVE_USED")).join("libsqueeze.a");
    let objdump = Command::new("objdump")
        .args(["-d", "-r", "--no-show-raw-insn"])
        .arg(archive)
        .output();
    let Ok(output) = objdump else {
        println!("no objdump found: frames aren't added up");
        return;
    };
    assert!(output.status.success());
    let functions = functions(&String::from_utf8_lossy(&output.stdout));
    let exported = functions.keys().filter(|name| name.starts_with("squeeze_"));
    let needs: Vec<_> = exported.map(|name| need(&functions, &[name])).collect();
    for (bytes, calls) in &needs {
        println!("{bytes:>7} bytes: {calls}");
    }
    assert_eq!(needs.len(), 10);
    assert!(needs.iter().all(|need| need.0 <= BOUND), "{needs:?}");
}
