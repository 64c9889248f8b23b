//! The Rust declarations against `include/squeeze.h`, and the C example
//! compiled and run where there is a C compiler.

use std::path::Path;
use std::process::Command;

const HEADER: &str = include_str!("../../include/squeeze.h");

/// Name, types of the parameters and of the result, in Rust's words.
type Function = (String, Vec<String>, String);

fn c_type(words: &str) -> String {
    let plain = |name: &str| match name {
        "size_t" => "usize".to_string(),
        _ => {
            let (kind, bits) = match name.strip_prefix("uint") {
                Some(rest) => ('u', rest),
                None => ('i', name.strip_prefix("int").expect(name)),
            };
            format!("{kind}{}", bits.strip_suffix("_t").expect(name))
        }
    };
    let words = words.trim();
    match words.strip_suffix('*').map(str::trim) {
        None => plain(words),
        Some(target) => match target.strip_prefix("const ") {
            Some(target) => format!("*const {}", plain(target)),
            None => format!("*mut {}", plain(target)),
        },
    }
}

/// The functions of the header, by name.
fn header_functions() -> Vec<Function> {
    let mut text = HEADER.to_string();
    while let Some(start) = text.find("/*") {
        let end = text[start..].find("*/").expect("a comment's end") + start + 2;
        text.replace_range(start..end, " ");
    }
    let mut functions = Vec::new();
    for line in text.split(';') {
        let Some((before, parameters)) = line.split_once("(") else {
            continue;
        };
        let before = before.rsplit('\n').next().expect("a line");
        let (result, name) = before.trim().rsplit_once(' ').expect("result and name");
        let parameters = parameters
            .trim_end_matches(')')
            .split(',')
            .map(|parameter| {
                let at = parameter.rfind([' ', '*']).expect("type and name") + 1;
                c_type(&parameter[..at])
            });
        functions.push((name.to_string(), parameters.collect(), c_type(result)));
    }
    functions.sort();
    functions
}

/// The functions of a file with an `extern "C"` block, by name.
fn rust_functions(text: &str) -> Vec<Function> {
    let block = text.split("extern \"C\" {").nth(1).expect("a block");
    let block = block.split("\n}").next().expect("its end");
    let mut functions = Vec::new();
    for item in block.split(';') {
        let Some((_, item)) = item.split_once("fn ") else {
            continue;
        };
        let (name, rest) = item.split_once('(').expect("parameters");
        let (parameters, result) = rest.split_once(") -> ").expect("a result");
        let types = parameters.split(',').filter_map(|p| p.split_once(':'));
        let types = types.map(|(_, kind)| kind.trim().to_string()).collect();
        functions.push((name.to_string(), types, result.trim().to_string()));
    }
    functions.sort();
    functions
}

#[test]
fn declarations_agree() {
    let header = header_functions();
    assert_eq!(header.len(), 10, "{header:?}");
    // Every function answers a number.
    assert!(header.iter().all(|(_, _, result)| result == "u32"));
    assert_eq!(rust_functions(include_str!("../src/ffi.rs")), header);
}

/// The room that the header promises is the crate's.
#[test]
fn rooms_agree() {
    let text = HEADER.split_whitespace().collect::<Vec<_>>().join(" ");
    assert!(text.contains("3,844 hold every record") && squeeze::RECORD_ROOM == 3_844);
    assert!(text.contains("8,192 bytes hold every listing") && squeeze::LISTING_ROOM == 8_192);
    assert!(text.contains("4, 192, 1,024 and 256 hold every layout"));
    assert_eq!(squeeze::LAYOUT_ROOM, [4, 192, 1_024, 256]);
}

/// A marked function takes what the other takes, and then the mark.
#[test]
fn marked_functions_agree() {
    let header = header_functions();
    let parameters = |name: &str| {
        let found = header.iter().find(|(known, _, _)| known == name);
        found.expect(name).1.clone()
    };
    for name in ["squeeze_rebuild", "squeeze_write", "squeeze_tile"] {
        let mark = ["*mut u32", "usize"].map(String::from).to_vec();
        let expected = [parameters(name), mark].concat();
        assert_eq!(parameters(&format!("{name}_marked")), expected);
    }
}

/// The range that the header says is the model's.
#[test]
fn ranges_agree() {
    let text = HEADER.split_whitespace().collect::<Vec<_>>().join(" ");
    assert!(text.contains("the plain range, -268,435,456 to 268,435,455."));
    let range = squeeze_model::marks::PLAIN;
    assert_eq!(range, -268_435_456..=268_435_455);
}

#[test]
fn c_example() {
    if Command::new("cc").arg("--version").output().is_err() {
        println!("no C compiler found: include/example.c isn't compiled");
        return;
    }
    let include = Path::new(env!("CARGO_MANIFEST_DIR")).join("../include");
    let program = Path::new(env!("CARGO_TARGET_TMPDIR")).join("c_example");
    let compiled = Command::new("cc")
        .args(["-std=c99", "-Wall", "-Wextra", "-pedantic", "-Werror", "-I"])
        .arg(&include)
        .arg(include.join("example.c"))
        .arg(Path::new(env!("SQUEEZE_ARCHIVE_USED")).join("libsqueeze.a"))
        .arg("-o")
        .arg(&program)
        .output()
        .expect("cc starts");
    let messages = String::from_utf8_lossy(&compiled.stderr);
    assert!(compiled.status.success(), "{messages}");
    let ran = Command::new(&program).output().expect("the example starts");
    let text = String::from_utf8_lossy(&ran.stdout).into_owned();
    assert!(ran.status.success(), "{text}");
    let listing = squeeze::listing(&[1, 6, 0, 20, 0, 9, 0, 0, 0]).unwrap();
    let refined = "channel 3 refines picture channel 0\n";
    let back = "the picture came back, all 180 samples equal\n";
    assert_eq!(text, format!("{listing}{refined}{back}"));
}
