//! The header serves a C and a C++ compiler that allow nothing beside the standard, a program in C links the archive, and the
//! header's numbers are the crate's.
use kadzhomir::{library_version, Refusal, Stop, Version, VERSION};
use std::path::{Path, PathBuf};
use std::process::Command;

const FLAGS: [&str; 4] = ["-Wall", "-Wextra", "-pedantic", "-Werror"];

fn here() -> PathBuf {
    Path::new(env!("CARGO_MANIFEST_DIR")).to_path_buf()
}

fn run(command: &mut Command) {
    let output = command.output().expect("cannot be run");
    let text = String::from_utf8_lossy(&output.stdout) + String::from_utf8_lossy(&output.stderr);
    assert!(output.status.success(), "{command:?}: {text}");
}

fn header() -> String {
    std::fs::read_to_string(here().join("../include/kadzhomir.h")).unwrap()
}

/// The names that begin so in the header's enums, with their numbers, in the header's order.
fn numbers(prefix: &str) -> Vec<(String, u64)> {
    let header = header();
    let enumerators = header.lines().filter_map(|line| line.trim().trim_end_matches(',').split_once(" = "));
    let named = enumerators.filter_map(|(name, number)| Some((name.strip_prefix(prefix)?.to_string(), number.parse().unwrap())));
    named.collect()
}

/// A name as the header has it: `NoEntry` is NO_ENTRY.
fn upper(name: &str) -> String {
    let mut text = String::new();
    for (i, c) in name.char_indices() {
        if i > 0 && c.is_uppercase() {
            text.push('_');
        }
        text.push(c.to_ascii_uppercase());
    }
    text
}

#[test]
fn header_alone() {
    for (compiler, language, standard) in [("cc", "c", "-std=c99"), ("cc", "c", "-std=c17"), ("c++", "c++", "-std=c++11")] {
        let mut command = Command::new(compiler);
        command.args(FLAGS).args([standard, "-fsyntax-only", "-x", language]);
        run(command.arg(here().join("../include/kadzhomir.h")));
    }
}

#[test]
fn program_in_c() {
    let program = Path::new(env!("CARGO_TARGET_TMPDIR")).join("smoke");
    let mut cc = Command::new("cc");
    cc.args(FLAGS).args(["-std=c99", "-I"]).arg(here().join("../include")).arg("-o").arg(&program);
    run(cc.arg(here().join("tests/smoke.c")).arg(env!("KADZHOMIR_ARCHIVE")));
    run(&mut Command::new(&program));
}

#[test]
fn refusals_are_those_of_the_crate() {
    let crates: Vec<(String, u64)> = (1..=19).map(|n| (upper(&format!("{:?}", Refusal::from_number(n).unwrap())), n.into())).collect();
    let header = numbers("KADZHOMIR_REFUSAL_");
    assert_eq!(header[0], ("NONE".to_string(), 0));
    assert_eq!(header[1..], crates);
}

#[test]
fn stops_are_those_of_the_crate() {
    let stops = [Stop::End, Stop::Zeros, Stop::Torn].map(|s| upper(&format!("{s:?}")));
    let crates: Vec<(String, u64)> = stops.into_iter().chain(["REFUSED".to_string()]).zip(0..).collect();
    assert_eq!(numbers("KADZHOMIR_STOP_"), crates);
    // A step's kind is an entry, or one more than the stop's code.
    let kinds = numbers("KADZHOMIR_KIND_");
    assert_eq!(kinds[0], ("ENTRY".to_string(), 0));
    assert_eq!(kinds[1..], crates.into_iter().map(|(name, n)| (name, n + 1)).collect::<Vec<_>>());
}

#[test]
fn the_version_is_the_crates() {
    let header = header();
    let number = |part: &str| {
        let line = header.lines().find_map(|line| line.strip_prefix(&format!("#define KADZHOMIR_VERSION_{part} ")));
        line.unwrap().parse::<u32>().unwrap()
    };
    let version = (number("MAJOR") << 16) + (number("MINOR") << 8) + number("PATCH");
    assert_eq!((Version::from(version), version), (VERSION, library_version()));
}
