//! The tool `kadzhomir` on logs that are sound, torn and damaged, against the transcript that tools/model/tool_cases.py wrote.
mod common;

use common::Folder;
use std::fs;
use std::path::{Path, PathBuf};
use std::process::{Command, Output};

fn stored() -> PathBuf {
    Path::new(env!("CARGO_MANIFEST_DIR")).join("tests/tool")
}

/// A folder with fresh copies of the logs, each under its name without an ending, and of their node files.
fn logs() -> Folder {
    let folder = Folder::in_memory();
    for file in fs::read_dir(stored()).unwrap().map(|e| e.unwrap().path()) {
        let name = file.file_name().unwrap().to_str().unwrap();
        if name != "transcript" {
            fs::copy(&file, folder.file(name.strip_suffix(".log").unwrap_or(name))).unwrap();
        }
    }
    folder
}

fn run(folder: &Folder, words: &[&str]) -> Output {
    Command::new(env!("CARGO_BIN_EXE_kadzhomir")).args(words).current_dir(&folder.0).output().unwrap()
}

/// The lines, with TIME for the moment in a file's name.
fn lines(output: &Output) -> Vec<String> {
    let text = String::from_utf8(output.stdout.clone()).unwrap();
    let timeless = |line: &str| match line.split_once(".aside-") {
        Some((before, after)) => format!("{before}.aside-TIME{}", &after["20261117T193300Z".len()..]),
        None => line.to_string(),
    };
    text.lines().map(timeless).collect()
}

#[test]
fn transcript() {
    let text = fs::read_to_string(stored().join("transcript")).unwrap();
    let mut commands = 0;
    for case in text.split("\n\n").filter(|case| !case.trim().is_empty()) {
        let folder = logs();
        for command in case.trim_start().strip_prefix("$ ").unwrap().split("\n$ ") {
            let mut expected: Vec<&str> = command.lines().collect();
            let words: Vec<&str> = expected.remove(0).split_whitespace().collect();
            let output = run(&folder, &words);
            let mut found = lines(&output);
            found.push(format!("exit {}", output.status.code().unwrap()));
            assert_eq!(found, expected, "{words:?}: {}", String::from_utf8_lossy(&output.stderr));
            commands += 1;
        }
    }
    assert!(commands >= 120, "{commands}");
}

#[test]
fn the_listing_is_the_proved_programs() {
    let crate_folder = Path::new(env!("CARGO_MANIFEST_DIR")).join("../crates/wal_list");
    let input = fs::read(crate_folder.join("stdin")).unwrap();
    let folder = Folder::in_memory();
    fs::write(folder.file("log"), &input[1..]).unwrap();
    let output = run(&folder, &["list", "log", "--exponent", &input[0].to_string()]);
    assert_eq!(output.stdout, fs::read(crate_folder.join("stdout")).unwrap());
    assert_eq!(output.status.code(), Some(1));
}

/// The sample's log is torn and not refused, so that a node would cut nothing before it recovers.
#[test]
fn the_page_is_the_proved_programs() {
    let crate_folder = Path::new(env!("CARGO_MANIFEST_DIR")).join("../crates/recovery_page");
    let input = fs::read(crate_folder.join("stdin")).unwrap();
    let folder = Folder::in_memory();
    fs::write(folder.file("log"), &input[3..]).unwrap();
    let [k, size, own] = [0, 1, 2].map(|i| input[i].to_string());
    let output = run(&folder, &["recover", "log", "--page", "--exponent", &k, "--committee", &size, "--own", &own]);
    assert_eq!(output.stdout, fs::read(crate_folder.join("stdout")).unwrap());
    assert_eq!(output.status.code(), Some(1));
}

#[test]
fn looking_changes_no_byte() {
    let folder = logs();
    let all = |folder: &Folder| -> Vec<_> { folder.files("").into_iter().map(|p| (p.clone(), fs::read(p).unwrap())).collect() };
    let before = all(&folder);
    for log in ["sound", "pages", "torn", "zeros", "cut-twice", "damaged", "hidden", "short", "empty"] {
        for command in ["list", "verify", "recover"] {
            run(&folder, &[command, log]);
        }
        run(&folder, &["recover", log, "--page"]);
        run(&folder, &["dump", log, "0"]);
    }
    assert_eq!(all(&folder), before);
}

#[test]
fn help() {
    let folder = Folder::in_memory();
    for words in [&["--help"][..], &["help"], &["-h"], &["list", "--help"]] {
        let output = run(&folder, words);
        assert_eq!(output.status.code(), Some(0));
        let text = String::from_utf8(output.stdout).unwrap();
        for word in ["list", "verify", "recover", "dump", "cut", "adopt", "--page", "--exponent", "Exit status"] {
            assert!(text.contains(word), "{word}");
        }
        assert!(text.lines().all(|line| line.len() <= 80), "wider than a terminal");
    }
}
