//! Links the proved archive, libnode.a: that in the folder KADZHOMIR_LIB_DIR; or else that of the repository around this crate,
//! which `rt lib` in crates/node makes, here where it is missing or older than a file that it is proved from.
use std::fs::{self, File};
use std::io::{ErrorKind, Write};
use std::path::{Path, PathBuf};
use std::process::{exit, Command};
use std::time::SystemTime;

const LIB_DIR: &str = "KADZHOMIR_LIB_DIR";

fn main() {
    println!("cargo::rerun-if-env-changed={LIB_DIR}");
    let root = Path::new(&std::env::var_os("CARGO_MANIFEST_DIR").unwrap_or_default()).join("..");
    let folder = match std::env::var_os(LIB_DIR).filter(|folder| !folder.is_empty()) {
        Some(folder) => given(Path::new(&folder)),
        None => made(&root),
    };
    let archive = folder.join("libnode.a");
    println!("cargo::rerun-if-changed={}", archive.display());
    println!("cargo::rustc-link-search=native={}", folder.display());
    println!("cargo::rustc-link-lib=static=node");
    // For the tests, which link a program in C.
    println!("cargo::rustc-env=KADZHOMIR_ARCHIVE={}", archive.display());
}

/// The folder that the caller names. Nothing is made there.
fn given(folder: &Path) -> PathBuf {
    match folder.canonicalize() {
        Ok(folder) if folder.join("libnode.a").is_file() => folder,
        _ => fail(&format!("{LIB_DIR} is {}, which is no folder with a libnode.a in it", folder.display())),
    }
}

/// The repository's folder, its archive made again where it is out of date.
fn made(root: &Path) -> PathBuf {
    let (crates, list) = (root.join("crates"), root.join("crates.txt"));
    if !crates.is_dir() || !list.is_file() {
        fail(&format!(
            "this crate stands outside its repository, whose proved archive it links: set {LIB_DIR} to the folder of a libnode.a \
             (in the repository `rt lib` in crates/node writes crates/node/out/libnode.a)"
        ));
    }
    watch(&crates);
    println!("cargo::rerun-if-changed={}", list.display());
    let (folder, newest) = (crates.join("node/out"), newest(&crates).max(modified(&list)));
    let archive = folder.join("libnode.a");
    if modified(&archive) < newest {
        prove(root);
        // Dated as the newest file that it is made of, so that an edit made while it was proved counts as newer.
        if let (Some(newest), Ok(file)) = (newest, File::options().append(true).open(&archive)) {
            let _ = file.set_modified(newest);
        }
    }
    if !archive.is_file() {
        fail(&format!("`rt lib` did not write {}", archive.display()));
    }
    folder
}

/// Has cargo run this program again where a file that a crate is proved from has changed.
fn watch(crates: &Path) {
    for entry in fs::read_dir(crates).into_iter().flatten().flatten() {
        for part in ["src", "specs", "proofs"].map(|part| entry.path().join(part)) {
            if part.is_dir() {
                println!("cargo::rerun-if-changed={}", part.display());
            }
        }
    }
}

/// When the newest .rt or .antt file below a folder was changed. What the prover made, in the folders `out`, is no source.
fn newest(folder: &Path) -> Option<SystemTime> {
    let entries = fs::read_dir(folder).into_iter().flatten().flatten();
    let times = entries.map(|entry| {
        let path = entry.path();
        match entry.file_type() {
            Ok(kind) if kind.is_dir() && entry.file_name() == "out" => None,
            Ok(kind) if kind.is_dir() => newest(&path),
            _ if path.extension().is_some_and(|e| e == "rt" || e == "antt") => modified(&path),
            _ => None,
        }
    });
    times.max().flatten()
}

/// When a file was changed; none where there is no such file.
fn modified(file: &Path) -> Option<SystemTime> {
    fs::metadata(file).and_then(|data| data.modified()).ok()
}

fn prove(root: &Path) {
    tell("`rt lib` in crates/node proves the archive libnode.a, which was missing or out of date; this takes minutes");
    match Command::new("rt").arg("lib").current_dir(root.join("crates/node")).status() {
        Ok(status) if status.success() => {}
        Ok(status) => fail(&format!("`rt lib` in crates/node failed ({status})")),
        Err(e) if e.kind() == ErrorKind::NotFound => fail(&format!(
            "the archive libnode.a is missing or out of date, and rt, which makes it, is not on the path: install Rattle's kit, or set \
             {LIB_DIR} to the folder of a libnode.a"
        )),
        Err(e) => fail(&format!("rt, which makes the archive libnode.a, cannot be run: {e}")),
    }
}

/// A line for who waits. Cargo shows a warning only when this program has ended, and again at each later build: so it goes to
/// the terminal, and is a warning where there is none.
fn tell(line: &str) {
    let terminal = File::options().write(true).open("/dev/tty");
    if terminal.and_then(|mut terminal| writeln!(terminal, "kadzhomir: {line}")).is_err() {
        println!("cargo::warning={line}");
    }
}

fn fail(message: &str) -> ! {
    println!("cargo::error={message}");
    exit(1)
}
