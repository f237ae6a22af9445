//! Writes logs and what the Rust recovers from them: recovery FOLDER (FOLDER/cases, FOLDER/states).
fn main() {
    oracle::recovery::main();
}
