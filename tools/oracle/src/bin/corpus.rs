//! Writes the records' corpus and what the Rust says of it: corpus FOLDER (FOLDER/stdin, FOLDER/stdout).
fn main() {
    let folder = std::env::args().nth(1).expect("a folder");
    std::fs::write(format!("{folder}/stdin"), oracle::corpus::file()).unwrap();
    std::fs::write(format!("{folder}/stdout"), oracle::corpus::report()).unwrap();
}
