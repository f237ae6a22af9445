//! The measure: the Rust's times and the library's.
fn main() {
    oracle::measure::main();
}
