//! Runs a file of cases on the unedited store and writes what it answers: store CASES.
fn main() {
    oracle::store::main();
}
