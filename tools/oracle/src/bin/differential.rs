//! The differential run with regions of 2^28 bytes; the test build has those of 2^16.
fn main() {
    oracle::differential::main();
}
