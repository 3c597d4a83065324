//! The comparison (comparison.rs), linked with the library under test.

fn main() {
    comparison::run();
}
