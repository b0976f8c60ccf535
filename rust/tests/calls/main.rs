//! Every call through this crate, and every answer.

mod common;
#[path = "../../examples/mend.rs"]
mod example;
mod images;
mod map;
mod numbers;
mod sector;
mod volume;

#[test]
fn the_example_ends_without_a_refusal() {
    assert_eq!(example::main(), Ok(()));
}
