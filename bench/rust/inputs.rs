//! Writes the works of its commit into a folder, from which another commit's bench/against reads them.
//!
//!     inputs DIR

mod carry;
mod in_place;
mod in_place_records;
mod rules;
mod stream;
mod types;
mod works;

use std::path::Path;

fn main() -> Result<(), String> {
    let arguments: Vec<String> = std::env::args().skip(1).collect();
    assert_eq!(arguments.len(), 1, "inputs DIR");
    works::write(&works::works(), Path::new(&arguments[0]))
}
