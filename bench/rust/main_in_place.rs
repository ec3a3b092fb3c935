//! The measured work over the engine that changes its state in place.
mod carry;
mod driver;
mod engine;
mod in_place;
mod in_place_engine;
mod in_place_records;
mod reduce;
mod rules;
mod types;

fn main() {
    driver::run::<types::State>();
}
