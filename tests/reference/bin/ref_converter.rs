//! The reference as a program of its own, in the place of `converter`.
fn main() -> std::io::Result<()> {
    reference::program::main(reference::program::Program::Converter)
}
