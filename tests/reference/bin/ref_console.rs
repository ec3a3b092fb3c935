//! The reference as a program of its own, in the place of `console`.
fn main() -> std::io::Result<()> {
    reference::program::main(reference::program::Program::Console)
}
