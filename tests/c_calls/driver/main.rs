//! The program, by itself in a crate, so that only this is linked again with another archive.

fn main() -> std::process::ExitCode {
    driver::run()
}
