//! The program of tests/README.md.

fn main() -> std::process::ExitCode {
    oracle::command()
}
