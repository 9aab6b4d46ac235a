//! `filebox-host`: the box on a disk. `filebox-host --help` says what it can do.

use std::process::ExitCode;

fn main() -> ExitCode {
    host::run(std::env::args_os().skip(1))
}
