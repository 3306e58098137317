//! The program `lubiksan`. All of it is in the library, so that it can be tested.

use std::process::ExitCode;

fn main() -> ExitCode {
    ExitCode::from(lubiksan_tool::run(std::env::args_os()))
}
