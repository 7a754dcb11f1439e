use std::process::ExitCode;

fn main() -> ExitCode {
    udgornwy::command_line::run(std::env::args_os().skip(1))
}
