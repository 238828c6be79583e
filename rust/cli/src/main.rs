//! The command `vantorel`.

fn main() -> std::process::ExitCode {
    cli::main(std::env::args_os().skip(1))
}
