use std::process::ExitCode;

fn main() -> ExitCode {
    reference::serve::serve(reference::program::run)
}
