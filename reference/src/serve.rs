//! What both programs do: the segment file and standard input go in, lines come out on standard output.

use std::io::{self, BufReader, BufWriter, StdinLock, StdoutLock};
use std::process::ExitCode;

use crate::program::read_segment_file;

type Input = BufReader<StdinLock<'static>>;
type Output = BufWriter<StdoutLock<'static>>;

/// Runs a program to the end of its input; says so where reading or writing failed.
pub fn serve(run: fn(Vec<u8>, &mut Input, &mut Output) -> io::Result<()>) -> ExitCode {
    let mut input = BufReader::with_capacity(1 << 16, io::stdin().lock());
    let mut out = BufWriter::with_capacity(1 << 16, io::stdout().lock());
    match run(read_segment_file(), &mut input, &mut out) {
        Ok(()) => ExitCode::SUCCESS,
        Err(error) => {
            eprintln!("input or output failed: {error}");
            ExitCode::FAILURE
        }
    }
}
