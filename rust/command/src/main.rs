//! The program `hofadiju`; see its `--help`.

use std::ffi::OsString;
use std::io::{stderr, stdin, stdout, BufWriter};
use std::process::ExitCode;

fn main() -> ExitCode {
    let words: Vec<OsString> = std::env::args_os().skip(1).collect();
    let mut output = BufWriter::new(stdout().lock());
    ExitCode::from(hofadiju_command::run(&words, &mut stdin().lock(), &mut output, &mut stderr().lock()))
}
