//! Runs the command inside the test.

use std::ffi::OsString;

/// What a run of the command gives.
#[derive(Debug)]
pub struct Ran {
    pub status: u8,
    pub output: Vec<u8>,
    pub errors: String,
}

impl Ran {
    /// The output, which is a text.
    pub fn text(&self) -> &str {
        std::str::from_utf8(&self.output).expect("a text")
    }
}

/// Runs the command with these words and this input.
pub fn run(words: &[&str], input: &[u8]) -> Ran {
    let words: Vec<OsString> = words.iter().map(OsString::from).collect();
    let (mut output, mut errors) = (vec![], vec![]);
    let status = hofadiju_command::run(&words, &mut &input[..], &mut output, &mut errors);
    Ran { status, output, errors: String::from_utf8(errors).expect("messages are text") }
}
