//! Files: a sheet's bytes, or a text in the notation.

use hofadiju::notation::{self, Problem};
use hofadiju::{Error, Sheet};
use std::ffi::OsString;
use std::fs::File;
use std::io::Read;

/// The longest file that is read. No sheet comes near, and no text of one that a person types.
pub(crate) const LONGEST: usize = 1 << 20;

/// What was read.
pub(crate) struct Source {
    /// The file's name for messages.
    pub(crate) name: String,
    pub(crate) bytes: Vec<u8>,
    is_text: bool,
}

/// Why a source is no sheet.
pub(crate) enum Bad {
    /// The library does not read the bytes, or does not compare them.
    Error(Error),
    /// The text has a problem.
    Problem(Box<Problem>),
    /// It is neither.
    Other(String),
}

/// Reads a file, or the input for `-`.
pub(crate) fn source(file: &OsString, input: &mut dyn Read) -> Result<Source, String> {
    let standard = file == "-";
    let name = if standard { "standard input".to_string() } else { file.to_string_lossy().into_owned() };
    let mut bytes = vec![];
    let most = LONGEST as u64 + 1;
    let read = match standard {
        true => input.take(most).read_to_end(&mut bytes),
        false => File::open(file).and_then(|file| file.take(most).read_to_end(&mut bytes)),
    };
    read.map_err(|error| format!("{name}: {error}"))?;
    let is_text = match () {
        _ if name.ends_with(".ccp") => true,
        _ if name.ends_with(".sheet") => false,
        _ => !is_sheet(&bytes),
    };
    Ok(Source { name, bytes, is_text })
}

/// Whether a byte may begin a text.
fn begins_text(byte: u8) -> bool {
    byte >= 32 || matches!(byte, b'\t' | b'\n' | b'\r')
}

/// Whether bytes whose name does not say it are those of a sheet. A sheet begins with a count, which is mostly a byte that
/// begins no text, and every sheet that can be read has a byte 0.
fn is_sheet(bytes: &[u8]) -> bool {
    !is_utf16(bytes) && (bytes.first().is_some_and(|&byte| !begins_text(byte)) || bytes.contains(&0))
}

/// Whether bytes begin with the mark of a text in UTF-16.
fn is_utf16(bytes: &[u8]) -> bool {
    bytes.starts_with(&[0xFF, 0xFE]) || bytes.starts_with(&[0xFE, 0xFF])
}

impl Source {
    /// Whether these are bytes by their name alone.
    pub(crate) fn looks_like_text(&self) -> bool {
        !self.is_text && !self.bytes.is_empty() && !is_sheet(&self.bytes)
    }

    /// The sheet that the source is, as bytes or as a text.
    pub(crate) fn sheet(&self) -> Result<Sheet, Bad> {
        if self.is_text {
            return self.text_sheet();
        }
        self.bytes_sheet()
    }

    /// The sheet that the source is as a text.
    pub(crate) fn text_sheet(&self) -> Result<Sheet, Bad> {
        if self.bytes.len() > LONGEST {
            return Err(Bad::Other(format!("the text is longer than {LONGEST} bytes")));
        }
        if !self.is_text {
            let message = match self.looks_like_text() {
                true => "a file whose name ends in .sheet is taken for a sheet's bytes; give this text another name",
                false => "these are the bytes of a sheet, not its text; 'show' writes its text",
            };
            return Err(Bad::Other(message.to_string()));
        }
        if is_utf16(&self.bytes) {
            return Err(Bad::Other("the text is in UTF-16; save it in UTF-8".to_string()));
        }
        let text = String::from_utf8_lossy(&self.bytes);
        notation::read(&text).map_err(|problem| Bad::Problem(Box::new(problem)))
    }

    /// The sheet that the source is as bytes.
    pub(crate) fn bytes_sheet(&self) -> Result<Sheet, Bad> {
        if self.is_text {
            return Err(Bad::Other("this is the text of a sheet, not its bytes; 'write' writes its bytes".to_string()));
        }
        Sheet::from_bytes(&self.bytes).map_err(Bad::Error)
    }
}
