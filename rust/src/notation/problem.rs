//! What is wrong with a text, and where.

use crate::Error;
use std::fmt;
use std::ops::Range;

/// What is wrong with a text: where, what, and what was expected there.
///
/// Its text (`Display`) has the line with a mark under the place:
///
/// ```text
/// line 2, column 17: no fact is called 'dor'
///   node wait = ask dor then light
///                   ^^^
///   expected: a fact of this sheet: door, lamp
/// ```
#[non_exhaustive]
#[derive(Clone, Debug, PartialEq, Eq, Hash)]
pub struct Problem {
    /// The line, from 1.
    pub line: usize,
    /// The column, from 1, in characters.
    pub column: usize,
    /// How many characters are marked.
    pub width: usize,
    /// What is wrong.
    pub message: String,
    /// What was expected.
    pub expected: String,
    /// Where the library does not read the sheet that the text says: why. The line is that of the record.
    pub error: Option<Error>,
    /// The refusal with the byte and the field of the sheet, where the library refuses it.
    pub refused: Option<Box<str>>,
    /// The line as it is shown, and the line with the mark.
    shown: Box<[String; 2]>,
}

/// The most characters of a name that stand in a message.
const NAMED: usize = 40;

/// A name in a message, cut where it is very long.
pub(super) fn cut(name: &str) -> String {
    match name.char_indices().nth(NAMED) {
        Some((end, _)) => format!("{}..", &name[..end]),
        None => name.to_string(),
    }
}

/// The same between marks.
pub(super) fn named(name: &str) -> String {
    format!("'{}'", cut(name))
}

/// The most characters of a line that are shown, and how many of them stand before the mark in a longer line.
const SHOWN: usize = 100;
const BEFORE: usize = 40;

impl Problem {
    /// The problem with the bytes of the text in this range, which must be within one line.
    pub(crate) fn new(text: &str, range: Range<usize>, message: String, expected: String) -> Problem {
        let begin = text[..range.start].rfind('\n').map_or(0, |end| end + 1);
        let end = text[range.start..].find('\n').map_or(text.len(), |end| range.start + end);
        let line: Vec<char> = text[begin..end].trim_end_matches('\r').chars().collect();
        let before = text[begin..range.start].chars().count();
        let width = text[range.start..range.end.min(end)].chars().count().max(1);
        Problem {
            line: text[..begin].matches('\n').count() + 1,
            column: before + 1,
            width,
            message,
            expected,
            error: None,
            refused: None,
            shown: Box::new(shown(&line, before, width)),
        }
    }
}

/// The line and the mark, cut to what is near the mark where the line is long.
fn shown(line: &[char], before: usize, width: usize) -> [String; 2] {
    // The mark may stand behind the carriage returns that are left out at the end of the line.
    let before = before.min(line.len());
    let from = if line.len() > SHOWN { before.saturating_sub(BEFORE) } else { 0 };
    let to = line.len().min(from + SHOWN);
    let printable = |&c: &char| if c == '\t' || !c.is_control() { c } else { '?' };
    let text: String = line[from..to].iter().map(printable).collect();
    let blank = |&c: &char| if c == '\t' { '\t' } else { ' ' };
    let mut mark: String = line[from..before].iter().map(blank).collect();
    mark.push_str(&"^".repeat(width.min(SHOWN - BEFORE)));
    [text, mark]
}

impl Problem {
    /// The line as it is shown, and below it the mark.
    pub fn shown(&self) -> [&str; 2] {
        [&self.shown[0], &self.shown[1]]
    }
}

impl fmt::Display for Problem {
    fn fmt(&self, f: &mut fmt::Formatter<'_>) -> fmt::Result {
        writeln!(f, "line {}, column {}: {}", self.line, self.column, self.message)?;
        for line in self.shown.iter() {
            writeln!(f, "  {line}")?;
        }
        write!(f, "  expected: {}", self.expected)?;
        match &self.refused {
            Some(refused) => write!(f, "\n  {refused}"),
            None => Ok(()),
        }
    }
}

impl std::error::Error for Problem {
    fn source(&self) -> Option<&(dyn std::error::Error + 'static)> {
        self.error.as_ref().map(|error| error as &(dyn std::error::Error + 'static))
    }
}
