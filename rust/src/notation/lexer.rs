//! A text as words and marks.

use super::problem::{cut, named};
use super::Problem;
use std::ops::Range;

/// A word or a mark of a text.
#[derive(Clone, Debug, PartialEq, Eq)]
pub(super) enum Token {
    /// A name or a word of the notation.
    Word(String),
    /// A fact's name on the sheet, in quotes.
    Quoted(String),
    /// One of `{ } ( ) , =`.
    Mark(char),
    End,
}

impl Token {
    /// The token in a message.
    pub(super) fn words(&self) -> String {
        match self {
            Token::Word(word) => named(word),
            Token::Quoted(name) => format!("the quoted name \"{}\"", cut(name)),
            Token::Mark(mark) => format!("'{mark}'"),
            Token::End => "the end of the text".to_string(),
        }
    }
}

/// A token and the bytes of the text that it is.
#[derive(Clone, Debug, PartialEq, Eq)]
pub(super) struct Placed {
    pub(super) token: Token,
    pub(super) range: Range<usize>,
}

/// The text's tokens; the last one is its end.
pub(super) fn tokens(text: &str) -> Result<Vec<Placed>, Problem> {
    lines_end(text)?;
    let mut lexer = Lexer { text, at: 0 };
    let mut tokens = vec![];
    loop {
        lexer.skip();
        let from = lexer.at;
        let token = lexer.token()?;
        let end = token == Token::End;
        tokens.push(Placed { token, range: from..lexer.at });
        if end {
            return Ok(tokens);
        }
    }
}

/// Carriage returns stand at the ends of lines only. One inside a line looks like a line's end in many editors, and what
/// follows it would be part of a comment.
fn lines_end(text: &str) -> Result<(), Problem> {
    let mut rest = text.bytes().enumerate().peekable();
    while let Some((at, byte)) = rest.next() {
        if byte == b'\r' && rest.peek().is_some_and(|&(_, next)| next != b'\n' && next != b'\r') {
            let message = "a carriage return stands inside a line".to_string();
            return Err(Problem::new(text, at..at + 1, message, "line ends with a line feed".to_string()));
        }
    }
    Ok(())
}

struct Lexer<'a> {
    text: &'a str,
    at: usize,
}

impl Lexer<'_> {
    fn next(&self) -> Option<char> {
        self.text[self.at..].chars().next()
    }

    fn take(&mut self, c: char) {
        self.at += c.len_utf8();
    }

    fn take_while(&mut self, while_so: impl Fn(char) -> bool) {
        while let Some(c) = self.next().filter(|&c| while_so(c)) {
            self.take(c);
        }
    }

    /// Passes blanks, line ends and comments.
    fn skip(&mut self) {
        loop {
            self.take_while(|c| matches!(c, ' ' | '\t' | '\n' | '\r'));
            if self.next() != Some('#') {
                return;
            }
            self.take_while(|c| c != '\n');
        }
    }

    fn token(&mut self) -> Result<Token, Problem> {
        let from = self.at;
        let Some(c) = self.next() else { return Ok(Token::End) };
        match c {
            '{' | '}' | '(' | ')' | ',' | '=' => {
                self.take(c);
                Ok(Token::Mark(c))
            }
            '"' => self.quoted(),
            c if c.is_ascii_alphanumeric() || c == '_' => {
                self.take_while(|c| c.is_ascii_alphanumeric() || c == '_' || c == '-');
                Ok(Token::Word(self.text[from..self.at].to_string()))
            }
            c => {
                let message = format!("{c:?} is not part of the notation");
                let expected = "a word, a quoted name or one of { } ( ) , =".to_string();
                Err(Problem::new(self.text, from..from + c.len_utf8(), message, expected))
            }
        }
    }

    /// A name in quotes; a backslash stands before a quote and before a backslash.
    fn quoted(&mut self) -> Result<Token, Problem> {
        let from = self.at;
        self.take('"');
        let mut name = String::new();
        loop {
            let at = self.at;
            let c = match self.next() {
                Some('"') => {
                    self.take('"');
                    return Ok(Token::Quoted(name));
                }
                Some('\\') => {
                    self.take('\\');
                    self.next().filter(|c| matches!(c, '"' | '\\'))
                }
                None | Some('\n' | '\r') => {
                    let message = "the quoted name does not end on its line".to_string();
                    let expected = "a second quote".to_string();
                    return Err(Problem::new(self.text, from..self.at, message, expected));
                }
                Some(c) => Some(c),
            };
            match c {
                Some(c @ ' '..='~') => {
                    self.take(c);
                    name.push(c);
                }
                Some(c) => {
                    let message = format!("{c:?} cannot stand in a fact's name");
                    let expected = "letters, digits, spaces and signs of ASCII, 32 to 126".to_string();
                    return Err(Problem::new(self.text, at..at + c.len_utf8(), message, expected));
                }
                None => {
                    let message = "a backslash stands before something else".to_string();
                    let expected = "\\\" for a quote or \\\\ for a backslash".to_string();
                    return Err(Problem::new(self.text, at..at + 1, message, expected));
                }
            }
        }
    }
}
