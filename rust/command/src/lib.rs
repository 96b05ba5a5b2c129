//! The command `hofadiju`: it writes, shows, checks, compares and draws sheets. The program calls [`run`].
//!
//! Notation, words and pictures stand outside of what is proved of the library; `compare --plain` prints the library's
//! report.
#![deny(missing_docs)]

pub mod behaviour;
mod graph;
mod help;
mod input;
mod json;
pub mod walk;
pub mod words;

use behaviour::{Behaviour, Machine};
use hofadiju::{compare, compare_desk, field_at, library_version, Error, Reason, Report, Set, Sheet, Verdict};
use input::{Bad, Source};
use std::ffi::OsString;
use std::io::{Read, Write};
use walk::{Ending, Walk};

/// The exit status of an answer that is no DIFF.
pub const GOOD: u8 = 0;
/// The exit status of DIFF.
pub const DIFF: u8 = 1;
/// The exit status of a refusal and of a text with a problem.
pub const REFUSED: u8 = 2;
/// The exit status of bad usage, and of a file that cannot be read or written.
pub const USAGE: u8 = 3;

/// A report with all that its words need.
pub struct Comparison<'a> {
    /// The sheet.
    pub sheet: &'a Sheet,
    /// The number of the left start.
    pub left: usize,
    /// The number of the right start.
    pub right: usize,
    /// The library's report.
    pub report: Report,
    /// The moves and rounds of the report's members, held to the report.
    pub behaviour: Behaviour,
    /// The walk that tells the two apart, for DIFF.
    pub walk: Option<Walk>,
    /// The constraint that always stands.
    pub least: Set,
}

impl Comparison<'_> {
    /// What a report on two starts of a sheet says; `None` where what is worked out here does not agree with it.
    pub fn new(sheet: &Sheet, left: usize, right: usize, report: Report) -> Option<Comparison<'_>> {
        let mut machine = Machine::new(sheet)?;
        let seeds = [machine.start(left)?, machine.start(right)?];
        let behaviour = Behaviour::new(&mut machine, &seeds).ok()?;
        let places = (behaviour.position(&seeds[0])?, behaviour.position(&seeds[1])?);
        if places != (report.left, report.right) || !behaviour.explains(&report) {
            return None;
        }
        let walk = walk::walk(&mut machine, &behaviour, report.left, report.right);
        let told = match &walk {
            None => report.verdict == Verdict::Same,
            Some(walk) => walk.ending == Ending::Unfinished || walk.moves.len() == report.round,
        };
        if !told {
            return None;
        }
        Some(Comparison { sheet, left, right, report, behaviour, walk, least: machine.least() })
    }
}

/// The number and the place of a refusal.
pub(crate) fn refused(error: &Error) -> Option<(usize, usize)> {
    match *error {
        Error::Refused(refusal) => Some((refusal.number() as usize, refusal.place)),
        Error::UnknownRefusal { number, place } => Some((number as usize, place)),
        _ => None,
    }
}

/// The place of a refusal, where it is a byte of the sheet.
pub(crate) fn byte_place(error: &Error) -> Option<usize> {
    let refusal = error.refusal()?;
    match refusal.reason {
        Reason::AbsentStart | Reason::TooLarge | Reason::AnswerShort | Reason::WorkShort => None,
        _ => Some(refusal.place),
    }
}

/// What goes wrong in the place of an answer.
enum Failure {
    /// The words of the command are wrong, or a file.
    Usage(String),
    /// The sheet is refused or its text has a problem: the words, and the answer for a program.
    Refused { words: String, answer: String },
    /// The output cannot be written.
    Output(std::io::Error),
}

impl From<std::io::Error> for Failure {
    fn from(error: std::io::Error) -> Failure {
        Failure::Output(error)
    }
}

/// Runs the command with these words, the program's name not among them. Gives the exit status.
pub fn run(words: &[OsString], input: &mut dyn Read, output: &mut dyn Write, errors: &mut dyn Write) -> u8 {
    let mut command = Command { input, output };
    let done = command.run(words).and_then(|status| {
        command.output.flush()?;
        Ok(status)
    });
    let (status, message) = match done {
        Ok(status) => return status,
        Err(Failure::Usage(message)) => (USAGE, message),
        Err(Failure::Refused { words, answer }) => {
            let written = command.output.write_all(answer.as_bytes()).and_then(|()| command.output.flush());
            match written {
                Err(error) if error.kind() != std::io::ErrorKind::BrokenPipe => (USAGE, format!("output: {error}")),
                _ => (REFUSED, words),
            }
        }
        Err(Failure::Output(error)) if error.kind() == std::io::ErrorKind::BrokenPipe => return USAGE,
        Err(Failure::Output(error)) => (USAGE, format!("output: {error}")),
    };
    // There is nowhere else to say that this cannot be written.
    let _ = writeln!(errors, "hofadiju: {message}").and_then(|()| errors.flush());
    status
}

/// How an answer is written.
#[derive(Clone, Copy, PartialEq, Eq)]
enum Form {
    Words,
    Plain,
    Json,
}

/// The words of the command after its first.
struct Arguments<'a> {
    files: Vec<&'a OsString>,
    form: Form,
    desk: bool,
    to: Option<&'a OsString>,
}

struct Command<'a> {
    input: &'a mut dyn Read,
    output: &'a mut dyn Write,
}

impl Command<'_> {
    fn run(&mut self, words: &[OsString]) -> Result<u8, Failure> {
        let Some((first, rest)) = words.split_first() else { return Err(Failure::Usage(help::USAGE.to_string())) };
        let name = first.to_str().unwrap_or_default();
        let about = match name {
            "--help" | "-h" | "help" => return self.help(rest),
            "--version" | "-V" => return self.version(rest),
            name => help::about(name),
        };
        let Some(about) = about else {
            let first = first.to_string_lossy();
            return Err(Failure::Usage(format!("there is no command '{first}'\n{}", help::USAGE)));
        };
        let Some(arguments) = arguments(about, rest)? else {
            self.output.write_all(about.text.as_bytes())?;
            return Ok(GOOD);
        };
        match name {
            "write" => self.write(&arguments),
            "show" => self.show(&arguments),
            "check" => self.check(&arguments),
            "compare" => self.compare(about, &arguments),
            _ => self.graph(about, &arguments),
        }
    }

    fn help(&mut self, rest: &[OsString]) -> Result<u8, Failure> {
        let text = match rest {
            [] => help::ALL,
            [name] => match name.to_str().and_then(help::about) {
                Some(about) => about.text,
                None => return Err(Failure::Usage(format!("there is no command '{}'", name.to_string_lossy()))),
            },
            _ => return Err(Failure::Usage(help::USAGE.to_string())),
        };
        self.output.write_all(text.as_bytes())?;
        Ok(GOOD)
    }

    fn version(&mut self, rest: &[OsString]) -> Result<u8, Failure> {
        if !rest.is_empty() {
            return Err(Failure::Usage(help::USAGE.to_string()));
        }
        let (own, library) = (env!("CARGO_PKG_VERSION"), library_version());
        writeln!(
            self.output,
            "hofadiju {own}, library {}.{}.{}",
            library / 10_000,
            library / 100 % 100,
            library % 100
        )?;
        Ok(GOOD)
    }

    fn source(&mut self, file: &OsString) -> Result<Source, Failure> {
        input::source(file, self.input).map_err(Failure::Usage)
    }

    fn write(&mut self, arguments: &Arguments) -> Result<u8, Failure> {
        let source = self.source(arguments.files[0])?;
        let sheet = source.text_sheet().map_err(|bad| failure(&source, &bad, arguments.form))?;
        self.put(arguments, &sheet.to_bytes())
    }

    fn show(&mut self, arguments: &Arguments) -> Result<u8, Failure> {
        let source = self.source(arguments.files[0])?;
        let sheet = source.bytes_sheet().map_err(|bad| failure(&source, &bad, arguments.form))?;
        self.put(arguments, sheet.to_string().as_bytes())
    }

    /// Writes bytes to the file that `-o` names, or to the output.
    fn put(&mut self, arguments: &Arguments, bytes: &[u8]) -> Result<u8, Failure> {
        match arguments.to {
            Some(file) if file != "-" => {
                let failed = |error| Failure::Usage(format!("{}: {error}", file.to_string_lossy()));
                std::fs::write(file, bytes).map_err(failed)?;
            }
            _ => self.output.write_all(bytes)?,
        }
        Ok(GOOD)
    }

    fn check(&mut self, arguments: &Arguments) -> Result<u8, Failure> {
        let source = self.source(arguments.files[0])?;
        let sheet = source.sheet().map_err(|bad| failure(&source, &bad, arguments.form))?;
        if arguments.form == Form::Json {
            writeln!(self.output, "{}", json::counts(&sheet))?;
            return Ok(GOOD);
        }
        let counts = [
            (sheet.facts().len(), "fact"),
            (sheet.rules().len(), "rule"),
            (sheet.nodes().len(), "node"),
            (sheet.starts().len(), "start"),
            (sheet.to_bytes().len(), "byte"),
        ];
        let counts = counts.map(|(count, what)| format!("{count} {what}{}", if count == 1 { "" } else { "s" }));
        writeln!(self.output, "{}: read, with {}", source.name, counts.join(", "))?;
        Ok(GOOD)
    }

    /// Compares two starts and hands the report to `say`.
    fn compared(
        &mut self,
        about: &help::About,
        arguments: &Arguments,
        say: impl FnOnce(&mut dyn Write, &Sheet, (usize, usize), Report) -> Result<(), Failure>,
    ) -> Result<u8, Failure> {
        let (file, starts) = match arguments.files[..] {
            [file] => (file, None),
            [file, left, right] => (file, Some((left, right))),
            _ => {
                return Err(Failure::Usage(format!(
                    "two starts of one sheet are compared, so LEFT and RIGHT go together\n{}",
                    about.usage
                )))
            }
        };
        let source = self.source(file)?;
        let form = arguments.form;
        let sheet = source.sheet().map_err(|bad| failure(&source, &bad, form))?;
        let (left, right) = match starts {
            None => (0, 1),
            Some((left, right)) => (start_number(&sheet, left)?, start_number(&sheet, right)?),
        };
        let call = if arguments.desk { compare_desk } else { compare };
        let report =
            call(&sheet.to_bytes(), left, right).map_err(|error| failure(&source, &Bad::Error(error), form))?;
        let status = if report.verdict == Verdict::Diff { DIFF } else { GOOD };
        say(self.output, &sheet, (left, right), report)?;
        Ok(status)
    }

    fn compare(&mut self, about: &help::About, arguments: &Arguments) -> Result<u8, Failure> {
        let form = arguments.form;
        self.compared(about, arguments, |output, sheet, starts, report| {
            if form == Form::Plain {
                output.write_all(report.to_string().as_bytes())?;
                return Ok(());
            }
            let comparison = explained(sheet, starts, report)?;
            match form {
                Form::Json => writeln!(output, "{}", json::comparison(&comparison))?,
                _ => output.write_all(words::comparison(&comparison).as_bytes())?,
            }
            Ok(())
        })
    }

    fn graph(&mut self, about: &help::About, arguments: &Arguments) -> Result<u8, Failure> {
        self.compared(about, arguments, |output, sheet, starts, report| {
            output.write_all(graph::graph(&explained(sheet, starts, report)?).as_bytes())?;
            Ok(())
        })
        .map(|_| GOOD)
    }
}

/// The report with all that its words need.
fn explained(sheet: &Sheet, (left, right): (usize, usize), report: Report) -> Result<Comparison<'_>, Failure> {
    let line = format!("{} {}", report.verdict, report.round);
    Comparison::new(sheet, left, right, report).ok_or_else(|| {
        let words = format!("the report is {line}, and its words could not be worked out; --plain prints it");
        Failure::Refused { words, answer: String::new() }
    })
}

/// The words of a command: its files, and the options that it has; none where they ask for its help.
fn arguments<'a>(about: &help::About, words: &'a [OsString]) -> Result<Option<Arguments<'a>>, Failure> {
    let mut arguments = Arguments { files: vec![], form: Form::Words, desk: false, to: None };
    let wrong = |message: String| Err(Failure::Usage(format!("{message}\n{}", about.usage)));
    let mut words = words.iter();
    let mut options = true;
    while let Some(word) = words.next() {
        let option = word.to_str().filter(|word| options && word.starts_with('-') && *word != "-");
        let Some(option) = option else {
            arguments.files.push(word);
            continue;
        };
        if option == "--" {
            options = false;
            continue;
        }
        if option == "--help" || option == "-h" {
            return Ok(None);
        }
        if !about.options.contains(&option) {
            return wrong(format!("'{option}' is not an option of this command"));
        }
        let form = match option {
            "--plain" => Form::Plain,
            "--json" => Form::Json,
            "--desk" => {
                arguments.desk = true;
                continue;
            }
            _ => {
                let Some(to) = words.next() else { return wrong("-o needs the name of a file".to_string()) };
                if arguments.to.replace(to).is_some() {
                    return wrong("-o stands twice".to_string());
                }
                continue;
            }
        };
        if arguments.form != Form::Words && arguments.form != form {
            return wrong("--plain and --json do not go together".to_string());
        }
        arguments.form = form;
    }
    if arguments.files.is_empty() {
        return wrong("a file is missing".to_string());
    }
    if arguments.files.len() > about.most_files {
        return wrong(format!("'{}' is too much", arguments.files[about.most_files].to_string_lossy()));
    }
    Ok(Some(arguments))
}

/// A start by its number or its name.
fn start_number(sheet: &Sheet, word: &OsString) -> Result<usize, Failure> {
    let text = word.to_string_lossy();
    let number = text.bytes().all(|byte| byte.is_ascii_digit()).then(|| text.parse().ok()).flatten();
    number.or_else(|| sheet.start_number(&text)).ok_or_else(|| {
        let names: Vec<&str> = sheet.starts().iter().map(|start| start.name.as_str()).collect();
        Failure::Usage(format!("no start is called '{text}'; the starts are {}", names.join(", ")))
    })
}

/// A sheet that is not read or not compared, in the form that is asked for.
fn failure(source: &Source, bad: &Bad, form: Form) -> Failure {
    let words = format!("{}: {}", source.name, bad_words(bad, source));
    let answer = match (form, bad) {
        (Form::Words, _) => String::new(),
        (Form::Json, Bad::Problem(problem)) => format!("{}\n", json::problem(problem)),
        (Form::Json, Bad::Error(error)) => format!("{}\n", json::error(error, &source.bytes)),
        (Form::Json, Bad::Other(message)) => format!("{}\n", json::message(message)),
        (Form::Plain, Bad::Error(error)) => error.line().map_or(String::new(), |line| line + "\n"),
        (Form::Plain, Bad::Problem(problem)) => {
            problem.error.and_then(|error| error.line()).map_or(String::new(), |line| line + "\n")
        }
        (Form::Plain, Bad::Other(_)) => String::new(),
    };
    Failure::Refused { words, answer }
}

/// What is wrong: of bytes with the field, its record and the byte, of a text with the line.
fn bad_words(bad: &Bad, source: &Source) -> String {
    let bytes = &source.bytes;
    let error = match bad {
        Bad::Problem(problem) => return problem.to_string(),
        Bad::Other(message) => return message.clone(),
        Bad::Error(error) => error,
    };
    let mut words = match refused(error) {
        Some((number, _)) => format!("refused with {number}: {error}"),
        None => error.to_string(),
    };
    if let Some(place) = byte_place(error) {
        words.push_str(&format!("\n  byte {place}: {}", field_at(bytes, place)));
        match bytes.get(place) {
            Some(byte) => words.push_str(&format!(", where the byte is {byte}")),
            None => words.push_str(", where the bytes end"),
        }
    }
    if source.looks_like_text() {
        words
            .push_str("\n  This looks like a text, but a file whose name ends in .sheet is taken for a sheet's bytes.");
    }
    words
}
