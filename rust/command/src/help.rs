//! The help texts.

/// What a command takes, and its help.
pub(crate) struct About {
    name: &'static str,
    /// Its line of usage.
    pub(crate) usage: &'static str,
    /// The options that it has.
    pub(crate) options: &'static [&'static str],
    /// How many words that are no options it takes at most.
    pub(crate) most_files: usize,
    /// Its help.
    pub(crate) text: &'static str,
}

/// The help of the command with this name.
pub(crate) fn about(name: &str) -> Option<&'static About> {
    ABOUT.iter().find(|about| about.name == name)
}

pub(crate) const USAGE: &str = "usage: hofadiju write|show|check|compare|graph ..., or hofadiju --help";

pub(crate) const ALL: &str = "\
Compares control sheets of concurrent constraint processes.

  hofadiju write TEXT [-o SHEET]                writes the bytes of a sheet that is given as a text
  hofadiju show SHEET [-o TEXT]                 writes a sheet's bytes as a text
  hofadiju check SHEET|TEXT                     reads a sheet, and says what is wrong with it
  hofadiju compare SHEET|TEXT [LEFT RIGHT]      compares two starts, and says SAME or DIFF and why
  hofadiju graph SHEET|TEXT [LEFT RIGHT]        writes a comparison as a Graphviz text

hofadiju COMMAND --help says more, and hofadiju --version which version this is. TEXT is in the notation of
docs/NOTATION.md. For - the standard input is read. A file is a sheet's bytes if its name ends in .sheet, and a text if
it ends in .ccp; any other is a sheet's bytes if it begins as no text does or has a byte 0.

The exit status is 0 for SAME, 1 for DIFF, 2 for a sheet that is refused or a text with a problem, and 3 for bad usage
or a file that cannot be read or written. Only compare gives a verdict; the others give 0 where they do what is asked.
";

const ABOUT: &[About] = &[
    About {
        name: "write",
        usage: "usage: hofadiju write TEXT [-o SHEET]",
        options: &["-o"],
        most_files: 1,
        text: "\
usage: hofadiju write TEXT [-o SHEET]

Writes the bytes of the sheet that TEXT says, in the notation of docs/NOTATION.md, to SHEET or the standard output.
For - the standard input is read. Where the text has a problem nothing is written; the line, the column and what was
expected go to the standard error, and the exit status is 2.
",
    },
    About {
        name: "show",
        usage: "usage: hofadiju show SHEET [-o TEXT]",
        options: &["-o"],
        most_files: 1,
        text: "\
usage: hofadiju show SHEET [-o TEXT]

Writes the sheet with these bytes in the notation of docs/NOTATION.md, to TEXT or the standard output. What it writes
gives the same bytes by 'hofadiju write'. Bytes have no names for nodes and starts; node 3 is called n3, start 1 s1.
For - the standard input is read.
",
    },
    About {
        name: "check",
        usage: "usage: hofadiju check SHEET|TEXT [--json]",
        options: &["--json"],
        most_files: 1,
        text: "\
usage: hofadiju check SHEET|TEXT [--json]

Reads a sheet and compares nothing. Where it is refused, the standard error has what is wrong, the byte and the field
of the record; where a text has a problem, the line and the column. The exit status is then 2, and 0 otherwise.

  --json   the answer or the refusal as JSON on the standard output
",
    },
    About {
        name: "compare",
        usage: "usage: hofadiju compare SHEET|TEXT [LEFT RIGHT] [--plain|--json] [--desk]",
        options: &["--plain", "--json", "--desk"],
        most_files: 3,
        text: "\
usage: hofadiju compare SHEET|TEXT [LEFT RIGHT] [--plain|--json] [--desk]

Compares two starts of a sheet, given by number from 0 or by name, the first two where none are given, and says in
words whether they behave alike, how to tell them apart, and which configurations behave alike.

  --plain  the library's report as it is, or REFUSED with number and place
  --json   the report with the names of the sheet, or the refusal, as JSON
  --desk   within the limits of the quotation desk, 64 configurations and 512 moves

The exit status is 0 for SAME, 1 for DIFF, 2 for a refusal or a text with a problem, 3 for bad usage. Words are made
from the report outside of what is proved; --plain prints the report itself.
",
    },
    About {
        name: "graph",
        usage: "usage: hofadiju graph SHEET|TEXT [LEFT RIGHT] [--desk]",
        options: &["--desk"],
        most_files: 3,
        text: "\
usage: hofadiju graph SHEET|TEXT [LEFT RIGHT] [--desk]

Writes the configurations and moves of a comparison as a Graphviz text. Classes are colours, the trail's moves are red,
its answers dashed, redundant moves dotted. With Graphviz installed,

  hofadiju graph sheet.ccp | dot -Tsvg > sheet.svg

makes a picture. The exit status is 0, 2 for a refusal or a text with a problem, 3 for bad usage.

  --desk   within the limits of the quotation desk, 64 configurations and 512 moves
",
    },
];
