//! Bad texts, each beside a nearby text that is right: where the problem is, what is wrong and what was expected.

use super::texts::WORDS;
use super::well_placed;
use hofadiju::notation::{read, Problem};
use hofadiju::{check, Reason};

/// A bad text, in which `[` and `]` stand around the place of the problem, what is said of it, and a good text.
struct Case {
    bad: String,
    message: String,
    expected: String,
    good: String,
}

/// A case whose texts are whole.
fn whole(bad: &str, message: &str, expected: &str, good: &str) -> Case {
    Case { bad: bad.into(), message: message.into(), expected: expected.into(), good: good.into() }
}

/// A case whose texts are part of a sheet with facts a and b, nodes p and q before them and starts s and t behind them.
fn part(bad: &str, message: &str, expected: &str, good: &str) -> Case {
    let (before, behind) =
        ("fact a, b\nnode p = stop\nnode q = tell a", "start s at nothing run p\nstart t at a run q\n");
    let [bad, good] = [bad, good].map(|part| format!("{before}\n{part}\n{behind}"));
    whole(&bad, message, expected, &good)
}

impl Case {
    /// The bad text without its marks, and the line, column and width that they say. Nothing between the marks is a
    /// place behind something, one character wide.
    fn bad(&self) -> (String, [usize; 3]) {
        let (before, rest) = self.bad.split_once('[').expect("a mark");
        let (marked, after) = rest.split_once(']').expect("a second mark");
        let line = before.matches('\n').count() + 1;
        let column = before.rsplit('\n').next().unwrap().chars().count() + 1;
        (format!("{before}{marked}{after}"), [line, column, marked.chars().count().max(1)])
    }

    /// The problem of the bad text, which is as it should be. The good text is read.
    fn hold(&self) -> Problem {
        let (text, place) = self.bad();
        let problem = match read(&text) {
            Ok(_) => panic!("no problem with\n{text}"),
            Err(problem) => problem,
        };
        assert_eq!(problem.message, self.message, "\n{text}\n{problem}");
        assert_eq!(problem.expected, self.expected, "\n{text}\n{problem}");
        assert_eq!([problem.line, problem.column, problem.width], place, "\n{text}\n{problem}");
        well_placed(&text, &problem);
        if let Err(problem) = read(&self.good) {
            panic!("{problem}\n{}", self.good);
        }
        problem
    }
}

const SIGNS: &str = "a word, a quoted name or one of { } ( ) , =";
const STATEMENT: &str = "'fact', 'rule', 'node' or 'start'";
const SET: &str = "a set: 'nothing', a fact or {facts}";
const NODE: &str = "a node: a name, 'stop', 'tell', 'ask', 'both', 'either' or one of these in ( )";
const PROCESS: &str = "'stop', 'tell', 'ask', 'both' or 'either'";
const CUT: &str = "the statement is not complete";

/// Characters and quoted names.
fn lexer_cases() -> Vec<Case> {
    let mut cases = vec![];
    let signs =
        [';', ':', '.', '-', '+', '*', '/', '<', '>', '|', '&', '!', '?', '@', '$', '%', '^', '~', '`', '\'', '\\'];
    let letters = ['é', 'ß', 'λ', '\u{a0}', '\u{feff}', '\u{2028}', '\u{3000}', '🙂', '１'];
    let controls = ['\0', '\u{1}', '\u{8}', '\u{b}', '\u{c}', '\u{1b}', '\u{7f}', '\u{85}'];
    for sign in signs.into_iter().chain(letters).chain(controls) {
        let message = format!("{sign:?} is not part of the notation");
        cases.push(part(&format!("fact c [{sign}] d"), &message, SIGNS, &format!("fact c # {sign} d")));
        cases.push(part(&format!("fact {{[{sign}]c"), &message, SIGNS, &format!("fact c # {sign}{{{sign}")));
        if sign == '\u{feff}' {
            continue; // it is passed over before a text
        }
        cases.push(whole(&format!("[{sign}]"), &message, SIGNS, "node p = stop start s at nothing start t at nothing"));
    }
    let inside = "a carriage return stands inside a line";
    let ends = "line ends with a line feed";
    cases.push(part("fact c # one line[\r]fact d", inside, ends, "fact c # one line\r\nfact d"));
    cases.push(part("fact[\r]c", inside, ends, "fact\r\r\nc"));
    cases.push(part("fact c \r[\r] # d", inside, ends, "fact c \r\r\n# d\r\n"));
    cases.push(whole("[\r]node p = stop", inside, ends, "\r\nnode p = stop start s at nothing start t at nothing\r\r"));
    cases.push(part("fact caf[é]", "'é' is not part of the notation", SIGNS, "fact cafe # é"));
    cases.push(part("fact [-]c", "'-' is not part of the notation", SIGNS, "fact c-"));
    cases.push(part("node r [:]= stop", "':' is not part of the notation", SIGNS, "node r = stop"));

    let (open, second) = ("the quoted name does not end on its line", "a second quote");
    cases.push(part("fact c [\"door]", open, second, "fact c \"door\""));
    cases.push(part("fact c [\"door]\r", open, second, "fact c \"door\"\r"));
    cases.push(part("fact c [\"door # , d]", open, second, "fact c \"door # \", d"));
    cases.push(part("fact c [\"door\\\"]", open, second, "fact c \"door\\\"\""));
    cases.push(part("fact c \"x\"[\"]", open, second, "fact c \"x\""));
    cases.push(whole("fact c [\"]", open, second, "fact c \"\" node p = stop start s at c start t at c"));
    cases.push(whole("fact c [\"door]", open, second, "fact c \"door\" node p = stop start s at c start t at c"));

    let ascii = "letters, digits, spaces and signs of ASCII, 32 to 126";
    for (character, nearby) in
        [('\t', ' '), ('\0', '0'), ('\u{1f}', ' '), ('\u{7f}', '~'), ('é', 'e'), ('\u{a0}', ' '), ('🙂', ')')]
    {
        let message = format!("{character:?} cannot stand in a fact's name");
        let (bad, good) = (format!("fact c \"ab[{character}]d\""), format!("fact c \"ab{nearby}d\""));
        cases.push(part(&bad, &message, ascii, &good));
    }

    let (backslash, escapes) = ("a backslash stands before something else", "\\\" for a quote or \\\\ for a backslash");
    cases.push(part("fact c \"a[\\]b\"", backslash, escapes, "fact c \"a\\\\b\""));
    cases.push(part("fact c \"a[\\]n\"", backslash, escapes, "fact c \"a\\\"n\""));
    cases.push(part("fact c \"[\\]é\"", backslash, escapes, "fact c \"\\\\\""));
    cases.push(part("fact c \"a[\\]", backslash, escapes, "fact c \"a\\\\\""));
    cases.push(part("fact c \"a[\\]\r", backslash, escapes, "fact c \"a\\\\\"\r"));
    cases.push(whole("fact c \"[\\]", backslash, escapes, "fact c \"\\\\\" node p = stop start s at c start t at c"));
    cases
}

/// What stands where a statement should begin, and where the statement before could go on.
fn statement_cases() -> Vec<Case> {
    let mut cases = vec![];
    let good = "node p = stop start s at nothing start t at nothing";
    for (first, words) in [
        ("stop", "'stop'"),
        ("door", "'door'"),
        ("12", "'12'"),
        ("Fact", "'Fact'"),
        ("run", "'run'"),
        ("call", "'call'"),
        ("nothing", "'nothing'"),
        ("\"a b\"", "the quoted name \"a b\""),
        ("{", "'{'"),
        ("}", "'}'"),
        ("(", "'('"),
        (")", "')'"),
        (",", "','"),
        ("=", "'='"),
    ] {
        let message = format!("{words} cannot stand here");
        cases.push(whole(&format!("[{first}] x"), &message, STATEMENT, good));
        cases.push(whole(&format!("# a comment\r\n\t[{first}]"), &message, STATEMENT, good));
    }
    let more = |more: &str| format!("{more}{STATEMENT}");
    let rows = [
        ("fact c [d]", "'d'", "',' and a fact, or ", "fact c, d"),
        ("fact c \"x\" [\"y\"]", "the quoted name \"y\"", "',' and a fact, or ", "fact c \"x\""),
        ("fact c [=] d", "'='", "',' and a fact, or ", "fact c, d"),
        ("fact c\n[rull] c gives a", "'rull'", "',' and a fact, or ", "fact c\nrule c gives a"),
        ("rule a gives b\n[a] gives b", "'a'", "", "rule a gives b\nrule a gives b"),
        ("fact c rule a gives b [c]", "'c'", "", "fact c rule a gives {b, c}"),
        ("start u at a rule a gives b [run] p", "'run'", "", "start u at a run p rule a gives b"),
        ("fact c node r = stop[,] d", "','", "", "fact c, d node r = stop"),
        ("start u at a node r = stop [run] p", "'run'", "", "start u at a run p node r = stop"),
        ("node r = stop[)]", "')'", "", "node r = (stop)"),
        ("node r = stop [stop]", "'stop'", "", "node r = stop"),
        ("node r = stop\n\n  [nodes] u = stop", "'nodes'", "", "node r = stop\n\n  node u = stop"),
        ("start u at nothing [p]", "'p'", "'run' and a node, or ", "start u at nothing run p"),
        ("start u at a\n[runs] p", "'runs'", "'run' and a node, or ", "start u at a\nrun p"),
        ("start u at nothing run p [q]", "'q'", "',' and a node, or ", "start u at nothing run p, q"),
        ("start u at nothing run p [run] q", "'run'", "',' and a node, or ", "start u at nothing run p, q"),
        ("start u at nothing run (p)[)]", "')'", "',' and a node, or ", "start u at nothing run (p)"),
    ];
    for (bad, words, before, good) in rows {
        cases.push(part(bad, &format!("{words} cannot stand here"), &more(before), good));
    }
    let braces = "; several facts stand in { }";
    for (bad, before, good) in [
        ("rule a gives b[,] a", "", "rule a gives {b, a}"),
        ("node r = tell a[,] b", "", "node r = tell {a, b}"),
        ("start u at a[,] b run p", "'run' and a node, or ", "start u at {a, b} run p"),
        ("start u at {a}[,] b", "'run' and a node, or ", "start u at {a, b}"),
    ] {
        cases.push(part(bad, "',' cannot stand here", &format!("{}{braces}", more(before)), good));
    }
    cases.push(part(
        "rule a[,] b gives a",
        "',' cannot stand here",
        &format!("'gives' and a set{braces}"),
        "rule {a, b} gives a",
    ));
    cases.push(part(
        "node r = ask a[,] b then p",
        "',' cannot stand here",
        &format!("'then' and a node{braces}"),
        "node r = ask {a, b} then p",
    ));
    let two = "; 'both' and 'either' join two nodes, more by ( )";
    for (bad, word, before, good) in [
        ("node r = both p and q [and] p", "and", "", "node r = both p and (both q and p)"),
        ("node r = either p or q [or] p", "or", "", "node r = either p or (either q or p)"),
        ("node r = both p and q\n  [or] p", "or", "", "node r = either (both p and q)\n  or p"),
        ("start u at a run p [and] q", "and", "',' and a node, or ", "start u at a run p, q"),
        ("start u at a [and] b", "and", "'run' and a node, or ", "start u at {a, b}"),
        ("rule a gives b [and] a", "and", "", "rule a gives {b, a}"),
        ("fact c [and] d", "and", "',' and a fact, or ", "fact c, d"),
    ] {
        cases.push(part(bad, &format!("'{word}' cannot stand here"), &format!("{}{two}", more(before)), good));
    }
    cases
}

/// A place where a name or the beginning of something is expected: what stands before it, what is expected, and
/// something good that could follow.
const NAME_PLACES: [(&str, &str, &str); 27] = [
    ("fact ", "the name of a fact", "c"),
    ("fact c, ", "the name of a fact", "d"),
    ("fact c \"x\", ", "the name of a fact", "d \"y\""),
    ("rule ", SET, "nothing gives a"),
    ("rule a gives ", SET, "{}"),
    ("rule {", "a fact or '}'", "} gives a"),
    ("rule {a, ", "a fact", "b} gives b"),
    ("rule {a, b} gives {", "a fact or '}'", "b}"),
    ("rule {a, b} gives {b, ", "a fact", "a}"),
    ("node ", "the name of a node", "r = stop"),
    ("node r = ", PROCESS, "stop"),
    ("node r = (", PROCESS, "stop)"),
    ("node r = ((", PROCESS, "tell {}))"),
    ("node r = tell ", SET, "{a, b}"),
    ("node r = ask ", SET, "b then r"),
    ("node r = ask a then ", NODE, "r"),
    ("node r = ask a then (", NODE, "r)"),
    ("node r = both ", NODE, "p and q"),
    ("node r = both p and ", NODE, "(tell b)"),
    ("node r = both (ask a then ", NODE, "r) and p"),
    ("node r = either ", NODE, "stop or stop"),
    ("node r = either p or ", NODE, "q"),
    ("start ", "the name of a start", "u at a"),
    ("start u at ", SET, "nothing run r node r = stop"),
    ("start u at nothing run ", NODE, "p"),
    ("start u at nothing run p, ", NODE, "ask a then p, stop"),
    ("start u at nothing run p, (", NODE, "q)"),
];

/// A place where a word or a mark of the notation is expected.
const WORD_PLACES: [(&str, &str, &str); 13] = [
    ("rule a ", "'gives' and a set", "gives b"),
    ("rule {a, b} ", "'gives' and a set", "gives b"),
    ("rule {a ", "',' and a fact, or '}'", ", b} gives b"),
    ("rule {a, b ", "',' and a fact, or '}'", "} gives b"),
    ("node r ", "'=' and 'stop', 'tell', 'ask', 'both' or 'either'", "= stop"),
    ("node r = (stop ", "')'", ")"),
    ("node r = ask a ", "'then' and a node", "then r"),
    ("node r = both p ", "'and' and a node", "and p"),
    ("node r = both (ask a then p) ", "'and' and a node", "and p"),
    ("node r = either p ", "'or' and a node", "or p"),
    ("start u ", "'at' and a set", "at a"),
    ("start u at nothing run (p ", "')'", ")"),
    ("start u at nothing run p, both p ", "'and' and a node", "and q"),
];

fn place_cases() -> Vec<Case> {
    let mut cases = vec![];
    let mut push = |before: &str, wrong: &str, words: &str, expected: &str, good: &str| {
        let message = format!("{words} cannot stand here");
        cases.push(part(&format!("{before}[{wrong}]"), &message, expected, &format!("{before}{good}")));
        // On a line of its own it is marked there too.
        let (bad, good) = (format!("{before}\n  [{wrong}]"), format!("{before}\n  {good}"));
        cases.push(part(&bad, &message, expected, &good));
    };
    for (before, expected, good) in NAME_PLACES {
        push(before, "=", "'='", expected, good);
        push(before, ",", "','", expected, good);
        push(before, ")", "')'", expected, good);
        push(before, "\"x\"", "the quoted name \"x\"", expected, good);
        if !expected.starts_with("a fact or") {
            push(before, "}", "'}'", expected, good);
        }
        if expected != NODE && expected != PROCESS {
            push(before, "(", "'('", expected, good);
        }
        if expected != SET {
            push(before, "{", "'{'", expected, good);
        }
        for word in ["gives", "then", "and", "or", "at", "run"] {
            push(before, word, &format!("'{word}'"), &format!("{expected}; '{word}' is a word of the notation"), good);
        }
    }
    for (before, expected, good) in WORD_PLACES {
        for (wrong, words) in
            [("x", "'x'"), ("5", "'5'"), ("{", "'{'"), ("(", "'('"), ("\"x\"", "the quoted name \"x\"")]
        {
            push(before, wrong, words, expected, good);
        }
        for mark in [",", "}", ")", "="].into_iter().filter(|&mark| !expected.contains(&format!("'{mark}'"))) {
            let behind_set = expected.starts_with("'gives'") || expected.starts_with("'then'");
            let braces = if mark == "," && behind_set { "; several facts stand in { }" } else { "" };
            push(before, mark, &format!("'{mark}'"), &format!("{expected}{braces}"), good);
        }
        for word in ["tell", "call", "run"] {
            push(before, word, &format!("'{word}'"), expected, good);
        }
    }
    for (before, expected, good) in NAME_PLACES.into_iter().chain(WORD_PLACES) {
        let short = before.trim_end();
        // Another statement begins, or the text ends.
        cases.push(part(&format!("{short}[]"), CUT, expected, &format!("{short} {good}")));
        cases.push(part(&format!("{short}[] # {good}"), CUT, expected, &format!("{short} {good} # {good}")));
        cases.push(part(&format!("{short}[]\r\n\r\nrule a gives b"), CUT, expected, &format!("{short} {good}\r\n")));
        let head = "node p = stop node q = stop fact a, b start s at a start t at a\n";
        for end in ["", "\n", "\r\n", " ", " # what comes\n# later\n"] {
            cases.push(whole(&format!("{head}{short}[]{end}"), CUT, expected, &format!("{head}{short} {good}{end}")));
        }
    }
    // On the same line a statement is something that cannot stand there.
    for (before, expected, good) in NAME_PLACES {
        for word in ["fact", "rule", "node", "start"] {
            let expected = format!("{expected}; '{word}' is a word of the notation");
            let bad = format!("{before}[{word}] x");
            cases.push(part(&bad, &format!("'{word}' cannot stand here"), &expected, &format!("{before}{good}")));
        }
    }
    // No word of the notation is a name, and no name begins with a digit.
    for (before, kind, after) in
        [("fact ", "fact", ""), ("node ", "node", " = stop"), ("start ", "start", " at nothing")]
    {
        for word in WORDS {
            let expected = format!("the name of a {kind}; '{word}' is a word of the notation");
            let (bad, good) = (format!("{before}[{word}]{after}"), format!("{before}{word}_{after}"));
            cases.push(part(&bad, &format!("'{word}' cannot stand here"), &expected, &good));
        }
    }
    for (before, expected, good) in NAME_PLACES {
        for name in ["1", "1c", "0_", "9-9"] {
            let expected = format!("{expected}; a name begins with a letter or _");
            let bad = format!("{before}[{name}]");
            cases.push(part(&bad, &format!("'{name}' cannot be a name"), &expected, &format!("{before}{good}")));
        }
    }
    cases
}

/// Nodes that are none.
fn process_cases() -> Vec<Case> {
    let mut cases = vec![];
    for (bad, good) in [
        ("node r = [p]", "node r = either p or p"),
        ("node r = ([p])", "node r = (either p or p)"),
        ("node r =\n  ((([p])))", "node r =\n  (((stop)))"),
    ] {
        cases.push(part(bad, "a name alone, 'p', makes no node", PROCESS, good));
    }
    let call = "'call' is kept for named routines, which sheets do not have yet";
    for (bad, expected, good) in [
        ("node r = [call] p", PROCESS, "node r = ask nothing then p"),
        ("node r = ([call])", PROCESS, "node r = (stop)"),
        ("node r = ask a then [call] p", NODE, "node r = ask a then p"),
        ("node r = both p and ([call] q)", NODE, "node r = both p and (q)"),
        ("node r = either [call] p or q", NODE, "node r = either p or q"),
        ("start u at nothing run p, [call]", NODE, "start u at nothing run p, call_ node call_ = stop"),
    ] {
        cases.push(part(bad, call, expected, good));
    }
    let deep = "too much stands inside one another here";
    let expected = "at most 128 levels, or a named node";
    let nested = |before: &str, levels: usize, inside: &str| {
        format!("{before}{}{inside}{}", "(".repeat(levels), ")".repeat(levels))
    };
    cases.push(part(&nested("node r = ", 128, "[stop]"), deep, expected, &nested("node r = ", 127, "stop")));
    cases.push(part(&nested("node r = ", 128, "[(]stop)"), deep, expected, &nested("node r = ", 127, "stop")));
    let start = "start u at nothing run p, ";
    cases.push(part(&nested(start, 128, "[p]"), deep, expected, &nested(start, 127, "p")));
    let ask = "node r = ask a then ";
    cases.push(part(&nested(ask, 127, "[r]"), deep, expected, &nested(ask, 126, "r")));
    cases.push(part(&nested("node r = both p and ", 127, "[)]"), deep, expected, "node r = both p and p"));
    // Forty asks in a parenthesis each, and further parentheses.
    let asks = |levels: usize, inside: &str| {
        format!("node r = {}{}{}", "(ask a then ".repeat(40), nested("", levels, inside), ")".repeat(40))
    };
    cases.push(part(&asks(48, "[p]"), deep, expected, &asks(47, "p")));
    // What stands beside something else is not inside it.
    let wide = format!("node r = {}", nested("both ", 100, "p") + &nested(" and ", 100, "p"));
    cases.push(part(&nested("node u = ", 128, "[stop]"), deep, expected, &wide));
    cases
}

/// Names that are given twice, or to nothing, and sets.
fn name_cases() -> Vec<Case> {
    let mut cases = vec![];
    let twice = |name: &str| format!("the name '{name}' is given twice");
    let other = |part: &str, line: usize| format!("a {part} of another name; line {line} has this one");
    cases.push(part("fact [a]", &twice("a"), &other("fact", 1), "fact p, q, s, t"));
    cases.push(part("fact c, d, [c] \"x\"", &twice("c"), &other("fact", 4), "fact c, d \"c\", C \"c\""));
    cases.push(part("node [p] = stop", &twice("p"), &other("node", 2), "node a = stop\nnode s = stop"));
    cases.push(part(
        "node r = stop\n\nnode [r] = stop",
        &twice("r"),
        &other("node", 4),
        "node r = stop\n\nnode R = stop",
    ));
    let starts = "node p = stop\nstart u at nothing\nstart [u] at nothing run p";
    let good = "fact p\nnode p = stop\nstart p at p\nstart u at nothing run p";
    cases.push(whole(starts, &twice("u"), &other("start", 2), good));

    let unknown = |part: &str, name: &str| format!("no {part} is called '{name}'");
    let facts = "a fact of this sheet: a, b";
    cases.push(part("rule [c] gives a", &unknown("fact", "c"), facts, "fact c\nrule c gives a"));
    cases.push(part("rule a gives {b, [A]}", &unknown("fact", "A"), facts, "rule a gives {b, a}"));
    cases.push(part("node r = tell [p]", &unknown("fact", "p"), facts, "node r = tell a"));
    cases.push(part("node r = ask {a, [b_]} then p", &unknown("fact", "b_"), facts, "node r = ask {a, b} then p"));
    cases.push(part("start u at [c] run p", &unknown("fact", "c"), facts, "start u at c run p fact c"));
    let none = "a fact of this sheet, which names none";
    let good = "rule nothing gives {} node p = stop start s at nothing start t at {}";
    cases.push(whole("rule [x] gives nothing", &unknown("fact", "x"), none, good));
    let names: Vec<String> = (0..12).map(|fact| format!("f{fact}")).collect();
    let list = names.join(", ");
    let good = format!("fact {list} node p = tell f11 start s at f0 start t at f5");
    let bad = format!("fact {list} node p = tell [f12]");
    cases.push(whole(&bad, &unknown("fact", "f12"), &format!("a fact of this sheet: {list}"), &good));

    let nodes = "a node of this sheet: p, q";
    let with_r = "a node of this sheet: p, q, r";
    cases.push(part("node r = ask a then [u]", &unknown("node", "u"), with_r, "node r = ask a then q"));
    cases.push(part("node r = both p and [a]", &unknown("node", "a"), with_r, "node r = both p and q"));
    cases.push(part("node r = either [P] or p", &unknown("node", "P"), with_r, "node r = either p or p"));
    cases.push(part(
        "start u at nothing run p, [r]",
        &unknown("node", "r"),
        nodes,
        "start u at nothing run p, r node r = stop",
    ));
    let none = "a node of this sheet, which names none";
    let good = "start s at nothing run stop, p start t at nothing node p = stop";
    cases.push(whole("start s at nothing run stop, [p]", &unknown("node", "p"), none, good));
    for (count, list) in [
        (12, "n0, n1, n2, n3, n4, n5, n6, n7, n8, n9, n10, n11"),
        (13, "n0, n1, n2, n3, n4, n5, n6, n7, n8, n9, n10, n11 and 1 more"),
        (64, "n0, n1, n2, n3, n4, n5, n6, n7, n8, n9, n10, n11 and 52 more"),
    ] {
        let lines: String = (0..count).map(|node| format!("node n{node} = stop\n")).collect();
        let expected = format!("a node of this sheet: {list}");
        let good = format!("{lines}start s at nothing run n{}\nstart t at nothing", count - 1);
        cases.push(whole(&format!("{lines}start s at nothing run [x]"), &unknown("node", "x"), &expected, &good));
    }

    let stands = |name: &str| format!("'{name}' stands twice in the set");
    let once = "each fact once";
    cases.push(part("rule {a, [a]} gives b", &stands("a"), once, "rule {a, b} gives b"));
    cases.push(part("rule a gives {b, a, [b]}", &stands("b"), once, "rule a gives {b, a}"));
    cases.push(part("node r = tell {b, [b]}", &stands("b"), once, "node r = tell b"));
    cases.push(part("node r = ask {a,\n b, [a]} then p", &stands("a"), once, "node r = ask {a,\n b} then p"));
    cases.push(part("start u at {a, [a]}", &stands("a"), once, "start u at {a}"));

    let before = "a node that is written before; an ask may name any node";
    for (bad, message, good) in [
        ("node r = both [r] and p", "the both names itself, 'r'", "node r = ask a then r"),
        ("node r = both p and [r]", "the both names itself, 'r'", "node r = both p and q"),
        ("node r = either [r] or p", "the either names itself, 'r'", "node r = either q or p"),
        ("node r = either p or ([r])", "the either names itself, 'r'", "node r = either p or (ask a then r)"),
        (
            "node r = both [u] and p\nnode u = stop",
            "the both names a later node, 'u'",
            "node u = stop\nnode r = both u and p",
        ),
        (
            "node r = both p and [u]\nnode u = stop",
            "the both names a later node, 'u'",
            "node r = both p and stop\nnode u = stop",
        ),
        (
            "node r = either [u] or p\nnode u = stop",
            "the either names a later node, 'u'",
            "node r = ask a then u\nnode u = stop",
        ),
        (
            "node r = both p and (either q or [r])",
            "the either names the node that it stands in, 'r'",
            "node r = both p and (either q or q)",
        ),
        (
            "node r = ask a then both [r] and p",
            "the both names the node that it stands in, 'r'",
            "node r = ask a then both q and p",
        ),
        (
            "node r =\n ask a then ask b then either p or [r]",
            "the either names the node that it stands in, 'r'",
            "node r =\n ask a then ask b then either p or (ask b then r)",
        ),
    ] {
        cases.push(part(bad, message, before, good));
    }

    let long = |name: &str| format!("'{name}' is too long for a fact's name on the sheet");
    let short = "at most 8 characters";
    let or_quoted = |name: &str| format!("{short}, or another name for the sheet in quotes: {name} \"{}\"", &name[..8]);
    cases.push(part("fact [ninechars]", &long("ninechars"), &or_quoted("ninechars"), "fact eightcha"));
    cases.push(part(
        "fact c, [temperature-low]",
        &long("temperature-low"),
        &or_quoted("temperature-low"),
        "fact c, temperature-low \"temp low\"",
    ));
    cases.push(part("fact c [\"nine char\"]", &long("nine char"), short, "fact c \"eight ch\""));
    cases.push(part("fact ninechars [\"ninechars\"]", &long("ninechars"), short, "fact ninechars \"eightcha\""));
    cases.push(part("fact c [\"         \"]", &long("         "), short, "fact c \"        \""));
    let (nine, eight) = ("\\\\".repeat(9), "\\\\".repeat(8));
    cases.push(part(&format!("fact c [\"{nine}\"]"), &long(&"\\".repeat(9)), short, &format!("fact c \"{eight}\"")));
    cases
}

/// The limits of a sheet.
fn limit_cases() -> Vec<Case> {
    let mut cases = vec![];
    let many = |part: &str, number: usize| format!("the sheet has too many {part}s: this is number {number}");
    let most = |part: &str, count: usize| format!("at most {count} {part}s on a sheet");
    let end = "\nnode p = stop\nstart s at nothing\nstart t at nothing run p\n";
    let names = |count: usize| (0..count).map(|number| format!("x{number}")).collect::<Vec<_>>().join(", ");

    let bad = format!("fact {}, [last], more{end}", names(12));
    cases.push(whole(&bad, &many("fact", 13), &most("fact", 12), &format!("fact {}{end}", names(12))));
    let bad = format!("fact {}\nfact [last] \"x\"{end}", names(12));
    cases.push(whole(&bad, &many("fact", 13), &most("fact", 12), &format!("fact {}\nfact last \"x\"{end}", names(11))));

    let rules = |count: usize| "rule nothing gives {}\n".repeat(count);
    let bad = format!("{}[rule] nothing gives nothing{end}", rules(32));
    cases.push(whole(&bad, &many("rule", 33), &most("rule", 32), &format!("{}{end}", rules(32))));

    let starts = "start s at nothing\nstart t at nothing";
    let nodes = |count: usize| (0..count).map(|node| format!("node x{node} = stop\n")).collect::<String>();
    let (bad, good) = (format!("{}node y = [stop]\n{starts}", nodes(64)), format!("{}{starts}", nodes(64)));
    cases.push(whole(&bad, &many("node", 65), &most("node", 64), &good));
    // Nodes that stand where they are used are counted; the one whose text ends last is one too many.
    let asks = |count: usize| "ask nothing then ".repeat(count);
    let bad = format!("node x = [ask] nothing then {}stop\n{starts}", asks(63));
    cases.push(whole(&bad, &many("node", 65), &most("node", 64), &format!("node x = {}stop\n{starts}", asks(63))));
    let bad = format!("{}{starts} run x0, [tell] nothing", nodes(64));
    let good = format!("{}{starts} run x0, tell nothing", nodes(63));
    cases.push(whole(&bad, &many("node", 65), &most("node", 64), &good));
    let bad = format!("{}{starts} run [both] stop and x0, x1", nodes(63));
    let good = format!("{}{starts} run both stop and x0, x1", nodes(62));
    cases.push(whole(&bad, &many("node", 65), &most("node", 64), &good));

    let starts = |count: usize| (0..count).map(|start| format!("start x{start} at nothing\n")).collect::<String>();
    let bad = format!("{}start [y] at nothing run p\nnode p = stop", starts(16));
    let good = format!("{}start y at nothing run p\nnode p = stop", starts(15));
    cases.push(whole(&bad, &many("start", 17), &most("start", 16), &good));

    let (message, expected) = ("the start runs too many nodes", "at most 8 nodes");
    let eight = "start u at nothing run p, p, stop, p, (p), p, p, p";
    cases.push(part(&format!("{eight}, [p]"), message, expected, eight));
    cases.push(part(&format!("{eight}, [(](stop))"), message, expected, eight));
    cases.push(part(&format!("{eight},\n [ask] a then p, p, p"), message, expected, eight));

    let no_node = "the sheet ends with 0 nodes";
    let good = "node p = stop\nstart s at nothing\nstart t at nothing\n";
    for bad in ["[]", "[] \t\r\n\n", "# nothing yet[]\n", "fact door[]\n\n", "start s at nothing\nstart t at nothing[]"]
    {
        cases.push(whole(bad, no_node, "at least 1 node", good));
    }
    cases.push(whole(
        "start s at nothing[]",
        no_node,
        "at least 1 node",
        "start s at nothing run stop start t at nothing",
    ));
    cases.push(whole("node p = stop[]\n", "the sheet ends with 0 starts", "at least 2 starts", good));
    let bad = "node p = stop\nstart s at nothing run p\n# the second[]\n";
    cases.push(whole(bad, "the sheet ends with 1 start", "at least 2 starts", good));
    cases.push(whole("start s at nothing run stop[]", "the sheet ends with 1 start", "at least 2 starts", good));
    cases
}

/// Sheets that the library refuses: with the reason, and the byte and the field in words.
fn refused_cases() -> Vec<(Case, Reason, usize, &'static str)> {
    let (node, start) = ("the node opens to more than 8 threads", "the start opens to more than 8 threads");
    let most = "at most 8 threads";
    let tells = "node one = tell nothing\nnode two = both one and one\nnode four = both two and two\n";
    let end = "start s at nothing\nstart t at nothing\n";
    let eight = format!("{tells}node eight = both four and four\n{end}");
    let mut cases = vec![];
    // Three counts and four nodes of five bytes stand before node 4.
    let nine = format!("{tells}node eight = both four and four\nnode [nine] = both eight and one\n{end}");
    cases.push((whole(&nine, node, most, &eight), Reason::WideNode, 3 + 4 * 5, "23 of the sheet, the kind of node 4"));
    // One without a name is marked at its kind.
    let nine = format!("{tells}node x = ask nothing then [both] four and (both four and one)\n{end}");
    cases.push((whole(&nine, node, most, &eight), Reason::WideNode, 3 + 4 * 5, "23 of the sheet, the kind of node 4"));

    let head = format!("fact a\n{tells}start s at nothing run four, four\n");
    let nine = format!("{head}start [t] at a run four, two, two, one");
    let eight = format!("{head}start t at a run four, two, one, one");
    let place = (1 + 8) + 1 + (1 + 3 * 5) + 1 + (2 + 1 + 2) + 2;
    let field = "34 of the sheet, the thread count of start 1";
    cases.push((whole(&nine, start, most, &eight), Reason::TooManyThreads, place, field));

    let end = "start t at nothing\nnode x = tell nothing\nnode y = both x and x";
    let nine = format!("start [s] at nothing run x, x, x, x, x, x, x, y\n{end}");
    let eight = format!("start s at nothing run x, x, x, x, x, x, y\n{end}");
    let field = "16 of the sheet, the thread count of start 0";
    cases.push((whole(&nine, start, most, &eight), Reason::TooManyThreads, 3 + 2 * 5 + 1 + 2, field));
    cases
}

/// All cases but the refused ones.
fn cases() -> Vec<Case> {
    [lexer_cases(), statement_cases(), place_cases(), process_cases(), name_cases(), limit_cases()]
        .into_iter()
        .flatten()
        .collect()
}

/// The messages of all cases.
pub fn messages() -> Vec<String> {
    let refused = refused_cases().into_iter().map(|(case, ..)| case);
    cases().into_iter().chain(refused).map(|case| case.message).collect()
}

#[test]
fn bad_texts_beside_good_ones() {
    let cases = cases();
    println!("{} bad texts", cases.len());
    assert!(cases.len() > 1_000);
    for case in cases {
        let problem = case.hold();
        assert_eq!((problem.error, problem.refused), (None, None));
    }
}

#[test]
fn sheets_that_the_library_refuses() {
    for (case, reason, place, refused) in refused_cases() {
        let problem = case.hold();
        let refusal = problem.error.unwrap().refusal().unwrap();
        assert_eq!((refusal.reason, refusal.place), (reason, place));
        let refused = format!("{}: byte {refused}", refusal.line());
        assert_eq!(problem.refused.as_deref(), Some(refused.as_str()));
        assert!(problem.to_string().ends_with(&format!("\n  expected: at most 8 threads\n  {refused}")));
        assert_eq!(check(&read(&case.good).unwrap().to_bytes()), Ok(()));
    }
}

/// A square bracket is not part of the notation either; in the cases it is a mark.
#[test]
fn square_brackets() {
    for bracket in ["[", "]"] {
        let problem = read(&format!("fact a{bracket}b]")).unwrap_err();
        assert_eq!((problem.line, problem.column, problem.width), (1, 7, 1));
        assert_eq!(problem.message, format!("'{bracket}' is not part of the notation"));
        assert_eq!(problem.expected, SIGNS);
    }
    let text = "fact a \"[b]\" # [c]\nnode p = stop\nstart s at a\nstart t at a";
    assert_eq!(&read(text).unwrap().facts()[0].sheet_name, b"[b]     ");
}

/// Of several problems the first is given: of the words, then of the statements, then facts, rules, nodes, starts and
/// the counts, and in the end what the library refuses.
#[test]
fn the_first_problem() {
    let mut lines = vec![
        ("fact a, a", "the name 'a' is given twice"),
        ("rule a gives x", "no fact is called 'x'"),
        ("node p = both q and q", "the both names a later node, 'q'"),
        ("node q = stop", ""),
        ("start s at {a, a}", "'a' stands twice in the set"),
        ("fact b c", "'c' cannot stand here"),
        ("fact \"\n", "the quoted name does not end on its line"),
    ];
    let text = |lines: &[(&str, &str)]| lines.iter().map(|line| format!("{}\n", line.0)).collect::<String>();
    let mut seen = vec![];
    // The last two come first; then the others in their order, each put right before the next is seen.
    for (wrong, right) in [
        (6, "fact d"),
        (5, "fact b, c"),
        (0, "fact a"),
        (1, "rule a gives b"),
        (2, "node p = ask a then q"),
        (4, "start s at {a, b}"),
    ] {
        let problem = read(&text(&lines)).unwrap_err();
        assert_eq!((problem.line, problem.message.as_str()), (wrong + 1, lines[wrong].1));
        seen.push(problem.message);
        lines[wrong].0 = right;
    }
    assert_eq!(seen.len(), 6);
    assert_eq!(read(&text(&lines)).unwrap_err().message, "the sheet ends with 1 start");
    lines.push(("start t at nothing run q", ""));
    assert!(read(&text(&lines)).is_ok());
}

/// The whole text of a problem.
fn shown(text: &str) -> String {
    let problem = read(text).unwrap_err();
    well_placed(text, &problem);
    problem.to_string()
}

#[test]
fn marks() {
    assert_eq!(
        shown("fact door\r\n\r\n  node wait = ask dor then wait # dor\r\n"),
        "line 3, column 19: no fact is called 'dor'\n\
         \x20   node wait = ask dor then wait # dor\n\
         \x20                   ^^^\n\
         \x20 expected: a fact of this sheet: door"
    );
    // Behind a tab the mark has a tab too.
    assert_eq!(
        shown("fact door\n\tnode wait\t= ask\t{door, dor}\tthen wait"),
        "line 2, column 25: no fact is called 'dor'\n\
         \x20 \tnode wait\t= ask\t{door, dor}\tthen wait\n\
         \x20 \t         \t     \t       ^^^\n\
         \x20 expected: a fact of this sheet: door"
    );
    // Behind the last token, also before a comment.
    assert_eq!(
        shown("node wait = # to be done\nnode next = stop"),
        "line 1, column 12: the statement is not complete\n\
         \x20 node wait = # to be done\n\
         \x20            ^\n\
         \x20 expected: 'stop', 'tell', 'ask', 'both' or 'either'"
    );
    assert_eq!(
        shown(""),
        "line 1, column 1: the sheet ends with 0 nodes\n\
         \x20 \n\
         \x20 ^\n\
         \x20 expected: at least 1 node"
    );
    assert_eq!(
        shown("fact a # two lines?\rfact b\r\n\r\r\n"),
        "line 1, column 20: a carriage return stands inside a line\n\
         \x20 fact a # two lines??fact b\n\
         \x20                    ^\n\
         \x20 expected: line ends with a line feed"
    );
    // What cannot be shown is shown as a question mark.
    assert_eq!(
        shown("fact a\u{1b}[1m"),
        "line 1, column 7: '\\u{1b}' is not part of the notation\n\
         \x20 fact a?[1m\n\
         \x20       ^\n\
         \x20 expected: a word, a quoted name or one of { } ( ) , ="
    );
    assert_eq!(
        shown("start s at nothing run both stop and stop\n\nnode a = both b and b node b = stop"),
        "line 3, column 15: the both names a later node, 'b'\n\
         \x20 node a = both b and b node b = stop\n\
         \x20               ^\n\
         \x20 expected: a node that is written before; an ask may name any node"
    );
}

#[test]
fn marks_in_long_lines() {
    // Of a line with more than a hundred characters a hundred are shown, from forty before the mark.
    let (before, after) = ("aaaaaaaa, ".repeat(30), ", aaaaaaaa".repeat(30));
    let text = format!("fact {before}1b{after}");
    let forty = "aaaaaaaa, ".repeat(4);
    let problem = shown(&text);
    let lines: Vec<&str> = problem.lines().collect();
    assert_eq!(lines[0], "line 1, column 306: '1b' cannot be a name");
    assert_eq!(lines[1], format!("  {forty}1b{}", &after[..58]));
    assert_eq!(lines[2], format!("  {}^^", " ".repeat(40)));

    // Near the beginning it is shown from there, near the end up to it, and a hundred characters are shown whole.
    let problem = shown(&format!("fact 1b{after}"));
    assert_eq!(problem.lines().nth(1), Some(format!("  fact 1b{}", &after[..93]).as_str()));
    assert_eq!(problem.lines().nth(2), Some("       ^^"));
    let problem = shown(&format!("fact {before}1b"));
    assert_eq!(problem.lines().nth(1), Some(format!("  {forty}1b").as_str()));
    let text = format!("fact {}1b{}", &before[..80], " ".repeat(13));
    assert_eq!(text.len(), 100);
    assert_eq!(shown(&text).lines().nth(1), Some(format!("  {text}").as_str()));
    let longer = format!("{text} ");
    assert_eq!(shown(&longer).lines().nth(1), Some(format!("  {}", &longer[45..]).as_str()));

    // A long mark is cut to sixty, and tabs stay tabs.
    let name = "x".repeat(500);
    let problem = shown(&format!("fact a \"{name}"));
    assert_eq!(problem.lines().nth(2), Some(format!("  {}{}", " ".repeat(7), "^".repeat(60)).as_str()));
    let problem = shown(&format!("fact a{}{name}", "\t".repeat(200)));
    assert_eq!(problem.lines().nth(1), Some(format!("  {}{}", "\t".repeat(40), "x".repeat(60)).as_str()));
    assert_eq!(problem.lines().nth(2), Some(format!("  {}{}", "\t".repeat(40), "^".repeat(60)).as_str()));

    // Behind the end of a long line.
    let problem = shown(&format!("fact {}\r\n# behind it\r\n", before.trim_end()));
    assert_eq!(problem.lines().next(), Some("line 1, column 305: the statement is not complete"));
    assert_eq!(problem.lines().nth(2), Some(format!("  {}^", " ".repeat(40)).as_str()));
}
