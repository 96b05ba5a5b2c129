//! docs/NOTATION.md is held to the code, and the sample texts to what it says of them.

use super::texts::WORDS;
use super::{problems, repository};
use hofadiju::notation::read;
use hofadiju::{compare, Verdict, MAX_FACTS, MAX_NODES, MAX_RULES, MAX_STARTS, MAX_THREADS, MIN_STARTS, NAME_BYTES};
use std::fs;

fn document() -> String {
    fs::read_to_string(repository("docs/NOTATION.md")).unwrap()
}

fn sample(name: &str) -> String {
    fs::read_to_string(repository("samples").join(name)).unwrap()
}

/// A section of the document, from its heading to the next.
fn section<'a>(document: &'a str, heading: &str) -> &'a str {
    let (_, from) = document.split_once(&format!("\n## {heading}\n")).expect("the section");
    from.split("\n## ").next().unwrap()
}

/// The text as a block of a document, with four spaces before each line.
fn block(text: &str) -> String {
    text.lines().map(|line| format!("    {line}\n")).collect()
}

/// The lines of a section's blocks without these spaces.
fn blocks(section: &str) -> String {
    section.lines().filter_map(|line| line.strip_prefix("    ")).map(|line| format!("{line}\n")).collect()
}

#[test]
fn sample_texts() {
    let samples =
        [("k-2-7.ccp", Verdict::Diff, 2), ("cabinet.ccp", Verdict::Diff, 1), ("fitted.ccp", Verdict::Same, 0)];
    let document = document();
    for (name, verdict, round) in samples {
        let text = sample(name);
        assert!(document.contains(&format!("\n```\n{text}```\n")), "{name} is not in the document");
        let sheet = read(&text).unwrap_or_else(|problem| panic!("{problem}"));
        let report = compare(&sheet.to_bytes(), 0, 1).unwrap();
        assert_eq!((report.verdict, report.round), (verdict, round), "{name}");
        assert!(name == "k-2-7.ccp" || document.contains(&format!("\n```\n{report}```\n")), "{name}:\n{report}");
    }
    let is_text = |name: &str| name.ends_with(".ccp");
    let files =
        fs::read_dir(repository("samples")).unwrap().map(|file| file.unwrap().file_name().into_string().unwrap());
    let mut files: Vec<String> = files.filter(|name| is_text(name)).collect();
    files.sort();
    assert_eq!(files, ["cabinet.ccp", "fitted.ccp", "k-2-7.ccp"]);
}

#[test]
fn bytes_of_sheet_k() {
    let bytes = fs::read(repository("samples/k-2-7.sheet")).unwrap();
    assert_eq!(read(&sample("k-2-7.ccp")).unwrap().to_bytes(), bytes);
    let document = document();
    let mut listed = vec![];
    for row in section(&document, "Sheet K: numbers and bytes").lines().filter(|line| line.starts_with("| ")).skip(1) {
        let digits = row.trim_end_matches(" |").rsplit("| ").next().unwrap().trim_matches('`');
        listed.extend(digits.split(' ').map(|digits| u8::from_str_radix(digits, 16).expect(row)));
    }
    assert_eq!(listed, bytes);
}

#[test]
fn numbers_of_the_cabinet() {
    let document = document();
    let section = section(&document, "A cabinet: nodes that stand where they are used");
    let sheet = read(&sample("cabinet.ccp")).unwrap();
    let rows: Vec<&str> = section.lines().filter(|line| line.starts_with("| ")).skip(1).collect();
    assert_eq!(rows.len(), sheet.nodes().len());
    for (node, row) in rows.into_iter().enumerate() {
        let cells: Vec<&str> = row.split('|').map(str::trim).collect();
        assert_eq!(cells[1], node.to_string());
        match sheet.node_name(node) {
            Some(name) => assert_eq!(cells[3], name),
            None => assert_eq!(cells[2].replace(['(', ')'], ""), format!("`{}`", sheet.node_text(node))),
        }
    }
}

#[test]
fn examples() {
    let document = document();
    let sheet = read(&blocks(section(&document, "What a sheet says"))).unwrap_or_else(|problem| panic!("{problem}"));
    let counts = [sheet.facts().len(), sheet.rules().len(), sheet.nodes().len(), sheet.starts().len()];
    assert_eq!(counts, [5, 2, 3, 2]);

    let facts = blocks(section(&document, "Sets and names on the sheet"));
    let sheet = read(&format!("{facts}node p = stop start s at nothing start t at nothing")).unwrap();
    let names: Vec<&[u8; 8]> = sheet.facts().iter().map(|fact| &fact.sheet_name).collect();
    assert_eq!(names, [b"door    ", b"temp    ", b"p < 2   ", b"\"       ", b"        "]);

    let nested = |inside: &str| {
        format!("fact shut node show = stop node wait = stop node x = {inside} start s at shut start t at shut")
    };
    let (bare, parted) = ("both ask shut then show and wait", "both (ask shut then show) and wait");
    assert!(document.contains(&format!("`{bare}` is `{parted}`")));
    assert_eq!(read(&nested(bare)), read(&nested(parted)));
}

#[test]
fn words_and_limits() {
    let document = document();
    let words: Vec<String> = WORDS.iter().map(|word| format!("`{word}`")).collect();
    let grammar: Vec<&str> = section(&document, "The grammar").split_whitespace().collect();
    assert!(grammar.join(" ").contains(&format!("are no names: {}.", words.join(", "))));
    assert!(WORDS.iter().all(|word| !hofadiju::is_name(word)) && hofadiju::is_name("Stop"));
    let limits = section(&document, "Limits");
    for row in [
        format!("| facts | 0 to {MAX_FACTS} |"),
        format!("| characters of a fact's name on the sheet | 0 to {NAME_BYTES} |"),
        format!("| rules | 0 to {MAX_RULES} |"),
        format!("| nodes, with and without a name | 1 to {MAX_NODES} |"),
        format!("| starts | {MIN_STARTS} to {MAX_STARTS} |"),
        format!("| nodes that a start runs | 0 to {MAX_THREADS} |"),
        format!("| threads of a node and of a start | 0 to {MAX_THREADS} |"),
        format!("| nodes and parentheses inside one another | {} |", 2 * MAX_NODES),
    ] {
        assert!(limits.contains(&row), "{row}");
    }
}

/// Whether a message is that of the table, in which … stands for anything.
fn is_message(pattern: &str, message: &str) -> bool {
    let mut parts = pattern.split('…');
    let Some(mut rest) = message.strip_prefix(parts.next().unwrap()) else { return false };
    let mut last = "";
    for part in parts {
        let Some(at) = rest.find(part) else { return false };
        rest = &rest[at + part.len()..];
        last = part;
    }
    rest.is_empty() || pattern.ends_with('…') && last.is_empty()
}

#[test]
fn messages() {
    let document = document();
    let section = section(&document, "Messages");
    for text in [
        "fact door\nnode wait = ask dor then wait",
        "node a = tell nothing\nstart s at nothing\nstart t at nothing run a, a, a, a, a, a, a, both a and a",
    ] {
        let problem = read(text).unwrap_err().to_string();
        assert!(section.contains(&block(&problem)), "{problem}");
    }
    // Every message of a bad text is in the table, and every message of the table has a bad text.
    let rows = section.lines().filter(|line| line.starts_with("| `"));
    let patterns: Vec<&str> = rows.map(|row| row[3..].split_once("` |").unwrap().0).collect();
    let messages = problems::messages();
    for message in &messages {
        assert!(patterns.iter().any(|pattern| is_message(pattern, message)), "not in the table: {message}");
    }
    for pattern in patterns {
        assert!(messages.iter().any(|message| is_message(pattern, message)), "no bad text: {pattern}");
    }
}
