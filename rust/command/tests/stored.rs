//! The command on every sample, held to what is stored in `tests/stored`. With HOFADIJU_STORE set the files are written.

mod common;

use common::run;
use std::fmt::Write;
use std::path::{Path, PathBuf};

/// What a run gives, as a text: the words, the output, the errors after `!`, and the status.
fn told(words: &[&str]) -> String {
    let ran = run(words, &[]);
    let mut text = format!("$ hofadiju {}\n", words.join(" "));
    match std::str::from_utf8(&ran.output) {
        Ok(output) if !output.contains('\0') => text.push_str(output),
        _ => ran.output.chunks(16).for_each(|line| {
            let bytes: Vec<String> = line.iter().map(|byte| format!("{byte:02x}")).collect();
            let _ = writeln!(text, "{}", bytes.join(" "));
        }),
    }
    ran.errors.lines().for_each(|line| writeln!(text, "! {line}").unwrap());
    let _ = writeln!(text, "= {}\n", ran.status);
    text
}

fn names(folder: &str) -> Vec<PathBuf> {
    let mut found: Vec<PathBuf> = std::fs::read_dir(folder).unwrap().map(|entry| entry.unwrap().path()).collect();
    found.sort();
    found
}

#[test]
fn every_sample_gives_what_is_stored() {
    let here = Path::new(env!("CARGO_MANIFEST_DIR"));
    std::env::set_current_dir(here.join("../..")).unwrap();
    let store = std::env::var_os("HOFADIJU_STORE").is_some();
    let mut held = vec![];
    for path in names("samples") {
        let ending = path.extension().and_then(|ending| ending.to_str());
        let Some(other @ ("sheet" | "ccp")) = ending else { continue };
        let file = path.to_str().unwrap();
        let turned = if other == "sheet" { "show" } else { "write" };
        let mut text = String::new();
        for words in [
            &["check", file][..],
            &["check", "--json", file],
            &[turned, file],
            &["compare", file],
            &["compare", file, "1", "0"],
            &["compare", "--plain", file],
            &["compare", "--json", file],
            &["graph", file],
        ] {
            text += &told(words);
        }
        let name = format!("{}.txt", path.file_name().unwrap().to_str().unwrap());
        let stored = here.join("tests/stored").join(&name);
        if store {
            std::fs::write(&stored, &text).unwrap();
        }
        let expected = std::fs::read_to_string(&stored).unwrap_or_default();
        assert!(text == expected, "{name} differs from what is stored:\n{text}");
        held.push(name);
    }
    assert!(held.len() >= 8, "{held:?}");
    let stored: Vec<String> = names(here.join("tests/stored").to_str().unwrap())
        .iter()
        .map(|path| path.file_name().unwrap().to_str().unwrap().to_string())
        .collect();
    assert_eq!(stored, held, "every stored file has its sample");
}

#[test]
fn the_plain_report_is_the_sample_s() {
    let here = Path::new(env!("CARGO_MANIFEST_DIR"));
    for path in names(here.join("../../samples").to_str().unwrap()) {
        if path.extension().is_some_and(|ending| ending == "report") {
            let sheet = path.with_extension("sheet");
            let ran = run(&["compare", "--plain", sheet.to_str().unwrap()], &[]);
            assert_eq!(ran.text(), std::fs::read_to_string(&path).unwrap(), "{}", path.display());
        }
    }
}

/// What stands between two parts of a text.
fn between<'a>(text: &'a str, before: &str, after: &str) -> &'a str {
    let from = text.find(before).unwrap_or_else(|| panic!("{before}")) + before.len();
    &text[from..from + text[from..].find(after).unwrap_or_else(|| panic!("{after}"))]
}

/// README.md shows a sample and what the command says of it.
#[test]
fn the_readme_shows_the_cabinet() {
    let top = Path::new(env!("CARGO_MANIFEST_DIR")).join("../..");
    let readme = std::fs::read_to_string(top.join("README.md")).unwrap();
    let sample = top.join("samples/cabinet.ccp");
    let text = std::fs::read_to_string(&sample).unwrap();
    let (_, shown) = text.split_once('\n').unwrap();
    assert_eq!(between(&readme, "two controllers of a cabinet:\n\n```\n", "```\n"), shown);
    let said = run(&["compare", sample.to_str().unwrap()], &[]);
    let shown = between(&readme, "and why not:\n\n```\n", "  ...\n```\n");
    assert!(said.text().starts_with(shown), "{}", said.text());
}
