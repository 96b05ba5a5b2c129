//! The words of the command, its files and its exit statuses.

mod common;

use common::run;
use std::path::{Path, PathBuf};
use std::process::{Command, Stdio};

fn sample(name: &str) -> String {
    Path::new(env!("CARGO_MANIFEST_DIR")).join("../../samples").join(name).to_str().unwrap().to_string()
}

const TEXT: &str = "
fact door, lamp
node light = tell lamp
node wait = ask door then light
start old at nothing run wait
start new at nothing run light
start same at nothing run (ask door then light)
";

/// Bad usage: status 3, a message, and nothing on the output.
fn bad(words: &[&str], message: &str) {
    let ran = run(words, TEXT.as_bytes());
    assert_eq!((ran.status, ran.text()), (3, ""), "{words:?}");
    assert!(ran.errors.contains(message), "{words:?}: {}", ran.errors);
}

#[test]
fn bad_usage() {
    bad(&[], "usage: hofadiju");
    bad(&["paint", "x"], "there is no command 'paint'");
    bad(&["help", "paint"], "there is no command 'paint'");
    bad(&["help", "write", "show"], "usage: hofadiju");
    bad(&["--version", "x"], "usage: hofadiju");
    for command in ["write", "show", "check", "compare", "graph"] {
        bad(&[command], "a file is missing");
        bad(&[command, "--"], "a file is missing");
        bad(&[command, "--loud", "-"], "'--loud' is not an option of this command");
        bad(&[command, "no-such-file"], "no-such-file: ");
        bad(&[command, &sample("")], "samples/: ");
    }
    bad(&["write", "-", "-o"], "-o needs the name of a file");
    bad(&["write", "-", "-o", "no-such-folder/sheet"], "no-such-folder/sheet: ");
    bad(&["write", "-", "more"], "'more' is too much");
    bad(&["check", "--plain", "-"], "'--plain' is not an option of this command");
    bad(&["graph", "--json", "-"], "'--json' is not an option of this command");
    bad(&["compare", "-", "--plain", "--json"], "--plain and --json do not go together");
    bad(&["write", "-", "-o", "a", "-o", "b"], "-o stands twice");
    bad(&["compare", "-", "0"], "two starts of one sheet are compared, so LEFT and RIGHT go together");
    bad(&["compare", "-", "0", "1", "2"], "'2' is too much");
    bad(&["compare", "-", "old", "odd"], "no start is called 'odd'; the starts are old, new, same");
    bad(&["compare", "-", "99999999999999999999999", "new"], "no start is called '99999999999999999999999'");
    bad(&["compare", "-", "", "new"], "no start is called ''");
}

#[test]
fn help_and_version() {
    let all = run(&["--help"], &[]);
    assert_eq!((all.status, all.errors.as_str()), (0, ""));
    for command in ["write", "show", "check", "compare", "graph"] {
        assert!(all.text().contains(&format!("\n  hofadiju {command} ")));
        let help = run(&[command, "--help"], &[]);
        assert_eq!((help.status, help.errors.as_str()), (0, ""));
        assert!(help.text().starts_with(&format!("usage: hofadiju {command} ")));
        assert_eq!(run(&["help", command], &[]).output, help.output);
        assert_eq!(run(&[command, "x", "y", "-h"], &[]).output, help.output);
        assert!(help.text().lines().all(|line| line.len() <= 120));
        // Behind -- and as the name of a file it is no option.
        assert_eq!(run(&[command, "--", "--help"], &[]).status, 3);
    }
    assert_eq!(run(&["help"], &[]).output, all.output);
    let version = run(&["--version"], &[]);
    assert_eq!(version.text(), format!("hofadiju {0}, library {0}\n", env!("CARGO_PKG_VERSION")));
}

#[test]
fn statuses_and_starts() {
    let status = |words: &[&str]| run(words, TEXT.as_bytes()).status;
    assert_eq!(status(&["compare", "-"]), 1);
    assert_eq!(status(&["compare", "-", "0", "2"]), 0);
    assert_eq!(status(&["compare", "-", "old", "same"]), 0);
    assert_eq!(status(&["compare", "same", "-"]), 3);
    assert_eq!(status(&["compare", "--", "-", "new", "new"]), 0);
    assert_eq!(status(&["compare", "-", "2", "new", "--plain"]), 1);
    assert_eq!(status(&["compare", "-", "0", "1", "--desk", "--json"]), 1);
    assert_eq!(status(&["check", "-"]), 0);
    assert_eq!(status(&["write", "-"]), 0);
    assert_eq!(status(&["graph", "-", "new", "old"]), 0);
    let turned = run(&["compare", "-", "new", "old"], TEXT.as_bytes());
    assert!(turned.text().starts_with("DIFF: new and old behave differently."));
    // The desk's limits are smaller.
    let large = Path::new(env!("CARGO_MANIFEST_DIR")).join("../benches/worst/two-chains.sheet");
    let large = large.to_str().unwrap();
    assert!(run(&["compare", "--plain", large], &[]).text().starts_with("DIFF 46\n"));
    assert_eq!(run(&["compare", "--plain", "--desk", large], &[]).text(), "REFUSED 21 0\n");
    assert_eq!((run(&["graph", large], &[]).status, run(&["graph", "--desk", large], &[]).status), (0, 2));
    // A start that is not there is refused by the library.
    for (words, line) in [(["3", "0"], "REFUSED 14 0\n"), (["0", "3"], "REFUSED 14 1\n")] {
        let ran = run(&["compare", "-", words[0], words[1], "--plain"], TEXT.as_bytes());
        assert_eq!((ran.status, ran.text()), (2, line));
        assert!(ran.errors.ends_with("is not on the sheet\n"), "{}", ran.errors);
    }
    // For - the output is the standard one.
    assert_eq!(run(&["write", "-", "-o", "-"], TEXT.as_bytes()).output, run(&["write", "-"], TEXT.as_bytes()).output);
}

#[test]
fn texts_and_bytes_are_told_apart() {
    let sheet = run(&["write", "-"], TEXT.as_bytes()).output;
    let same = |words: &[&str]| assert_eq!(run(words, TEXT.as_bytes()).output.len(), run(words, &sheet).output.len());
    same(&["compare", "--plain", "-"]);
    assert_eq!(
        run(&["compare", "--plain", "-"], TEXT.as_bytes()).output,
        run(&["compare", "--plain", "-"], &sheet).output
    );
    let shown = run(&["show", "-"], &sheet);
    assert_eq!(run(&["write", "-"], &shown.output).output, sheet);
    let wrong = run(&["write", "-"], &sheet);
    assert_eq!((wrong.status, wrong.text()), (2, ""));
    assert!(wrong.errors.contains("these are the bytes of a sheet"), "{}", wrong.errors);
    let wrong = run(&["show", "-"], TEXT.as_bytes());
    assert_eq!((wrong.status, wrong.text()), (2, ""));
    assert!(wrong.errors.contains("this is the text of a sheet"), "{}", wrong.errors);
    // Blanks of any kind stand in a text, and what cannot stand in it is shown at its place.
    let windows = TEXT.replace('\n', "\r\n").replace(' ', "\t");
    assert_eq!(run(&["write", "-"], windows.as_bytes()).output, sheet);
    assert_eq!(run(&["check", "-"], format!("# \u{1b} \u{c}\n{TEXT}").as_bytes()).status, 0);
    let ran = run(&["check", "-"], format!("{TEXT}\u{c}").as_bytes());
    assert!(ran.errors.contains("line 8, column 1: '\\u{c}' is not part of the notation"), "{}", ran.errors);
    // By its name a file is a text or a sheet.
    let named = |name: &str, bytes: &[u8]| {
        let file = folder().join(name);
        std::fs::write(&file, bytes).unwrap();
        let words = |command| run(&[command, file.to_str().unwrap()], &[]);
        [words("check"), words("write"), words("show")].map(|ran| (ran.status, ran.errors))
    };
    let [check, write, show] = named("text.ccp", &sheet);
    assert!(check.1.contains("line 1, column 1: '\\u{2}' is not part of the notation"), "{}", check.1);
    assert!(write == check && show.1.contains("this is the text of a sheet"), "{show:?}");
    let [check, write, show] = named("text.sheet", TEXT.as_bytes());
    assert!(check.1.ends_with("a file whose name ends in .sheet is taken for a sheet's bytes.\n"), "{}", check.1);
    assert!(write.1.contains("give this text another name") && show == check, "{write:?}");
    assert!(!named("cut.sheet", &sheet[..20])[0].1.contains("looks like a text"));
    let utf16: Vec<u8> = std::iter::once(0xFEFF).chain(TEXT.encode_utf16()).flat_map(u16::to_le_bytes).collect();
    for [check, write, _] in [named("wide.ccp", &utf16), named("wide.txt", &utf16)] {
        assert!(check.1.ends_with("the text is in UTF-16; save it in UTF-8\n") && write == check, "{check:?}");
    }
    let long = vec![b' '; 1 << 20];
    assert!(run(&["check", "-"], &long).errors.contains("the sheet ends with 0 nodes"));
    let long = vec![b' '; (1 << 20) + 1];
    assert!(run(&["check", "-"], &long).errors.contains("the text is longer than 1048576 bytes"));
    // No byte at all is a text from the standard input, and a sheet in a file called so.
    assert!(run(&["check", "-"], &[]).errors.contains("the sheet ends with 0 nodes"));
    let empty = folder().join("empty.sheet");
    std::fs::write(&empty, []).unwrap();
    let ran = run(&["compare", "--plain", empty.to_str().unwrap()], &[]);
    assert_eq!((ran.status, ran.text()), (2, "REFUSED 1 0\n"));
    // Bytes that are no UTF-8 are shown at their place, and may stand in a comment.
    let ran = run(&["check", "-"], b"fact door\nnode \xff = stop");
    assert!(ran.errors.contains("line 2, column 6: "), "{}", ran.errors);
    let mut comment = b"# \xff\xfe\n".to_vec();
    comment.extend(TEXT.as_bytes());
    assert_eq!(run(&["check", "-"], &comment).status, 0);
}

#[test]
fn refusals_in_words() {
    let sheet = run(&["write", "-"], TEXT.as_bytes()).output;
    let words = |bytes: &[u8]| {
        let ran = run(&["check", "-"], bytes);
        assert_eq!((ran.status, ran.text()), (2, ""));
        ran.errors
    };
    assert!(words(&sheet[..20]).ends_with("byte 20: the first field of node 0, where the bytes end\n"));
    let mut wrong = sheet.clone();
    wrong[19] = 7;
    assert!(words(&wrong).contains("refused with 8: "), "{}", words(&wrong));
    assert!(words(&wrong).ends_with("byte 19: the kind of node 0, where the byte is 7\n"), "{}", words(&wrong));
    // From a text: the line, and the byte and field of the sheet.
    let text = "node a = tell nothing\nnode b = both a and a\nnode c = both b and b\nnode d = both c and c\n\
                node e = both d and a\nstart x at nothing\nstart y at nothing";
    let errors = words(text.as_bytes());
    assert!(errors.contains("line 5, column 6: the node opens to more than 8 threads"), "{errors}");
    assert!(errors.contains("\n  node e = both d and a\n       ^\n"), "{errors}");
    assert!(errors.contains("REFUSED 15 23: byte 23 of the sheet, the kind of node 4"), "{errors}");
    let ran = run(&["compare", "--plain", "-"], text.as_bytes());
    assert_eq!((ran.status, ran.text()), (2, "REFUSED 15 23\n"));
    let ran = run(&["compare", "--json", "-"], text.as_bytes());
    assert!(ran.status == 2 && ran.text().starts_with("{\"problem\":{\"line\":5,\"column\":6,"), "{}", ran.text());
    let ran = run(&["check", "--json", "-"], &sheet[..20]);
    assert!(
        ran.text().starts_with("{\"refused\":{\"number\":1,\"place\":20,\"field\":\"the first field of node 0\""),
        "{}",
        ran.text()
    );
}

fn folder() -> PathBuf {
    let folder = PathBuf::from(env!("CARGO_TARGET_TMPDIR"));
    std::fs::create_dir_all(&folder).unwrap();
    folder
}

/// The program itself.
fn program(words: &[&str]) -> Command {
    let mut program = Command::new(env!("CARGO_BIN_EXE_hofadiju"));
    program.args(words);
    program
}

#[test]
fn the_program_itself() {
    let text = folder().join("program.ccp");
    let sheet = folder().join("program.sheet");
    std::fs::write(&text, TEXT).unwrap();
    let (text, sheet) = (text.to_str().unwrap(), sheet.to_str().unwrap());
    let status = |words: &[&str]| program(words).stdout(Stdio::null()).stderr(Stdio::null()).status().unwrap().code();
    assert_eq!(status(&["write", text, "-o", sheet]), Some(0));
    assert_eq!(status(&["compare", sheet]), Some(1));
    assert_eq!(status(&["compare", text, "old", "same"]), Some(0));
    assert_eq!(status(&["compare", &sample("growing.sheet")]), Some(2));
    assert_eq!(status(&["compare"]), Some(3));
    let shown = program(&["show", sheet]).output().unwrap();
    assert_eq!(shown.stdout, run(&["show", sheet], &[]).output);
    // An output that nobody reads ends the program quietly.
    let mut child = program(&["graph", text]).stdout(Stdio::piped()).stderr(Stdio::piped()).spawn().unwrap();
    drop(child.stdout.take());
    let ended = child.wait_with_output().unwrap();
    assert!(!String::from_utf8_lossy(&ended.stderr).contains("panicked"));
    // An output that cannot be written is said.
    if let Ok(full) = std::fs::OpenOptions::new().write(true).open("/dev/full") {
        let ended = program(&["compare", text]).stdout(full).stderr(Stdio::piped()).spawn().unwrap();
        let ended = ended.wait_with_output().unwrap();
        assert_eq!(ended.status.code(), Some(3));
        assert!(String::from_utf8_lossy(&ended.stderr).contains("output: "));
    }
}
