//! The notation: sheets as texts and texts as sheets, bad texts, and texts that are damaged.

#[path = "notation/documents.rs"]
mod documents;
#[path = "notation/problems.rs"]
mod problems;
#[path = "notation/texts.rs"]
mod texts;

use hofadiju::notation::{read, Problem};
use hofadiju::{check, is_name, Node, Sheet, SheetBuilder};
use sheets::{alike_pair, damage, deepest_chain, draw, ladder_and_chain, sheet_k, six_tells, variants, with_standing};
use sheets::{Draft, Rng, ASK, BOTH, SHAPES, STOP, TELL};
use std::fs;
use std::path::PathBuf;

/// A file or folder of the repository.
fn repository(name: &str) -> PathBuf {
    PathBuf::from(env!("CARGO_MANIFEST_DIR")).join("..").join(name)
}

/// Whether the library reads these bytes. If so, their text reads to the same bytes and is written the same again; if
/// not, the bytes are refused as the library refuses them.
fn held(bytes: &[u8]) -> bool {
    let sheet = match Sheet::from_bytes(bytes) {
        Ok(sheet) => sheet,
        Err(error) => {
            assert_eq!(check(bytes), Err(error), "{bytes:?}");
            return false;
        }
    };
    assert_eq!(check(bytes), Ok(()), "{bytes:?}");
    assert_eq!(sheet.to_bytes(), bytes);
    facts_named(&sheet);
    let text = sheet.to_string();
    let again = read(&text).unwrap_or_else(|problem| panic!("{problem}\n{text}"));
    assert_eq!(again.to_bytes(), bytes, "\n{text}");
    assert_eq!(again.to_string(), text);
    assert_eq!(again, sheet, "\n{text}");
    true
}

/// A fact of a sheet that comes from bytes has its name on the sheet where that can be a name and no fact before has it,
/// and f with its number otherwise, with as many _ as are needed.
fn facts_named(sheet: &Sheet) {
    let facts = sheet.facts();
    let own: Vec<&str> = facts.iter().map(|fact| std::str::from_utf8(&fact.sheet_name).unwrap().trim_end()).collect();
    let has_own = |fact: usize| is_name(own[fact]) && !own[..fact].contains(&own[fact]);
    for (number, fact) in facts.iter().enumerate() {
        if has_own(number) {
            assert_eq!(fact.name, own[number]);
            continue;
        }
        let mut name = format!("f{number}");
        while own.contains(&name.as_str()) {
            name.push('_');
        }
        assert_eq!(fact.name, name);
    }
}

#[test]
fn sheets_in_files() {
    let mut refused = vec![];
    let mut count = 0;
    for folder in ["samples", "rust/benches/worst", "rust/benches/sixteen"] {
        for file in fs::read_dir(repository(folder)).unwrap() {
            let path = file.unwrap().path();
            if path.extension().is_some_and(|ending| ending == "sheet") {
                count += 1;
                if !held(&fs::read(&path).unwrap()) {
                    refused.push(path.file_name().unwrap().to_owned());
                }
            }
        }
    }
    println!("{count} files");
    assert_eq!(refused, ["short.sheet"]);
    assert!(count >= 20);
}

#[test]
fn known_sheets() {
    let mut drafts: Vec<Draft> = vec![deepest_chain(), ladder_and_chain(false), ladder_and_chain(true)];
    drafts.extend([vec![], vec![0], vec![5, 4, 3, 2, 1, 0], vec![3; 8]].map(six_tells));
    for node in 0..9 {
        drafts.push(sheet_k(&[(0, &[node]), (0, &[8 - node, node])]));
        drafts.push(sheet_k(&[(1, &[node; 4]), (7, &[]), (2, &[node])]));
    }
    drafts.push(sheet_k(&[(0, [].as_slice()); 16]));
    for draft in drafts {
        assert!(held(&draft.bytes()), "{draft:?}");
    }
}

/// Other names for a sheet's facts: any bytes from 32 to 126, names that can stand in a text, words of the notation,
/// names that other facts get where theirs cannot stand in a text, quotes, backslashes and blanks, and repeated ones.
fn rename(bytes: &mut [u8], rng: &mut Rng) {
    let facts = bytes[0] as usize;
    for fact in 0..facts {
        let at = 1 + 8 * fact;
        let own = rng.below(12);
        let name = match rng.below(8) {
            0 => (0..8).map(|_| rng.within((32, 126)) as u8 as char).collect(),
            1 => (0..rng.below(9)).map(|_| rng.pick(b"ab_-1") as char).collect(),
            2 => rng.pick(&texts::WORDS).to_string(),
            3 => format!("f{own}{}", "_".repeat(rng.below(7))),
            4 => (0..8).map(|_| rng.pick(b"\"\\ #") as char).collect(),
            5 => format!("{}{own}", " ".repeat(rng.below(6))),
            6 => format!("f{fact}"),
            _ => String::from_utf8(bytes[1 + 8 * rng.below(fact + 1)..][..8].to_vec()).unwrap(),
        };
        let name: String = format!("{name:8}").chars().take(8).collect();
        bytes[at..at + 8].copy_from_slice(name.as_bytes());
    }
}

#[test]
fn random_sheets() {
    let mut rng = Rng::new(900);
    let (mut read, mut refused) = (0, 0);
    for i in 0..60_000 {
        let shape = &SHAPES[i % SHAPES.len()];
        let draft = match rng.below(6) {
            0 => draw(shape, &mut rng),
            1 => draw(&shape.with_starts(2, 16), &mut rng),
            2 => alike_pair(shape, &mut rng),
            3 => variants(&shape.with_starts(2, 16), &mut rng),
            4 => with_standing(draw(shape, &mut rng), &mut rng),
            _ => with_standing(variants(shape, &mut rng), &mut rng),
        };
        let mut bytes = draft.bytes();
        if i % 4 > 0 {
            rename(&mut bytes, &mut rng);
        }
        if i % 10 == 0 {
            damage(&mut bytes, &mut rng);
        }
        *if held(&bytes) { &mut read } else { &mut refused } += 1;
    }
    println!("{read} sheets read, {refused} refused");
    assert!(read >= 50_000, "{read} sheets were not refused");
    assert!(refused >= 1_000, "{refused} sheets were refused");
}

/// The sheet of a draft, built with names for so many of a hundred nodes. They are like those that others get.
fn built(draft: &Draft, named: usize, rng: &mut Rng) -> Sheet {
    let mut builder = SheetBuilder::new();
    for fact in 0..draft.facts {
        builder.fact_written(&format!("f{fact}"), &format!("fact  {fact:02}")).unwrap();
    }
    for &(premise, conclusion) in &draft.rules {
        builder.rule(premise, conclusion).unwrap();
    }
    for (number, &(kind, first, second)) in draft.nodes.iter().enumerate() {
        let node = match kind {
            STOP => Node::Stop,
            TELL => Node::Tell(first),
            ASK => Node::Ask(first, second.into()),
            BOTH => Node::Both(first.into(), second.into()),
            _ => Node::Either(first.into(), second.into()),
        };
        let name = format!("n{}{}", rng.below(draft.nodes.len()), "_".repeat(rng.below(3)));
        let number_given = match rng.percent(named) && builder.node_number(&name).is_err() {
            true => builder.node(&name, node),
            false => builder.unnamed_node(node),
        };
        assert_eq!(number_given, Ok(number));
    }
    for (number, (store, threads)) in draft.starts.iter().enumerate() {
        let nodes: Vec<usize> = threads.iter().map(|&thread| thread.into()).collect();
        assert_eq!(builder.start(&format!("s{number}"), *store, &nodes), Ok(number));
    }
    builder.build().unwrap()
}

/// Sheets whose nodes have no names, or only some of them: where these cannot stand at their use they get one, and all
/// are read with the same numbers.
#[test]
fn built_sheets() {
    let mut rng = Rng::new(904);
    let (mut inline, mut named) = (0, 0);
    for i in 0..20_000 {
        let shape = &SHAPES[i % SHAPES.len()];
        let draft = if i % 3 == 0 { variants(shape, &mut rng) } else { draw(shape, &mut rng) };
        let names = rng.pick(&[0, 0, 30, 80]);
        let sheet = built(&draft, names, &mut rng);
        assert_eq!(sheet.to_bytes(), draft.bytes());
        let text = sheet.to_string();
        let again = read(&text).unwrap_or_else(|problem| panic!("{problem}\n{text}"));
        assert_eq!(again, sheet, "\n{text}");
        let unnamed = (0..draft.nodes.len()).filter(|&node| sheet.node_name(node).is_none()).count();
        inline += unnamed;
        named += draft.nodes.len() - unnamed;
    }
    println!("{inline} nodes stand where they are used, {named} have a name");
    assert!(inline > 20_000 && named > 100_000);
}

#[test]
fn sets_and_nodes_as_texts() {
    let sheet = read("fact a, b, c node p = ask a then tell {c, a} start s at a run p start t at b").unwrap();
    let sets: Vec<String> = [0, 1, 4, 5, 7, 0xFFFF].into_iter().map(|set| sheet.set_text(set)).collect();
    assert_eq!(sets, ["nothing", "a", "c", "{a, c}", "{a, b, c}", "{a, b, c}"]);
    let nodes: Vec<String> = (0..3).map(|node| sheet.node_text(node)).collect();
    assert_eq!(nodes, ["tell {a, c}", "p", "node 2"]);
}

/// Texts with what they must give, worked out beside them.
#[test]
fn random_texts() {
    let mut rng = Rng::new(901);
    let mut inline = 0;
    for _ in 0..20_000 {
        let made = texts::text(&mut rng);
        let text = &made.text;
        let sheet = read(text).unwrap_or_else(|problem| panic!("{problem}\n{text}"));
        assert_eq!(sheet.to_bytes(), made.bytes, "\n{text}");
        assert_eq!(text.parse(), Ok(sheet.clone()));

        let facts: Vec<&str> = sheet.facts().iter().map(|fact| fact.name.as_str()).collect();
        let starts: Vec<&str> = sheet.starts().iter().map(|start| start.name.as_str()).collect();
        assert_eq!(facts, made.facts, "\n{text}");
        assert_eq!(starts, made.starts, "\n{text}");
        for (node, name) in made.nodes.iter().enumerate() {
            assert_eq!(sheet.node_name(node), name.as_deref(), "\n{text}");
            inline += usize::from(name.is_none());
        }

        let written = sheet.to_string();
        let again = read(&written).unwrap_or_else(|problem| panic!("{problem}\n{written}"));
        assert_eq!(again, sheet, "\n{text}\n{written}");
        assert_eq!(again.to_string(), written);
    }
    assert!(inline > 100_000, "{inline}");
}

/// The line, the column and the mark of a problem are within the text, and its own text has four lines, or five where
/// the library refuses the sheet.
fn well_placed(text: &str, problem: &Problem) {
    let text = text.strip_prefix('\u{feff}').unwrap_or(text);
    let context = || format!("\n{problem}\n{problem:?}");
    let line = text.split('\n').nth(problem.line.checked_sub(1).unwrap()).expect("a line of the text");
    let line: Vec<char> = line.trim_end_matches('\r').chars().collect();
    let before = problem.column.checked_sub(1).unwrap();
    assert!(before <= line.len(), "column: {}", context());
    assert!(problem.width == 1 || before + problem.width <= line.len(), "width: {}", context());

    let shown = problem.to_string();
    let lines: Vec<&str> = shown.split('\n').collect();
    assert_eq!(lines.len(), 4 + usize::from(problem.refused.is_some()), "{}", context());
    assert_eq!(lines[0], format!("line {}, column {}: {}", problem.line, problem.column, problem.message));
    assert_eq!(lines[3], format!("  expected: {}", problem.expected));

    // The mark stands under the same characters as in the text.
    let cut: Vec<char> = lines[1].strip_prefix("  ").unwrap().chars().collect();
    let mark: Vec<char> = lines[2].strip_prefix("  ").unwrap().chars().collect();
    assert!(cut.len() <= 100, "{}", context());
    let from = mark.iter().position(|&c| c == '^').expect("a mark");
    assert!(mark[from..].iter().all(|&c| c == '^'), "{}", context());
    assert_eq!(mark.len() - from, problem.width.min(60), "{}", context());
    assert!(from <= before && from <= cut.len(), "{}", context());
    for (place, &c) in cut.iter().enumerate() {
        let own = line[before - from + place];
        assert_eq!(c, if own.is_control() && own != '\t' { '?' } else { own }, "{}", context());
        assert!(place >= from || mark[place] == if c == '\t' { '\t' } else { ' ' }, "{}", context());
    }
    assert!(cut.len() == line.len() || before < line.len() || from == cut.len(), "{}", context());
}

/// What stands in a start has a higher number than every named node, wherever the start stands.
#[test]
fn nodes_of_starts_come_last() {
    let nodes = "node p = stop\nnode r = tell nothing\n";
    let starts = "start s at nothing run both p and (ask nothing then r), r\nstart t at nothing run either r or p\n";
    let sheet = read(&format!("{nodes}{starts}")).unwrap();
    assert_eq!(read(&format!("{starts}{nodes}")), Ok(sheet.clone()));
    assert_eq!(sheet.nodes()[2..], [Node::Ask(0, 1), Node::Both(0, 2), Node::Either(1, 0)]);
    assert_eq!((sheet.starts()[0].nodes.clone(), sheet.starts()[1].nodes.clone()), (vec![3, 1], vec![4]));
}

/// The mark that some editors put before a text is passed over, and columns are counted behind it.
#[test]
fn a_mark_before_the_text() {
    let text = "node p = stop start s at nothing start t at nothing run p";
    assert_eq!(read(&format!("\u{feff}{text}")).unwrap(), read(text).unwrap());
    assert_eq!(read("\u{feff}nod p").unwrap_err(), read("nod p").unwrap_err());
    assert!(read(&format!("\u{feff}\u{feff}{text}")).is_err());
}

/// Reads any text: it gives a sheet that the library reads, or a problem that is well placed.
fn read_any(text: &str) -> bool {
    match read(text) {
        Ok(sheet) => {
            assert_eq!(check(&sheet.to_bytes()), Ok(()));
            assert_eq!(read(&sheet.to_string()).as_ref(), Ok(&sheet), "\n{text}");
            true
        }
        Err(problem) => {
            well_placed(text, &problem);
            assert_eq!(problem.error.is_some(), problem.refused.is_some());
            false
        }
    }
}

/// The text in pieces: words, blanks and single signs.
fn pieces(text: &str) -> Vec<&str> {
    let kind = |c: char| match c {
        c if c.is_alphanumeric() || c == '_' => 0,
        c if c.is_whitespace() => 1,
        _ => 2,
    };
    let mut pieces = vec![];
    let mut from = 0;
    let mut last = None;
    for (at, c) in text.char_indices() {
        if last.is_some_and(|last| last != kind(c) || last == 2) {
            pieces.push(&text[from..at]);
            from = at;
        }
        last = Some(kind(c));
    }
    pieces.push(&text[from..]);
    pieces
}

/// Something from a text, or anything else that could stand in one.
fn any_piece(pieces: &[&str], rng: &mut Rng) -> String {
    match rng.below(8) {
        0 => rng.pick(&texts::WORDS).to_string(),
        1 => rng
            .pick(&["{", "}", "(", ")", ",", "=", "\"", "\\", "#", "-", "\n", "\r", "\t", " ", "\0", ";"])
            .to_string(),
        2 => char::from_u32(rng.below(0x11_0000) as u32).unwrap_or('\u{fffd}').to_string(),
        3 => rng.pick(&["é", "ÿ", "\u{feff}", "\u{2028}", "\u{85}", "\u{202e}", "🙂", "a\u{301}", "漢字"]).to_string(),
        4 => rng.below(100).to_string(),
        5 => format!(" {} ", rng.pick(&texts::WORDS)),
        _ => rng.pick(pieces).to_string(),
    }
}

/// Changes pieces of a text: takes them out, repeats them, exchanges them, puts others in.
fn damage_pieces(text: &str, rng: &mut Rng) -> String {
    let own = pieces(text);
    let mut changed: Vec<String> = own.iter().map(|piece| piece.to_string()).collect();
    for _ in 0..1 + rng.below(3) {
        let at = rng.below(changed.len());
        let end = (at + 1 + rng.below(6)).min(changed.len());
        match rng.below(7) {
            0 if changed.len() > 8 => drop(changed.drain(at..end)),
            1 => {
                let again = changed[at..end].to_vec();
                changed.splice(at..at, again);
            }
            2 => {
                let other = rng.below(changed.len());
                changed.swap(at, other);
            }
            3 => changed.insert(at, any_piece(&own, rng)),
            4 => {
                let again = changed[at].repeat(1 + rng.below(200));
                changed[at] = again;
            }
            _ => changed[at] = any_piece(&own, rng),
        }
    }
    changed.concat()
}

/// Changes bytes of a text: flips, cuts, insertions, removals and repetitions.
fn damage_bytes(text: &str, rng: &mut Rng) -> String {
    let mut bytes = text.as_bytes().to_vec();
    for _ in 0..1 + rng.below(3) {
        if bytes.is_empty() {
            break;
        }
        let at = rng.below(bytes.len());
        let end = (at + 1 + rng.below(20)).min(bytes.len());
        match rng.below(7) {
            0 | 1 => bytes[at] ^= 1 << rng.below(8),
            2 => bytes[at] = rng.number() as u8,
            3 => bytes.truncate(at),
            4 => bytes.insert(at, rng.number() as u8),
            5 => drop(bytes.drain(at..end)),
            _ => {
                let again = bytes[at..end].to_vec();
                bytes.splice(at..at, again);
            }
        }
    }
    String::from_utf8_lossy(&bytes).into_owned()
}

#[test]
fn damaged_texts() {
    let mut rng = Rng::new(902);
    let (mut good, mut bad, mut refused) = (0, 0, 0);
    for i in 0..6_000 {
        let text = match i % 3 {
            0 => Sheet::from_bytes(&draw(&SHAPES[i % SHAPES.len()], &mut rng).bytes()).unwrap().to_string(),
            _ => texts::text(&mut rng).text,
        };
        for round in 0..20 {
            let changed = match round % 2 {
                0 => damage_bytes(&text, &mut rng),
                _ => damage_pieces(&text, &mut rng),
            };
            if read_any(&changed) {
                good += 1;
            } else {
                bad += 1;
                refused += usize::from(read(&changed).unwrap_err().refused.is_some());
            }
        }
    }
    println!("{good} damaged texts read, {bad} not, {refused} of these by the library");
    assert!(good + bad >= 100_000 && good > 5_000 && bad > 50_000 && refused > 0);
}

#[test]
fn any_unicode() {
    let mut rng = Rng::new(903);
    for _ in 0..20_000 {
        let length = rng.below(60);
        let high = rng.pick(&[0x80, 0x100, 0x3000, 0x11_0000]);
        let text: String = (0..length).filter_map(|_| char::from_u32(rng.below(high) as u32)).collect();
        read_any(&text);
        read_any(&format!("fact a # {text}\nnode p = stop\n{text}"));
        let quoted = format!("fact a \"{text}\" node p = stop start s at a start t at a");
        let plain =
            text.len() <= 8 && text.bytes().all(|byte| matches!(byte, 32..=126) && byte != b'"' && byte != b'\\');
        assert!(read_any(&quoted) || !plain, "{quoted}");
        let comment = format!("fact a # {}\nnode p = stop start s at a start t at a", text.replace(['\n', '\r'], " "));
        assert!(read_any(&comment), "{comment}");
    }
}

#[test]
fn long_texts() {
    let end = "\nfact a\nnode p = stop\nstart s at a\nstart t at a";
    let million = 1_000_000;
    // Some that are read, however long.
    assert!(read_any(&format!("# {}{end}", "x".repeat(million))));
    assert!(read_any(&format!("{}{end}", " ".repeat(million))));
    assert!(read_any(&format!("{}{end}", "\r\n".repeat(million))));
    assert!(read_any(&format!("node {0} = ask a then {0}{end}", "x".repeat(million))));
    assert!(read_any(&format!("fact {} \"x\"{end}", "x".repeat(million))));
    assert!(read_any(&format!("{end} run{}p", "\t".repeat(million))));
    // And some that are not.
    for part in [
        "(",
        ")",
        "{",
        "}",
        ",",
        "=",
        "\"",
        "\\",
        "#\n(",
        "ask a then ",
        "both ",
        "either (",
        "é",
        "\0",
        "\r\n=",
        "fact ",
        "rule a gives a ",
    ] {
        let many = part.repeat(200_000);
        for before in [
            "",
            "fact ",
            "fact a ",
            "rule ",
            "rule a gives ",
            "node x = ",
            "node x = ask a then ",
            "start x at ",
            "start x at a run ",
        ] {
            assert!(!read_any(&format!("{before}{many}")), "{before}{part}");
            assert!(!read_any(&format!("{before}{many}{end}")), "{before}{part}");
        }
    }
    for line in ["x".repeat(million), "1".repeat(million), "x ".repeat(million / 2), "x, ".repeat(million / 3)] {
        for before in
            ["", "fact ", "rule {", "node x = ", "node x = ask a then ", "start x at a run ", "\"", "fact a \""]
        {
            assert!(!read_any(&format!("{before}{line}")));
            assert!(!read_any(&format!("{before}{line}{end}")));
        }
    }
    let many = |part: &dyn Fn(usize) -> String| (0..50_000).map(part).collect::<String>();
    assert!(!read_any(&format!("{end}\n{}", many(&|number| format!("fact x{number}\n")))));
    assert!(!read_any(&format!("{end}\n{}", many(&|number| format!("node x{number} = ask a then x0\n")))));
    assert!(!read_any(&format!("{end}\n{}", many(&|number| format!("start x{number} at a run p\n")))));
    assert!(!read_any(&format!("{end}\nrule {{{}}} gives a", many(&|number| format!("x{number},\n")))));
}
