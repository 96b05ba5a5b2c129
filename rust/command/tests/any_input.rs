//! No input makes the command panic or hang: damaged sheets and damaged texts, to every command.

mod common;

use common::run;
use hofadiju::Sheet;
use sheets::{alike_pair, damage, draw, variants, Rng, SHAPES};
use std::time::{Duration, Instant};

/// What is typed in texts, whole and in parts.
const WORDS: [&str; 40] = [
    "fact", "rule", "gives", "node", "stop", "tell", "ask", "then", "both", "and", "either", "or", "call", "start",
    "at", "run", "nothing", "{", "}", "(", ")", ",", "=", "\"", "\\", "#", "\n", "\t", "\r\n", " ", "n0", "n1", "n63",
    "fact00", "f0", "s0", "x", "0", "é", "\u{202e}",
];

/// Changes a text in some places: bytes, words, lines.
fn damage_text(text: &mut Vec<u8>, rng: &mut Rng) {
    for _ in 0..1 + rng.below(3) {
        let at = rng.below(text.len() + 1);
        match rng.below(8) {
            0 => text.truncate(at),
            1 => text.splice(at..at, rng.pick(&WORDS).bytes()).for_each(drop),
            2 => {
                let word = format!(" {} ", rng.pick(&WORDS));
                text.splice(at..at, word.bytes()).for_each(drop);
            }
            3 if at < text.len() => text[at] = rng.number() as u8,
            4 if at < text.len() => text[at] = 32 + rng.below(95) as u8,
            5 => {
                let to = (at + rng.below(12)).min(text.len());
                text.drain(at..to).for_each(drop);
            }
            6 => {
                let to = (at + rng.below(40)).min(text.len());
                let part = text[at..to].to_vec();
                let place = rng.below(text.len() + 1);
                text.splice(place..place, part).for_each(drop);
            }
            _ => {
                let mut lines: Vec<&[u8]> = text.split_inclusive(|&byte| byte == b'\n').collect();
                rng.shuffle(&mut lines);
                *text = lines.concat();
            }
        }
    }
}

const COMMANDS: [&[&str]; 8] = [
    &["write", "-"],
    &["show", "-"],
    &["check", "-"],
    &["check", "--json", "-"],
    &["compare", "-"],
    &["compare", "--plain", "-"],
    &["compare", "--json", "-"],
    &["graph", "-"],
];

/// Runs every command on the input, and says whether it was taken.
fn held(input: &[u8]) -> bool {
    let mut taken = false;
    for words in COMMANDS {
        let begun = Instant::now();
        let ran = run(words, input);
        assert!(begun.elapsed() < Duration::from_secs(10), "{words:?} {input:?}");
        assert!(ran.status <= 2, "{words:?} {input:?}");
        assert_eq!(
            ran.status == 2,
            ran.errors.starts_with("hofadiju: standard input: "),
            "{words:?} {input:?}: {}",
            ran.errors
        );
        assert!(!ran.errors.contains("could not be worked out"), "{words:?} {input:?}");
        if words.contains(&"--json") {
            assert!(ran.text().starts_with('{') && ran.text().ends_with("}\n"), "{words:?} {input:?}");
        } else if words.contains(&"--plain") && ran.status == 2 {
            assert!(ran.text().is_empty() || ran.text().starts_with("REFUSED "), "{words:?} {input:?}");
        } else {
            assert_eq!(ran.status == 2, ran.output.is_empty(), "{words:?} {input:?}");
        }
        taken |= ran.status < 2;
    }
    taken
}

#[test]
fn damaged_sheets() {
    let mut rng = Rng::new(41);
    let mut taken = 0;
    for i in 0..50_000 {
        let shape = &SHAPES[i % SHAPES.len()];
        let mut bytes = if i % 2 == 0 { draw(shape, &mut rng) } else { alike_pair(shape, &mut rng) }.bytes();
        damage(&mut bytes, &mut rng);
        taken += usize::from(held(&bytes));
    }
    assert!((2_000..40_000).contains(&taken), "{taken}");
}

#[test]
fn damaged_texts() {
    let mut rng = Rng::new(42);
    let (mut taken, mut count) = (0, 0);
    while count < 50_000 {
        let shape = &SHAPES[count % SHAPES.len()];
        let bytes = if count % 2 == 0 { draw(shape, &mut rng) } else { variants(shape, &mut rng) }.bytes();
        let Ok(sheet) = Sheet::from_bytes(&bytes) else { continue };
        let mut text = sheet.to_string().into_bytes();
        damage_text(&mut text, &mut rng);
        taken += usize::from(held(&text));
        count += 1;
    }
    assert!((1_000..40_000).contains(&taken), "{taken}");
}

#[test]
fn odd_inputs() {
    for input in [
        &b""[..],
        b"\0",
        b"\xff\xff\xff",
        b"fact",
        b"\n\n\n",
        b"#",
        b"\"",
        b"node x = (((((",
        "(".repeat(100_000).as_bytes(),
        format!("node x = {}stop", "(".repeat(100_000)).as_bytes(),
        format!("node x = {}", "ask nothing then ".repeat(50_000)).as_bytes(),
        format!("node x = {}", "both ".repeat(100_000)).as_bytes(),
        "fact a, ".repeat(100_000).as_bytes(),
        format!("fact a # {}\n{{", "é".repeat(300_000)).as_bytes(),
        format!("fact {}", "a".repeat(900_000)).as_bytes(),
        format!("fact a \"{}\"", "a".repeat(900_000)).as_bytes(),
        &[0; 1 << 20],
        &[255; 1 << 20],
        &[b'{'; 1 << 20],
    ] {
        held(input);
    }
}
