//! Answers as JSON.

use crate::behaviour::Configuration;
use crate::walk::{Ending, Taken};
use crate::Comparison;
use hofadiju::notation::Problem;
use hofadiju::{field_at, Error, Set, Sheet, Side};

/// A value of JSON.
pub enum Json {
    /// Nothing.
    Null,
    /// A number.
    Number(usize),
    /// A text.
    Text(String),
    /// Values in order.
    List(Vec<Json>),
    /// Values by names, in order.
    Object(Vec<(&'static str, Json)>),
}

use Json::{List, Null, Number, Object};

fn text(of: impl ToString) -> Json {
    Json::Text(of.to_string())
}

fn numbers(of: &[usize]) -> Json {
    List(of.iter().map(|&number| Number(number)).collect())
}

fn texts(of: &[&str]) -> Json {
    List(of.iter().map(text).collect())
}

impl std::fmt::Display for Json {
    fn fmt(&self, f: &mut std::fmt::Formatter<'_>) -> std::fmt::Result {
        match self {
            Null => f.write_str("null"),
            Number(number) => write!(f, "{number}"),
            Json::Text(text) => quoted(f, text),
            List(values) => {
                f.write_str("[")?;
                for (place, value) in values.iter().enumerate() {
                    write!(f, "{}{value}", if place == 0 { "" } else { "," })?;
                }
                f.write_str("]")
            }
            Object(values) => {
                f.write_str("{")?;
                for (place, (name, value)) in values.iter().enumerate() {
                    write!(f, "{}\"{name}\":{value}", if place == 0 { "" } else { "," })?;
                }
                f.write_str("}")
            }
        }
    }
}

fn quoted(f: &mut std::fmt::Formatter<'_>, text: &str) -> std::fmt::Result {
    f.write_str("\"")?;
    for c in text.chars() {
        match c {
            '"' => f.write_str("\\\"")?,
            '\\' => f.write_str("\\\\")?,
            '\n' => f.write_str("\\n")?,
            c if c.is_control() => write!(f, "\\u{:04x}", c as u32)?,
            c => write!(f, "{c}")?,
        }
    }
    f.write_str("\"")
}

fn side(side: Side) -> Json {
    text(if side == Side::Left { "left" } else { "right" })
}

/// A set: its number and its facts.
fn set(sheet: &Sheet, set: Set) -> Json {
    Object(vec![("set", Number(set.into())), ("facts", texts(&sheet.fact_names(set)))])
}

fn node_texts(sheet: &Sheet, nodes: &[usize]) -> Json {
    List(nodes.iter().map(|&node| text(sheet.node_text(node))).collect())
}

fn configuration(sheet: &Sheet, of: &Configuration) -> Json {
    Object(vec![
        ("store", set(sheet, of.store)),
        ("threads", numbers(&of.threads)),
        ("nodes", node_texts(sheet, &of.threads)),
    ])
}

fn taken(sheet: &Sheet, by: &Taken) -> Json {
    Object(vec![
        ("thread", Number(by.thread)),
        ("part", Number(by.part)),
        ("node", text(sheet.node_text(by.part))),
        ("to", configuration(sheet, &by.to)),
    ])
}

/// The report with the names of the sheet, and the walk.
pub fn comparison(of: &Comparison) -> Json {
    let sheet = of.sheet;
    let start = |number: usize, member: usize| {
        let name = text(&sheet.starts()[number].name);
        Object(vec![("start", Number(number)), ("name", name), ("member", Number(member))])
    };
    let members = of.report.members.iter().enumerate().map(|(position, member)| {
        Object(vec![
            ("position", Number(position)),
            ("class", Number(member.class)),
            ("store", set(sheet, member.store)),
            ("threads", numbers(&member.threads)),
            ("nodes", node_texts(sheet, &member.threads)),
        ])
    });
    let trail = of.report.steps.iter().map(|step| {
        Object(vec![
            ("side", side(step.side)),
            ("label", set(sheet, step.label)),
            ("target", Number(step.target)),
            ("reply", step.reply.map_or(Null, Number)),
        ])
    });
    Object(vec![
        ("verdict", text(of.report.verdict)),
        ("round", Number(of.report.round)),
        ("left", start(of.left, of.report.left)),
        ("right", start(of.right, of.report.right)),
        ("least", set(sheet, of.least)),
        ("members", List(members.collect())),
        ("trail", List(trail.collect())),
        ("walk", walk(of)),
    ])
}

/// The walk: its moves, where it ends, and what tells the two sides apart there.
fn walk(of: &Comparison) -> Json {
    let Some(walk) = &of.walk else { return Null };
    let sheet = of.sheet;
    let moves = walk.moves.iter().map(|step| {
        Object(vec![
            ("add", set(sheet, step.label)),
            ("side", side(step.side)),
            ("by", taken(sheet, &step.by)),
            ("answers", Number(step.answers)),
            ("answer", step.answer.as_ref().map_or(Null, |by| taken(sheet, by))),
        ])
    });
    let ending = match walk.ending {
        Ending::Stores => "stores differ",
        Ending::Stuck => "no move",
        Ending::Unfinished => "unfinished",
    };
    Object(vec![
        ("moves", List(moves.collect())),
        ("left", configuration(sheet, &walk.left)),
        ("right", configuration(sheet, &walk.right)),
        ("ending", text(ending)),
    ])
}

/// What a sheet that is read has.
pub fn counts(sheet: &Sheet) -> Json {
    let counts = vec![
        ("facts", Number(sheet.facts().len())),
        ("rules", Number(sheet.rules().len())),
        ("nodes", Number(sheet.nodes().len())),
        ("starts", Number(sheet.starts().len())),
        ("bytes", Number(sheet.to_bytes().len())),
    ];
    Object(vec![("read", Object(counts))])
}

/// What the library says in the place of an answer, on these bytes.
pub fn error(error: &Error, bytes: &[u8]) -> Json {
    let mut values = vec![];
    if let Some((number, place)) = crate::refused(error) {
        values.push(("number", Number(number)));
        values.push(("place", Number(place)));
    }
    if let Some(place) = crate::byte_place(error) {
        values.push(("field", text(field_at(bytes, place))));
    }
    values.push(("message", text(error)));
    Object(vec![("refused", Object(values))])
}

/// What is wrong with a text.
pub fn problem(problem: &Problem) -> Json {
    let refused = problem.error.and_then(|error| crate::refused(&error));
    Object(vec![(
        "problem",
        Object(vec![
            ("line", Number(problem.line)),
            ("column", Number(problem.column)),
            ("width", Number(problem.width)),
            ("message", text(&problem.message)),
            ("expected", text(&problem.expected)),
            ("number", refused.map_or(Null, |(number, _)| Number(number))),
            ("place", refused.map_or(Null, |(_, place)| Number(place))),
            ("refused", problem.refused.as_ref().map_or(Null, text)),
        ]),
    )])
}

/// A message that is neither.
pub fn message(message: &str) -> Json {
    Object(vec![("problem", Object(vec![("message", text(message))]))])
}
