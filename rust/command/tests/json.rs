//! The JSON of a comparison says what the report says.

mod common;

use common::run;
use hofadiju::{compare, Sheet, Side, Verdict};
use sheets::{alike_pair, variants, with_standing, Rng, SHAPES};

#[derive(Clone, Debug, PartialEq)]
enum Json {
    Null,
    Number(usize),
    Text(String),
    List(Vec<Json>),
    Object(Vec<(String, Json)>),
}

impl Json {
    fn get(&self, name: &str) -> &Json {
        let Json::Object(values) = self else { panic!("{name} of {self:?}") };
        let mut found = values.iter().filter(|(own, _)| own == name);
        let value = found.next().unwrap_or_else(|| panic!("{name} of {self:?}"));
        assert!(found.next().is_none(), "{name} twice");
        &value.1
    }

    fn number(&self) -> usize {
        let Json::Number(number) = self else { panic!("{self:?}") };
        *number
    }

    fn text(&self) -> &str {
        let Json::Text(text) = self else { panic!("{self:?}") };
        text
    }

    fn list(&self) -> &[Json] {
        let Json::List(list) = self else { panic!("{self:?}") };
        list
    }

    fn numbers(&self) -> Vec<usize> {
        self.list().iter().map(Json::number).collect()
    }

    fn texts(&self) -> Vec<&str> {
        self.list().iter().map(Json::text).collect()
    }
}

/// Reads JSON without blanks, as the command writes it.
struct Reader<'a> {
    rest: &'a str,
}

impl Reader<'_> {
    fn take(&mut self, part: &str) -> bool {
        let rest = self.rest.strip_prefix(part);
        self.rest = rest.unwrap_or(self.rest);
        rest.is_some()
    }

    fn value(&mut self) -> Json {
        if self.take("null") {
            return Json::Null;
        }
        if self.take("[") {
            return Json::List(self.items("]", Reader::value));
        }
        if self.take("{") {
            return Json::Object(self.items("}", |reader| {
                let name = reader.string();
                assert!(reader.take(":"));
                (name, reader.value())
            }));
        }
        if self.rest.starts_with('"') {
            return Json::Text(self.string());
        }
        let end = self.rest.find(|c: char| !c.is_ascii_digit()).unwrap_or(self.rest.len());
        let (number, rest) = self.rest.split_at(end);
        self.rest = rest;
        Json::Number(number.parse().expect("a number"))
    }

    fn items<T>(&mut self, end: &str, item: impl Fn(&mut Self) -> T) -> Vec<T> {
        let mut items = vec![];
        if self.take(end) {
            return items;
        }
        loop {
            items.push(item(self));
            if self.take(end) {
                return items;
            }
            assert!(self.take(","), "{}", self.rest);
        }
    }

    fn string(&mut self) -> String {
        assert!(self.take("\""));
        let mut text = String::new();
        loop {
            let c = self.rest.chars().next().expect("a string that ends");
            self.rest = &self.rest[c.len_utf8()..];
            match c {
                '"' => return text,
                '\\' => {
                    let c = self.rest.chars().next().unwrap();
                    self.rest = &self.rest[c.len_utf8()..];
                    text.push(match c {
                        'n' => '\n',
                        'u' => {
                            let code = u32::from_str_radix(&self.rest[..4], 16).unwrap();
                            self.rest = &self.rest[4..];
                            char::from_u32(code).unwrap()
                        }
                        '"' | '\\' => c,
                        c => panic!("\\{c}"),
                    });
                }
                c => {
                    assert!(!c.is_control());
                    text.push(c);
                }
            }
        }
    }
}

fn json(text: &str) -> Json {
    let mut reader = Reader { rest: text };
    let value = reader.value();
    assert_eq!(reader.rest, "\n");
    value
}

#[test]
fn reports_as_json() {
    let mut rng = Rng::new(51);
    let (mut same, mut diff, mut refused) = (0, 0, 0);
    for i in 0..6_000 {
        let shape = &SHAPES[i % SHAPES.len()];
        let mut draft = if i % 2 == 0 { alike_pair(shape, &mut rng) } else { variants(shape, &mut rng) };
        if i % 5 == 0 {
            draft = with_standing(draft, &mut rng);
        }
        let bytes = draft.bytes();
        let ran = run(&["compare", "--json", "-"], &bytes);
        let said = json(ran.text());
        let report = match compare(&bytes, 0, 1) {
            Ok(report) => report,
            Err(error) => {
                let refusal = error.refusal().unwrap();
                let said = said.get("refused");
                assert_eq!(said.get("number").number(), refusal.number() as usize);
                assert_eq!(said.get("place").number(), refusal.place);
                assert_eq!((said.get("message").text(), ran.status), (error.to_string().as_str(), 2));
                refused += 1;
                continue;
            }
        };
        assert_eq!(ran.errors, "");
        let sheet = Sheet::from_bytes(&bytes).unwrap();
        match report.verdict {
            Verdict::Same => same += 1,
            _ => diff += 1,
        }
        assert_eq!(said.get("verdict").text(), report.verdict.to_string());
        assert_eq!(said.get("round").number(), report.round);
        assert_eq!(said.get("left").get("member").number(), report.left);
        assert_eq!(said.get("right").get("member").number(), report.right);
        assert_eq!((said.get("left").get("name").text(), said.get("right").get("name").text()), ("s0", "s1"));
        let members = said.get("members").list();
        assert_eq!(members.len(), report.members.len());
        for (position, (said, member)) in members.iter().zip(&report.members).enumerate() {
            assert_eq!(said.get("position").number(), position);
            assert_eq!(said.get("class").number(), member.class);
            assert_eq!(said.get("store").get("set").number(), usize::from(member.store));
            assert_eq!(said.get("store").get("facts").texts(), sheet.fact_names(member.store));
            assert_eq!(said.get("threads").numbers(), member.threads);
            let names: Vec<String> = member.threads.iter().map(|thread| format!("n{thread}")).collect();
            assert_eq!(said.get("nodes").texts(), names);
        }
        let trail = said.get("trail").list();
        assert_eq!(trail.len(), report.steps.len());
        for (said, step) in trail.iter().zip(&report.steps) {
            assert_eq!(said.get("side").text(), if step.side == Side::Left { "left" } else { "right" });
            assert_eq!(said.get("label").get("set").number(), usize::from(step.label));
            assert_eq!(said.get("target").number(), step.target);
            assert_eq!(*said.get("reply"), step.reply.map_or(Json::Null, Json::Number));
        }
        match said.get("walk") {
            Json::Null => assert_eq!(report.verdict, Verdict::Same),
            walk => assert_eq!(walk.get("moves").list().len(), report.round),
        }
    }
    assert!(same > 500 && diff > 500 && refused > 100, "{same} {diff} {refused}");
}

#[test]
fn checks_and_problems_as_json() {
    let text = "fact door\nnode a = ask dor then a\n";
    let said = json(run(&["check", "--json", "-"], text.as_bytes()).text());
    let problem = said.get("problem");
    assert_eq!((problem.get("line").number(), problem.get("column").number()), (2, 14));
    assert_eq!((problem.get("width").number(), problem.get("message").text()), (3, "no fact is called 'dor'"));
    assert_eq!(problem.get("expected").text(), "a fact of this sheet: door");
    assert_eq!((problem.get("number"), problem.get("refused")), (&Json::Null, &Json::Null));
    let wide = "node a = tell nothing start s at nothing run a, a, a, a, a, a, a, both a and a start t at nothing";
    let said = json(run(&["compare", "--json", "-"], wide.as_bytes()).text());
    let problem = said.get("problem");
    assert_eq!((problem.get("number").number(), problem.get("place").number()), (12, 16));
    let refused = "REFUSED 12 16: byte 16 of the sheet, the thread count of start 0";
    assert_eq!(problem.get("refused").text(), refused);
    let said = json(run(&["check", "--json", "-"], &[b' '; (1 << 20) + 1]).text());
    assert_eq!(said.get("problem").get("message").text(), "the text is longer than 1048576 bytes");
    let text = "node a = stop\nstart x at nothing run a, a\nstart y at nothing";
    let said = json(run(&["check", "--json", "-"], text.as_bytes()).text());
    let counts = ["facts", "rules", "nodes", "starts", "bytes"].map(|name| said.get("read").get(name).number());
    assert_eq!(counts, [0, 0, 1, 2, 17]);
    let wrong = run(&["check", "--json", "-"], &[0; 4]);
    assert_eq!(json(wrong.text()).get("refused").get("field").text(), "the count of nodes");
}
