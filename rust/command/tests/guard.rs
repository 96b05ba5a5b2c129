//! A report that is altered in one place has no words.

use hofadiju::{compare, Report, Sheet, Side, Verdict};
use hofadiju_command::Comparison;
use sheets::{alike_pair, variants, with_standing, Rng, SHAPES};
use std::collections::BTreeMap;

/// The reports that differ from a true one in one place, each with what is altered.
struct Altered<'a> {
    of: &'a Report,
    found: Vec<(&'static str, Report)>,
}

impl Altered<'_> {
    fn push(&mut self, what: &'static str, alter: impl FnOnce(&mut Report)) {
        let mut report = self.of.clone();
        alter(&mut report);
        assert_ne!(report, *self.of, "{what}");
        self.found.push((what, report));
    }

    fn result(&mut self) {
        let (round, left, right) = (self.of.round, self.of.left, self.of.right);
        self.push("verdict", |report| {
            report.verdict = if report.verdict == Verdict::Same { Verdict::Diff } else { Verdict::Same };
        });
        self.push("round one more", |report| report.round = round + 1);
        if round > 0 {
            self.push("round one less", |report| report.round = round - 1);
        }
        if left != right {
            self.push("sides exchanged", |report| (report.left, report.right) = (right, left));
        }
        // The place behind the last member is one, too.
        for position in 0..=self.of.members.len() {
            if position != left {
                self.push("left", |report| report.left = position);
            }
            if position != right {
                self.push("right", |report| report.right = position);
            }
        }
    }

    fn member(&mut self, position: usize, nodes: usize, rng: &mut Rng) {
        let member = &self.of.members[position];
        // Another class that there is, or one that there is not.
        let classes = 1 + self.of.members.iter().map(|member| member.class).max().unwrap();
        for class in [(member.class + 1 + rng.below(classes)) % (classes + 1), classes] {
            self.push("class", |report| report.members[position].class = class);
        }
        let fact = rng.below(16);
        self.push("store", |report| report.members[position].store ^= 1 << fact);
        for (place, &thread) in member.threads.iter().enumerate() {
            let other = (thread + 1 + rng.below(nodes)) % (nodes + 1);
            self.push("thread", |report| report.members[position].threads[place] = other);
            self.push("thread left out", |report| {
                report.members[position].threads.remove(place);
            });
        }
        self.push("thread more", |report| report.members[position].threads.push(0));
        self.push("member left out", |report| {
            report.members.remove(position);
        });
        self.push("member doubled", |report| report.members.insert(position, report.members[position].clone()));
        if position > 0 {
            self.push("members exchanged", |report| report.members.swap(position - 1, position));
        }
    }

    fn step(&mut self, place: usize, rng: &mut Rng) {
        let step = self.of.steps[place];
        let members = self.of.members.len();
        self.push("side", |report| {
            report.steps[place].side = if step.side == Side::Left { Side::Right } else { Side::Left };
        });
        let fact = rng.below(16);
        self.push("label", |report| report.steps[place].label ^= 1 << fact);
        for position in (0..members).filter(|&position| position != step.target) {
            self.push("target", |report| report.steps[place].target = position);
        }
        for position in (0..members).filter(|&position| step.reply != Some(position)) {
            let what = if step.reply.is_some() { "reply" } else { "reply for none" };
            self.push(what, |report| report.steps[place].reply = Some(position));
        }
        if step.reply.is_some() {
            self.push("no reply", |report| report.steps[place].reply = None);
        }
        self.push("step left out", |report| {
            report.steps.remove(place);
        });
        self.push("step doubled", |report| report.steps.insert(place, step));
    }
}

/// Every alteration of a report on a sheet with so many nodes.
fn altered(of: &Report, nodes: usize, rng: &mut Rng) -> Vec<(&'static str, Report)> {
    let mut altered = Altered { of, found: vec![] };
    altered.result();
    for position in 0..of.members.len() {
        altered.member(position, nodes, rng);
    }
    for place in 0..of.steps.len() {
        altered.step(place, rng);
    }
    altered.found
}

#[test]
fn altered_reports_have_no_words() {
    let mut rng = Rng::new(71);
    let mut tried: BTreeMap<&str, usize> = BTreeMap::new();
    let (mut same, mut stepped) = (0, 0);
    for i in 0..2_000 {
        let shape = &SHAPES[i % SHAPES.len()];
        let mut draft = if i % 2 == 0 { alike_pair(shape, &mut rng) } else { variants(shape, &mut rng) };
        if i % 5 == 0 {
            draft = with_standing(draft, &mut rng);
        }
        let bytes = draft.bytes();
        let Ok(report) = compare(&bytes, 0, 1) else { continue };
        let sheet = Sheet::from_bytes(&bytes).unwrap();
        let comparison = Comparison::new(&sheet, 0, 1, report.clone()).expect("a true report has its words");
        match report.verdict {
            Verdict::Same => assert!(comparison.walk.is_none()),
            _ => assert_eq!(comparison.walk.as_ref().unwrap().moves.len(), report.round),
        }
        if !(3..=24).contains(&report.members.len()) {
            continue;
        }
        same += usize::from(report.verdict == Verdict::Same);
        stepped += usize::from(!report.steps.is_empty());
        if report.left != report.right {
            assert!(Comparison::new(&sheet, 1, 0, report.clone()).is_none());
        }
        for (what, altered) in altered(&report, sheet.nodes().len(), &mut rng) {
            *tried.entry(what).or_default() += 1;
            let words = Comparison::new(&sheet, 0, 1, altered.clone());
            assert!(words.is_none(), "{what}\n{report}\n{altered}");
        }
    }
    println!("{same} {stepped} {tried:?}");
    assert!(same > 200 && stepped > 200, "{same} {stepped}");
    assert!(tried.len() == 22 && tried.values().all(|&count| count > 100), "{tried:?}");
}
