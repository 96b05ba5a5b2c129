use crate::{Draft, Rng, ASK, TELL};

/// The most facts and rules of a sheet.
const FACTS: usize = 12;
const RULES: usize = 32;

/// The sheet with facts that always stand: some of its premises are emptied, and rules with an empty premise
/// are put among the others. These conclude a few facts, sometimes all of them or nothing, and sometimes a
/// fact from which further rules conclude others. Without facts they say nothing. Often there is one fact
/// more. Nodes and starts stay.
pub fn with_standing(mut draft: Draft, rng: &mut Rng) -> Draft {
    if draft.facts < FACTS && rng.percent(50) {
        draft.facts += 1;
    }
    for _ in 0..1 + rng.below(2) {
        match rng.below(10) {
            _ if draft.facts == 0 => put_rule(&mut draft, (0, 0), rng),
            0..=2 if !draft.rules.is_empty() => {
                let emptied = rng.below(draft.rules.len());
                draft.rules[emptied].0 = 0;
            }
            3 => put_chain(&mut draft, rng),
            4 => put_rule(&mut draft, (0, 0), rng),
            5 if rng.percent(20) => {
                let every = (1 << draft.facts) - 1;
                put_rule(&mut draft, (0, every), rng);
            }
            _ => {
                let standing = rng.some_set(draft.facts, 2);
                put_rule(&mut draft, (0, standing), rng);
            }
        }
    }
    draft
}

/// One rule more at any place, or in the place of another where there are 32.
fn put_rule(draft: &mut Draft, rule: (u16, u16), rng: &mut Rng) {
    if draft.rules.len() < RULES {
        draft.rules.insert(rng.below(draft.rules.len() + 1), rule);
    } else {
        draft.rules[rng.below(RULES)] = rule;
    }
}

/// A fact that stands, and one or two rules from it to further facts.
fn put_chain(draft: &mut Draft, rng: &mut Rng) {
    let facts = draft.facts;
    let mut last = 1 << rng.below(facts);
    put_rule(draft, (0, last), rng);
    for _ in 0..1 + rng.below(2) {
        let next = 1 << rng.below(facts);
        put_rule(draft, (last, next), rng);
        last = next;
    }
}

/// The sheet with the facts that always stand taken out of all its sets. It has as many facts and rules; a
/// rule that says nothing else becomes (0, 0).
pub fn without_standing(draft: &Draft) -> Draft {
    let other = !draft.least();
    let nodes = draft.nodes.iter().map(|&(kind, first, second)| match kind {
        TELL | ASK => (kind, first & other, second),
        _ => (kind, first, second),
    });
    Draft {
        facts: draft.facts,
        rules: draft.rules.iter().map(|&(premise, conclusion)| (premise & other, conclusion & other)).collect(),
        nodes: nodes.collect(),
        starts: draft.starts.iter().map(|(store, threads)| (store & other, threads.clone())).collect(),
    }
}
