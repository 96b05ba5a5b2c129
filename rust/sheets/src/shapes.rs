use crate::{Draft, Rng, ASK, BOTH, EITHER, STOP, TELL};

/// What random sheets of one shape have in common; pairs are the least and the most.
#[derive(Clone, Debug)]
pub struct Shape {
    pub name: &'static str,
    pub facts: (usize, usize),
    pub rules: (usize, usize),
    /// The most facts in a premise, in a conclusion, in a node's set and in a start's store.
    pub premise: usize,
    pub conclusion: usize,
    pub set: usize,
    pub store: usize,
    /// Every rule leads from one fact to the next.
    pub chained: bool,
    pub nodes: (usize, usize),
    /// How often stop, tell, ask, both and either are drawn.
    pub kinds: [usize; 5],
    /// How many of a hundred asks name any node, not a lower one.
    pub back: usize,
    /// Both and either name one of this many nodes before them.
    pub reach: usize,
    pub starts: (usize, usize),
    pub threads: (usize, usize),
}

impl Shape {
    /// The same with at least and at most so many starts.
    pub fn with_starts(&self, least: usize, most: usize) -> Shape {
        Shape { starts: (least, most), ..self.clone() }
    }
}

const BASE: Shape = Shape {
    name: "small",
    facts: (0, 4),
    rules: (0, 3),
    premise: 2,
    conclusion: 2,
    set: 2,
    store: 1,
    chained: false,
    nodes: (1, 10),
    kinds: [1, 3, 5, 2, 4],
    back: 30,
    reach: 64,
    starts: (2, 3),
    threads: (0, 2),
};

pub const SHAPES: [Shape; 13] = [
    BASE,
    Shape { name: "tiny", facts: (0, 2), nodes: (1, 5), rules: (0, 2), store: 0, threads: (1, 1), ..BASE },
    Shape { name: "medium", facts: (2, 7), rules: (0, 8), nodes: (6, 24), threads: (0, 3), premise: 3, set: 3, ..BASE },
    Shape {
        name: "large",
        facts: (8, 12),
        rules: (0, 32),
        nodes: (20, 64),
        premise: 4,
        set: 4,
        threads: (0, 3),
        ..BASE
    },
    Shape { name: "twelve", facts: (12, 12), rules: (0, 6), nodes: (2, 12), set: 5, back: 10, ..BASE },
    Shape { name: "chain", facts: (3, 12), rules: (2, 11), chained: true, nodes: (3, 16), set: 1, ..BASE },
    Shape {
        name: "many labels",
        facts: (5, 9),
        rules: (6, 32),
        premise: 3,
        conclusion: 1,
        nodes: (2, 7),
        set: 1,
        back: 10,
        ..BASE
    },
    Shape { name: "starts", starts: (8, 16), threads: (0, 8), facts: (1, 3), kinds: [2, 3, 3, 2, 3], back: 5, ..BASE },
    Shape {
        name: "deep",
        nodes: (20, 64),
        kinds: [2, 2, 2, 4, 8],
        reach: 3,
        facts: (1, 3),
        back: 0,
        threads: (1, 1),
        ..BASE
    },
    Shape { name: "both inside", nodes: (5, 18), kinds: [1, 4, 3, 6, 6], reach: 5, back: 5, ..BASE },
    Shape { name: "loops", nodes: (2, 12), kinds: [1, 2, 6, 1, 4], back: 100, facts: (1, 5), ..BASE },
    Shape {
        name: "asks only",
        nodes: (2, 20),
        kinds: [1, 0, 8, 0, 4],
        back: 40,
        facts: (2, 6),
        rules: (0, 6),
        set: 3,
        ..BASE
    },
    Shape {
        name: "long",
        nodes: (20, 64),
        kinds: [0, 4, 5, 0, 2],
        back: 3,
        reach: 4,
        facts: (0, 1),
        rules: (0, 0),
        threads: (1, 2),
        ..BASE
    },
];

/// A well formed sheet of this shape.
pub fn draw(shape: &Shape, rng: &mut Rng) -> Draft {
    let mut draft = Draft { facts: rng.within(shape.facts), ..Draft::default() };
    draw_rules(shape, rng, &mut draft);
    draw_nodes(shape, rng, &mut draft);
    draw_starts(shape, rng, &mut draft);
    draft
}

fn draw_rules(shape: &Shape, rng: &mut Rng, draft: &mut Draft) {
    if draft.facts == 0 {
        return;
    }
    for i in 0..rng.within(shape.rules) {
        let facts = draft.facts;
        let rule = if shape.chained {
            (1 << (i % facts), 1 << ((i + 1) % facts))
        } else {
            (rng.some_set(facts, shape.premise), rng.set(facts, shape.conclusion))
        };
        draft.rules.push(rule);
    }
}

fn draw_kind(shape: &Shape, rng: &mut Rng, own: usize) -> u8 {
    let allowed = if own == 0 { 3 } else { 5 };
    let mut left = rng.below(shape.kinds[..allowed].iter().sum());
    for (kind, &often) in shape.kinds.iter().enumerate() {
        if left < often {
            return kind as u8;
        }
        left -= often;
    }
    STOP
}

fn draw_nodes(shape: &Shape, rng: &mut Rng, draft: &mut Draft) {
    let count = rng.within(shape.nodes);
    let mut opened: Vec<usize> = vec![];
    for own in 0..count {
        let lower = |rng: &mut Rng| (own - 1 - rng.below(own.min(shape.reach))) as u16;
        let mut node = match draw_kind(shape, rng, own) {
            STOP => (STOP, 0, 0),
            TELL => (TELL, rng.set(draft.facts, shape.set), 0),
            ASK => {
                let next = if own == 0 || rng.percent(shape.back) { rng.below(count) as u16 } else { lower(rng) };
                (ASK, rng.set(draft.facts, shape.set), next)
            }
            kind => (kind, lower(rng), lower(rng)),
        };
        if node.0 == BOTH && opened[node.1 as usize] + opened[node.2 as usize] > 8 {
            node.0 = EITHER;
        }
        opened.push(match node.0 {
            STOP => 0,
            BOTH => opened[node.1 as usize] + opened[node.2 as usize],
            _ => 1,
        });
        draft.nodes.push(node);
    }
}

fn draw_starts(shape: &Shape, rng: &mut Rng, draft: &mut Draft) {
    let opened = draft.opened();
    for _ in 0..rng.within(shape.starts) {
        let store = if rng.percent(60) { 0 } else { rng.set(draft.facts, shape.store) };
        let mut threads: Vec<u8> = vec![];
        let mut room: usize = 8;
        for _ in 0..rng.within(shape.threads) {
            let late = opened.len() - 1 - rng.below(opened.len().min(6));
            let node = if rng.percent(50) { late } else { rng.below(opened.len()) };
            if opened[node] <= room {
                room -= opened[node];
                threads.push(node as u8);
            }
        }
        draft.starts.push((store, threads));
    }
}
