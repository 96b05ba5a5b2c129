use crate::{draw, Draft, Rng, Shape, ASK, BOTH, EITHER, STOP, TELL};

/// A sheet whose start 1 is start 0 over a copy of the nodes. The copy differs in ways that often or
/// always leave the behaviour alone: parts change sides, threads their order, an ask gets an
/// alternative that it absorbs, a node is doubled by an either, a stop stands beside a node. Sometimes
/// one set or one node is changed, so that the two nearly agree.
pub fn alike_pair(shape: &Shape, rng: &mut Rng) -> Draft {
    let mut draft = draw(&half(shape), rng);
    let copies = copy_nodes(&mut draft, rng);
    let (store, threads) = draft.starts[0].clone();
    let mut threads: Vec<u8> = threads.iter().map(|&thread| copies[thread as usize] as u8).collect();
    rng.shuffle(&mut threads);
    draft.starts[1] = (store, threads);
    draft
}

/// A sheet with variants of a start: one or two starts as drawn, and each of the others made from one
/// before it: the same start, its threads at another store, a thread less or more, or copies of its nodes
/// as in `alike_pair`. Threads and starts stand in any order.
pub fn variants(shape: &Shape, rng: &mut Rng) -> Draft {
    let mut draft = draw(&half(shape), rng);
    let copies = copy_nodes(&mut draft, rng);
    let opened = draft.opened();
    let count = draft.starts.len();
    draft.starts.truncate(1 + rng.below(2));
    while draft.starts.len() < count {
        let (mut store, mut threads) = draft.starts[rng.below(draft.starts.len())].clone();
        match rng.below(8) {
            0 => {}
            1 => store = rng.set(draft.facts, 2),
            2 => drop(threads.pop()),
            3 => add_thread(&mut threads, &opened, rng),
            _ => put_copies(&mut threads, &copies, rng),
        }
        rng.shuffle(&mut threads);
        draft.starts.push((store, threads));
    }
    rng.shuffle(&mut draft.starts);
    draft
}

/// One thread more, where it is not too many; beside each node stands how many threads it opens to.
fn add_thread(threads: &mut Vec<u8>, opened: &[usize], rng: &mut Rng) {
    let node = rng.below(opened.len());
    let total: usize = threads.iter().map(|&thread| opened[thread as usize]).sum();
    if threads.len() < 8 && total + opened[node] <= 8 {
        threads.push(node as u8);
    }
}

/// Copies in the place of most nodes that have one.
fn put_copies(threads: &mut [u8], copies: &[u16], rng: &mut Rng) {
    for thread in threads {
        match copies.get(*thread as usize) {
            Some(&copy) if rng.percent(80) => *thread = copy as u8,
            _ => {}
        }
    }
}

/// The shape with room for a copy of the nodes.
fn half(shape: &Shape) -> Shape {
    Shape { nodes: (shape.nodes.0.min(20), shape.nodes.1.min(20)), ..shape.clone() }
}

/// Writes a copy of every node down, and gives the numbers of the copies.
fn copy_nodes(draft: &mut Draft, rng: &mut Rng) -> Vec<u16> {
    let own = draft.nodes.clone();
    let changes = rng.below(3);
    let changed: Vec<usize> = (0..changes).map(|_| rng.below(own.len())).collect();
    let mut copies: Vec<u16> = vec![];
    for (i, &node) in own.iter().enumerate() {
        let node = match node {
            (BOTH | EITHER, p, q) => {
                let (p, q) = (copies[p as usize], copies[q as usize]);
                let turned = rng.percent(50);
                (node.0, if turned { q } else { p }, if turned { p } else { q })
            }
            node => node,
        };
        let node = if changed.contains(&i) && rng.percent(40) { change(node, draft.facts, rng) } else { node };
        copies.push(copy(node, draft, rng));
    }
    // Asks name copies; those of nodes further on are known only now.
    for i in own.len()..draft.nodes.len() {
        if let (ASK, set, next) = draft.nodes[i] {
            draft.nodes[i] = (ASK, set, if rng.percent(90) { copies[next as usize] } else { next });
        }
    }
    copies
}

/// Another node of the same kind, or of another kind with the same fields.
fn change((kind, first, second): (u8, u16, u16), facts: usize, rng: &mut Rng) -> (u8, u16, u16) {
    match kind {
        TELL | ASK if facts > 0 => (kind, first ^ 1 << rng.below(facts), second),
        BOTH => (EITHER, first, second),
        _ => (kind, first, second),
    }
}

/// Writes a node down, sometimes in a longer way, and gives its number.
fn copy((kind, first, second): (u8, u16, u16), draft: &mut Draft, rng: &mut Rng) -> u16 {
    let node = draft.push(kind, first, second);
    if draft.nodes.len() > 58 || !rng.percent(25) {
        return node;
    }
    match rng.below(3) {
        0 if kind == ASK => {
            let higher = first | rng.set(draft.facts, 2);
            let absorbed = draft.push(ASK, higher, second);
            draft.push(EITHER, node, absorbed)
        }
        1 if kind != STOP && kind != BOTH => draft.push(EITHER, node, node),
        _ => {
            let stop = draft.push(STOP, 0, 0);
            draft.push(BOTH, node, stop)
        }
    }
}
