use crate::{Draft, ASK, BOTH, EITHER, STOP, TELL};

/// Sheet K of document 01 with these starts.
pub fn sheet_k(starts: &[(u16, &[u8])]) -> Draft {
    let nodes = vec![
        (STOP, 0, 0),
        (TELL, 0, 0),
        (ASK, 1, 1),
        (ASK, 2, 1),
        (EITHER, 2, 3),
        (TELL, 4, 0),
        (ASK, 2, 5),
        (EITHER, 2, 6),
        (BOTH, 1, 1),
    ];
    let starts = starts.iter().map(|(store, threads)| (*store, threads.to_vec())).collect();
    Draft { facts: 3, rules: vec![(2, 1)], nodes, starts }
}

/// One chain of asks through all 64 nodes, against the same chain one ask shorter: 64 members, 63 rounds.
pub fn deepest_chain() -> Draft {
    let mut draft = Draft { nodes: vec![(STOP, 0, 0)], ..Draft::default() };
    let first = draft.chain(63, 0, 0);
    draft.starts = vec![(0, vec![first]), (0, vec![first - 1])];
    draft
}

/// Six facts and a tell of each, all six on the left: a member for each set of facts that are told.
/// These are 64 members with 192 moves.
pub fn six_tells(right: Vec<u8>) -> Draft {
    let nodes = (0..6).map(|fact| (TELL, 1 << fact, 0)).collect();
    Draft { facts: 6, rules: vec![], nodes, starts: vec![(0, (0..6).collect()), (0, right)] }
}

/// On the left two threads on a ladder of ten rungs, each of which leads to itself and to every lower
/// one: 55 members with 505 moves. On the right a chain of seven asks, 8 members with 7 moves; where its
/// end asks nothing for ever in place of stopping, there is one move more.
pub fn ladder_and_chain(for_ever: bool) -> Draft {
    let mut draft = Draft { nodes: vec![(ASK, 0, 0)], ..Draft::default() };
    let mut rung = 0;
    for _ in 1..10 {
        let ask = draft.push(ASK, 0, 0);
        rung = draft.push(EITHER, rung, ask);
        draft.nodes[ask as usize].2 = rung;
    }
    let end = draft.push(STOP, 0, 0);
    if for_ever {
        draft.nodes[end as usize] = (ASK, 0, end);
    }
    let first = draft.chain(7, 0, end);
    draft.starts = vec![(0, vec![rung as u8, rung as u8]), (0, vec![first])];
    draft
}
