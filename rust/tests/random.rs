//! The library held to the reference on random sheets of many shapes.

mod common;

use common::Harness;
use sheets::{alike_pair, draw, Rng, SHAPES};

/// Of each shape this many sheets: 208,000 in all, a third of them alike pairs.
const EACH: usize = 16_000;

#[test]
fn sheets_of_every_shape() {
    let mut harness = Harness::new(11);
    for shape in &SHAPES {
        let mut rng = Rng::new(100);
        for i in 0..EACH {
            let draft = if i % 3 == 2 { alike_pair(shape, &mut rng) } else { draw(shape, &mut rng) };
            let starts = draft.starts.len();
            let (left, right) = if i % 3 == 2 { (0, 1) } else { (rng.below(starts), rng.below(starts)) };
            let bytes = draft.bytes();
            if i % 50 == 0 {
                harness.compare_with_all_lengths(&bytes, (left, right));
            } else {
                harness.compare(&bytes, (left, right));
            }
        }
    }
    println!("{} sheets, {} reports, {} too large", harness.total(), harness.seen[0], harness.seen[21]);
    assert_eq!(harness.total(), harness.seen[0] + harness.seen[21], "every drawn sheet is well formed");
    assert!(harness.total() >= 200_000);
    assert!(harness.seen[0] > 160_000);
}
