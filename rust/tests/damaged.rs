//! The library held to the reference on damaged bytes and on any start numbers.

mod common;

use common::Harness;
use sheets::{damage, draw, Rng, SHAPES};

const SHEETS: usize = 30_000;

#[test]
fn damaged_sheets() {
    let mut harness = Harness::new(12);
    let mut rng = Rng::new(200);
    for i in 0..SHEETS {
        let mut bytes = draw(&SHAPES[i % SHAPES.len()], &mut rng).bytes();
        damage(&mut bytes, &mut rng);
        if i % 20 == 0 {
            harness.compare_with_all_lengths(&bytes, (rng.below(2), rng.below(2)));
        } else {
            harness.compare(&bytes, (rng.below(2), rng.below(2)));
        }
    }
    println!("{:?}", harness.seen);
    for number in [0, 1, 2, 3, 4, 5, 7, 8, 9, 10, 11, 12, 13, 21] {
        assert!(harness.seen[number] > 0, "{number} was not seen");
    }
    assert_eq!(harness.seen[6], 0);
}

#[test]
fn every_cut_and_every_byte_of_a_sheet() {
    let mut harness = Harness::new(13);
    let mut rng = Rng::new(201);
    let bytes = draw(&SHAPES[2], &mut rng).bytes();
    for end in 0..bytes.len() {
        assert_eq!(harness.compare(&bytes[..end], (0, 1)), (1, [0, 0, 0, 0, 0, end]));
    }
    for at in 0..bytes.len() {
        for value in 0..=255 {
            let mut changed = bytes.clone();
            changed[at] = value;
            harness.compare(&changed, (0, 1));
        }
    }
}

#[test]
fn random_bytes() {
    let mut harness = Harness::new(14);
    let mut rng = Rng::new(202);
    for _ in 0..5_000 {
        let length = rng.below(40);
        let high = rng.pick(&[3, 6, 256]);
        let bytes: Vec<u8> = (0..length).map(|_| rng.below(high) as u8).collect();
        harness.compare(&bytes, (rng.below(3), rng.below(3)));
    }
    for length in [724, 725, 1_000, 100_000] {
        harness.compare(&vec![0; length], (0, 1));
        harness.compare(&vec![32; length], (0, 1));
    }
}

#[test]
fn any_start_numbers() {
    let mut harness = Harness::new(15);
    let mut rng = Rng::new(203);
    let numbers = [0, 1, 2, 3, 7, 8, 15, 16, 17, 255, 256, 65_536, 1 << 32, usize::MAX];
    for i in 0..2_000 {
        let draft = draw(&SHAPES[i % SHAPES.len()], &mut rng);
        let (left, right) = (rng.pick(&numbers), rng.pick(&numbers));
        let returned = harness.compare(&draft.bytes(), (left, right));
        let starts = draft.starts.len();
        if left >= starts {
            assert_eq!(returned, (14, [0; 6]));
        } else if right >= starts {
            assert_eq!(returned, (14, [0, 0, 0, 0, 0, 1]));
        } else {
            assert_ne!(returned.0, 14);
        }
    }
}
