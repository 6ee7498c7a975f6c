//! This program's own ways to the best counts agree, and the yardstick agrees with them.

use second::best::{best_counts, by_assignment, by_trying_all, choices, counts_of};
use second::campaign;
use second::codec::{block_of, open, pack_answer, pack_table, unpack_answer, Answer};
use second::comparer::{judge_answer, Comparer};
use second::rng::Rng;
use second::shapes::{any, every_tiny_table, Shape, Size, SHAPES};
use second::standin::StandIn;
use second::steps::WORK_NUMBERS;
use second::yardstick;
use std::time::Duration;

const MOST_CHOICES: usize = 50_000;

#[test]
fn assigning_agrees_with_trying_all_plans() {
    let mut rng = Rng::new(11);
    let mut compared = 0;
    while compared < 3_000 {
        let (name, table) = any(&mut rng);
        if choices(&table, MOST_CHOICES) < MOST_CHOICES {
            assert_eq!(best_counts(&table), by_trying_all(&table).counts, "{name} {table:?}");
            compared += 1;
        }
    }
}

#[test]
fn assigning_agrees_with_trying_all_plans_on_every_tiny_table() {
    for table in every_tiny_table(20_000) {
        assert_eq!(best_counts(&table), by_trying_all(&table).counts, "{table:?}");
    }
}

#[test]
fn the_assignment_is_a_plan_of_the_table() {
    let mut rng = Rng::new(12);
    for _ in 0..300 {
        let (_, table) = any(&mut rng);
        let places = by_assignment(&table);
        let counts = counts_of(&places, table.ranks);
        let answer = Answer { counts: counts.clone(), places };
        assert_eq!(judge_answer(&table, &answer, &counts), Ok(()));
        assert_eq!(unpack_answer(&pack_answer(&answer)), Ok(answer));
    }
}

#[test]
fn the_yardstick_finds_the_best_counts_at_full_size() {
    let mut work = vec![0; WORK_NUMBERS];
    for (seed, shape) in (0..).zip(SHAPES.iter().cycle().take(5 * SHAPES.len())) {
        let ranks = [1, 3, 15][seed % 3];
        let table = shape.table(&mut Rng::new(seed as u64), &Size { ranks, ..Size::FULL });
        let mut area = [0; 322];
        let length =
            yardstick::handle(&block_of(&pack_table(&table)), &mut area, &mut work).unwrap();
        let answer = unpack_answer(&area[open(&area[..length]).unwrap()]).unwrap();
        assert_eq!(judge_answer(&table, &answer, &best_counts(&table)), Ok(()), "{}", shape.name);
    }
}

#[test]
fn the_stand_in_passes_a_short_campaign() {
    let mut comparer = Comparer::new(&StandIn);
    let outcome = campaign::run(&mut comparer, &[5, 6], Duration::from_secs(4));
    assert!(outcome.is_ok(), "{}", outcome.unwrap_err());
    let handled = comparer.tally.numbers["handle"];
    assert!(handled.iter().all(|&times| times > 0), "every number came out: {handled:?}");
}

#[test]
fn every_shape_is_found_by_its_name() {
    for shape in SHAPES {
        assert_eq!(Shape::named(shape.name).name, shape.name);
    }
}

/// It is printed where a step hangs or ends its process, and must be enough to do it again.
#[test]
fn what_is_being_compared_is_told_in_full() {
    let mut comparer = Comparer::new(&StandIn);
    let told = |comparer: &Comparer| comparer.current.lock().expect("nobody fails").to_string();
    comparer.compare(&[1, 2], &[3]).expect("the stand-in is faultless");
    assert_eq!(told(&comparer), "input (2 bytes) 01 02\nsecond line (1 bytes) 03");
    comparer.frame(&[7], 9).expect("the stand-in is faultless");
    assert_eq!(told(&comparer), "input (1 bytes) 07\narea of 9 bytes");
    comparer.handle(b"#", 5, 6).expect("the stand-in is faultless");
    assert_eq!(told(&comparer), "input (1 bytes) 23\narea of 5 bytes, work area of 6 numbers");
    comparer.open(b"#").expect("the stand-in is faultless");
    assert_eq!(told(&comparer), "input (1 bytes) 23");
}
