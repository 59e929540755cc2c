//! Threads that share an instance by cubes, each with a solver of its own, find what one solver finds.

use pbcube::{Answer, Error, Relation, Solver, Status};
use std::thread;

const ITEMS: i32 = 24;
const CUBES: [[i32; 2]; 3] = [[1, 2], [1, -2], [-1, 2]];

/// The answer of a solver that is told the instance and some clauses.
fn answer(clauses: &[Vec<i32>]) -> Result<Answer, Error> {
    let costs: Vec<_> = (1..=ITEMS).map(|item| (i64::from(7 + item * 13 % 11), item)).collect();
    let weights: Vec<_> = (1..=ITEMS).map(|item| (i64::from(5 + item * 7 % 9), item)).collect();
    let mut solver = Solver::new()?;
    solver.minimise(&costs)?.add(&weights, Relation::AtLeast, 80)?;
    for clause in clauses {
        solver.clause(clause)?;
    }
    // It may go to another thread between calls.
    thread::spawn(move || solver.solve(None)).join().unwrap()
}

/// A cube's literals as clauses, for each cube, and the negations of all cubes.
fn pieces() -> Vec<Vec<Vec<i32>>> {
    let units = CUBES.iter().map(|cube| cube.iter().map(|&literal| vec![literal]).collect());
    let remainder = CUBES.iter().map(|cube| cube.iter().map(|literal| -literal).collect()).collect();
    units.chain([remainder]).collect()
}

#[test]
fn the_first_of_the_pieces_is_that_of_the_whole() {
    let running: Vec<_> = pieces().into_iter().map(|clauses| thread::spawn(move || answer(&clauses))).collect();
    let answers = running.into_iter().map(|thread| thread.join().unwrap().unwrap());
    let first = answers.filter(|answer| answer.status == Status::Optimum).min_by_key(|answer| (answer.cost, answer.values.clone()));
    assert_eq!(first, Some(answer(&[]).unwrap()));
}
