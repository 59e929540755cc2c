//! A verification query: does a circuit of gates add as numbers do? The circuit is told as clauses, what it should do as sums,
//! and the solver looks for the least pair of numbers on which the two differ.
//!
//! ```text
//! bindings/c/build && cargo run --manifest-path bindings/rust/Cargo.toml --example adder
//! ```

use pbcube::{Error, Relation, Solver, Status};

const BITS: usize = 6;

/// A circuit so far: the solver that is told of it, and how many wires it has. A negated wire is its negative.
struct Circuit {
    solver: Solver,
    wires: i32,
}

impl Circuit {
    fn wire(&mut self) -> i32 {
        self.wires += 1;
        self.wires
    }

    fn and(&mut self, a: i32, b: i32) -> Result<i32, Error> {
        let output = self.wire();
        self.solver.clause(&[-output, a])?.clause(&[-output, b])?.clause(&[output, -a, -b])?;
        Ok(output)
    }

    fn or(&mut self, a: i32, b: i32) -> Result<i32, Error> {
        Ok(-self.and(-a, -b)?)
    }

    fn xor(&mut self, a: i32, b: i32) -> Result<i32, Error> {
        let (either, both) = (self.or(a, b)?, self.and(a, b)?);
        self.and(either, -both)
    }
}

/// The terms of a number's value times a factor, the first bit being worth 1.
fn value(bits: &[i32], factor: i64) -> impl Iterator<Item = (i64, i32)> + '_ {
    bits.iter().enumerate().map(move |(place, &bit)| (factor << place, bit))
}

/// The least sum that the circuit gets wrong, as more than it is or as less, if it gets one wrong. It may lack a carry.
fn fault(is_more: bool, lost_carry: Option<usize>) -> Result<Option<i128>, Error> {
    let mut circuit = Circuit { solver: Solver::new()?, wires: 0 };
    let a: Vec<i32> = (0..BITS).map(|_| circuit.wire()).collect();
    let b: Vec<i32> = (0..BITS).map(|_| circuit.wire()).collect();
    let (mut sum, mut carry) = (Vec::new(), circuit.and(a[0], -a[0])?);
    for place in 0..BITS {
        let differ = circuit.xor(a[place], b[place])?;
        sum.push(circuit.xor(differ, carry)?);
        let (made, passed) = (circuit.and(a[place], b[place])?, circuit.and(differ, carry)?);
        carry = if lost_carry == Some(place) { made } else { circuit.or(made, passed)? };
    }
    sum.push(carry);
    let numbers: Vec<_> = value(&a, 1).chain(value(&b, 1)).collect();
    let sign = if is_more { 1 } else { -1 };
    let error: Vec<_> = value(&sum, sign).chain(value(&a, -sign)).chain(value(&b, -sign)).collect();
    let answer = circuit.solver.minimise(&numbers)?.add(&error, Relation::AtLeast, 1)?.solve(None)?;
    Ok(answer.cost.filter(|_| answer.status == Status::Optimum))
}

fn main() -> Result<(), Error> {
    for lost_carry in [None, Some(3)] {
        match fault(true, lost_carry)?.into_iter().chain(fault(false, lost_carry)?).min() {
            None => println!("the circuit adds all numbers of {BITS} bits"),
            Some(sum) => println!("a circuit that loses a carry gets the sum {sum} wrong, and no lesser one"),
        }
    }
    Ok(())
}
