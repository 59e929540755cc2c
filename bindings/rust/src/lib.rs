//! A pseudo-Boolean optimiser whose answer is proved.
//!
//! ```
//! use pbcube::{Relation, Solver, Status};
//!
//! # fn main() -> Result<(), pbcube::Error> {
//! let mut solver = Solver::new()?;
//! solver.minimise(&[(3, 1), (2, 2)])?;
//! solver.add(&[(1, 1), (1, 2)], Relation::AtLeast, 1)?;
//! let answer = solver.solve(None)?;
//! assert_eq!(answer.status, Status::Optimum);
//! assert_eq!(answer.cost, Some(2));
//! assert_eq!(answer.values, Some(vec![false, true]));
//! # Ok(())
//! # }
//! ```
//!
//! A literal is `n` for variable n and `-n` for its negation, which is worth 1 where the variable is false; n is from 1 to
//! 1048576. Among the assignments of the least cost the answer is the first one: at the first variable where two differ, the
//! one with false comes first.
//!
//! A solver may be asked question after question, under literals that are to be true ([`Solver::solve_under`]), also why there is
//! no answer ([`Solver::explain`]) and which variables have one value ([`Solver::fixed`]). It keeps its search from one to the
//! next, until something is added.
#![warn(missing_docs)]

mod questions;
mod sys;

pub use questions::{Among, Explanation, Fixed, VariableStatus};

use std::fmt;
use std::ptr::{null_mut, NonNull};

/// The relation between the sum of a constraint's terms and its bound.
#[derive(Clone, Copy, Debug, PartialEq, Eq)]
pub enum Relation {
    /// `>=`
    AtLeast = 0,
    /// `<=`
    AtMost = 1,
    /// `=`
    Equal = 2,
}

/// The format of a text.
#[derive(Clone, Copy, Debug, PartialEq, Eq)]
pub enum Format {
    /// The linear format of the Pseudo-Boolean Competition.
    Opb = 0,
    /// DIMACS CNF.
    Cnf = 1,
    /// Clauses and then lines of cubes.
    Icnf = 2,
}

/// The hint that the program pbcube gives where it refuses a text: which word or which rule is likely the one to correct, and what to
/// write. There may be none, and of a text that is not refused there is none.
///
/// ```
/// # use pbcube::{hint, Format};
/// let told = hint(Format::Opb, b"1 x1 == 1 ;\n");
/// assert_eq!(told.as_deref(), Some("line 1, column 6: '==': write ="));
/// assert_eq!(hint(Format::Opb, b"1 x1 = 1 ;\n"), None);
/// ```
pub fn hint(format: Format, text: &[u8]) -> Option<String> {
    let write = |room: *mut std::ffi::c_char, size| {
        // SAFETY: the slice lives through the call, which writes as much as there is room.
        unsafe { sys::pbcube_hint(format as i32, text.as_ptr().cast(), text.len(), room, size) }
    };
    let mut bytes = vec![0_u8; write(null_mut(), 0)];
    let length = write(bytes.as_mut_ptr().cast(), bytes.len());
    bytes.truncate(length); // which is 0 where memory is refused
    (!bytes.is_empty()).then(|| String::from_utf8_lossy(&bytes).into_owned())
}

/// What a search found.
#[derive(Clone, Copy, Debug, PartialEq, Eq)]
pub enum Status {
    /// It was cut by its budget, and found nothing.
    Unknown,
    /// There is no objective, and the first feasible assignment was found.
    Satisfiable,
    /// It was cut by its budget; what was found is feasible, and may not be the least.
    Found,
    /// No assignment is feasible.
    Unsatisfiable,
    /// The least assignment was found.
    Optimum,
    /// The text was refused; its report says why, and at which line.
    Unsupported,
}

/// Why a call changed nothing.
#[derive(Clone, Copy, Debug, PartialEq, Eq)]
pub enum Error {
    /// A variable is not from 1 to 1048576.
    BadVariable,
    /// The absolute numbers of a statement add up to more than 2^126 - 1.
    TooLarge,
    /// There would be more constraints or terms than the limit.
    TooMany,
    /// Memory was refused.
    Memory,
    /// A suggestion does not have one value for each variable.
    BadLength,
    /// The library answered a number that this crate does not know.
    Unknown(i32),
}

impl fmt::Display for Error {
    fn fmt(&self, f: &mut fmt::Formatter<'_>) -> fmt::Result {
        match self {
            Error::BadVariable => f.write_str("a variable is out of range"),
            Error::TooLarge => f.write_str("a sum of coefficients is too large"),
            Error::TooMany => f.write_str("there are too many constraints or terms"),
            Error::Memory => f.write_str("out of memory"),
            Error::BadLength => f.write_str("there is not one value for each variable"),
            Error::Unknown(number) => write!(f, "the library answered {number}"),
        }
    }
}

impl std::error::Error for Error {}

fn checked(code: i32) -> Result<i32, Error> {
    match code {
        0.. => Ok(code),
        -1 => Err(Error::BadVariable),
        -2 => Err(Error::TooLarge),
        -3 => Err(Error::TooMany),
        -4 => Err(Error::Memory),
        -11 => Err(Error::BadLength),
        other => Err(Error::Unknown(other)),
    }
}

fn status(code: i32) -> Result<Status, Error> {
    match checked(code)? {
        1 => Ok(Status::Unknown),
        10 => Ok(Status::Satisfiable),
        11 => Ok(Status::Found),
        20 => Ok(Status::Unsatisfiable),
        30 => Ok(Status::Optimum),
        40 => Ok(Status::Unsupported),
        other => Err(Error::Unknown(other)),
    }
}

/// The answer to what a solver was told.
#[derive(Clone, Debug, PartialEq, Eq)]
pub struct Answer {
    /// What the search found.
    pub status: Status,
    /// The cost, where something was found: 0 without an objective.
    pub cost: Option<i128>,
    /// The values of the variables from 1 on, where something was found.
    pub values: Option<Vec<bool>>,
}

/// The report of a text.
#[derive(Clone, Debug, PartialEq, Eq)]
pub struct Report {
    /// What the search found, or that the text was refused.
    pub status: Status,
    /// What the program `pbcube` prints of a file of this text.
    pub text: String,
}

/// A solver that is told its rules one by one. It may go to another thread.
#[derive(Debug)]
pub struct Solver {
    pointer: NonNull<sys::Raw>,
}

// SAFETY: the library keeps nothing outside the solver's own memory, and starts no thread; a call takes `&mut self`.
unsafe impl Send for Solver {}

impl Solver {
    /// A solver that was told nothing. Fails where memory is refused.
    pub fn new() -> Result<Solver, Error> {
        // SAFETY: the call takes nothing.
        let pointer = NonNull::new(unsafe { sys::pbcube_new() }).ok_or(Error::Memory)?;
        Ok(Solver { pointer })
    }

    /// Makes the sum of coefficients times literals what is to be least, in place of an earlier one.
    pub fn minimise(&mut self, terms: &[(i64, i32)]) -> Result<&mut Solver, Error> {
        // SAFETY: `tell` hands over our own solver.
        let end = |pointer| unsafe { sys::pbcube_end_objective(pointer) };
        self.tell(terms, end)
    }

    /// Adds the constraint that the sum is in this relation to the bound.
    ///
    /// ```
    /// # use pbcube::{Error, Relation, Solver};
    /// let mut solver = Solver::new()?;
    /// assert_eq!(solver.add(&[(1, 0)], Relation::Equal, 1).err(), Some(Error::BadVariable));
    /// # Ok::<(), Error>(())
    /// ```
    pub fn add(&mut self, terms: &[(i64, i32)], relation: Relation, bound: i64) -> Result<&mut Solver, Error> {
        // SAFETY: `tell` hands over our own solver.
        let end = |pointer| unsafe { sys::pbcube_end(pointer, relation as i32, bound) };
        self.tell(terms, end)
    }

    /// Adds that at least one of the literals is true.
    pub fn clause(&mut self, literals: &[i32]) -> Result<&mut Solver, Error> {
        // SAFETY: the solver is ours, and the slice lives through the call.
        checked(unsafe { sys::pbcube_clause(self.pointer.as_ptr(), literals.as_ptr(), literals.len()) })?;
        Ok(self)
    }

    fn tell(&mut self, terms: &[(i64, i32)], end: impl Fn(*mut sys::Raw) -> i32) -> Result<&mut Solver, Error> {
        let pointer = self.pointer.as_ptr();
        // SAFETY: the solver is ours.
        let add = |&(coefficient, literal): &(i64, i32)| checked(unsafe { sys::pbcube_term(pointer, coefficient, literal) });
        let told = terms.iter().try_for_each(|term| add(term).map(|_| ())).and_then(|()| checked(end(pointer)));
        // SAFETY: as before. Terms of a sum that was refused are forgotten.
        unsafe { sys::pbcube_discard(pointer) };
        told.map(|_| self)
    }

    /// Searches for the least assignment, with at most `decisions` decisions where they are given.
    pub fn solve(&mut self, decisions: Option<u64>) -> Result<Answer, Error> {
        // SAFETY: the solver is ours.
        let code = unsafe { sys::pbcube_solve(self.pointer.as_ptr(), decisions.unwrap_or(u64::MAX)) };
        self.answer(status(code)?)
    }

    fn answer(&mut self, status: Status) -> Result<Answer, Error> {
        let pointer = self.pointer.as_ptr();
        if matches!(status, Status::Unknown | Status::Unsatisfiable) {
            return Ok(Answer { status, cost: None, values: None });
        }
        // SAFETY: the solver is ours.
        let value = |variable| unsafe { sys::pbcube_value(pointer, variable) } == 1;
        let values = (1..=self.variables()).map(value).collect();
        let cost = self.text(sys::pbcube_cost_text).parse().ok();
        Ok(Answer { status, cost, values: Some(values) })
    }

    /// How many variables there are: the greatest one that a statement names.
    pub fn variables(&mut self) -> u32 {
        // SAFETY: the solver is ours.
        unsafe { sys::pbcube_variables(self.pointer.as_ptr()) }
    }

    /// Solves a text by itself, apart from what the solver was told. Fails where memory is refused.
    ///
    /// ```
    /// # use pbcube::{Error, Format, Solver, Status};
    /// let report = Solver::new()?.run(Format::Cnf, b"p cnf 2 1\n1 2 0\n", None)?;
    /// assert_eq!(report.text, "s SATISFIABLE\nv -1 2 0\n");
    /// let report = Solver::new()?.run(Format::Opb, b"1 x1 x2 >= 1 ;\n", None)?;
    /// assert_eq!(report.status, Status::Unsupported);
    /// assert!(report.text.starts_with("c refused: NonLinear at line 1"));
    /// # Ok::<(), Error>(())
    /// ```
    pub fn run(&mut self, format: Format, text: &[u8], decisions: Option<u64>) -> Result<Report, Error> {
        let decisions = decisions.unwrap_or(u64::MAX);
        // SAFETY: the solver is ours, and the slice lives through the call.
        let code = unsafe { sys::pbcube_run(self.pointer.as_ptr(), format as i32, text.as_ptr().cast(), text.len(), decisions) };
        let status = status(code)?;
        let text = self.text(sys::pbcube_report);
        if status == Status::Unknown && text.starts_with("c refused: Memory") {
            return Err(Error::Memory);
        }
        Ok(Report { status, text })
    }

    fn text(&mut self, write: unsafe extern "C" fn(*mut sys::Raw, *mut std::ffi::c_char, usize) -> usize) -> String {
        let pointer = self.pointer.as_ptr();
        // SAFETY: the solver is ours; the first call writes nothing, and the second as much as there is room.
        let mut bytes = vec![0_u8; unsafe { write(pointer, null_mut(), 0) }];
        unsafe { write(pointer, bytes.as_mut_ptr().cast(), bytes.len()) };
        String::from_utf8_lossy(&bytes).into_owned()
    }
}

impl Drop for Solver {
    fn drop(&mut self) {
        // SAFETY: the solver is ours, and is not used again.
        unsafe { sys::pbcube_free(self.pointer.as_ptr()) };
    }
}
