//! Questions under literals that are to be true.

use crate::{checked, status, sys, Answer, Error, Solver};

/// Why nothing is feasible under literals.
#[derive(Clone, Debug, PartialEq, Eq)]
pub enum Explanation {
    /// Some assignment is feasible under them.
    Feasible,
    /// No assignment is, and these of them are enough for that.
    Core {
        /// The literals.
        literals: Vec<i32>,
        /// Whether something is feasible once any one of them is left out. If not, the budget ended before that was known.
        is_minimal: bool,
    },
    /// The budget ended before it was known.
    Unknown,
}

/// The assignments that are asked about.
#[derive(Clone, Copy, Debug, PartialEq, Eq)]
pub enum Among {
    /// All that are feasible under the literals.
    Feasible = 0,
    /// Those of them that cost least.
    Least = 1,
}

/// What is known of a variable.
#[derive(Clone, Copy, Debug, PartialEq, Eq)]
pub enum VariableStatus {
    /// It is false in each of the assignments.
    False,
    /// It is true in each of them.
    True,
    /// It is true in one of them, and false in another.
    Free,
    /// The budget ended before it was known.
    Unknown,
}

impl VariableStatus {
    fn of(byte: u8) -> VariableStatus {
        match byte {
            0 => VariableStatus::False,
            1 => VariableStatus::True,
            2 => VariableStatus::Free,
            _ => VariableStatus::Unknown,
        }
    }
}

/// Which variables have one value in all assignments that are asked about.
#[derive(Clone, Debug, PartialEq, Eq)]
pub enum Fixed {
    /// Nothing is feasible under the literals.
    Infeasible,
    /// What is known of each variable, from 1 on.
    Variables(Vec<VariableStatus>),
}

impl Solver {
    /// Searches for the least of the assignments that make the literals true, with at most `decisions` decisions where they are
    /// given.
    ///
    /// ```
    /// # use pbcube::{Error, Solver, Status};
    /// let mut solver = Solver::new()?;
    /// solver.minimise(&[(3, 1), (2, 2)])?.clause(&[1, 2])?;
    /// assert_eq!(solver.solve_under(&[-2], None)?.cost, Some(3));
    /// assert_eq!(solver.solve_under(&[-1, -2], None)?.status, Status::Unsatisfiable);
    /// assert_eq!(solver.solve(None)?.cost, Some(2));
    /// # Ok::<(), Error>(())
    /// ```
    pub fn solve_under(&mut self, literals: &[i32], decisions: Option<u64>) -> Result<Answer, Error> {
        let decisions = decisions.unwrap_or(u64::MAX);
        // SAFETY: the solver is ours, and the slice lives through the call.
        let code = unsafe { sys::pbcube_solve_under(self.pointer.as_ptr(), literals.as_ptr(), literals.len(), decisions) };
        self.answer(status(code)?)
    }

    /// Suggests a value for each variable, which searches try first. Only the answer of a search that is cut depends on it.
    pub fn suggest(&mut self, values: &[bool]) -> Result<&mut Solver, Error> {
        // SAFETY: as before; a `bool` is a byte, 0 or 1.
        checked(unsafe { sys::pbcube_suggest(self.pointer.as_ptr(), values.as_ptr().cast(), values.len()) })?;
        Ok(self)
    }

    /// Of literals under which nothing is feasible, tells some that are enough for that. What was found before stays.
    ///
    /// ```
    /// # use pbcube::{Error, Explanation, Solver};
    /// let mut solver = Solver::new()?;
    /// solver.clause(&[1, 2])?.clause(&[3, 4])?;
    /// let core = Explanation::Core { literals: vec![-1, -2], is_minimal: true };
    /// assert_eq!(solver.explain(&[-3, -1, -2], None)?, core);
    /// # Ok::<(), Error>(())
    /// ```
    pub fn explain(&mut self, literals: &[i32], decisions: Option<u64>) -> Result<Explanation, Error> {
        let (mut core, mut count, decisions) = (vec![0; literals.len()], 0, decisions.unwrap_or(u64::MAX));
        // SAFETY: as before; the core has room for as many literals.
        let code = checked(unsafe {
            let (solver, room) = (self.pointer.as_ptr(), core.as_mut_ptr());
            sys::pbcube_explain(solver, literals.as_ptr(), literals.len(), decisions, room, &mut count)
        })?;
        core.truncate(count);
        match code {
            1 => Ok(Explanation::Unknown),
            10 => Ok(Explanation::Feasible),
            20 | 21 => Ok(Explanation::Core { literals: core, is_minimal: code == 20 }),
            other => Err(Error::Unknown(other)),
        }
    }

    /// Tells which variables have one value in all assignments that are asked about. What was found before stays.
    ///
    /// ```
    /// # use pbcube::{Among, Error, Fixed, Solver, VariableStatus::{False, Free, True}};
    /// let mut solver = Solver::new()?;
    /// solver.minimise(&[(3, 1), (2, 2)])?.clause(&[1, 2])?;
    /// assert_eq!(solver.fixed(&[], Among::Feasible, None)?, Fixed::Variables(vec![Free, Free]));
    /// assert_eq!(solver.fixed(&[], Among::Least, None)?, Fixed::Variables(vec![False, True]));
    /// # Ok::<(), Error>(())
    /// ```
    pub fn fixed(&mut self, literals: &[i32], among: Among, decisions: Option<u64>) -> Result<Fixed, Error> {
        let (mut statuses, decisions) = (vec![3; self.variables() as usize], decisions.unwrap_or(u64::MAX));
        // SAFETY: as before; the statuses are as many bytes as are told.
        let code = checked(unsafe {
            let (solver, room) = (self.pointer.as_ptr(), statuses.as_mut_ptr());
            sys::pbcube_fixed(solver, literals.as_ptr(), literals.len(), among as i32, decisions, room, statuses.len())
        })?;
        match code {
            1 | 10 => Ok(Fixed::Variables(statuses.into_iter().map(VariableStatus::of).collect())),
            20 => Ok(Fixed::Infeasible),
            other => Err(Error::Unknown(other)),
        }
    }
}
