//! Questions between statements, with budgets, and what is refused.

use pbcube::{Among, Error, Explanation, Fixed, Relation, Solver, Status, VariableStatus};

/// Costs 3 and 2, and at least one of the two; of two further variables at least one.
fn pairs() -> Result<Solver, Error> {
    let mut solver = Solver::new()?;
    solver.minimise(&[(3, 1), (2, 2)])?.clause(&[1, 2])?.clause(&[3, 4])?;
    Ok(solver)
}

#[test]
fn statements_follow_questions() -> Result<(), Error> {
    let mut solver = pairs()?;
    assert_eq!(solver.solve(None)?.cost, Some(2));
    solver.add(&[(1, 2), (1, 3)], Relation::AtMost, 0)?;
    assert_eq!(solver.solve(None)?.values, Some(vec![true, false, false, true]));
    assert_eq!(solver.explain(&[4, -1], None)?, Explanation::Core { literals: vec![-1], is_minimal: true });
    solver.clause(&[-1])?;
    assert_eq!(solver.fixed(&[], Among::Feasible, None)?, Fixed::Infeasible);
    assert_eq!(solver.explain(&[4], None)?, Explanation::Core { literals: vec![], is_minimal: true });
    Ok(())
}

#[test]
fn a_suggestion_is_what_a_cut_search_finds() -> Result<(), Error> {
    let mut solver = pairs()?;
    assert_eq!(solver.solve(Some(0))?.status, Status::Unknown);
    assert_eq!(solver.fixed(&[], Among::Least, Some(0))?, Fixed::Variables(vec![VariableStatus::Unknown; 4]));
    let answer = solver.suggest(&[true, false, true, false])?.solve(Some(0))?;
    assert_eq!((answer.status, answer.cost), (Status::Found, Some(3)));
    Ok(())
}

#[test]
fn refusals_change_nothing() -> Result<(), Error> {
    let mut solver = pairs()?;
    for literals in [&[1, 0], &[-1, 1_048_577]] {
        assert_eq!(solver.solve_under(literals, None).err(), Some(Error::BadVariable));
        assert_eq!(solver.explain(literals, None).err(), Some(Error::BadVariable));
        assert_eq!(solver.fixed(literals, Among::Least, None).err(), Some(Error::BadVariable));
    }
    assert_eq!(solver.suggest(&[true]).err(), Some(Error::BadLength));
    assert_eq!(solver.variables(), 4);
    assert_eq!(solver.solve(None)?.values, Some(vec![false, true, false, true]));
    Ok(())
}
