//! Does what tests/callers/told.c does.

use pbcube::{Among, Answer, Explanation, Fixed, Format, Relation, Solver, Status, VariableStatus};
use std::error::Error;
use std::io::{stdin, stdout, BufRead, Read, Write};

type Done<T> = Result<T, Box<dyn Error>>;

/// Words of standard input, up to one blank after each.
struct Words<R>(R);

impl<R: BufRead> Words<R> {
    fn word(&mut self) -> Done<Option<String>> {
        let mut word = String::new();
        for byte in self.0.by_ref().bytes() {
            match byte? {
                b' ' | b'\n' if word.is_empty() => {}
                b' ' | b'\n' => break,
                byte => word.push(char::from(byte)),
            }
        }
        Ok(Some(word).filter(|word| !word.is_empty()))
    }

    fn number<N: std::str::FromStr<Err = std::num::ParseIntError>>(&mut self) -> Done<N> {
        Ok(self.word()?.ok_or("the input is cut")?.parse()?)
    }

    /// The greatest number is no limit, and is written as -1 too.
    fn decisions(&mut self) -> Done<Option<u64>> {
        let decisions: i128 = self.number()?;
        Ok(u64::try_from(decisions).ok())
    }

    fn literals(&mut self) -> Done<Vec<i32>> {
        (0..self.number()?).map(|_: u32| self.number()).collect()
    }

    fn terms(&mut self) -> Done<Vec<(i64, i32)>> {
        (0..self.number()?).map(|_: u32| Ok((self.number()?, self.number()?))).collect()
    }
}

fn joined<T: std::fmt::Display>(numbers: impl IntoIterator<Item = T>, between: &str) -> String {
    numbers.into_iter().map(|number| format!("{between}{number}")).collect()
}

fn answer_of(status: Status) -> i32 {
    match status {
        Status::Unknown => 1,
        Status::Satisfiable => 10,
        Status::Found => 11,
        Status::Unsatisfiable => 20,
        Status::Optimum => 30,
        Status::Unsupported => 40,
    }
}

fn report(out: &mut impl Write, answer: Answer, has_objective: bool) -> Done<()> {
    if let (Some(cost), true) = (answer.cost, has_objective) {
        writeln!(out, "o {cost}")?;
    }
    let status = match answer.status {
        Status::Optimum => "OPTIMUM FOUND",
        Status::Unsatisfiable => "UNSATISFIABLE",
        Status::Unknown => "UNKNOWN",
        _ => "SATISFIABLE",
    };
    writeln!(out, "s {status}")?;
    if let Some(values) = answer.values {
        let literals = values.iter().zip(1..).map(|(value, variable)| format!(" {}x{variable}", if *value { "" } else { "-" }));
        writeln!(out, "v{}", literals.collect::<String>())?;
    }
    Ok(writeln!(out, "= {}", answer_of(answer.status))?)
}

fn text(words: &mut Words<impl BufRead>, out: &mut impl Write, solver: &mut Solver) -> Done<()> {
    let format = [Format::Opb, Format::Cnf, Format::Icnf][words.number::<usize>()?];
    let decisions = words.decisions()?;
    let mut bytes = vec![0; words.number()?];
    words.0.read_exact(&mut bytes)?;
    let report = solver.run(format, &bytes, decisions)?;
    Ok(writeln!(out, "{}= {}", report.text, answer_of(report.status))?)
}

fn explain(words: &mut Words<impl BufRead>, out: &mut impl Write, solver: &mut Solver) -> Done<()> {
    let decisions = words.decisions()?;
    let (core, answer) = match solver.explain(&words.literals()?, decisions)? {
        Explanation::Feasible => (Vec::new(), 10),
        Explanation::Core { literals, is_minimal } => (literals, if is_minimal { 20 } else { 21 }),
        Explanation::Unknown => (Vec::new(), 1),
    };
    Ok(writeln!(out, "core{}\n= {answer}", joined(core, " "))?)
}

fn fixed(words: &mut Words<impl BufRead>, out: &mut impl Write, solver: &mut Solver) -> Done<()> {
    let among = [Among::Feasible, Among::Least][words.number::<usize>()?];
    let decisions = words.decisions()?;
    let (statuses, answer) = match solver.fixed(&words.literals()?, among, decisions)? {
        Fixed::Infeasible => (Vec::new(), 20),
        Fixed::Variables(statuses) => {
            let is_cut = statuses.contains(&VariableStatus::Unknown);
            (statuses, if is_cut { 1 } else { 10 })
        }
    };
    let digits = statuses.into_iter().map(|status| status as u8);
    Ok(writeln!(out, "fixed {}\n= {answer}", joined(digits, ""))?)
}

fn main() -> Done<()> {
    let (mut words, mut out) = (Words(stdin().lock()), stdout().lock());
    let (mut solver, mut has_objective) = (Solver::new()?, false);
    while let Some(word) = words.word()? {
        match word.as_str() {
            "objective" => {
                solver.minimise(&words.terms()?)?;
                has_objective = true;
            }
            "sum" => {
                let relation = [Relation::AtLeast, Relation::AtMost, Relation::Equal][words.number::<usize>()?];
                let bound = words.number()?;
                solver.add(&words.terms()?, relation, bound)?;
            }
            "clause" => {
                solver.clause(&words.literals()?)?;
            }
            "solve" => {
                let decisions = words.decisions()?;
                report(&mut out, solver.solve(decisions)?, has_objective)?;
                (solver, has_objective) = (Solver::new()?, false);
            }
            "new" => (solver, has_objective) = (Solver::new()?, false),
            "under" => {
                let decisions = words.decisions()?;
                report(&mut out, solver.solve_under(&words.literals()?, decisions)?, has_objective)?;
            }
            "explain" => explain(&mut words, &mut out, &mut solver)?,
            "fixed" => fixed(&mut words, &mut out, &mut solver)?,
            "suggest" => {
                let values: Vec<bool> = words.literals()?.iter().map(|&value| value == 1).collect();
                solver.suggest(&values)?;
            }
            _ => text(&mut words, &mut out, &mut solver)?,
        }
    }
    Ok(())
}
