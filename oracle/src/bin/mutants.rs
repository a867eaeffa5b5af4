//! `mutants --seed N --jobs K --rounds R` switches on each fault of the model in
//! turn and tells at which job the comparison with the oracle catches it, or at
//! which round of questions under drawn limits, if jobs cannot show it.

use oracle::arguments::Arguments;
use oracle::candidates::{Candidate, KeptModel, Model};
use oracle::generate::Gen;
use oracle::harness::{difference, judged, Judged};
use oracle::model::faults::{beside_jobs, FAULTS};
use oracle::model::Rules;
use oracle::rounds::Round;
use std::process::ExitCode;

/// The first job that tells the fault from the rule.
fn caught_in(jobs: &[Judged], fault: u32) -> Option<String> {
    let mut model = Model(Rules { fault });
    let caught = |j: &Judged| difference(&mut model, j).is_some();
    let at = jobs.iter().position(caught)?;
    Some(format!("job {at:>6}"))
}

/// The first round, asked plain or with the schema kept.
fn caught_under(rounds: &[Round], fault: u32) -> Option<String> {
    let rules = Rules { fault };
    let (mut plain, mut kept) = (Model(rules), KeptModel(rules));
    let mut candidates: [&mut dyn Candidate; 2] = [&mut plain, &mut kept];
    let caught = |r: &Round| candidates.iter_mut().any(|c| r.difference(*c).is_some());
    let at = rounds.iter().position(caught)?;
    Some(format!("round {at:>4}"))
}

fn main() -> ExitCode {
    let args = Arguments::read();
    let mut gen = Gen::new(args.number("--seed", 1));
    let jobs = (0..args.number("--jobs", 20_000)).map(|_| judged(&mut gen));
    let jobs: Vec<Judged> = jobs.collect();
    let rounds = (0..args.number("--rounds", 8_000)).map(|_| Round::drawn(&mut gen));
    let rounds: Vec<Round> = rounds.collect();
    if let Some(at) = caught_in(&jobs, 0).or_else(|| caught_under(&rounds, 0)) {
        println!("without a fault the model differs at {at}");
        return ExitCode::FAILURE;
    }
    let mut survivors = 0;
    for (fault, text) in FAULTS {
        let caught = match beside_jobs(*fault) {
            true => caught_under(&rounds, *fault),
            false => caught_in(&jobs, *fault),
        };
        match caught {
            Some(at) => println!("{fault:>4} caught at {at}: {text}"),
            None => {
                survivors += 1;
                println!("{fault:>4} SURVIVES: {text}");
            }
        }
    }
    println!("{} faults, {survivors} survive", FAULTS.len());
    match survivors {
        0 => ExitCode::SUCCESS,
        _ => ExitCode::FAILURE,
    }
}
