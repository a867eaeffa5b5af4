//! `compare A B` compares two files of lines.
//! `compare --model --seed N --jobs K` compares the model with the oracle, but
//! for mode 2 and operation 11, which the model judges: K rounds of questions,
//! each under limits that are drawn.
//! `compare --library --seed N --jobs K`, with the feature `library`, does so
//! with the static library, plain and with schemas checked before.
//! `compare --rooms PATH --seed N --jobs K` does so with the program `rooms`.
//! With `--standard` the three are asked what K jobs ask, under the standard
//! limits, and calls with rooms; the first two take `--exhaustive` for seed and
//! jobs: every small question, under the standard limits and few levels, and
//! its bodies measured; or `--strings`: every short string, by operations 8 and
//! 11 and measured.
//! `compare --program PATH --seed N --jobs K` compares a program that reads
//! one job on standard input.
//! `compare --batch PATH --seed N --jobs K` compares a program that reads a
//! batch, with some thousand jobs to a run; with `--exhaustive` for seed and
//! jobs, on every small question.

use oracle::arguments::Arguments;
use oracle::candidates::{Candidate, KeptModel, Model};
use oracle::coverage::{Coverage, Limited};
use oracle::exhaustive;
use oracle::generate::Gen;
use oracle::harness::{check_call, difference, judged, Judged};
use oracle::jobs::{print_outcomes, read_job};
use oracle::limits::Limits;
use oracle::model::Rules;
use oracle::programs;
use oracle::questions::{answer_with, operation::*, Call, Outcome, SchemaCache};
use oracle::rooms::{Lent, Tally};
use oracle::rounds::Round;
use oracle::trees::Val;
use std::process::ExitCode;

fn hex(bytes: &[u8]) -> String {
    bytes.iter().map(|b| format!("{b:02x}")).collect()
}

fn code(differences: u64) -> ExitCode {
    match differences {
        0 => ExitCode::SUCCESS,
        _ => ExitCode::FAILURE,
    }
}

fn compare_files(a: &str, b: &str) -> ExitCode {
    let read = |name: &str| std::fs::read(name).unwrap_or_else(|e| panic!("{name}: {e}"));
    let (a, b) = (read(a), read(b));
    let (a, b): (Vec<&[u8]>, Vec<&[u8]>) = (
        a.split(|c| *c == b'\n').collect(),
        b.split(|c| *c == b'\n').collect(),
    );
    let mut differences = 0;
    for (at, (x, y)) in a.iter().zip(&b).enumerate() {
        if x == y {
            continue;
        }
        differences += 1;
        if differences <= 10 {
            let text = |l: &[u8]| String::from_utf8_lossy(l).into_owned();
            println!("line {}: {:?} and {:?}", at + 1, text(x), text(y));
        }
    }
    if a.len() != b.len() {
        println!("{} and {} lines", a.len(), b.len());
        differences += 1;
    }
    println!("{} lines compared, {differences} differences", a.len());
    code(differences)
}

#[cfg(feature = "library")]
fn compare_library(args: &Arguments) -> ExitCode {
    use oracle::library::{linked, CheckedLibrary, Library};
    let mut plain = Library(linked::ENTRIES);
    let mut checked = CheckedLibrary(linked::ENTRIES, linked::CHECKED);
    compare_candidates(&mut [&mut plain, &mut checked], args)
}

#[cfg(not(feature = "library"))]
fn compare_library(_: &Arguments) -> ExitCode {
    panic!("built without the feature `library`")
}

fn compare_model(args: &Arguments) -> ExitCode {
    let fault = args.number("--fault", 0) as u32;
    let (mut plain, mut kept) = (Model(Rules { fault }), KeptModel(Rules { fault }));
    println!(
        "in mode 2, in operation 11, and where it judges alone, the model is compared with itself"
    );
    compare_candidates(&mut [&mut plain, &mut kept], args)
}

type Candidates<'a> = [&'a mut dyn Candidate];

fn compare_candidates(candidates: &mut Candidates<'_>, args: &Arguments) -> ExitCode {
    if args.has("--exhaustive") {
        return compare_exhaustively(candidates);
    }
    if args.has("--strings") {
        return compare_strings(candidates);
    }
    let mut gen = Gen::new(args.number("--seed", 1));
    let count = 0..args.number("--jobs", 1000);
    let (missing, differences) = match args.has("--standard") {
        true => compare_jobs(candidates, count.map(|_| judged(&mut gen))),
        false => compare_rounds(candidates, count.map(|_| Round::drawn(&mut gen))),
    };
    println!("not reached: {missing:?}");
    code(differences)
}

/// Print a difference, if it is among the first.
fn tell(differences: &mut u64, what: Option<String>, job: &[u8]) {
    let Some(what) = what else { return };
    *differences += 1;
    if *differences <= 5 {
        println!("{what}\n  job {}", hex(job));
    }
}

/// Jobs, and calls with rooms: what was not reached, and the differences.
fn compare_jobs(
    candidates: &mut Candidates<'_>,
    all: impl Iterator<Item = Judged>,
) -> (Vec<String>, u64) {
    let (mut coverage, mut roomed) = (Coverage::default(), Coverage::with_rooms());
    let mut differences = 0;
    for judged in all {
        coverage.count_outcomes(&judged.job, judged.outcomes.as_deref());
        for round in &judged.rounds {
            let answered = round.answered.iter();
            answered.for_each(|a| roomed.count(&round.call(a), &a.outcome));
        }
        for candidate in candidates.iter_mut() {
            let what = difference(*candidate, &judged);
            tell(&mut differences, what, &judged.job);
        }
    }
    print!("jobs\n{}", coverage.table());
    if roomed.questions() > 0 {
        print!("calls with rooms of any size\n{}", roomed.table());
    }
    println!("{differences} jobs with a difference");
    let missing = [coverage.missing(), roomed.missing()].concat();
    (missing, differences)
}

/// Questions under limits: what was not reached, and the differences.
fn compare_rounds(
    candidates: &mut Candidates<'_>,
    all: impl Iterator<Item = Round>,
) -> (Vec<String>, u64) {
    let mut limited = Limited::default();
    let mut differences = 0;
    for round in all {
        limited.count(&round);
        for candidate in candidates.iter_mut() {
            tell(&mut differences, round.difference(*candidate), &[]);
        }
    }
    print!("{}", limited.table());
    let unexpected = limited.unexpected();
    assert!(unexpected.is_empty(), "not expected: {unexpected:?}");
    println!("{differences} rounds with a difference");
    (limited.missing(), differences)
}

/// The jobs under limits, and their bodies measured.
fn rounds_of(limits: Limits, jobs: Vec<Vec<u8>>) -> impl Iterator<Item = Round> {
    let measured = Round::of_forms(limits, exhaustive::measured(&jobs).iter());
    let asked = move |job: Vec<u8>| Some(Round::of_job(limits, &read_job(&job)?));
    jobs.into_iter().filter_map(asked).chain([measured])
}

/// Every small question, under the standard limits and under few levels, and
/// its bodies measured.
fn compare_exhaustively(candidates: &mut Candidates<'_>) -> ExitCode {
    let jobs = exhaustive::jobs();
    let measured = Round::of_forms(Limits::STANDARD, exhaustive::measured(&jobs).iter());
    let (_, standard) = compare_jobs(candidates, jobs.into_iter().map(Judged::of));
    let few = exhaustive::FEW.into_iter();
    let few = few.flat_map(|limits| rounds_of(limits, exhaustive::jobs_under(limits)));
    let (_, few) = compare_rounds(candidates, few.chain([measured]));
    code(standard + few)
}

/// Every short string where a String is asked for, and measured: yes and its
/// length, or 17.
fn compare_strings(candidates: &mut Candidates<'_>) -> ExitCode {
    let cache = SchemaCache::of(Limits::STANDARD, &[0; 6]);
    let [mut asked, mut text, mut differences] = [0; 3];
    exhaustive::each_string(|string| {
        let value = Val::Str(string.to_vec()).form();
        let bodies: [(u8, &[u8], &[u8]); 3] = [
            (CONFORMS, &[5], &value),
            (FULL, &[5], &value),
            (MEASURE_VALUE, &value, &[]),
        ];
        for (op, t0, t1) in bodies {
            let call = Call::plain(op, cache.form, t0, t1);
            let outcome = answer_with(&call, &cache);
            asked += 1;
            text += (outcome != Outcome::Refused(17)) as u64;
            for candidate in candidates.iter_mut() {
                let what = check_call(*candidate, &call, &outcome);
                tell(&mut differences, what, &value);
            }
        }
    });
    println!("{asked} questions, {text} of them yes or measured, the others 17");
    println!("{differences} with a difference");
    code(differences)
}

/// The answers of a program to some jobs, in turn.
type Asker = fn(&str, &[Vec<u8>]) -> Vec<Vec<u8>>;

/// The jobs to put to a program.
fn jobs(args: &Arguments) -> Box<dyn Iterator<Item = Vec<u8>>> {
    if args.has("--exhaustive") {
        return Box::new(exhaustive::jobs().into_iter());
    }
    let mut gen = Gen::new(args.number("--seed", 1));
    Box::new((0..args.number("--jobs", 1000)).map(move |_| gen.job()))
}

fn compare_program(path: &str, ask: Asker, run: usize, args: &Arguments) -> ExitCode {
    let mut coverage = Coverage::default();
    let mut differences = 0;
    let mut left = jobs(args);
    loop {
        let jobs: Vec<Vec<u8>> = left.by_ref().take(run).collect();
        if jobs.is_empty() {
            break;
        }
        for (job, got) in jobs.iter().zip(ask(path, &jobs)) {
            let outcomes = read_job(job).map(|j| j.outcomes());
            coverage.count_outcomes(job, outcomes.as_deref());
            let wanted = print_outcomes(outcomes.as_deref());
            if got != wanted {
                differences += 1;
                if differences <= 5 {
                    println!("job {}", hex(job));
                    println!("got {}", String::from_utf8_lossy(&got));
                    println!("expected {}", String::from_utf8_lossy(&wanted));
                }
            }
        }
    }
    print!("{}", coverage.table());
    println!("not reached: {:?}", coverage.missing());
    println!("{differences} jobs with a difference");
    code(differences)
}

/// The next calls for the program `rooms`, counted with those before.
fn lent(gen: &mut Gen, jobs: u64, standard: bool, tally: Tally) -> Lent {
    let mut lent = Lent {
        tally,
        ..Lent::default()
    };
    for _ in 0..jobs {
        match standard {
            true => lent.put_judged(&judged(gen)),
            false => lent.put_round(&Round::drawn(gen)),
        }
    }
    lent
}

fn compare_rooms(path: &str, args: &Arguments) -> ExitCode {
    let mut gen = Gen::new(args.number("--seed", 1));
    let mut tally = Tally::default();
    let (mut differences, mut left) = (0, args.number("--jobs", 1000));
    while left > 0 {
        let jobs = left.min(2000);
        left -= jobs;
        let lent = lent(&mut gen, jobs, args.has("--standard"), tally);
        let output = programs::ask(path, &lent.input);
        let output = String::from_utf8(output).expect("ASCII");
        assert_eq!(output.lines().count(), lent.lines.len(), "lines");
        tally = lent.tally;
        for (got, wanted) in output.lines().zip(&lent.lines) {
            if got != wanted {
                differences += 1;
                if differences <= 5 {
                    println!("got {got}\nexpected {wanted}");
                }
            }
        }
    }
    println!("{tally}\n{differences} with a difference");
    code(differences)
}

fn main() -> ExitCode {
    let args = Arguments::read();
    if args.has("--model") {
        return compare_model(&args);
    }
    if args.has("--library") {
        return compare_library(&args);
    }
    if let Some(path) = args.text("--program") {
        return compare_program(path, programs::each, 1, &args);
    }
    if let Some(path) = args.text("--rooms") {
        return compare_rooms(path, &args);
    }
    if let Some(path) = args.text("--batch") {
        return compare_program(path, programs::batch, 4000, &args);
    }
    match (args.word(0), args.word(1)) {
        (Some(a), Some(b)) => compare_files(a, b),
        _ => panic!("wants two files, or one of the options above"),
    }
}
