//! Whole jobs through the program: what a question costs under a large schema
//! and under an empty one, beside a call of the library.

use crate::inputs::{self, WIDE};
use crate::library::{self, Checked};
use crate::timing::{best, best_run, repeated, Timed};
use oracle::jobs::{lines, JOB_BYTES};
use oracle::limits::Limits;
use oracle::programs::ask;
use oracle::questions::{operation::*, Call};
use oracle::trees::{job_form, Ask, Sch, Ty};
use std::fs::{self, File};
use std::path::PathBuf;
use std::process::{Command, Stdio};

/// Where `./run` puts the program, seen from the root.
const PROGRAM: &str = "crates/tirncheav/out/tirncheav";

/// A job in a file, which is removed with it.
struct Stored(PathBuf);

impl Stored {
    /// The program's lines must be the oracle's before anything is timed.
    fn new(name: &str, schema: &[u8], asks: &[Ask]) -> Stored {
        let job = job_form(schema, asks);
        assert!(ask(PROGRAM, &job) == lines(&job), "{name}: other lines");
        let file = format!("bench-{}-{name}.job", std::process::id());
        let path = std::env::temp_dir().join(file);
        fs::write(&path, job).expect("a file for a job");
        Stored(path)
    }

    /// A process that reads the job and prints its lines to nowhere.
    fn process(&self) -> Timed<'_> {
        repeated(|| {
            Command::new(PROGRAM)
                .stdin(File::open(&self.0).expect("the file of a job"))
                .stdout(Stdio::null())
                .status()
                .expect("the program runs")
        })
    }
}

impl Drop for Stored {
    fn drop(&mut self) {
        let _ = fs::remove_file(&self.0);
    }
}

/// As many of a question as a job has room for beside a schema.
fn fill(schema: &[u8], question: &Ask) -> Vec<Ask> {
    let bytes = |n: usize| job_form(schema, &vec![question.clone(); n]).len();
    let room = (JOB_BYTES - bytes(0)) / (bytes(1) - bytes(0));
    vec![question.clone(); room]
}

/// Nanoseconds of a question in a job: under a schema, and under an empty one.
/// What a job with no question takes is subtracted.
fn in_jobs(schema: &[u8], asks: &[Ask]) -> [f64; 2] {
    let empty = Sch::default().form();
    let large = Stored::new("large", schema, asks);
    let small = Stored::new("empty", &empty, asks);
    let idle = Stored::new("idle", &empty, &[]);
    let ns = best_run(&mut [large.process(), small.process(), idle.process()]);
    [ns[0], ns[1]].map(|taken| (taken - ns[2]) / asks.len() as f64)
}

/// Nanoseconds of a library call: with the schema checked before, and with the
/// check in the call.
fn in_calls(schema: &[u8], ask: &Ask) -> Vec<f64> {
    let limits = Limits::STANDARD;
    let call = Call {
        op: ask.op,
        mode: ask.mode,
        attr: ask.attr,
        schema,
        t0: &ask.t0,
        t1: &ask.t1,
        ..library::call_under(limits)
    };
    let check = Checked::of(limits, schema);
    let (mut out, mut work) = library::buffers(limits);
    let checked = best(&mut [repeated(|| {
        library::through(check, &call, &mut out, &mut work)
    })]);
    let unchecked = best(&mut [repeated(|| library::entry(&call, &mut out, &mut work))]);
    [checked, unchecked].concat()
}

fn row(what: &str, ask: &Ask) {
    let schema = inputs::schema(WIDE).form();
    let asks = fill(&schema, ask);
    let (job, call) = (in_jobs(&schema, &asks), in_calls(&schema, ask));
    println!(
        "| {what} | {} | {:.2} | {:.2} | {:.2} | {:.2} | {:.2} |",
        asks.len(),
        job[0] / 1e3,
        job[1] / 1e3,
        job[0] / job[1],
        call[0] / 1e3,
        call[1] / 1e3,
    );
}

pub fn print() {
    println!("| Questions of a job | how many | 20 KB schema, us each | empty schema, us each | ratio | library, schema checked, us | schema in each call, us |");
    println!("|---|---|---|---|---|---|---|");
    let long = Ty::Atom(4).form();
    let subtype = Ask {
        op: SUBTYPE,
        mode: 1,
        attr: 0,
        t0: long.clone(),
        t1: long,
    };
    row("is_subtype, types of one byte", &subtype);
    let may_have = Ask {
        op: MAY_HAVE,
        mode: 0,
        attr: WIDE.width - 1,
        t0: Ty::Ent(vec![8]).form(),
        t1: Vec::new(),
    };
    row("may_have_attr, an entity type", &may_have);
}
