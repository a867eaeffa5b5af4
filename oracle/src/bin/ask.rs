//! `ask OPERATION MODE ATTRIBUTE SCHEMA FIRST [SECOND [ROOM WORKSPACE [LEVELS
//! BYTES]]]`, bodies in hexadecimal or `-` for none, prints the job of that one
//! question and its line, if it is one of a job, the line with that room and
//! workspace and under those limits, with the levels of a type, what the
//! published function gives where no size is asked, and what operation 8 gives
//! where 11 is asked. 254 measures a type, 253 a value.

use oracle::full::as_conforms;
use oracle::jobs::{lines, put_line, RESULT, WORKSPACE};
use oracle::limits::Limits;
use oracle::questions::{answer, operation::*, unmeasured, Outcome, Written};
use oracle::rounds::Roomed;
use oracle::trees::{job_form, Ask};

fn bytes(text: &str) -> Vec<u8> {
    let digits: Vec<u8> = text.bytes().filter(u8::is_ascii_hexdigit).collect();
    let pair = |p: &[u8]| std::str::from_utf8(p).expect("ASCII").to_owned();
    digits
        .chunks(2)
        .map(|p| u8::from_str_radix(&pair(p), 16).expect("hexadecimal"))
        .collect()
}

fn print_line(what: &str, outcome: &Outcome) {
    let mut line = Vec::new();
    put_line(&mut line, 0, outcome);
    print!("{what}: {}", String::from_utf8_lossy(&line));
    if let Some(Written { form, levels }) = outcome.written() {
        println!("{what}: {} bytes, {levels} levels", form.len());
    }
}

fn print_job(job: &[u8]) {
    let hex: String = job.iter().map(|b| format!("{b:02x}")).collect();
    println!("job {} bytes: {hex}", job.len());
    print!("{}", String::from_utf8_lossy(&lines(job)));
}

fn main() {
    let args: Vec<String> = std::env::args().skip(1).collect();
    let word = |at: usize| args.get(at).map(String::as_str).unwrap_or("");
    let number = |at: usize| word(at).parse::<u16>().expect("a number");
    let schema = bytes(word(3));
    let ask = Ask {
        op: number(0) as u8,
        mode: number(1) as u8,
        attr: number(2),
        t0: bytes(word(4)),
        t1: bytes(word(5)),
    };
    if (ask.op as usize) < COUNT {
        print_job(&job_form(&schema, std::slice::from_ref(&ask)));
    }
    let or = |at: usize, otherwise| word(at).parse().unwrap_or(otherwise);
    let limits = Limits {
        levels: or(8, Limits::STANDARD.levels),
        bytes: or(9, Limits::STANDARD.bytes),
    };
    let roomed = Roomed {
        ask,
        room: or(6, RESULT),
        work: or(7, WORKSPACE),
    };
    let call = roomed.call(limits, &schema);
    let (room, work, Limits { levels, bytes }) = (call.room, call.work, limits);
    let what = format!("room {room}, workspace {work}, limits {levels} and {bytes}");
    print_line(&what, &answer(&call));
    if let Some(outcome) = unmeasured(&call) {
        print_line("without sizes", &outcome);
    }
    if call.op == FULL {
        print_line("operation 8", &answer(&as_conforms(&call)));
    }
}
