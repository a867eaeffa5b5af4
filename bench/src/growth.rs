//! How the cost grows with the bytes and with the levels.

use crate::inputs::record;
use crate::library::{self, Checked};
use crate::timing::{best, repeated};
use oracle::limits::Limits;
use oracle::questions::{operation::*, Call};

const STANDARD: Limits = Limits::STANDARD;
const LARGEST: Limits = Limits::LARGEST;

/// Disjoint of a form and of one byte is little more than the check that the
/// form is whole.
fn nanoseconds(limits: Limits, op: u8, t0: &[u8], t1: &[u8]) -> f64 {
    let schema = [0u8; 6];
    let check = Checked::of(limits, &schema);
    let (mut out, mut work) = library::buffers(limits);
    let call = Call {
        op,
        schema: &schema,
        t0,
        t1,
        ..library::call_under(limits)
    };
    let least = best(&mut [repeated(|| {
        library::through(check, &call, &mut out, &mut work)
    })]);
    least[0]
}

fn row(limits: Limits, what: &str, width: u16, levels: usize) {
    let (a, b) = (
        record(width, levels, 0).form(),
        record(width, levels, 1).form(),
    );
    let above = record(width, levels, 2).form();
    let whole = nanoseconds(limits, DISJOINT, &a, &[4]);
    let subtype = nanoseconds(limits, SUBTYPE, &a, &above);
    let bound = nanoseconds(limits, BOUND, &a, &b);
    println!(
        "| {what} | {} | {whole:.0} | {:.2} | {subtype:.0} | {:.2} | {bound:.0} | {:.2} |",
        a.len(),
        a.len() as f64 / whole,
        subtype / (2 * a.len()) as f64,
        bound / (2 * a.len()) as f64,
    );
}

/// Chains of 07, whole and refused, beside a form of one byte.
fn print_chains() {
    let chain = |sets: usize, below: &[u8]| [&vec![7; sets], below].concat();
    let rows = [
        (STANDARD, "Long", chain(0, &[4])),
        (STANDARD, "one set of Long", chain(1, &[4])),
        (STANDARD, "15 sets of Long", chain(15, &[4])),
        (STANDARD, "16 sets of Long: 3", chain(16, &[4])),
        (STANDARD, "4,096 bytes of 07: 3", chain(4096, &[])),
        (LARGEST, "31 sets of Long", chain(31, &[4])),
        (LARGEST, "32 sets of Long: 3", chain(32, &[4])),
        (LARGEST, "8,192 bytes of 07: 3", chain(8192, &[])),
    ];
    println!("| Sets | bytes | whole, ns | ratio to Long |");
    println!("|---|---|---|---|");
    let times = rows
        .each_ref()
        .map(|(limits, _, form)| nanoseconds(*limits, DISJOINT, form, &[4]));
    for ((_, what, form), ns) in rows.iter().zip(times) {
        println!(
            "| {what} | {} | {ns:.1} | {:.2} |",
            form.len(),
            ns / times[0]
        );
    }
}

pub fn print() {
    println!("| Records | bytes of one | whole, ns | GB/s | is_subtype, ns | ns a byte | least_upper_bound, ns | ns a byte |");
    println!("|---|---|---|---|---|---|---|---|");
    let attributes = |limits, width| row(limits, &format!("{width} attributes"), width, 2);
    for width in [42, 85, 170, 341, 682] {
        attributes(STANDARD, width);
    }
    attributes(LARGEST, 1364);
    let nested = |limits, levels| row(limits, &format!("{levels} levels of 42"), 42, levels);
    for levels in [2, 4, 8, 16] {
        nested(STANDARD, levels);
    }
    nested(LARGEST, 32);
    println!();
    print_chains();
}
