//! The library beside the published Rust: the same questions, in one process,
//! both built for release. Prints the tables of docs/PERFORMANCE.md.

mod cases;
mod counts;
mod growth;
mod inputs;
mod jobs;
mod largest;
mod library;
mod loose;
mod measures;
mod texts;
mod timing;

use cases::Case;

/// Three figures that a person reads at a glance.
fn figure(ns: f64) -> String {
    match ns {
        n if n < 100.0 => format!("{n:.1}"),
        n => format!("{n:.0}"),
    }
}

fn main() {
    let mut cases = cases::all();
    cases.extend(texts::all());
    cases.iter().for_each(Case::same_answer);
    println!("| Operation | Input | Rust, ns | schema checked, ns | ratio | schema in each call, ns | ratio |");
    println!("|---|---|---|---|---|---|---|");
    for case in &cases {
        let mut all = [case.published(), case.checked(), case.unchecked()];
        let ns = timing::best(&mut all);
        println!(
            "| {} | {} | {} | {} | {:.2} | {} | {:.2} |",
            case.operation,
            case.input,
            figure(ns[0]),
            figure(ns[1]),
            ns[0] / ns[1],
            figure(ns[2]),
            ns[0] / ns[2],
        );
    }
    println!();
    growth::print();
    println!();
    loose::print();
    println!();
    counts::print();
    println!();
    largest::print();
    println!();
    jobs::print();
    println!();
    measures::print();
    println!();
    texts::print();
}
