//! `properties --seed N --rounds K` tries claims about the published functions,
//! about mode 2, operation 11, text, limits and levels, and prints for each how
//! often it was tried and failed, with the smallest failure in hexadecimal.

use oracle::arguments::Arguments;
use oracle::generate::Gen;
use oracle::properties::{try_claims, try_full, try_levels, try_limits, try_text, Tallies};

fn main() {
    let args = Arguments::read();
    let seed = args.number("--seed", 1);
    let [mut gen, mut drawn, mut told, mut called, mut texted] = [0; 5].map(|_| Gen::new(seed));
    let mut tallies = Tallies::default();
    for _ in 0..args.number("--rounds", 100_000) {
        try_claims(&mut gen, &mut tallies);
        try_limits(&mut drawn, &mut tallies);
        try_levels(&mut told, &mut tallies);
        try_full(&mut called, &mut tallies);
        try_text(&mut texted, &mut tallies);
    }
    for (name, tally) in &tallies.0 {
        println!(
            "{:>9} tried {:>7} failed: {name}",
            tally.tried, tally.failed
        );
        if let Some(forms) = &tally.smallest {
            println!("{:>9} {forms}", "");
        }
    }
}
