//! Stands in for the crate `itertools`; the published text uses `join` alone,
//! to display a type.

pub trait Itertools: Iterator<Item = String> + Sized {
    fn join(&mut self, between: &str) -> String {
        self.collect::<Vec<String>>().join(between)
    }
}

impl<I: Iterator<Item = String>> Itertools for I {}
