//! A plain model of 01's rules, written from 01 and apart from the published
//! Rust, with numbered faults that can be switched on one at a time.

mod attributes;
mod bounds;
mod calls;
mod conformance;
mod conversions;
mod counts;
pub mod faults;
mod jobs;
mod kept;
mod levels;
mod limits;
mod measures;
mod modes;
pub mod places;
mod read;
mod relations;
mod text;
mod told;

pub use conformance::Walk;
pub use counts::Counts;
pub use jobs::lines;
pub use kept::Kept;
pub use modes::Mode;

/// The rules, with at most one fault on; fault 0 is none.
#[derive(Clone, Copy)]
pub struct Rules {
    pub fault: u32,
}

impl Rules {
    pub const SOUND: Rules = Rules { fault: 0 };

    /// Is this fault on?
    fn fault(self, number: u32) -> bool {
        self.fault == number
    }

    /// `sound`, or `faulty` where this fault is on.
    fn or<T>(self, number: u32, sound: T, faulty: T) -> T {
        match self.fault(number) {
            true => faulty,
            false => sound,
        }
    }
}
