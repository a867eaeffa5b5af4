//! The modes.

use super::Rules;

/// Loose is as permissive, but where two set elements have no bound, the bound
/// of their sets is 06; actions of one name still join as in mode 0.
#[derive(Clone, Copy, Debug, PartialEq, Eq)]
pub enum Mode {
    Strict,
    Permissive,
    Loose,
}

impl Mode {
    /// The mode of that number: there are three.
    pub fn of(number: u8) -> Option<Mode> {
        match number {
            0 => Some(Mode::Strict),
            1 => Some(Mode::Permissive),
            2 => Some(Mode::Loose),
            _ => None,
        }
    }

    /// Mode 1 for mode 2.
    pub fn tightened(self) -> Mode {
        match self {
            Mode::Loose => Mode::Permissive,
            other => other,
        }
    }
}

impl Rules {
    /// Is this fault on, in mode 2?
    pub fn fault_in_loose(self, number: u32, mode: Mode) -> bool {
        mode == Mode::Loose && self.fault(number)
    }
}
