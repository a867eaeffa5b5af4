//! The limits that a call is asked under.

use super::Rules;
use crate::limits::Limits;

/// Beyond the limits of every form.
pub const WIDE: Limits = Limits {
    levels: 64,
    bytes: 65_535,
};

impl Rules {
    /// The limits as a call takes them.
    pub fn taken(self, limits: Limits) -> Limits {
        Limits {
            levels: self.or(278, limits.levels, limits.levels % 256),
            bytes: self.or(279, limits.bytes, limits.bytes % 65_536),
        }
    }

    /// Is each limit within its range?
    pub fn allowed(self, limits: Limits) -> bool {
        let fewest = self.or(270, self.or(271, 1, 2), 0);
        let most = self.or(273, self.or(272, 32, 31), 33);
        let levels = (fewest..=most).contains(&limits.levels);
        let shortest = self.or(274, self.or(275, 64, 65), 63);
        let longest = self.or(277, self.or(276, 8192, 8191), 8193);
        let bytes = (shortest..=longest).contains(&limits.bytes);
        (levels || self.fault(269)) && (bytes || self.fault(268))
    }

    /// The limits of one kind of form, each that of the call, or the standard
    /// one where its fault is on.
    pub fn kept_standard(self, limits: Limits, bytes: u32, levels: u32) -> Limits {
        let standard = Limits::STANDARD;
        Limits {
            levels: self.or(levels, limits.levels, standard.levels),
            bytes: self.or(bytes, limits.bytes, standard.bytes),
        }
    }

    /// Does a walk that goes 16 levels down end in all of these, by their
    /// levels?
    pub fn ends_early<const N: usize>(self, fault: u32, levels: [usize; N]) -> bool {
        self.fault(fault) && levels.iter().all(|l| *l > Limits::STANDARD.levels)
    }

    /// The longest form that a fault knows in place of the limit.
    pub fn capped(self, fault: u32, length: usize) -> usize {
        self.or(fault, length, length.min(Limits::STANDARD.bytes + 1))
    }
}
