//! The limits of forms, which every call is asked under.

/// The most levels and bytes of a form.
#[derive(Clone, Copy, Debug, PartialEq, Eq)]
pub struct Limits {
    pub levels: usize,
    pub bytes: usize,
}

impl Limits {
    /// What the programs use.
    pub const STANDARD: Limits = Limits {
        levels: 16,
        bytes: 4096,
    };

    /// The lower and the upper ends of both ranges.
    pub const LEAST: Limits = Limits {
        levels: 1,
        bytes: 64,
    };
    pub const LARGEST: Limits = Limits {
        levels: 32,
        bytes: 8192,
    };

    /// Is each limit within its range?
    pub fn allowed(self) -> bool {
        self == self.nearest()
    }

    /// The allowed limits closest to these.
    pub fn nearest(self) -> Limits {
        let (least, largest) = (Limits::LEAST, Limits::LARGEST);
        Limits {
            levels: self.levels.clamp(least.levels, largest.levels),
            bytes: self.bytes.clamp(least.bytes, largest.bytes),
        }
    }
}

impl Default for Limits {
    fn default() -> Limits {
        Limits::STANDARD
    }
}
