//! Text: is a string UTF-8 by the table of RFC 3629, and is every string of a
//! value?

use super::calls::ask;
use super::limits::WIDE;
use super::places::{self, Found, Place};
use super::{Counts, Rules, Walk};
use crate::limits::Limits;
use crate::questions::{operation::*, Call};
use crate::trees::{Sch, Ty, Val};

/// The lowest and the highest that a byte may be.
type Span = (u8, u8);

/// What a byte behind the first may be, but for some second bytes.
const TAIL: Span = (0x80, 0xbf);

/// How many bytes stand behind the first of a character, and what the second
/// may be; none if no character starts so.
fn behind(first: u8) -> Option<(usize, Span)> {
    Some(match first {
        0x00..=0x7f => (0, TAIL),
        0xc2..=0xdf => (1, TAIL),
        0xe0 => (2, (0xa0, 0xbf)),
        0xe1..=0xec | 0xee..=0xef => (2, TAIL),
        0xed => (2, (0x80, 0x9f)),
        0xf0 => (3, (0x90, 0xbf)),
        0xf1..=0xf3 => (3, TAIL),
        0xf4 => (3, (0x80, 0x8f)),
        _ => return None,
    })
}

/// The faults that refuse one character.
const REFUSED: [(u32, char); 11] = [
    (365, '\0'),
    (366, '\u{7f}'),
    (367, '\u{80}'),
    (368, '\u{7ff}'),
    (369, '\u{800}'),
    (370, '\u{d7ff}'),
    (371, '\u{e000}'),
    (372, '\u{feff}'),
    (373, '\u{ffff}'),
    (374, '\u{10000}'),
    (375, '\u{10ffff}'),
];

impl Rules {
    /// The table with its faults.
    fn started(self, first: u8) -> Option<(usize, Span)> {
        Some(match (self.fault, first) {
            (345, 0xed) | (346, 0xe0) => (2, TAIL),
            (347, 0xf0) | (349, 0xf4) | (350, 0xf5..=0xf7) | (364, 0xf5) => (3, TAIL),
            (348, 0xc0 | 0xc1) | (359, 0xc1) => (1, TAIL),
            (351, 0xf8..=0xfb) => (4, TAIL),
            (351, 0xfc | 0xfd) => (5, TAIL),
            (352, 0xfe | 0xff) | (354, 0x80..=0xbf) => (0, TAIL),
            (360, 0xe0) => (2, (0x9f, 0xbf)),
            (361, 0xed) => (2, (0x80, 0xa0)),
            (362, 0xf0) => (3, (0x8f, 0xbf)),
            (363, 0xf4) => (3, (0x80, 0x90)),
            (376, 0xf0..=0xff) | (377, 0x80..=0xff) => return None,
            _ => return behind(first),
        })
    }

    /// Does a fault refuse the character that this starts with?
    fn refuses(self, rest: &[u8]) -> bool {
        let starts = |c: char| rest.starts_with(c.encode_utf8(&mut [0; 4]).as_bytes());
        let refused = |(fault, c): &(u32, char)| self.fault(*fault) && starts(*c);
        REFUSED.iter().any(refused)
    }

    /// May the byte at that place of a character be this one?
    fn fits(self, at: usize, (low, high): Span, byte: u8) -> bool {
        match self.fault {
            355 if byte > 0xbf => true,
            356 if byte < 0x80 => true,
            357 if at == 2 => true,
            358 if at == 3 => true,
            _ => (low..=high).contains(&byte),
        }
    }

    /// The length of the character that this starts with.
    fn character(self, rest: &[u8]) -> Option<usize> {
        let (more, second) = self.started(rest[0])?;
        for at in 1..=more {
            let Some(byte) = rest.get(at) else {
                return self.fault(353).then_some(rest.len());
            };
            let span = if at == 1 { second } else { TAIL };
            if !self.fits(at, span, *byte) {
                return None;
            }
        }
        (!self.refuses(rest)).then_some(1 + more)
    }

    /// The length of a block that a fault passes over by all but its last byte.
    fn passed(self, rest: &[u8]) -> Option<usize> {
        let width = match self.fault {
            383 => 64,
            384 => 8,
            _ => return None,
        };
        let block = rest.get(..width)?;
        block[..width - 1].is_ascii().then_some(width)
    }

    /// How far the text goes on from a place of a string.
    fn step(self, at: usize, rest: &[u8]) -> Option<usize> {
        if let Some(block) = self.passed(rest) {
            return Some(block);
        }
        let n = self.character(rest)?;
        let across = |width: usize| at / width != (at + n - 1) / width;
        let refused = (self.fault(385) && across(64)) || (self.fault(386) && across(8));
        (!refused).then_some(n)
    }

    /// Where the characters that are examined start, and where no more do.
    fn extent(self, string: &[u8]) -> (usize, usize) {
        let n = string.len();
        match self.fault {
            379 => (0, string.iter().position(|b| *b == 0).unwrap_or(n)),
            380 => (0, n.min(64)),
            381 if n > 64 => (64, n),
            382 => (0, n - n % 8),
            387 => (0, n % 256),
            424 => (0, n.min(Limits::STANDARD.bytes)),
            _ => (0, n),
        }
    }

    /// Is a string text?
    pub fn text(self, string: &[u8]) -> bool {
        let (mut at, end) = self.extent(string);
        while at < end {
            let Some(n) = self.step(at, &string[at..]) else {
                return false;
            };
            if n > 1 && self.fault(388) {
                return true;
            }
            at += n;
        }
        !string.is_empty() || !self.fault(378)
    }

    /// Is every string of a value text, wherever it stands?
    pub fn strings_are_text(self, value: &Val) -> bool {
        value.strings().iter().all(|s| self.text(s))
    }

    /// Is this a whole value with a string that is not text?
    pub fn broken(self, limits: Limits, form: &[u8]) -> bool {
        let value = self.whole_value(limits, form);
        value.is_some_and(|v| !self.strings_are_text(&v))
    }

    /// A fault asks for text before its turn.
    pub fn text_asked_early(self, fault: u32, limits: Limits, call: &Call<'_>) -> Result<(), u8> {
        let early = self.fault(fault) && matches!(call.op, CONFORMS | FULL);
        ask(17, !early || !self.broken(limits, call.t1))
    }

    /// The number of a value that is not whole.
    pub fn not_whole(self, call: &Call<'_>) -> u8 {
        let early = match self.fault {
            410 => self.reads_broken(call.limits, call.t1),
            411 => self.broken(WIDE, call.t1),
            412 => Rules { fault: 22 }.broken(call.limits, call.t1),
            _ => false,
        };
        if early {
            17
        } else {
            5
        }
    }

    /// The rules where a fault examines no strings.
    pub fn unexamining(self, fault: u32) -> Rules {
        self.or(fault, self, Rules { fault: 20 })
    }

    /// The question about text, of a whole value; some faults ask it after what
    /// the walk comes to.
    pub fn text_asked(
        self,
        call: &Call<'_>,
        schema: &Sch,
        ty: &Ty,
        value: &Val,
        walk: Walk,
    ) -> Result<(), u8> {
        let unasked = match call.op {
            FULL => self.fault(420),
            _ => self.fault(419),
        };
        let late = match walk {
            Walk::Unknown => self.fault(415),
            Walk::No => self.fault(416),
            Walk::Yes => false,
        };
        let skipped = unasked || late || self.fault(20);
        let number = self.or(417, 17, 5);
        ask(number, skipped || self.is_text(call, schema, ty, value))
    }

    /// Is every string that is examined text, and all else that a fault takes
    /// for a string?
    pub fn is_text(self, call: &Call<'_>, schema: &Sch, ty: &Ty, value: &Val) -> bool {
        let strings = self.examined(call, schema, ty, value);
        let text = match self.fault(405) {
            true => self.text(&strings.concat()),
            false => strings.iter().all(|s| self.text(s)),
        };
        text && self.others_are_text(value)
    }

    /// The strings that are examined: all, but for faults.
    fn examined<'v>(self, call: &Call<'_>, schema: &Sch, ty: &Ty, value: &'v Val) -> Vec<&'v [u8]> {
        let mut strings = match self.fault {
            389..=402 | 423 => {
                let counts = match call.op {
                    FULL => Counts::Declared,
                    _ => Counts::Any,
                };
                let found = places::strings(counts, schema, ty, value).into_iter();
                let examined = found.filter(|f| self.examines(f, call.limits));
                examined.map(|f| f.bytes).collect()
            }
            _ => value.strings(),
        };
        match self.fault {
            403 => strings.truncate(1),
            404 => strings = strings.split_off(strings.len().saturating_sub(1)),
            _ => (),
        }
        strings
    }

    /// Is this string examined, by the faults that pass over some?
    fn examines(self, found: &Found<'_, '_>, limits: Limits) -> bool {
        let Found { at, ended, .. } = found;
        match self.fault {
            389 => at.level == 1,
            390 => !at.in_set,
            391 => !at.in_record,
            392 => !at.in_call,
            393 => at.place == Place::Walked && !ended,
            394 => at.string_asked(),
            395 => at.place != Place::Undeclared,
            396 => at.place != Place::Unlisted,
            397 => at.place != Place::Untyped,
            398 => at.place != Place::OfAnother && !at.kind_differs(),
            399 => at.place != Place::OfUnknown,
            400 => !ended,
            401 => at.level <= 2,
            402 => at.level < limits.levels,
            _ => at.level <= Limits::STANDARD.levels,
        }
    }

    /// Are the bytes text that a fault takes for a string too?
    fn others_are_text(self, value: &Val) -> bool {
        let own = match (self.fault, value) {
            (406, Val::Uid(ty, id)) => self.text(&[ty.to_le_bytes(), id.to_le_bytes()].concat()),
            (407, Val::Rec(pairs)) => pairs.iter().all(|p| self.text(&p.0.to_le_bytes())),
            (408, Val::Call(name, _)) => self.text(&name.to_le_bytes()),
            (409, Val::Long(bytes)) => self.text(bytes),
            _ => true,
        };
        own && value.parts().all(|v| self.others_are_text(v))
    }
}
