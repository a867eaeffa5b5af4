//! Strings: text of every width, text that is damaged, and places for both.

use super::sizes::attr;
use super::{Gen, ATTRS};
use crate::trees::{Sch, Ty, Val};

/// The first and the last characters of each width, those beside the
/// surrogates, and the byte order mark.
pub const EDGES: [char; 11] = [
    '\0',
    '\u{7f}',
    '\u{80}',
    '\u{7ff}',
    '\u{800}',
    '\u{d7ff}',
    '\u{e000}',
    '\u{feff}',
    '\u{ffff}',
    '\u{10000}',
    '\u{10ffff}',
];

/// The characters of two, three and four bytes, without the surrogates.
const WIDE: [(usize, usize); 4] = [
    (0x80, 0x7ff),
    (0x800, 0xd7ff),
    (0xe000, 0xffff),
    (0x1_0000, 0x10_ffff),
];

/// What is no character: tails alone, overlong forms, surrogates, what is above
/// the last character, and tails outside their range.
pub const BROKEN: [&[u8]; 24] = [
    &[0x80],
    &[0xbf],
    &[0xc0, 0x80],
    &[0xc1, 0xbf],
    &[0xe0, 0x80, 0x80],
    &[0xe0, 0x9f, 0xbf],
    &[0xf0, 0x80, 0x80, 0x80],
    &[0xf0, 0x8f, 0xbf, 0xbf],
    &[0xed, 0xa0, 0x80],
    &[0xed, 0xbf, 0xbf],
    &[0xf4, 0x90, 0x80, 0x80],
    &[0xf4, 0xbf, 0xbf, 0xbf],
    &[0xf5, 0x80, 0x80, 0x80],
    &[0xf7, 0xbf, 0xbf, 0xbf],
    &[0xf8, 0x88, 0x80, 0x80, 0x80],
    &[0xfc, 0x84, 0x80, 0x80, 0x80, 0x80],
    &[0xfe],
    &[0xff],
    &[0xc2, 0x7f],
    &[0xc2, 0xc0],
    &[0xe1, 0x80, 0x7f],
    &[0xe1, 0x80, 0xc0],
    &[0xf1, 0x80, 0x80, 0x7f],
    &[0xf1, 0x80, 0x80, 0xc0],
];

type Test = fn(&Val) -> bool;

/// How many parts of a value satisfy a test, the value itself among them.
fn count(value: &Val, test: Test) -> usize {
    let below = value.parts().map(|v| count(v, test));
    test(value) as usize + below.sum::<usize>()
}

/// The part at a place among those that satisfy a test.
fn part_at<'v>(value: &'v mut Val, test: Test, left: &mut usize) -> Option<&'v mut Val> {
    if test(value) {
        if *left == 0 {
            return Some(value);
        }
        *left -= 1;
    }
    value.parts_mut().find_map(|v| part_at(v, test, left))
}

impl Gen {
    /// Some part of a value that satisfies a test.
    pub fn some_part<'v>(&mut self, value: &'v mut Val, test: Test) -> Option<&'v mut Val> {
        let mut place = self.rng.below(count(value, test).max(1));
        part_at(value, test, &mut place)
    }

    pub fn string(&mut self) -> Val {
        Val::Str(self.text())
    }

    /// Text: few characters, or blocks of ASCII around one.
    fn text(&mut self) -> Vec<u8> {
        let most = (self.limits.bytes - 3).min(200);
        let length = match self.rng.below(100) {
            0 => self.rng.from(254, 300),
            1..=5 => self.rng.from(1, most),
            _ => {
                let characters = (0..self.rng.below(4)).map(|_| self.character());
                return characters.collect::<String>().into_bytes();
            }
        };
        self.text_of(length)
    }

    fn character(&mut self) -> char {
        match self.rng.below(10) {
            0..=3 => self.rng.from(b'a' as usize, b'z' as usize) as u8 as char,
            4..=7 => *self.rng.pick(&EDGES),
            _ => self.wide_character(),
        }
    }

    fn wide_character(&mut self) -> char {
        let (low, high) = *self.rng.pick(&WIDE);
        let number = self.rng.from(low, high) as u32;
        char::from_u32(number).expect("no surrogate")
    }

    /// Text of so many bytes: ASCII with a character at some place.
    pub fn text_of(&mut self, length: usize) -> Vec<u8> {
        let mut text = vec![b'a'; length];
        let character = self.character().to_string();
        if let Some(last) = length.checked_sub(character.len()) {
            let at = self.place_in(last);
            text.splice(at..at + character.len(), character.bytes());
        }
        text
    }

    /// The same with a byte that makes it no text, often the last.
    pub fn broken_text_of(&mut self, length: usize) -> Vec<u8> {
        let mut text = self.text_of(length);
        let at = match self.rng.percent(40) {
            true => length - 1,
            false => self.place_in(length - 1),
        };
        text[at] = *self.rng.pick(&[0x80, 0xff]);
        text
    }

    /// A place up to the last: any, or shortly before a block of 8 or 64 ends.
    fn place_in(&mut self, last: usize) -> usize {
        let any = self.rng.from(0, last);
        let block = *self.rng.pick(&[1, 8, 64]);
        let end = (any / block + 1) * block;
        last.min(end - self.rng.from(1, block.min(4)))
    }

    /// Damage a text: mostly bytes put in that are no character, or a character
    /// that is cut at the end, or a byte changed or taken out.
    fn damage_text(&mut self, text: &mut Vec<u8>) {
        let at = self.place_in(text.len());
        match self.rng.below(10) {
            0..=5 => {
                let broken = *self.rng.pick(&BROKEN);
                text.splice(at..at, broken.iter().copied());
            }
            6..=7 => {
                let character = self.wide_character().to_string();
                let cut = self.rng.from(1, character.len() - 1);
                text.extend(&character.as_bytes()[..cut]);
            }
            8 if at < text.len() => {
                text.remove(at);
            }
            _ if at < text.len() => text[at] = self.rng.from(0x80, 0xff) as u8,
            _ => text.push(self.rng.from(0x80, 0xff) as u8),
        }
    }

    /// Damage one string of a value, if it has one.
    pub fn break_text(&mut self, value: &mut Val) {
        if let Some(Val::Str(text)) = self.some_part(value, |v| matches!(v, Val::Str(_))) {
            self.damage_text(text);
        }
    }

    /// Put a string into something that a value holds, or for a part of it.
    pub fn plant_string(&mut self, value: &mut Val) {
        let string = self.string();
        if self.rng.percent(20) {
            if let Some(part) = self.some_part(value, |_| true) {
                *part = string;
            }
            return;
        }
        let holder = |v: &Val| matches!(v, Val::Set(_) | Val::Rec(_) | Val::Call(..));
        match self.some_part(value, holder) {
            Some(Val::Set(values) | Val::Call(_, values)) => {
                let at = self.rng.from(0, values.len());
                values.insert(at, string);
            }
            Some(Val::Rec(pairs)) => self.put_pair(pairs, string),
            _ => (),
        }
    }

    /// A type, and a value that is about its strings.
    pub fn texted(&mut self, schema: &Sch) -> (Ty, Val) {
        match self.rng.below(10) {
            0..=3 => self.split_text(schema),
            4..=6 => (Ty::Atom(5), self.string()),
            _ => {
                let most = self.limits.levels;
                let (string, holders) = (self.string(), self.rng.from(most - 1, most));
                (Ty::Atom(6), self.nest(string, holders))
            }
        }
    }

    /// A character cut in two between two strings that stand side by side.
    fn split_text(&mut self, schema: &Sch) -> (Ty, Val) {
        let character = self.wide_character().to_string();
        let (front, back) = character
            .as_bytes()
            .split_at(self.rng.from(1, character.len() - 1));
        let (before, behind) = (self.text(), self.text());
        let front = Val::Str([&before, front].concat());
        let back = Val::Str([back, &behind].concat());
        let two = [1, 2].map(|name| attr(name, true, Ty::Atom(5)));
        match self.rng.below(5) {
            0 => (Ty::Set(Box::new(Ty::Atom(5))), Val::Set(vec![front, back])),
            1 => (Ty::Atom(6), Val::Set(vec![front, back])),
            2 => (
                Ty::Rec(self.rng.percent(50), two.to_vec()),
                Val::Rec(vec![(1, front), (2, back)]),
            ),
            3 => (
                Ty::Rec(true, Vec::new()),
                Val::Rec(vec![(ATTRS[0], front), (ATTRS[1], back)]),
            ),
            _ => self.behind_arguments(schema, vec![front, back]),
        }
    }

    /// A call with these behind its arguments.
    fn behind_arguments(&mut self, schema: &Sch, values: Vec<Val>) -> (Ty, Val) {
        let extension = self.returned(schema);
        let mut call = self.counted_call(extension, schema, 1);
        if let Val::Call(_, args) = &mut call {
            args.extend(values);
        }
        (Ty::Ext(extension), call)
    }
}
