//! Text: conformance of values that strings fill, and the test of one string
//! beside `std::str::from_utf8`.

use crate::cases::Case;
use crate::figure;
use crate::inputs::{self, widest, Size, DEEP, WIDE};
use crate::timing::{best, repeated};
use oracle::limits::Limits;
use oracle::questions::operation::CONFORMS;
use oracle::trees::{Attr, Ty, Val};
use std::hint::black_box;

/// One string, under the schema of the small size.
const ALONE: Size = Size {
    name: "alone",
    width: 4,
    levels: 1,
};

/// Bytes of a string that is tested by itself.
const BYTES: usize = 4000;

const ASCII: &str = "matt 120 g/m2, ";

const GERMAN: &str = "Der Drucker am Ausgang prüft jedes Etikett, bevor er es annimmt. \
    Fehlt ein Zeichen oder ist eine Zeile zu lang, so bleibt das Papier liegen, und die Kundin \
    muss warten, bis jemand den Schacht öffnet. Früher stand auf den Bögen nur die Größe; heute \
    stehen dort auch die Nummer der Charge, der Name des Papiers und die Straße, in der der Kiosk \
    zu finden ist. Wer nachts vorbeikommt, hört das Gerät leise arbeiten, denn es druckt, was am \
    Tag liegen blieb, und räumt danach den Speicher auf. ";

/// Characters of two, three and four bytes in no order.
fn mixed() -> String {
    let mut seed: u32 = 1;
    let characters = std::iter::repeat_with(|| {
        seed = seed.wrapping_mul(1_664_525).wrapping_add(1_013_904_223);
        ['ä', '€', '😀'][(seed >> 16) as usize % 3]
    });
    characters.take(2048).collect()
}

/// Texts, each longer than a form, with what they are called.
fn texts() -> [(&'static str, String); 3] {
    [
        ("ASCII", ASCII.repeat(300)),
        ("German", GERMAN.repeat(10)),
        ("mixed", mixed()),
    ]
}

/// So many bytes of a text: whole characters, then spaces.
fn cut(text: &str, bytes: usize) -> Vec<u8> {
    let whole = (0..=bytes).rfind(|end| text.is_char_boundary(*end));
    let mut cut = text.as_bytes()[..whole.expect("the beginning is one")].to_vec();
    cut.resize(bytes, b' ');
    cut
}

/// A string, or a closed record of strings whose last attribute holds the level
/// below: the type and a value of it.
fn typed(width: u16, levels: usize, string: &[u8]) -> (Ty, Val) {
    if levels == 1 {
        return (Ty::Atom(5), Val::Str(string.to_vec()));
    }
    let mut parts = vec![typed(width, 1, string); usize::from(width) - 1];
    parts.push(typed(width, levels - 1, string));
    let (types, values): (Vec<Ty>, Vec<Val>) = parts.into_iter().unzip();
    let attribute = |(name, ty)| Attr {
        name,
        required: true,
        ty,
    };
    (
        Ty::Rec(false, (0..).zip(types).map(attribute).collect()),
        Val::Rec((0..).zip(values).collect()),
    )
}

/// Strings as long as a value of the size has room for.
fn case(size: Size, (name, text): &(&str, String)) -> Case {
    let limits = Limits::STANDARD;
    let of = |bytes: u16| typed(size.width, size.levels, &cut(text, bytes.into()));
    let bytes = widest(limits.bytes, |bytes| of(bytes).1.form());
    let (ty, value) = of(bytes);
    Case {
        limits,
        operation: "typecheck_restricted_expr",
        input: format!("{}, {bytes} bytes in a string, {name}", size.name),
        op: CONFORMS,
        attr: 0,
        schema: inputs::schema(size).form(),
        t0: ty.form(),
        t1: value.form(),
    }
}

/// Conformance of strings, ASCII and mixed.
pub fn all() -> Vec<Case> {
    let [ascii, _, mixed] = texts();
    let both = |size| [case(size, &ascii), case(size, &mixed)];
    [WIDE, DEEP, ALONE].into_iter().flat_map(both).collect()
}

#[link(name = "measured", kind = "static")]
extern "C" {
    fn tirncheav_measured_is_text(b: *const u8, b_len: usize) -> u64;
}

fn library(string: &[u8]) -> bool {
    // The pointer stands with the length of its slice.
    unsafe { tirncheav_measured_is_text(string.as_ptr(), string.len()) == 1 }
}

fn rust(string: &[u8]) -> bool {
    std::str::from_utf8(string).is_ok()
}

/// The answers must be the same before anything is timed: of the string, cut at
/// each place, and with a broken byte there.
fn same_answers(string: &[u8]) {
    let mut broken = string.to_vec();
    for at in 0..string.len() {
        broken[at] = 0xff;
        for asked in [&string[at..], &string[..at], &broken[..]] {
            assert_eq!(rust(asked), library(asked), "{asked:?}");
        }
        broken[at] = string[at];
    }
    assert!(rust(string) && library(string));
}

pub fn print() {
    println!("| Text | bytes | from_utf8, ns | GB/s | library, ns | GB/s | ratio |");
    println!("|---|---|---|---|---|---|---|");
    for (name, text) in texts() {
        let string = cut(&text, BYTES);
        same_answers(&string);
        let ns = best(&mut [
            repeated(|| rust(black_box(&string))),
            repeated(|| library(black_box(&string))),
        ]);
        println!(
            "| {name} | {BYTES} | {} | {:.2} | {} | {:.2} | {:.2} |",
            figure(ns[0]),
            BYTES as f64 / ns[0],
            figure(ns[1]),
            BYTES as f64 / ns[1],
            ns[0] / ns[1],
        );
    }
}
