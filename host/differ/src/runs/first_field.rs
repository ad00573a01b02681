//! `desk_first_field` against `field::first_field`, on every input.

use oracle::decode::About;
use oracle::mediadecoder::es::Structure;
use oracle::video::field;

use crate::answers::Answer;
use crate::case::{Case, Difference, Failure, Least, Tally, same, smaller_numbers};
use crate::lent::Guarded;
use crate::random::Random;

pub const NAME: &str = "first_field";

/// What the Rust says: 0 and the parity's number, or 3 where a code names
/// nothing (the table of docs/RULES.md; the Rust's types leave no such case). Never
/// inlined, so that the benchmark times a call on both sides.
#[inline(never)]
pub fn by_rust(structure: u8, top_field_first: u8, parity: &mut u8) -> u8 {
    let structure = match structure {
        0 => Structure::Frame,
        1 => Structure::Top,
        2 => Structure::Bottom,
        _ => return 3,
    };
    let top_field_first = match top_field_first {
        0 => false,
        1 => true,
        _ => return 3,
    };
    let about = About {
        structure,
        top_field_first,
        ..About::default()
    };
    *parity = match field::first_field(&about) {
        field::Parity::Top => 0,
        field::Parity::Bottom => 1,
    };
    0
}

#[derive(Debug, Clone, PartialEq, Eq)]
struct Codes {
    structure: u8,
    top_field_first: u8,
    /// What the out byte holds before the call.
    parity: u8,
}

impl Case for Codes {
    fn compare(&self) -> Result<u8, Difference> {
        let mut expected = self.parity;
        let wanted = by_rust(self.structure, self.top_field_first, &mut expected);
        let mut lent = Guarded::holding(0, &[self.parity]);
        let number =
            desk::calls::first_field(self.structure, self.top_field_first, &mut lent.lend()[0]);
        same("the number", number, wanted)?;
        lent.written(&[expected])?;
        Ok(number)
    }

    fn smaller(&self) -> Vec<Self> {
        let with = |structure, top_field_first, parity| Self {
            structure,
            top_field_first,
            parity,
        };
        let numbers = |number: u8| smaller_numbers(number.into()).into_iter().map(|n| n as u8);
        let mut found = Vec::new();
        found.extend(numbers(self.structure).map(|n| with(n, self.top_field_first, self.parity)));
        found.extend(numbers(self.top_field_first).map(|n| with(self.structure, n, self.parity)));
        found.extend(numbers(self.parity).map(|n| with(self.structure, self.top_field_first, n)));
        found
    }
}

pub fn run(_: &mut Random) -> Result<Tally, Failure> {
    let every = || 0..=u8::MAX;
    // Two contents that differ in every bit: a byte that is written shows in
    // at least one of them.
    let cases = [0x55, 0xAA].into_iter().flat_map(move |parity| {
        every().flat_map(move |structure| {
            every().map(move |top_field_first| Codes {
                structure,
                top_field_first,
                parity,
            })
        })
    });
    // Three structures, two flags, two contents; all others are refused.
    let accepted = 3 * 2 * 2;
    let least = Least {
        accepted,
        refused: 2 * 256 * 256 - accepted,
    };
    Tally::of(NAME, least, cases)
}

/// Every input that is answered, and some codes that name nothing.
pub(crate) fn answers() -> impl Iterator<Item = Answer> {
    let codes = [0, 1, 2, 3, 4, 128, 255];
    codes.into_iter().flat_map(move |structure| {
        codes.into_iter().map(move |top_field_first| {
            let mut parity = 0;
            let number = by_rust(structure, top_field_first, &mut parity);
            Answer::of("first_field")
                .number(structure)
                .number(top_field_first)
                .gives(number)
                .byte((number == 0).then_some(parity))
        })
    })
}
