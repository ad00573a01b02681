//! `desk_luma` against `Primaries::luma`, on every code.

use oracle::video::colour::Primaries;

use crate::answers::Answer;
use crate::case::{Case, Difference, Failure, Least, Tally, smaller_numbers};
use crate::lent::three_places;
use crate::random::Random;

pub const NAME: &str = "luma";

#[derive(Debug, Clone)]
struct Code(u8);

impl Code {
    fn wanted(&self) -> Result<[f32; 3], u8> {
        match self.0 {
            0 => Ok(Primaries::Bt709.luma()),
            1 => Ok(Primaries::Bt2020.luma()),
            // A code that names nothing (docs/RULES.md, "What the desk gets back").
            _ => Err(3),
        }
    }
}

impl Case for Code {
    fn compare(&self) -> Result<u8, Difference> {
        three_places(
            |red, green, blue| desk::calls::luma(self.0, red, green, blue),
            self.wanted(),
        )
    }

    fn smaller(&self) -> Vec<Self> {
        smaller_numbers(self.0.into())
            .into_iter()
            .map(|code| Self(code as u8))
            .collect()
    }
}

pub fn run(_: &mut Random) -> Result<Tally, Failure> {
    let least = Least {
        accepted: 2,
        refused: 254,
    };
    Tally::of(NAME, least, (0..=u8::MAX).map(Code))
}

/// Every code that names something, and some others.
pub(crate) fn answers() -> impl Iterator<Item = Answer> {
    [0, 1, 2, 3, 128, 255].into_iter().map(|code: u8| {
        let wanted = Code(code).wanted();
        let value = |at: usize| wanted.ok().map(|weights| weights[at]);
        Answer::of("luma")
            .number(code)
            .gives(wanted.err().unwrap_or(0))
            .float(value(0))
            .float(value(1))
            .float(value(2))
    })
}
