//! `desk_code` against `Samples::code`.

use super::read::{self, Asked};
use crate::answers::Answer;
use crate::case::{Case, Difference, Failure, Least, Tally};
use crate::judge;
use crate::lent::one_place;
use crate::random::Random;
use crate::stray::Strays;

pub const NAME: &str = "code";

#[derive(Debug, Clone)]
struct Code(Asked);

impl Code {
    fn wanted(&self) -> Result<u16, u8> {
        let Asked { given, x, y } = &self.0;
        let (x, y) = (*x, *y);
        match judge::code(given.shape, given.length, x, y) {
            0 => {
                // The Rust counts in wider types; its code has at most 16 bits.
                let code = read::samples(given).code(x as usize, y as usize);
                Ok(u16::try_from(code).expect("a code of two bytes"))
            }
            number => Err(number),
        }
    }
}

impl Case for Code {
    fn compare(&self) -> Result<u8, Difference> {
        let Asked { given, x, y } = &self.0;
        let (x, y) = (*x, *y);
        one_place(
            |code| desk::calls::code(given.lent(), given.shape, x, y, code),
            self.wanted(),
        )
    }

    fn smaller(&self) -> Vec<Self> {
        self.0.smaller().into_iter().map(Self).collect()
    }

    fn strays(&self) -> Strays {
        self.0.strays()
    }
}

pub fn run(random: &mut Random) -> Result<Tally, Failure> {
    let least = Least {
        accepted: 520_000,
        refused: 510_000,
    };
    Tally::of(NAME, least, read::cases(random, 8).map(Code))
}

/// Answers of small planes, without an end.
pub(crate) fn answers(random: Random) -> impl Iterator<Item = Answer> {
    read::small(random, 8).map(|asked| {
        let case = Code(asked);
        let wanted = case.wanted();
        let number = wanted.err().unwrap_or(0);
        case.0.answer("code", number).code(wanted.ok())
    })
}

#[cfg(test)]
mod tests {
    use super::{Code, read};

    /// Of ten bits each, by the rules.
    #[test]
    fn a_code_past_the_largest_is_the_largest() {
        let codes: Vec<_> = read::smallest().map(|asked| Code(asked).wanted()).collect();
        assert_eq!(codes, [1023, 1022, 1023, 1023, 1023, 1023].map(Ok));
    }
}
