//! `desk_at` against `Samples::at`, by the bits of the value.

use oracle::video::filter::Samples;

use super::read::{self, Asked};
use crate::answers::Answer;
use crate::case::{Case, Difference, Failure, Least, Tally};
use crate::judge;
use crate::lent::one_place;
use crate::random::Random;
use crate::stray::Strays;

pub const NAME: &str = "at";

/// Never inlined, so that the benchmark times a call on both sides.
#[inline(never)]
pub fn by_rust(samples: &Samples<'_>, x: i32, y: i32) -> f32 {
    samples.at(x, y)
}

#[derive(Debug, Clone)]
struct At(Asked);

impl At {
    fn wanted(&self) -> Result<f32, u8> {
        let Asked { given, x, y } = &self.0;
        let (x, y) = (*x, *y);
        match judge::at(given.shape, given.length, x, y) {
            0 => Ok(by_rust(&read::samples(given), x, y)),
            number => Err(number),
        }
    }
}

impl Case for At {
    fn compare(&self) -> Result<u8, Difference> {
        let Asked { given, x, y } = &self.0;
        let (x, y) = (*x, *y);
        one_place(
            |value| desk::calls::at(given.lent(), given.shape, x, y, value),
            self.wanted(),
        )
    }

    fn smaller(&self) -> Vec<Self> {
        self.0.smaller().into_iter().map(Self).collect()
    }

    fn strays(&self) -> Strays {
        self.0.strays()
    }
}

pub fn run(random: &mut Random) -> Result<Tally, Failure> {
    let least = Least {
        accepted: 600_000,
        refused: 430_000,
    };
    Tally::of(NAME, least, read::cases(random, 4).map(At))
}

/// Answers of small planes, without an end.
pub(crate) fn answers(random: Random) -> impl Iterator<Item = Answer> {
    read::small(random, 4).map(|asked| {
        let case = At(asked);
        let wanted = case.wanted();
        let number = wanted.err().unwrap_or(0);
        case.0.answer("at", number).float(wanted.ok())
    })
}

#[cfg(test)]
mod tests {
    use super::{At, read};

    /// Of ten bits each, by the rules: the largest code is 1,023.
    #[test]
    fn a_code_past_the_largest_is_worth_1() {
        let values: Vec<_> = read::smallest().map(|asked| At(asked).wanted()).collect();
        let below = 1022.0 / 1023.0;
        assert_eq!(values, [1.0, below, 1.0, 1.0, 1.0, 1.0].map(Ok));
    }
}
