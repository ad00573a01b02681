//! `desk_quantise` against `colour::quantise`: a part of all floats, or every
//! one of them.

use oracle::video::colour;

use crate::answers::Answer;
use crate::case::{Case, Difference, Failure, Least, Tally, same, smaller_numbers};
use crate::random::Random;

pub const NAME: &str = "quantise";

/// Never inlined, so that the benchmark times a call on both sides.
#[inline(never)]
pub fn by_rust(value: f32) -> u8 {
    colour::quantise(value)
}

/// Floats by their bits, from the first in steps.
#[derive(Clone)]
struct Floats {
    first: u32,
    step: u32,
    count: u32,
}

impl Floats {
    fn bits(&self) -> impl Iterator<Item = u32> + use<> {
        let (first, step) = (self.first, self.step);
        (0..self.count).map(move |at| first.wrapping_add(at.wrapping_mul(step)))
    }
}

impl std::fmt::Debug for Floats {
    fn fmt(&self, f: &mut std::fmt::Formatter<'_>) -> std::fmt::Result {
        let value = f32::from_bits(self.first);
        write!(f, "{value:?} (bits {:#010x})", self.first)?;
        if self.count != 1 {
            write!(f, " and on in {} steps of {}", self.count, self.step)?;
        }
        Ok(())
    }
}

impl Case for Floats {
    fn compare(&self) -> Result<u8, Difference> {
        for bits in self.bits() {
            let value = f32::from_bits(bits);
            let (rattle, rust) = (desk::calls::quantise(value), colour::quantise(value));
            if rattle != rust {
                same("the byte", rattle, rust)?;
            }
        }
        // No float is refused.
        Ok(0)
    }

    /// A half of a stretch, then a float of smaller bits.
    fn smaller(&self) -> Vec<Self> {
        if self.count > 1 {
            let half = self.count / 2;
            let later = self.first.wrapping_add(half.wrapping_mul(self.step));
            return vec![
                Self {
                    count: half,
                    ..*self
                },
                Self {
                    first: later,
                    count: self.count - half,
                    ..*self
                },
            ];
        }
        smaller_numbers(self.first.into())
            .into_iter()
            .map(|bits| Self {
                first: bits as u32,
                ..*self
            })
            .collect()
    }

    fn inputs(&self) -> u64 {
        self.count.into()
    }
}

/// All 2^32 floats in steps, the last stretch shorter than the others.
fn all_in_steps(step: u32) -> impl Iterator<Item = Floats> {
    const AT_ONCE: u64 = 1 << 16;
    let total = (1u64 << 32).div_ceil(step.into());
    (0..total.div_ceil(AT_ONCE)).map(move |stretch| {
        let before = stretch * AT_ONCE;
        Floats {
            first: (before * u64::from(step)) as u32,
            step,
            count: AT_ONCE.min(total - before) as u32,
        }
    })
}

/// The byte changes about (k - 0.5) / 255: all floats near to there, on both
/// sides of 0; and those about the ends of what is no number.
fn thresholds() -> impl Iterator<Item = Floats> {
    const NEAR: u32 = 512;
    let steps = (0..=256).map(|k| (k as f32 - 0.5) / 255.0);
    let others = [
        0.0,
        -0.0,
        1.0,
        -1.0,
        f32::MIN_POSITIVE,
        -f32::MIN_POSITIVE,
        // 255 times these is infinite, or just not.
        f32::MAX / 255.0,
        f32::MIN / 255.0,
        f32::MAX,
        f32::MIN,
        f32::INFINITY,
        f32::NEG_INFINITY,
        f32::NAN,
        -f32::NAN,
    ];
    steps.chain(others).map(|value| Floats {
        first: value.to_bits().wrapping_sub(NEAR),
        step: 1,
        count: 2 * NEAR + 1,
    })
}

/// About 4.2 million floats, evenly over all bits, and all near a threshold.
pub fn run(_: &mut Random) -> Result<Tally, Failure> {
    let least = Least {
        accepted: 4_400_000,
        refused: 0,
    };
    Tally::of(NAME, least, all_in_steps(1021).chain(thresholds()))
}

/// Every float.
pub fn every(_: &mut Random) -> Result<Tally, Failure> {
    let least = Least {
        accepted: 1 << 32,
        refused: 0,
    };
    Tally::of(NAME, least, all_in_steps(1))
}

/// Answers of floats near a threshold and of any, without an end.
pub(crate) fn answers(mut random: Random) -> impl Iterator<Item = Answer> {
    let near: Vec<Floats> = thresholds().collect();
    std::iter::repeat_with(move || {
        let value = if random.one_in(4) {
            random.any_float()
        } else {
            let Floats { first, count, .. } = random.pick(&near);
            let middle = first.wrapping_add(count / 2);
            f32::from_bits(middle.wrapping_add(random.below(5) as u32).wrapping_sub(2))
        };
        Answer::of("quantise")
            .floats([value])
            .number(by_rust(value))
    })
}
