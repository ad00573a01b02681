//! The refusal numbers of docs/RULES.md ("What the desk gets back"), in words.

use std::error::Error;
use std::fmt;

/// A call was refused: it wrote nothing and changed no state. Never holds 0.
#[derive(Clone, Copy, PartialEq, Eq)]
pub struct Refusal(u8);

impl Refusal {
    /// What a call of [`calls`](crate::calls) gave: 0 is no refusal, and every other number is one.
    pub fn check(number: u8) -> Result<(), Self> {
        match number {
            0 => Ok(()),
            refused => Err(Self(refused)),
        }
    }

    /// As in the table of docs/RULES.md.
    pub fn number(self) -> u8 {
        self.0
    }
}

impl fmt::Display for Refusal {
    fn fmt(&self, f: &mut fmt::Formatter<'_>) -> fmt::Result {
        let sentence = match self.0 {
            1 => "the readback has no plane, or more than 3; expected 2 or 3",
            2 => "the readback has only luma; expected chroma beside it, in 1 or 2 planes",
            3 => {
                "a code names nothing, or a coordinate is outside; expected a code that the call \
                 lists, and a coordinate that it takes"
            }
            4 => {
                "a shape is outside its bounds; expected width 1 to 8192, height 1 to 4352 (2176 \
                 for a field to be woven), depth 8 to 16, and a stride of at least a row and at \
                 most 65536 bytes"
            }
            5 => {
                "planes that must agree differ; expected one width, height and depth, and chroma \
                 of half the size, rounded up"
            }
            6 => {
                "a lent input is shorter than its shape needs; expected at least (height - 1) \
                 times stride plus one row"
            }
            7 => "a lent output or store is too short; expected room for all that the call writes",
            8 => {
                "a colour number or a sample is outside its range or not a number; expected each \
                 colour number within -16 to 16, kr and kb within 0 to 0.4375, samples within 0 \
                 to 256"
            }
            9 => "the detector has taken 4000000000 frames; expected a reset before the next push",
            10 => "the prediction is too far ahead; expected at most 1000000 frames",
            _ => "no such refusal is known here; expected a number from 1 to 10",
        };
        write!(f, "refused with {}: {sentence}", self.0)
    }
}

/// The words too: they are what `expect` prints, and a `main` that gives a [`Result`].
impl fmt::Debug for Refusal {
    fn fmt(&self, f: &mut fmt::Formatter<'_>) -> fmt::Result {
        fmt::Display::fmt(self, f)
    }
}

impl Error for Refusal {}

#[cfg(test)]
mod tests {
    use super::Refusal;
    use std::collections::HashSet;

    #[test]
    fn nought_is_no_refusal_and_each_other_number_has_its_own_sentence() {
        assert_eq!(Refusal::check(0), Ok(()));
        let sentences: HashSet<String> = (1..=11)
            .map(|number| {
                let refusal = Refusal::check(number).expect_err("not 0");
                let text = refusal.to_string();
                assert!(
                    text.starts_with(&format!("refused with {number}: ")),
                    "{text}"
                );
                assert!(text.contains("; expected "), "{text}");
                assert_eq!(format!("{refusal:?}"), text);
                text.split_once(": ").expect("just seen").1.to_owned()
            })
            .collect();
        assert_eq!(sentences.len(), 11);
    }
}
