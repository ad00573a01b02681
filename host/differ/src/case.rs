//! The frame of a differential run: a case that compares both sides, the loop
//! that makes a failing case small, and the tally.

use std::any::Any;
use std::collections::{BTreeMap, BTreeSet};
use std::fmt;
use std::panic::{self, AssertUnwindSafe};

use crate::stray::Strays;

/// One input. It holds all that its comparison depends on, so that printing it
/// is enough to repeat it: large inputs as a layout and a seed.
pub trait Case: Clone + fmt::Debug {
    /// Puts the input to both sides. Where they agree, the number that both
    /// gave: 0 is done, another is a refusal.
    fn compare(&self) -> Result<u8, Difference>;

    /// Inputs that are simpler than this one, the simplest first. They must
    /// not lead back to this one.
    fn smaller(&self) -> Vec<Self>;

    /// How many inputs it compares, if it is a stretch of them, all with the
    /// same number.
    fn inputs(&self) -> u64 {
        1
    }

    /// Adds its inputs to those that gave each number; `number` is what
    /// `compare` gave. One whose inputs have numbers of their own adds each.
    fn count(&self, number: u8, numbers: &mut BTreeMap<u8, u64>) {
        *numbers.entry(number).or_default() += self.inputs();
    }

    /// The samples that it has calls read; asked only where `compare` gave 0. Of a
    /// call for one sample that one, else all samples of all planes that are lent.
    fn strays(&self) -> Strays {
        Strays::default()
    }
}

/// In what the two sides differ, and what each of them said.
#[derive(Debug, Clone, PartialEq, Eq)]
pub struct Difference {
    pub what: String,
    pub rattle: String,
    pub rust: String,
}

impl Difference {
    pub fn new(
        what: impl fmt::Display,
        rattle: impl fmt::Display,
        rust: impl fmt::Display,
    ) -> Self {
        Self {
            what: what.to_string(),
            rattle: rattle.to_string(),
            rust: rust.to_string(),
        }
    }
}

/// Compares two answers. Floats are to be given as their bits: `==` would take
/// -0.0 for 0.0, and no NaN for itself.
pub fn same<T: PartialEq + fmt::Debug>(what: &str, rattle: T, rust: T) -> Result<(), Difference> {
    if rattle == rust {
        return Ok(());
    }
    Err(Difference::new(
        what,
        format_args!("{rattle:?}"),
        format_args!("{rust:?}"),
    ))
}

/// The fewest cases of each kind that a run must have seen. Without it a run
/// in which every case is refused would compare nothing, and pass.
#[derive(Debug, Clone, Copy, PartialEq, Eq)]
pub struct Least {
    pub accepted: u64,
    pub refused: u64,
}

/// What a run that found no difference has compared.
#[derive(Debug, Clone, PartialEq, Eq)]
pub struct Tally {
    name: &'static str,
    /// How many cases gave each number.
    numbers: BTreeMap<u8, u64>,
    /// The samples that calls read which gave 0.
    strays: Strays,
}

impl Tally {
    /// Compares every case, and stops at the first difference.
    pub fn of<C: Case>(
        name: &'static str,
        least: Least,
        cases: impl IntoIterator<Item = C>,
    ) -> Result<Self, Failure> {
        let mut numbers = BTreeMap::new();
        let mut strays = Strays::default();
        for case in cases {
            match judged(&case) {
                Ok(number) => {
                    case.count(number, &mut numbers);
                    if number == 0 {
                        strays += case.strays();
                    }
                }
                Err(difference) => {
                    let (case, difference) = smallest(case, difference);
                    return Err(Failure::Differs {
                        name,
                        case: format!("{case:?}"),
                        difference,
                    });
                }
            }
        }
        let tally = Self {
            name,
            numbers,
            strays,
        };
        if tally.accepted() < least.accepted || tally.refused() < least.refused {
            return Err(Failure::TooFew { tally, least });
        }
        Ok(tally)
    }

    /// Counts those of another part of the same run too.
    pub fn add(&mut self, other: Self) {
        for (number, count) in other.numbers {
            *self.numbers.entry(number).or_default() += count;
        }
        self.strays += other.strays;
    }

    /// Holds a run whose calls read codes to the stray bits that it has to see.
    pub fn with_strays(self) -> Result<Self, Failure> {
        if self.strays.suffice() {
            return Ok(self);
        }
        Err(Failure::TooFewStrays { tally: self })
    }

    pub fn strays(&self) -> Strays {
        self.strays
    }

    pub fn compared(&self) -> u64 {
        self.numbers.values().sum()
    }

    pub fn accepted(&self) -> u64 {
        self.numbers.get(&0).copied().unwrap_or(0)
    }

    pub fn refused(&self) -> u64 {
        self.compared() - self.accepted()
    }

    /// How many cases gave this number.
    pub fn gave(&self, number: u8) -> u64 {
        self.numbers.get(&number).copied().unwrap_or(0)
    }
}

impl fmt::Display for Tally {
    fn fmt(&self, f: &mut fmt::Formatter<'_>) -> fmt::Result {
        let by_number: Vec<_> = self
            .numbers
            .iter()
            .filter(|(number, _)| **number != 0)
            .map(|(number, count)| format!("{count} with {number}"))
            .collect();
        write!(
            f,
            "{}: {} compared, {} accepted, {} refused",
            self.name,
            self.compared(),
            self.accepted(),
            self.refused()
        )?;
        if !by_number.is_empty() {
            write!(f, " ({})", by_number.join(", "))?;
        }
        if self.strays.samples > 0 {
            write!(f, ", {}", self.strays)?;
        }
        write!(f, ", none different")
    }
}

/// Why a run failed.
#[derive(Debug, Clone, PartialEq, Eq)]
pub enum Failure {
    Differs {
        name: &'static str,
        /// The smallest failing case that was found.
        case: String,
        difference: Difference,
    },
    TooFew {
        tally: Tally,
        least: Least,
    },
    /// Too few samples had stray bits, or were cut, or had none.
    TooFewStrays {
        tally: Tally,
    },
    /// The exports say that they refuse with other numbers.
    OtherNumbers {
        tally: Tally,
        said: BTreeSet<u8>,
    },
}

impl fmt::Display for Failure {
    fn fmt(&self, f: &mut fmt::Formatter<'_>) -> fmt::Result {
        match self {
            Self::Differs {
                name,
                case,
                difference,
            } => write!(
                f,
                "{name}: the sides differ in {}\n  smallest input: {case}\n  Rattle: {}\n  Rust:   {}",
                difference.what, difference.rattle, difference.rust
            ),
            Self::TooFew { tally, least } => write!(
                f,
                "{tally}; but expected at least {} accepted and {} refused",
                least.accepted, least.refused
            ),
            Self::TooFewStrays { tally } => write!(
                f,
                "{tally}; but of {} samples expected at least a third with stray bits, a tenth cut, \
                 and a quarter without",
                tally.strays.samples
            ),
            Self::OtherNumbers { tally, said } => write!(
                f,
                "{tally}; but by their exports the calls refuse with {said:?}; expected each of these \
                 and no other"
            ),
        }
    }
}

/// A comparison in which a panic is a difference too, so that its input is
/// made small and printed. Only the oracle and the comparison itself can panic.
fn judged<C: Case>(case: &C) -> Result<u8, Difference> {
    panic::catch_unwind(AssertUnwindSafe(|| case.compare())).unwrap_or_else(|payload| {
        Err(Difference::new(
            "that the Rust side panicked",
            "not asked",
            message(&*payload),
        ))
    })
}

fn message(payload: &(dyn Any + Send)) -> &str {
    if let Some(text) = payload.downcast_ref::<&str>() {
        return text;
    }
    payload
        .downcast_ref::<String>()
        .map_or("a panic without a message", String::as_str)
}

/// Comparisons after which shrinking is content with what it has.
const MOST_TRIES: usize = 20_000;

/// Goes from a failing case to the first smaller one that fails, and on from
/// there, until none of the smaller ones does.
pub fn smallest<C: Case>(case: C, difference: Difference) -> (C, Difference) {
    let mut least = (case, difference);
    let mut tries = 0;
    'smaller: loop {
        for case in least.0.smaller() {
            if tries == MOST_TRIES {
                return least;
            }
            tries += 1;
            if let Err(difference) = judged(&case) {
                least = (case, difference);
                continue 'smaller;
            }
        }
        return least;
    }
}

/// Numbers to try in place of a number, each smaller than it: the least two,
/// then ever closer to it, so that a threshold is found in few steps.
pub fn smaller_numbers(number: u64) -> Vec<u64> {
    let closer = (1..u64::BITS)
        .map(|halvings| number >> halvings)
        .take_while(|less| *less > 0)
        .map(|less| number - less);
    let mut found: Vec<_> = [0, 1]
        .into_iter()
        .chain(closer)
        .filter(|smaller| *smaller < number)
        .collect();
    found.sort_unstable();
    found.dedup();
    found
}
