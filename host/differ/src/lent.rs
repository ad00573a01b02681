//! Lent buffers with guards: what a call wrote and what it left alone are both
//! compared, before, inside and after the part that it was lent.

use std::fmt;
use std::hint::black_box;
use std::ops::Range;

use crate::case::{Difference, same};
use crate::random::Random;

/// A value that is made of noise and compared by its bits.
pub trait Plain: Copy + fmt::Debug {
    fn of_noise(bits: u64) -> Self;
    fn bits(self) -> u64;
}

macro_rules! plain_integer {
    ($($kind:ty)*) => {$(
        impl Plain for $kind {
            fn of_noise(bits: u64) -> Self {
                bits as Self
            }
            fn bits(self) -> u64 {
                self.into()
            }
        }
    )*};
}

plain_integer!(u8 u16 u32 u64);

impl Plain for i32 {
    fn of_noise(bits: u64) -> Self {
        bits as Self
    }
    fn bits(self) -> u64 {
        (self as u32).into()
    }
}

impl Plain for i64 {
    fn of_noise(bits: u64) -> Self {
        bits as Self
    }
    fn bits(self) -> u64 {
        self as u64
    }
}

impl Plain for f32 {
    fn of_noise(bits: u64) -> Self {
        Self::from_bits(bits as u32)
    }
    fn bits(self) -> u64 {
        self.to_bits().into()
    }
}

/// What lent places hold before a call: one pattern, then another that differs
/// from it in every bit, so that a write shows in at least one of the two.
pub const PATTERNS: [u64; 2] = [0x5555_5555_5555_5555, 0xAAAA_AAAA_AAAA_AAAA];

/// Values on either side of the lent part.
const GUARD: usize = 64;

/// A buffer of which the middle is lent.
#[derive(Debug, Clone)]
pub struct Guarded<T> {
    all: Vec<T>,
    /// All as it was before the call.
    was: Vec<T>,
    lent: Range<usize>,
}

impl<T: Plain> Guarded<T> {
    /// Lends `count` values of noise; more than the call needs, to see that the
    /// rest stays.
    pub fn noise(seed: u64, count: usize) -> Self {
        let mut random = Random::new(seed);
        let all: Vec<T> = (0..count + 2 * GUARD)
            .map(|_| T::of_noise(random.next()))
            .collect();
        Self {
            was: all.clone(),
            all,
            lent: GUARD..GUARD + count,
        }
    }

    /// Lends `count` values that all hold one of the [`PATTERNS`].
    pub fn filled(pattern: u64, count: usize) -> Self {
        let all = vec![T::of_noise(pattern); count + 2 * GUARD];
        Self {
            was: all.clone(),
            all,
            lent: GUARD..GUARD + count,
        }
    }

    /// Lends a copy of `contents`, as for a store that a call reads too.
    pub fn holding(seed: u64, contents: &[T]) -> Self {
        let mut guarded = Self::noise(seed, contents.len());
        guarded.lend().copy_from_slice(contents);
        guarded.was = guarded.all.clone();
        guarded
    }

    pub fn lend(&mut self) -> &mut [T] {
        &mut self.all[self.lent.clone()]
    }

    /// The lent part begins with `expected`, and all else is as it was. After a
    /// refusal `expected` is empty.
    pub fn written(&self, expected: &[T]) -> Result<(), Difference> {
        let start = self.lent.start;
        if expected.len() > self.lent.len() {
            return Err(Difference::new(
                "the size of the output",
                format_args!("{} lent", self.lent.len()),
                format_args!("{} written", expected.len()),
            ));
        }
        for (at, (now, was)) in self.all.iter().zip(&self.was).enumerate() {
            let written = at.checked_sub(start).and_then(|at| expected.get(at));
            let wanted = written.unwrap_or(was);
            if now.bits() == wanted.bits() {
                continue;
            }
            let place = at as i64 - start as i64;
            let what = if written.is_some() {
                format!("value {place} of the output")
            } else if self.lent.contains(&at) {
                format!("value {place} of the lent output, which was not to be written")
            } else {
                format!(
                    "value {place} of the lent {}, outside of it",
                    self.lent.len()
                )
            };
            return Err(Difference::new(what, shown(*now), shown(*wanted)));
        }
        Ok(())
    }
}

/// Calls with one lent place for the answer, twice: the place and those beside
/// it hold one of the [`PATTERNS`], then the other. `wanted` is the answer, or
/// the number of the refusal, which leaves the place as it is.
pub fn one_place<T: Plain>(
    call: impl Fn(&mut T) -> u8,
    wanted: Result<T, u8>,
) -> Result<u8, Difference> {
    places(
        |places: &mut [T; 3]| call(&mut places[1]),
        wanted.map(|answer| [answer]),
    )
}

/// [`one_place`] for three answers, each in a place of its own.
pub fn three_places<T: Plain>(
    call: impl Fn(&mut T, &mut T, &mut T) -> u8,
    wanted: Result<[T; 3], u8>,
) -> Result<u8, Difference> {
    places(
        |[_, first, _, second, _, third, _]: &mut [T; 7]| call(first, second, third),
        wanted,
    )
}

/// The second place of `ALL` and every other one from there is lent.
fn places<T: Plain, const ALL: usize, const LENT: usize>(
    call: impl Fn(&mut [T; ALL]) -> u8,
    wanted: Result<[T; LENT], u8>,
) -> Result<u8, Difference> {
    let number = wanted.err().unwrap_or(0);
    for pattern in PATTERNS {
        let was = T::of_noise(pattern);
        let mut places = [was; ALL];
        let given = call(&mut places);
        // The compiler must not suppose that the call kept to its own places.
        let places = black_box(places);
        same("the number, which is the rules'", given, number)?;
        for (at, now) in places.into_iter().enumerate() {
            let answer = if at % 2 == 1 {
                wanted.ok().map(|wanted| wanted[at / 2])
            } else {
                None
            };
            let expected = answer.unwrap_or(was);
            if now.bits() != expected.bits() {
                return Err(Difference::new(
                    name_of(at, LENT, answer.is_some()),
                    shown(now),
                    shown(expected),
                ));
            }
        }
    }
    Ok(number)
}

/// What stands at a place among those lent and those between them.
fn name_of(at: usize, lent: usize, written: bool) -> String {
    let which = match (at / 2, lent) {
        (_, 1) => String::new(),
        (answer, _) => format!(" {answer}"),
    };
    match (at % 2, written) {
        (1, true) => format!("the answer{which}"),
        (1, false) => format!("the lent place{which}, which was not to be written"),
        _ if at / 2 < lent => format!("the place before the answer{which}"),
        _ => "the place after the answer".to_owned(),
    }
}

/// Bytes that are lent for reading, with noise on either side: what is read
/// outside of them is not what the Rust reads there.
#[derive(Debug, Clone)]
pub struct Between {
    all: Vec<u8>,
    lent: Range<usize>,
}

impl Between {
    pub fn noise(bytes: &[u8]) -> Self {
        let mut random = Random::new(bytes.len() as u64);
        // The start changes with the length, so that it is often unaligned.
        let start = GUARD + bytes.len() % 16;
        let lent = start..start + bytes.len();
        let mut all = Vec::with_capacity(lent.end + GUARD);
        all.extend(random.bytes(start));
        all.extend(bytes);
        all.extend(random.bytes(GUARD));
        Self { all, lent }
    }

    pub fn lent(&self) -> &[u8] {
        &self.all[self.lent.clone()]
    }
}

fn shown<T: Plain>(value: T) -> String {
    format!("{value:?} (bits {:#x})", value.bits())
}
