//! `desk_plane` against `filter::plane`, by the bits of every value.

use oracle::video::Deinterlace;
use oracle::video::filter::{self, Samples};

use super::read::{self, numbers};
use super::trio::{self, Trio, quality_named};
use crate::answers::Answer;
use crate::case::{Case, Difference, Failure, Least, Tally, same, smaller_numbers};
use crate::judge;
use crate::lent::{Guarded, PATTERNS};
use crate::random::Random;
use crate::stray::Strays;

pub const NAME: &str = "plane";

/// Never inlined, so that the benchmark times a call on both sides.
#[inline(never)]
pub fn by_rust(
    quality: Deinterlace,
    [before, cur, after]: &[Samples<'_>; 3],
    first: u32,
) -> Vec<f32> {
    filter::plane(quality, before, cur, after, first)
}

/// Three planes, and what is asked of them.
#[derive(Debug, Clone)]
struct Whole {
    quality: u8,
    first: u8,
    /// Floats that are lent for the answer.
    out: usize,
    trio: Trio,
}

impl Whole {
    /// The number, and what is written.
    fn wanted(&self) -> (u8, Vec<f32>) {
        let Self {
            quality,
            first,
            out,
            ref trio,
        } = *self;
        let number = judge::plane(quality, first, trio.lent(), out);
        let expected = match number {
            0 => by_rust(quality_named(quality), &trio.samples(), first.into()),
            _ => Vec::new(),
        };
        (number, expected)
    }
}

impl Case for Whole {
    fn compare(&self) -> Result<u8, Difference> {
        let Self {
            quality,
            first,
            out,
            ref trio,
        } = *self;
        let (number, expected) = self.wanted();
        let [before, cur, after] = &trio.0;
        for pattern in PATTERNS {
            let mut lent = Guarded::filled(pattern, out);
            let given = desk::calls::plane(
                quality,
                first,
                before.lent(),
                before.shape,
                cur.lent(),
                cur.shape,
                after.lent(),
                after.shape,
                lent.lend(),
            );
            same("the number, which is the rules'", given, number)?;
            // The compiler must not suppose that the call kept to what it was lent.
            std::hint::black_box(&lent).written(&expected)?;
        }
        for given in std::hint::black_box(&trio.0) {
            let kept = given.lent() == given.plane().data;
            same("whether a lent plane is as it was", kept, true)?;
        }
        Ok(number)
    }

    fn smaller(&self) -> Vec<Self> {
        let with = |change: &dyn Fn(&mut Self)| {
            let mut simpler = self.clone();
            change(&mut simpler);
            simpler
        };
        let mut found = Vec::new();
        for less in smaller_numbers(self.quality.into()) {
            found.push(with(&|case| case.quality = less as u8));
        }
        for less in smaller_numbers(self.first.into()) {
            found.push(with(&|case| case.first = less as u8));
        }
        let more = self.out as i128 - i128::from(judge::floats(self.trio.0[1].shape));
        for trio in self.trio.smaller() {
            // As much longer, or too short, as it was; then as it is.
            let alike = i128::from(judge::floats(trio.0[1].shape)) + more;
            let lengths = [usize::try_from(alike).ok(), Some(self.out)];
            for out in lengths.into_iter().flatten() {
                if out <= self.out {
                    found.push(with(&|case| {
                        case.trio = trio.clone();
                        case.out = out;
                    }));
                }
            }
        }
        for less in smaller_numbers(self.out as u64) {
            found.push(with(&|case| case.out = less as usize));
        }
        found
    }

    fn strays(&self) -> Strays {
        self.trio.strays()
    }
}

/// Three planes that are right, and room for the answer or more.
fn right(random: &mut Random, trio: Trio) -> Whole {
    let needed = judge::floats(trio.0[1].shape) as usize;
    Whole {
        quality: trio::quality(random),
        first: random.below(2) as u8,
        out: needed + random.pick(&[0, 0, 1, 2, 17, 100]),
        trio,
    }
}

/// Three planes of which something may be wrong, or a code, or the room.
fn spoilt(random: &mut Random) -> Whole {
    let whole = random.one_in(2);
    let trio = trio::random(random, 24, 12, whole);
    let needed = judge::floats(trio.0[1].shape);
    let mut case = right(random, trio);
    if needed > 1 << 16 {
        // Too large to be lent whole: too short.
        case.out = random.between(0, 256) as usize;
    }
    if whole || random.one_in(3) {
        match random.below(5) {
            0 => case.quality = *random.pick(&[4, 5, 128, 254, 255]),
            1 => case.first = *random.pick(&[2, 3, 128, 255]),
            2 => case.out = 0,
            3 => case.out = (needed as usize).saturating_sub(1).min(1 << 16),
            _ => case.out = random.below(needed.clamp(1, 1 << 16)) as usize,
        }
    }
    case
}

pub fn run(random: &mut Random) -> Result<Tally, Failure> {
    let mut own = || Random::new(random.next());
    let (mut for_wide, mut for_right, mut for_spoilt) = (own(), own(), own());
    let wide = WIDE.into_iter().map(move |(quality, shapes)| {
        let trio = trio::of_shapes(&mut for_wide, shapes);
        Whole {
            quality,
            ..right(&mut for_wide, trio)
        }
    });
    let others = (0..2_400).map(move |_| {
        let trio = trio::random(&mut for_right, 64, 32, true);
        right(&mut for_right, trio)
    });
    let refused = (0..3_000).map(move |_| spoilt(&mut for_spoilt));
    let least = Least {
        accepted: 2_400,
        refused: 2_500,
    };
    let smallest = smallest();
    Tally::of(
        NAME,
        least,
        smallest.chain(wide).chain(others).chain(refused),
    )
}

/// Every quality of planes of one sample, of ten bits.
fn smallest() -> impl Iterator<Item = Whole> {
    read::WORDS.into_iter().flat_map(|word| {
        (0..4).map(move |quality| Whole {
            quality,
            first: 1,
            out: 1,
            trio: Trio::one_sample(word),
        })
    })
}

/// The widest and the highest, each with a quality.
const WIDE: [(u8, [desk::calls::PlaneNumbers; 3]); 6] = [
    (
        2,
        [
            numbers(8192, 3, 16, 32_768, 2),
            numbers(8192, 3, 16, 65_536, 3),
            numbers(8192, 3, 16, 16_384, 0),
        ],
    ),
    (3, [numbers(8192, 3, 10, 16_385, 1); 3]),
    (
        3,
        [
            numbers(8191, 4, 8, 8191, 0),
            numbers(8191, 4, 8, 8193, 1),
            numbers(8191, 4, 8, 16_383, 2),
        ],
    ),
    (1, [numbers(8192, 3, 8, 8192, 0); 3]),
    (0, [numbers(8192, 3, 12, 16_384, 0); 3]),
    (2, [numbers(2, 4352, 9, 4, 0); 3]),
];

/// Answers of small planes, without an end; one in four has something wrong.
pub(crate) fn answers(mut random: Random) -> impl Iterator<Item = Answer> {
    let others = std::iter::repeat_with(move || {
        if random.one_in(4) {
            return spoilt(&mut random);
        }
        let trio = trio::random(&mut random, 14, 9, true);
        right(&mut random, trio)
    });
    smallest().step_by(5).chain(others).map(|case| {
        let (number, written) = case.wanted();
        let front = Answer::of("plane").number(case.quality).number(case.first);
        case.trio
            .answer(front)
            .gives(number)
            .float_output(&written, case.out)
            .reads(case.strays())
    })
}
