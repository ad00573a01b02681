//! `desk_sample` against `filter::sample`, by the bits of the value.

use std::rc::Rc;

use oracle::video::Deinterlace;
use oracle::video::filter::{self, Rows, Samples};

use super::read::{self, nearer_to_nought, numbers};
use super::trio::{self, Trio, quality_named};
use crate::answers::Answer;
use crate::case::{Case, Difference, Failure, Least, Tally, smaller_numbers};
use crate::judge;
use crate::lent::one_place;
use crate::random::Random;
use crate::stray::Strays;

pub const NAME: &str = "sample";

/// Never inlined, so that the benchmark times a call on both sides.
#[inline(never)]
pub fn by_rust(
    quality: Deinterlace,
    [before, cur, after]: &[Samples<'_>; 3],
    rows: Rows,
    x: i32,
    y: i32,
) -> f32 {
    filter::sample(quality, before, cur, after, rows, x, y)
}

/// Three planes, and what is asked of them.
#[derive(Debug, Clone)]
struct Sample {
    quality: u8,
    first: u32,
    mate: u32,
    x: i32,
    y: i32,
    trio: Rc<Trio>,
}

impl Sample {
    fn wanted(&self) -> Result<f32, u8> {
        let Self {
            quality,
            first,
            mate,
            x,
            y,
            ref trio,
        } = *self;
        match judge::sample(quality, trio.lent(), first, mate, x, y) {
            0 => {
                let rows = Rows { first, mate };
                Ok(by_rust(quality_named(quality), &trio.samples(), rows, x, y))
            }
            number => Err(number),
        }
    }
}

impl Case for Sample {
    fn compare(&self) -> Result<u8, Difference> {
        let Self {
            quality,
            first,
            mate,
            x,
            y,
            ref trio,
        } = *self;
        let [before, cur, after] = &trio.0;
        one_place(
            |value| {
                desk::calls::sample(
                    quality,
                    before.lent(),
                    before.shape,
                    cur.lent(),
                    cur.shape,
                    after.lent(),
                    after.shape,
                    first,
                    mate,
                    x,
                    y,
                    value,
                )
            },
            self.wanted(),
        )
    }

    fn smaller(&self) -> Vec<Self> {
        let with = |change: &dyn Fn(&mut Self)| {
            let mut simpler = self.clone();
            change(&mut simpler);
            simpler
        };
        let mut found = Vec::new();
        for less in smaller_numbers(self.quality.into()) {
            found.push(with(&|case| case.quality = less as u8));
        }
        for less in smaller_numbers(self.first.into()) {
            found.push(with(&|case| case.first = less as u32));
        }
        for less in smaller_numbers(self.mate.into()) {
            found.push(with(&|case| case.mate = less as u32));
        }
        for less in nearer_to_nought(self.y) {
            found.push(with(&|case| case.y = less));
        }
        for less in nearer_to_nought(self.x) {
            found.push(with(&|case| case.x = less));
        }
        for simpler in self.trio.smaller() {
            let simpler = Rc::new(simpler);
            found.push(with(&|case| case.trio = simpler.clone()));
        }
        found
    }

    /// Of the plane in the middle, at the place that is asked for.
    fn strays(&self) -> Strays {
        self.trio.0[1].strays_at(self.x, self.y)
    }
}

/// Codes of which some would name something if they were cut to fewer bits.
const UNNAMED: [u32; 7] = [3, 4, 255, 256, 257, 65_536, u32::MAX];

fn asked(random: &mut Random, trio: &Rc<Trio>) -> Sample {
    let shape = trio.0[1].shape;
    let mut case = Sample {
        quality: trio::quality(random),
        first: random.below(2) as u32,
        mate: random.below(3) as u32,
        x: read::coordinate(random, shape.width, 6),
        y: read::coordinate(random, shape.height, 6),
        trio: trio.clone(),
    };
    if random.one_in(40) {
        match random.below(3) {
            0 => case.quality = *random.pick(&[4, 5, 128, 254, 255]),
            1 => case.first = *random.pick(&[2, 2, 256, 257, 65_536, u32::MAX]),
            _ => case.mate = *random.pick(&UNNAMED),
        }
    }
    case
}

fn asked_of(random: &mut Random, trio: Trio, count: u64) -> impl Iterator<Item = Sample> + use<> {
    let trio = Rc::new(trio);
    let asked: Vec<_> = (0..count).map(|_| asked(random, &trio)).collect();
    asked.into_iter()
}

/// Every quality, field and mate at every place of tiny planes and around them.
fn every_place(random: &mut Random, trio: Trio) -> impl Iterator<Item = Sample> + use<> {
    let shape = trio.0[1].shape;
    let trio = Rc::new(trio);
    // Not every place for every code: one in six of the pairs.
    let start = random.below(6) as i32;
    let around = |size: u32| -4..=size as i32 + 3;
    let mut found = Vec::new();
    for quality in 0..4 {
        for first in 0..2 {
            for mate in 0..3 {
                for y in around(shape.height) {
                    for x in around(shape.width) {
                        if (x + y + start).rem_euclid(6) == 0 {
                            found.push(Sample {
                                quality,
                                first,
                                mate,
                                x,
                                y,
                                trio: trio.clone(),
                            });
                        }
                    }
                }
            }
        }
    }
    found.into_iter()
}

/// Trios of which all is right, and coordinates asked of each.
const WHOLE: u64 = 11_000;
const OF_EACH: u64 = 96;

/// Trios of which something is not.
const SPOILT: u64 = 12_000;
const OF_EACH_SPOILT: u64 = 12;

pub fn run(random: &mut Random) -> Result<Tally, Failure> {
    let mut own = || Random::new(random.next());
    let (mut for_tiny, mut for_large, mut for_whole, mut for_spoilt) = (own(), own(), own(), own());
    let smallest = smallest();
    let tiny = (0..160).flat_map(move |_| {
        let trio = trio::random(&mut for_tiny, 4, 4, true);
        every_place(&mut for_tiny, trio)
    });
    let large = LARGE.into_iter().flat_map(move |shapes| {
        let trio = trio::of_shapes(&mut for_large, shapes);
        asked_of(&mut for_large, trio, 2000)
    });
    let whole = (0..WHOLE).flat_map(move |_| {
        let trio = trio::random(&mut for_whole, 40, 20, true);
        asked_of(&mut for_whole, trio, OF_EACH)
    });
    let spoilt = (0..SPOILT).flat_map(move |_| {
        let trio = trio::random(&mut for_spoilt, 40, 20, false);
        asked_of(&mut for_spoilt, trio, OF_EACH_SPOILT)
    });
    let least = Least {
        accepted: 1_000_000,
        refused: 100_000,
    };
    let all = smallest.chain(tiny).chain(large).chain(whole).chain(spoilt);
    Tally::of(NAME, least, all)
}

/// Every quality of planes of one sample, of ten bits.
fn smallest() -> impl Iterator<Item = Sample> {
    read::WORDS.into_iter().flat_map(|word| {
        let trio = Rc::new(Trio::one_sample(word));
        (0..4).map(move |quality| Sample {
            quality,
            first: 1,
            mate: 2,
            x: 0,
            y: 0,
            trio: trio.clone(),
        })
    })
}

/// The widest, the highest, the largest stride, and usual sizes.
const LARGE: [[desk::calls::PlaneNumbers; 3]; 5] = [
    [
        numbers(8192, 5, 16, 32_768, 2),
        numbers(8192, 5, 16, 65_536, 3),
        numbers(8192, 5, 16, 16_384, 0),
    ],
    [numbers(3, 4352, 9, 7, 1); 3],
    [
        numbers(8191, 6, 8, 8191, 0),
        numbers(8191, 6, 8, 8193, 1),
        numbers(8191, 6, 8, 16_383, 2),
    ],
    [
        numbers(720, 480, 10, 1441, 0),
        numbers(720, 480, 10, 1440, 1),
        numbers(720, 480, 10, 2880, 3),
    ],
    [numbers(720, 480, 12, 1440, 0); 3],
];

/// Answers of small planes, without an end; one in four has something wrong.
pub(crate) fn answers(mut random: Random) -> impl Iterator<Item = Answer> {
    let others = std::iter::repeat_with(move || {
        let whole = !random.one_in(4);
        let trio = Rc::new(trio::random(&mut random, 12, 8, whole));
        asked(&mut random, &trio)
    });
    smallest().step_by(3).chain(others).map(|case| {
        let wanted = case.wanted();
        let front = Answer::of("sample").number(case.quality);
        case.trio
            .answer(front)
            .numbers([case.first, case.mate])
            .signed(case.x)
            .signed(case.y)
            .gives(wanted.err().unwrap_or(0))
            .float(wanted.ok())
            .reads(case.strays())
    })
}
