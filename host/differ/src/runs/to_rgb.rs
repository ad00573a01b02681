//! `desk_to_rgb` against `Conversion::to_rgb`, by the bits of the three values.

use desk::calls::Conversion;
use oracle::video::colour::{self, Adjust, Matrix};

use crate::answers::Answer;
use crate::case::{Case, Difference, Failure, Least, Tally};
use crate::judge;
use crate::lent::three_places;
use crate::random::Random;

pub const NAME: &str = "to_rgb";

/// Never inlined, so that the benchmark times a call on both sides.
#[inline(never)]
pub fn by_rust(conversion: &colour::Conversion, y: f32, cb: f32, cr: f32) -> [f32; 3] {
    conversion.to_rgb(y, cb, cr)
}

/// The nine numbers in the order of the struct, as both sides have it.
pub(super) type Nine = [f32; 9];

const KR: usize = 4;
const KB: usize = 5;

pub(super) fn for_desk([a, b, c, d, e, f, g, h, i]: Nine) -> Conversion {
    Conversion {
        luma_offset: a,
        luma_gain: b,
        chroma_offset: c,
        chroma_gain: d,
        kr: e,
        kb: f,
        luma_lift: g,
        chroma_cos: h,
        chroma_sin: i,
    }
}

pub(super) fn for_rust([a, b, c, d, e, f, g, h, i]: Nine) -> colour::Conversion {
    colour::Conversion {
        luma_offset: a,
        luma_gain: b,
        chroma_offset: c,
        chroma_gain: d,
        kr: e,
        kb: f,
        luma_lift: g,
        chroma_cos: h,
        chroma_sin: i,
    }
}

pub(super) fn nine_of(conversion: colour::Conversion) -> Nine {
    let colour::Conversion {
        luma_offset,
        luma_gain,
        chroma_offset,
        chroma_gain,
        kr,
        kb,
        luma_lift,
        chroma_cos,
        chroma_sin,
    } = conversion;
    [
        luma_offset,
        luma_gain,
        chroma_offset,
        chroma_gain,
        kr,
        kb,
        luma_lift,
        chroma_cos,
        chroma_sin,
    ]
}

#[derive(Debug, Clone)]
struct Coloured {
    nine: Nine,
    /// Luma, then the two of chroma.
    samples: [f32; 3],
}

impl Coloured {
    fn wanted(&self) -> Result<[f32; 3], u8> {
        let [y, cb, cr] = self.samples;
        match judge::to_rgb(for_desk(self.nine), self.samples) {
            0 => Ok(by_rust(&for_rust(self.nine), y, cb, cr)),
            number => Err(number),
        }
    }
}

impl Case for Coloured {
    fn compare(&self) -> Result<u8, Difference> {
        let conversion = for_desk(self.nine);
        let [y, cb, cr] = self.samples;
        three_places(
            |red, green, blue| desk::calls::to_rgb(conversion, y, cb, cr, red, green, blue),
            self.wanted(),
        )
    }

    fn smaller(&self) -> Vec<Self> {
        let mut found = Vec::new();
        for at in 0..self.nine.len() {
            for simpler in simpler_floats(self.nine[at]) {
                let mut case = self.clone();
                case.nine[at] = simpler;
                found.push(case);
            }
        }
        for at in 0..self.samples.len() {
            for simpler in simpler_floats(self.samples[at]) {
                let mut case = self.clone();
                case.samples[at] = simpler;
                found.push(case);
            }
        }
        found
    }
}

/// 0 and 1 first; then without the sign, the fraction or the lower bits.
pub(super) fn simpler_floats(number: f32) -> Vec<f32> {
    if number.to_bits() == 0 {
        return Vec::new();
    }
    if number == 1.0 {
        return vec![0.0];
    }
    let bits = number.to_bits();
    let candidates = [
        0.0,
        1.0,
        f32::from_bits(bits & 0x7FFF_FFFF),
        number.trunc(),
        (number / 2.0).trunc(),
        f32::from_bits(bits & 0xFFFF_0000),
        f32::from_bits(bits & 0xFFFF_FF00),
        f32::from_bits(bits & (bits.wrapping_sub(1))),
    ];
    let mut found: Vec<f32> = Vec::new();
    for simpler in candidates {
        let known = found
            .iter()
            .any(|other| other.to_bits() == simpler.to_bits());
        // What stays a NaN would be no simpler than it.
        if !known && !simpler.is_nan() && simpler.to_bits() != bits {
            found.push(simpler);
        }
    }
    found
}

/// The ends of a number's range.
pub(super) fn range(at: usize) -> [f32; 2] {
    if at == KR || at == KB {
        [0.0, 0.4375]
    } else {
        [-16.0, 16.0]
    }
}

const SAMPLES: [f32; 2] = [0.0, 256.0];

fn between(random: &mut Random, [low, high]: [f32; 2]) -> f32 {
    match random.below(16) {
        0 => low,
        1 => high,
        2 => low.next_up(),
        3 => high.next_down(),
        4 => 0.0,
        5 => -0.0,
        // Next to nothing, where a product is lost or subnormal.
        6 => {
            let tiny = f32::from_bits(random.below(1 << 24) as u32);
            if low < 0.0 && random.one_in(2) {
                -tiny
            } else {
                tiny
            }
        }
        7 | 8 => {
            // Any exponent within the range.
            let any = f32::from_bits(random.below(high.to_bits().into()) as u32);
            if low < 0.0 && random.one_in(2) {
                -any
            } else {
                any
            }
        }
        _ => {
            // A fraction of 24 bits, so that both ends are reached.
            let part = random.below((1 << 24) + 1) as f32 / (1 << 24) as f32;
            (low + (high - low) * part).clamp(low, high)
        }
    }
}

/// Just outside of a range, far outside, or no number.
pub(super) fn outside(random: &mut Random, [low, high]: [f32; 2]) -> f32 {
    let nan = f32::from_bits(0x7F80_0001 + random.below(0x7F_FFFF) as u32);
    match random.below(10) {
        0 | 1 => low.next_down(),
        2 | 3 => high.next_up(),
        4 => f32::NAN,
        5 => *random.pick(&[nan, -nan]),
        6 => *random.pick(&[f32::INFINITY, f32::NEG_INFINITY, f32::MAX, f32::MIN]),
        7 => -f32::from_bits(high.to_bits() + 1),
        _ => random.any_float(),
    }
}

pub(super) fn random_nine(random: &mut Random) -> Nine {
    std::array::from_fn(|at| between(random, range(at)))
}

/// What the Rust itself makes for a matrix, a depth and a range, adjusted or
/// not.
pub(super) fn made_by_rust(random: &mut Random) -> Nine {
    let matrix = *random.pick(&[Matrix::Bt709, Matrix::Bt2020]);
    let depth = random.between(8, 16) as u8;
    let mut made = colour::Conversion::new(matrix, depth, random.one_in(2));
    if random.one_in(2) {
        let mut percent = || random.below(201) as i32 - 100;
        let adjust = Adjust {
            brightness: percent(),
            contrast: percent(),
            saturation: percent(),
            hue: random.below(361) as i32 - 180,
        };
        made = made.adjusted(adjust, depth);
    }
    nine_of(made)
}

/// A sample as pictures have it: a code over the largest of its depth, often
/// over-range.
fn sample(random: &mut Random) -> f32 {
    let depth = random.between(8, 16);
    let most = (1u32 << depth) - 1;
    let codes = if random.one_in(8) { 65_536 } else { 1 << depth };
    random.below(codes) as f32 / most as f32
}

fn random_case(random: &mut Random) -> Coloured {
    let mut case = match random.below(4) {
        0 => Coloured {
            nine: made_by_rust(random),
            samples: [0; 3].map(|_| sample(random)),
        },
        1 => Coloured {
            nine: made_by_rust(random),
            samples: [0; 3].map(|_| between(random, SAMPLES)),
        },
        _ => {
            let mut nine = random_nine(random);
            if random.one_in(4) {
                // The least share of green: an eighth.
                nine[KR] = 0.4375;
                nine[KB] = 0.4375;
            }
            Coloured {
                nine,
                samples: if random.one_in(2) {
                    [0; 3].map(|_| sample(random))
                } else {
                    [0; 3].map(|_| between(random, SAMPLES))
                },
            }
        }
    };
    if random.one_in(8) {
        match random.below(12) as usize {
            at @ 0..9 => case.nine[at] = outside(random, range(at)),
            at => case.samples[at - 9] = outside(random, SAMPLES),
        }
    }
    case
}

/// Every one of the twelve at either end of its range, in every combination,
/// and as -0.0 where that end is 0.
fn every_end() -> impl Iterator<Item = Coloured> {
    (0..1u32 << 13).map(|ends| {
        let end = |at: usize, range: [f32; 2]| {
            let end = range[(ends >> at & 1) as usize];
            if end == 0.0 && ends >> 12 == 1 {
                -end
            } else {
                end
            }
        };
        Coloured {
            nine: std::array::from_fn(|at| end(at, range(at))),
            samples: std::array::from_fn(|at| end(at + 9, SAMPLES)),
        }
    })
}

/// Each of the twelve alone just inside, at and outside of either end, and as
/// each float that is no number.
fn every_number_alone() -> impl Iterator<Item = Coloured> {
    let usual = Coloured {
        nine: nine_of(colour::Conversion::new(Matrix::Bt709, 10, true)),
        samples: [0.5; 3],
    };
    (0..12).flat_map(move |at: usize| {
        let [low, high] = if at < 9 { range(at) } else { SAMPLES };
        let usual = usual.clone();
        [
            low,
            low.next_down(),
            low.next_up(),
            high,
            high.next_down(),
            high.next_up(),
            0.0,
            -0.0,
            -high,
            f32::MIN_POSITIVE,
            -f32::MIN_POSITIVE,
            f32::from_bits(1),
            -f32::from_bits(1),
            f32::NAN,
            -f32::NAN,
            f32::from_bits(0x7F80_0001),
            f32::INFINITY,
            f32::NEG_INFINITY,
            f32::MAX,
            f32::MIN,
        ]
        .into_iter()
        .map(move |number| {
            let mut case = usual.clone();
            if at < 9 {
                case.nine[at] = number;
            } else {
                case.samples[at - 9] = number;
            }
            case
        })
    })
}

pub fn run(random: &mut Random) -> Result<Tally, Failure> {
    let others = (0..1_200_000).map(|_| random_case(random));
    let least = Least {
        accepted: 1_000_000,
        refused: 100_000,
    };
    Tally::of(
        NAME,
        least,
        every_end().chain(every_number_alone()).chain(others),
    )
}

/// What the Rust makes for a matrix, a depth and a range. Not adjusted, since a
/// hue goes through a sine, which another library may round otherwise.
pub(super) fn plain_by_rust(random: &mut Random) -> Nine {
    let matrix = *random.pick(&[Matrix::Bt709, Matrix::Bt2020]);
    let depth = random.between(8, 16) as u8;
    nine_of(colour::Conversion::new(matrix, depth, random.one_in(2)))
}

/// Answers, without an end: one in four of each number alone at or past an end
/// of its range, the others of the Rust's own conversions and of random ones.
pub(crate) fn answers(mut random: Random) -> impl Iterator<Item = Answer> {
    let alone: Vec<Coloured> = every_number_alone().collect();
    let ends: Vec<Coloured> = every_end().step_by(37).collect();
    std::iter::repeat_with(move || {
        let case = match random.below(4) {
            0 => random.pick(&alone).clone(),
            1 => random.pick(&ends).clone(),
            2 => Coloured {
                nine: plain_by_rust(&mut random),
                samples: [0; 3].map(|_| sample(&mut random)),
            },
            _ => Coloured {
                nine: random_nine(&mut random),
                samples: [0; 3].map(|_| between(&mut random, SAMPLES)),
            },
        };
        let wanted = case.wanted();
        let value = |at: usize| wanted.ok().map(|rgb| rgb[at]);
        Answer::of("to_rgb")
            .floats(case.nine)
            .floats(case.samples)
            .gives(wanted.err().unwrap_or(0))
            .float(value(0))
            .float(value(1))
            .float(value(2))
    })
}
