//! `desk_comb` against `filter::comb`.

use desk::calls::PlaneNumbers;
use oracle::mediadecoder::video::Plane;
use oracle::video::filter;

use super::read;
use crate::answers::Answer;
use crate::case::{Case, Difference, Failure, Least, Tally, same};
use crate::given::{self, Contents, Given, PLANAR};
use crate::judge;
use crate::lent::one_place;
use crate::random::Random;
use crate::stray::Strays;

pub const NAME: &str = "comb";

/// Never inlined, so that the benchmark times a call on both sides.
#[inline(never)]
pub fn by_rust(plane: &Plane, depth: u8) -> u64 {
    filter::comb(plane, depth)
}

/// Its layout is planar, and not told to the call.
#[derive(Debug, Clone)]
struct Combed(Given);

impl Combed {
    fn wanted(&self) -> Result<u64, u8> {
        let given = &self.0;
        match judge::comb(given.shape, given.length) {
            0 => Ok(by_rust(given.fed(), given.shape.depth as u8)),
            number => Err(number),
        }
    }
}

impl Case for Combed {
    fn compare(&self) -> Result<u8, Difference> {
        let given = &self.0;
        let PlaneNumbers {
            width,
            height,
            depth,
            stride,
            ..
        } = given.shape;
        let number = one_place(
            |total| desk::calls::comb(given.lent(), width, height, depth, stride, total),
            self.wanted(),
        )?;
        let kept = std::hint::black_box(given).lent() == given.plane().data;
        same("whether the lent plane is as it was", kept, true)?;
        Ok(number)
    }

    fn smaller(&self) -> Vec<Self> {
        self.0.smaller().into_iter().map(Self).collect()
    }

    fn strays(&self) -> Strays {
        self.0.strays()
    }
}

/// Three rows of one sample, of ten bits: the words of the request between two of
/// 0 and around one, then the words beside the largest code.
fn smallest() -> impl Iterator<Item = Given> {
    let columns = read::WORDS.map(|word| [[0, word, 0], [word, 0, word], [word, 0x03FF, word]]);
    columns.into_iter().flatten().map(|words| {
        let bytes = words.map(u16::to_le_bytes).concat();
        Given::new(read::numbers(1, 3, 10, 2, 0), 6, Contents::Listed(bytes))
    })
}

pub fn run(random: &mut Random) -> Result<Tally, Failure> {
    use Contents::{Noise, Stripes};
    let seed = random.next();
    let stray = |more| Contents::Codes {
        seed: seed ^ more,
        up: 0,
        stray: true,
    };
    // Width, height, depth, stride. A row of the first adds up to more than in
    // any other shape, and its rows together need more than 32 bits. Of the stripes
    // of 9 and 15 bits every other row is cut, and each sample adds the most that
    // codes of the depth can.
    let large = [
        (8192, 128, 16, 16_384, Stripes),
        (8192, 256, 8, 8192, Stripes),
        (8192, 65, 15, 16_384, Stripes),
        (8191, 33, 9, 16_383, Stripes),
        (8192, 3, 16, 65_536, Noise(seed)),
        (8191, 6, 8, 8193, Noise(seed)),
        (1, 4352, 16, 3, Noise(seed)),
        (2, 4351, 8, 2, Noise(seed)),
        (1920, 1080, 10, 3847, Noise(seed)),
        (640, 360, 12, 1280, stray(0)),
        (320, 240, 15, 641, stray(1)),
        (320, 240, 9, 640, stray(2)),
    ];
    let large: Vec<_> = large
        .into_iter()
        .map(|(width, height, depth, stride, contents)| {
            let shape = PlaneNumbers {
                width,
                height,
                depth,
                stride,
                layout: 0,
            };
            let length = judge::needed(shape) as usize;
            Given::new(shape, length, contents)
        })
        .collect();
    let others = (0..20_000).map(|_| given::random(random, 70, 12, PLANAR));
    let least = Least {
        accepted: 13_000,
        refused: 5_500,
    };
    let all = smallest().chain(large).chain(others);
    Tally::of(NAME, least, all.map(Combed))
}

/// Answers of small planes, without an end.
pub(crate) fn answers(mut random: Random) -> impl Iterator<Item = Answer> {
    let others = std::iter::repeat_with(move || given::random(&mut random, 20, 8, PLANAR));
    smallest().step_by(2).chain(others).map(|given| {
        let case = Combed(given);
        let wanted = case.wanted();
        let [width, height, depth, stride, _] = read::listed(case.0.shape);
        Answer::of("comb")
            .numbers([width, height, depth, stride])
            .gives(wanted.err().unwrap_or(0))
            .count(wanted.ok())
            .slice(&case.0.plane().data)
            .reads(case.strays())
    })
}

#[cfg(test)]
mod tests {
    use super::{Combed, smallest};

    /// By the rules: of FF 07 at ten bits 1,023 counts, whichever row it is.
    #[test]
    fn codes_past_the_largest_count_as_the_largest() {
        let wanted: Vec<_> = smallest().map(|given| Combed(given).wanted()).collect();
        assert_eq!(wanted[..3], [Ok(2046), Ok(2046), Ok(0)]);
        // One below the largest, the largest, and three above it.
        assert_eq!(wanted[3..6], [Ok(2044), Ok(2044), Ok(2)]);
        assert!(wanted[6..].chunks(3).all(|found| found == &wanted[..3]));
    }
}
