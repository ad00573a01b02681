//! `desk_comb_rgba` against `filter::comb_rgba`.

use oracle::video::filter;

use crate::answers::Answer;
use crate::case::{Case, Difference, Failure, Least, Tally, same, smaller_numbers};
use crate::given::{Contents, at_an_edge};
use crate::judge;
use crate::lent::{Between, one_place};
use crate::random::Random;

pub const NAME: &str = "comb_rgba";

/// Never inlined, so that the benchmark times a call on both sides.
#[inline(never)]
pub fn by_rust(rgba: &[u8], width: usize, height: usize) -> u64 {
    filter::comb_rgba(rgba, width, height)
}

#[derive(Debug, Clone)]
struct Picture {
    width: u32,
    height: u32,
    length: usize,
    contents: Contents,
}

impl Picture {
    fn bytes(&self) -> Vec<u8> {
        let row = self.width as usize * 4;
        self.contents.bytes(self.length, row, 8)
    }

    fn wanted(&self, bytes: &[u8]) -> Result<u64, u8> {
        let (width, height) = (self.width, self.height);
        match judge::comb_rgba(width, height, self.length) {
            0 => Ok(by_rust(bytes, width as usize, height as usize)),
            number => Err(number),
        }
    }

    fn needed(width: u32, height: u32) -> i128 {
        i128::from(width) * i128::from(height) * 4
    }
}

impl Case for Picture {
    fn compare(&self) -> Result<u8, Difference> {
        let (width, height) = (self.width, self.height);
        let bytes = self.bytes();
        let lent = Between::noise(&bytes);
        let number = one_place(
            |total| desk::calls::comb_rgba(lent.lent(), width, height, total),
            self.wanted(&bytes),
        )?;
        let kept = std::hint::black_box(&lent).lent() == bytes;
        same("whether the lent picture is as it was", kept, true)?;
        Ok(number)
    }

    fn smaller(&self) -> Vec<Self> {
        let mut found = Vec::new();
        let numbers = |number: u32| {
            smaller_numbers(number.into())
                .into_iter()
                .map(|smaller| smaller as u32)
        };
        let heights = numbers(self.height).map(|height| (self.width, height));
        let widths = numbers(self.width).map(|width| (width, self.height));
        let short = self.length as i128 - Self::needed(self.width, self.height);
        for (width, height) in heights.chain(widths) {
            // As long, or as much too short, as it was; then the bytes as they are.
            let alike = usize::try_from(Self::needed(width, height) + short).ok();
            for length in alike.into_iter().chain([self.length]) {
                if length <= self.length {
                    found.push(Self {
                        width,
                        height,
                        length,
                        ..self.clone()
                    });
                }
            }
        }
        for length in smaller_numbers(self.length as u64) {
            found.push(Self {
                length: length as usize,
                ..self.clone()
            });
        }
        for contents in self.contents.smaller(&self.bytes()) {
            found.push(Self {
                contents,
                ..self.clone()
            });
        }
        found
    }
}

fn random_picture(random: &mut Random) -> Picture {
    let mut width = random.between(1, 70) as u32;
    let mut height = random.between(1, 12) as u32;
    let whole = !random.one_in(4);
    if !whole && random.one_in(2) {
        (width, height) = at_an_edge(random, width, height);
    }
    let needed = Picture::needed(width, height);
    let length = if needed > 1 << 17 {
        // Too large to be lent whole: too short.
        random.between(0, 256)
    } else if whole {
        needed as u64 + random.pick(&[0, 0, 1, 3, 4, 64])
    } else {
        let needed = needed as u64;
        needed.saturating_sub(*random.pick(&[0, 1, 1, 2, 4, needed / 2, needed]))
    };
    Picture {
        width,
        height,
        length: length as usize,
        contents: Contents::random(random),
    }
}

pub fn run(random: &mut Random) -> Result<Tally, Failure> {
    use Contents::{Noise, Stripes};
    let seed = random.next();
    let large = [
        (8192, 128, Stripes),
        (8191, 3, Noise(seed)),
        (1, 4352, Noise(seed)),
        (2, 4351, Noise(seed)),
        (1920, 1080, Noise(seed)),
    ];
    let large = large.map(|(width, height, contents)| Picture {
        width,
        height,
        length: Picture::needed(width, height) as usize,
        contents,
    });
    let others = (0..12_000).map(|_| random_picture(random));
    let least = Least {
        accepted: 9_000,
        refused: 2_400,
    };
    Tally::of(NAME, least, large.into_iter().chain(others))
}

/// Answers, without an end.
pub(crate) fn answers(mut random: Random) -> impl Iterator<Item = Answer> {
    std::iter::repeat_with(move || {
        let case = random_picture(&mut random);
        let bytes = case.bytes();
        let wanted = case.wanted(&bytes);
        Answer::of("comb_rgba")
            .numbers([case.width, case.height])
            .gives(wanted.err().unwrap_or(0))
            .count(wanted.ok())
            .slice(&bytes)
    })
}
