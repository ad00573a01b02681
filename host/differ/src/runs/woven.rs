//! `desk_woven` against `weave::woven`.

use desk::calls::FormatNumbers;
use oracle::decode::weave;
use oracle::mediadecoder::es::Format;

use crate::answers::Answer;
use crate::case::{Case, Difference, Failure, Least, Tally, same, smaller_numbers};
use crate::random::Random;

pub const NAME: &str = "woven";

/// The Rust's format, as numbers. Its flags are truths, so a flag other than 0
/// counts as 1. Its depth is a byte, which it hands on; so a larger one, which
/// it cannot be given, is to come back as it was.
fn by_rust(field: FormatNumbers) -> FormatNumbers {
    let found = weave::woven(Format {
        width: field.width,
        height: field.height,
        depth: u8::try_from(field.depth).unwrap_or(0),
        rate: (field.rate_numerator, field.rate_denominator),
        field_pictures: field.field_pictures != 0,
        progressive: field.progressive != 0,
        woven: field.woven != 0,
        ..Format::default()
    });
    FormatNumbers {
        width: found.width,
        height: found.height,
        depth: if field.depth > 255 {
            field.depth
        } else {
            found.depth.into()
        },
        rate_numerator: found.rate.0,
        rate_denominator: found.rate.1,
        field_pictures: found.field_pictures.into(),
        progressive: found.progressive.into(),
        woven: found.woven.into(),
    }
}

/// The eight numbers in the order of their struct.
#[derive(Debug, Clone, Copy)]
struct Numbers([u32; 8]);

impl Numbers {
    fn field(self) -> FormatNumbers {
        let [
            width,
            height,
            depth,
            rate_numerator,
            rate_denominator,
            field_pictures,
            progressive,
            woven,
        ] = self.0;
        FormatNumbers {
            width,
            height,
            depth,
            rate_numerator,
            rate_denominator,
            field_pictures,
            progressive,
            woven,
        }
    }

    fn of(format: FormatNumbers) -> Self {
        let FormatNumbers {
            width,
            height,
            depth,
            rate_numerator,
            rate_denominator,
            field_pictures,
            progressive,
            woven,
        } = format;
        Self([
            width,
            height,
            depth,
            rate_numerator,
            rate_denominator,
            field_pictures,
            progressive,
            woven,
        ])
    }
}

impl Case for Numbers {
    fn compare(&self) -> Result<u8, Difference> {
        let field = self.field();
        same("the format", desk::calls::woven(field), by_rust(field))?;
        Ok(0)
    }

    fn smaller(&self) -> Vec<Self> {
        let mut found = Vec::new();
        for at in 0..self.0.len() {
            for less in smaller_numbers(self.0[at].into()) {
                let mut numbers = *self;
                numbers.0[at] = less as u32;
                found.push(numbers);
            }
        }
        found
    }
}

/// Around the half of the largest number, where doubling stops, and both ends.
const EDGES: [u64; 4] = [0, 1 << 31, u32::MAX as u64 - 2, 1 << 16];

fn number(random: &mut Random) -> u32 {
    match random.below(4) {
        0 => random.next() as u32,
        1 => random.below(10_000) as u32,
        _ => random.near(&EDGES) as u32,
    }
}

fn numbers(random: &mut Random) -> Numbers {
    let mut numbers = [0; 8].map(|_| number(random));
    // A depth that is no byte, and flags that count as others, in one of four.
    if !random.one_in(4) {
        numbers[2] = random.between(0, 255) as u32;
        for flag in &mut numbers[5..] {
            *flag = random.below(2) as u32;
        }
    }
    Numbers(numbers)
}

pub fn run(random: &mut Random) -> Result<Tally, Failure> {
    let mut edges = Vec::new();
    let around = |edge: u32| (edge - 2)..=(edge + 2);
    for height in around(1 << 31).chain([0, 1, 540, u32::MAX]) {
        for denominator in around(1 << 31).chain([0, 1, 1_001, u32::MAX]) {
            for flags in 0..8 {
                let flag = |at: u32| flags >> at & 1;
                let numbers = [
                    1920,
                    height,
                    10,
                    60_000,
                    denominator,
                    flag(0),
                    flag(1),
                    flag(2),
                ];
                edges.push(Numbers(numbers));
            }
        }
    }
    let others = (0..50_000).map(|_| numbers(random));
    let least = Least {
        accepted: 50_000,
        refused: 0,
    };
    Tally::of(NAME, least, edges.into_iter().chain(others))
}

/// Answers, without an end.
pub(crate) fn answers(mut random: Random) -> impl Iterator<Item = Answer> {
    std::iter::repeat_with(move || {
        let numbers = numbers(&mut random);
        let woven = Numbers::of(by_rust(numbers.field()));
        Answer::of("woven").numbers(numbers.0).numbers(woven.0)
    })
}
