//! What the runs over fields share: three planes, and how they are made.

use std::hint::black_box;
use std::rc::Rc;

use desk::calls::{FieldNumbers, PlaneNumbers};
use oracle::mediadecoder::es::Format;
use oracle::mediadecoder::video::Frame;

use super::film::{grid_of, listed};
use crate::answers::Answer;
use crate::case::{Difference, same, smaller_numbers};
use crate::given::{Contents, EDGES_OF_WIDTH, Given, edge_of};
use crate::judge::weaves::half;
use crate::judge::{self, Lent};
use crate::random::Random;

/// The planes of a field: luma, cb, cr.
#[derive(Debug, Clone)]
pub struct Field(pub [Rc<Given>; 3]);

impl Field {
    pub fn lent(&self) -> [Lent; 3] {
        self.0.each_ref().map(|given| (given.shape, given.length))
    }

    pub fn numbers(&self) -> FieldNumbers {
        let [luma, cb, cr] = self.0.each_ref().map(|given| grid_of(given.shape));
        FieldNumbers { luma, cb, cr }
    }

    pub fn planes(&self) -> [&[u8]; 3] {
        self.0.each_ref().map(|given| given.lent())
    }

    /// The same field as the Rust has it, where it is within the bounds.
    pub fn frame(&self) -> Frame {
        let shape = self.0[0].shape;
        Frame {
            format: Format {
                width: shape.width,
                height: shape.height,
                depth: shape.depth as u8,
                ..Format::default()
            },
            planes: self.0.each_ref().map(|given| given.plane().clone()),
            ..Frame::default()
        }
    }

    /// Each plane still holds what it held before the call.
    pub fn kept(&self) -> Result<(), Difference> {
        for given in black_box(&self.0) {
            let kept = given.lent() == given.plane().data;
            same("whether a lent plane is as it was", kept, true)?;
        }
        Ok(())
    }

    pub fn size(&self) -> (u32, u32, u32) {
        let PlaneNumbers {
            width,
            height,
            depth,
            ..
        } = self.0[0].shape;
        (width, height, depth)
    }

    /// This field with another size and depth, and the padding that it has.
    pub fn resized(&self, (width, height, depth): (u32, u32, u32)) -> Option<Self> {
        let [luma, cb, cr] = &self.0;
        let chroma = |given: &Given| given.resized(half(width), half(height), depth);
        let planes = [
            luma.resized(width, height, depth)?,
            chroma(cb)?,
            chroma(cr)?,
        ];
        Some(Self(planes.map(Rc::new)))
    }

    /// One of its planes simpler.
    pub fn simpler(&self) -> Vec<Self> {
        let mut found = Vec::new();
        for at in 0..3 {
            for simpler in self.0[at].smaller() {
                let mut planes = self.0.clone();
                planes[at] = Rc::new(simpler);
                found.push(Self(planes));
            }
        }
        found
    }
}

/// Sizes of which one number is smaller: width, height and depth.
pub fn smaller_sizes((width, height, depth): (u32, u32, u32)) -> Vec<(u32, u32, u32)> {
    let numbers = |number: u32| smaller_numbers(number.into()).into_iter().map(|n| n as u32);
    let mut found = Vec::new();
    found.extend(numbers(height).map(|height| (width, height, depth)));
    found.extend(numbers(width).map(|width| (width, height, depth)));
    let shallower = [8, 9].into_iter().filter(|less| *less < depth);
    found.extend(shallower.map(|depth| (width, height, depth)));
    found
}

/// A width, a height and a depth within the bounds of a field: often odd, or
/// one line or column; of the highest ones a few.
pub fn size(random: &mut Random, most_width: u32, most_height: u32) -> (u32, u32, u32) {
    let width = random.between(1, most_width.into()) as u32;
    let height = random.between(1, most_height.into()) as u32;
    let depth = if random.one_in(3) {
        8
    } else {
        random.between(9, 16) as u32
    };
    let (width, height) = match random.below(40) {
        0..=2 => (1, height),
        3..=5 => (width, 1),
        6 => (1, 1),
        7..=9 => (width | 1, height | 1),
        _ => (width, height),
    };
    (width, height, depth)
}

/// A plane on the way: what its stride and its length have beside the least.
#[derive(Debug, Clone, Copy)]
pub struct Draft {
    pub shape: PlaneNumbers,
    pub padding: i64,
    pub more: i64,
}

/// Around the bounds of a field and of a frame, and around the ends of 16 and
/// of 32 bits.
const EDGES_OF_LINES: &[u32] = &[
    0,
    1,
    2,
    2175,
    2176,
    2177,
    4352,
    4353,
    65_535,
    65_536,
    u32::MAX,
];

impl Draft {
    fn of(random: &mut Random, width: u32, height: u32, depth: u32) -> Self {
        Self {
            shape: PlaneNumbers {
                width,
                height,
                depth,
                stride: 0,
                layout: 0,
            },
            padding: *random.pick(&[0, 0, 1, 2, 3, 7, 16]),
            more: *random.pick(&[0, 0, 0, 1, 2, 64]),
        }
    }

    /// Puts one of its numbers at or past a bound, or off the others.
    pub fn spoil(&mut self, random: &mut Random) {
        let shape = &mut self.shape;
        let beside = |random: &mut Random, number: u32| {
            let sign = *random.pick(&[-1, 1]);
            number.saturating_add_signed(sign)
        };
        match random.below(12) {
            0 => shape.width = edge_of(random, shape.width, EDGES_OF_WIDTH),
            1 => shape.height = edge_of(random, shape.height, EDGES_OF_LINES),
            2 => shape.depth = *random.pick(&[0, 7, 8, 16, 17, 255, 256, 264, u32::MAX]),
            3 => shape.width = beside(random, shape.width),
            4 => shape.height = beside(random, shape.height),
            5 => shape.depth = beside(random, shape.depth),
            6 => self.padding = -1,
            7 => self.padding = 65_537 - judge::row(*shape) as i64,
            8..=10 => self.more = -1,
            _ => self.more = -(random.between(1, 200) as i64),
        }
    }

    /// The plane, filled.
    pub fn given(mut self, random: &mut Random) -> Given {
        let row = judge::row(self.shape) as i64;
        self.shape.stride = (row + self.padding).clamp(0, u32::MAX.into()) as u32;
        let needed = judge::needed(self.shape);
        let length = if needed > 1 << 18 {
            // Too large to be lent whole: too short.
            random.between(0, 256)
        } else {
            needed.saturating_add_signed(self.more)
        };
        Given::new(self.shape, length as usize, Contents::random(random))
    }
}

/// The drafts of a field's planes.
pub fn drafts(random: &mut Random, (width, height, depth): (u32, u32, u32)) -> [Draft; 3] {
    [
        Draft::of(random, width, height, depth),
        Draft::of(random, half(width), half(height), depth),
        Draft::of(random, half(width), half(height), depth),
    ]
}

pub fn filled(random: &mut Random, drafts: [Draft; 3]) -> Field {
    Field(drafts.map(|draft| Rc::new(draft.given(random))))
}

/// A field of this size that is right.
pub fn right(random: &mut Random, size: (u32, u32, u32)) -> Field {
    let drafts = drafts(random, size);
    filled(random, drafts)
}

/// Bytes that are lent where `needed` are, or too few where that is too much.
pub fn affordable(random: &mut Random, needed: u64, more: u64) -> usize {
    if needed > 1 << 18 {
        return random.between(0, 256) as usize;
    }
    (needed + more) as usize
}

impl Field {
    /// The answer with the numbers and the bytes of the three planes added.
    pub fn answer(&self, mut answer: Answer) -> Answer {
        for given in &self.0 {
            answer = answer
                .numbers(listed(given.shape))
                .slice(&given.plane().data);
        }
        answer
    }
}
