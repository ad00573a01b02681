//! What the runs of `at`, `code` and `edge` share: one plane, many coordinates.

use std::rc::Rc;

use desk::calls::PlaneNumbers;
use oracle::video::filter::{Planes, Samples};

use crate::answers::Answer;
use crate::case::smaller_numbers;
use crate::given::{self, Contents, Given, LAYOUTS};
use crate::judge;
use crate::random::Random;
use crate::stray::Strays;

/// The Rust's view of a plane within the bounds. The Rust itself makes the
/// shift of a biplanar frame, so no formula of ours stands in for it.
pub fn samples(given: &Given) -> Samples<'_> {
    let plane = given.fed();
    let depth = given.shape.depth as u8;
    let biplanar = || Planes::biplanar(plane, plane, depth);
    match given.shape.layout {
        0 => Samples::new(plane, depth),
        1 => biplanar().y,
        2 => biplanar().cb,
        3 => biplanar().cr,
        other => unreachable!("the judge refuses layout {other}"),
    }
}

/// A plane and the coordinates that are asked of it.
#[derive(Debug, Clone)]
pub struct Asked {
    pub given: Rc<Given>,
    pub x: i32,
    pub y: i32,
}

impl Asked {
    pub fn smaller(&self) -> Vec<Self> {
        let mut found = Vec::new();
        for y in nearer_to_nought(self.y) {
            found.push(Self { y, ..self.clone() });
        }
        for x in nearer_to_nought(self.x) {
            found.push(Self { x, ..self.clone() });
        }
        for given in self.given.smaller() {
            let given = Rc::new(given);
            found.push(Self { given, ..*self });
        }
        found
    }

    /// The sample at the place that is asked for, or nearest to it.
    pub fn strays(&self) -> Strays {
        self.given.strays_at(self.x, self.y)
    }
}

/// A negative number also leads to its opposite, never the other way.
pub fn nearer_to_nought(number: i32) -> Vec<i32> {
    let smaller = smaller_numbers(number.unsigned_abs().into()).into_iter();
    if number >= 0 {
        return smaller.map(|n| n as i32).collect();
    }
    let opposite = number.checked_neg();
    smaller.map(|n| -(n as i32)).chain(opposite).collect()
}

/// All inputs of a run; of the random coordinates one in `outside_in` is picked
/// outside or at an edge.
pub fn cases(random: &mut Random, outside_in: u64) -> impl Iterator<Item = Asked> + use<> {
    let mut own = || Random::new(random.next());
    let tiny = every_tiny_plane(own());
    let large = large_planes(own(), 2000, outside_in);
    let others = random_planes(own(), 20_000, outside_in);
    let refused = past_sixteen_bits();
    smallest()
        .chain(tiny)
        .chain(large)
        .chain(refused)
        .chain(others)
}

/// Words of ten bits of which some have stray bits: that of the request, then the
/// words around the largest code, and the largest word.
pub const WORDS: [u16; 6] = [0x07FF, 0x03FE, 0x03FF, 0x0400, 0x0401, 0xFFFF];

/// A plane of one sample, of ten bits, planar.
pub fn one_sample(word: u16) -> Given {
    let contents = Contents::Listed(word.to_le_bytes().to_vec());
    Given::new(numbers(1, 1, 10, 2, 0), 2, contents)
}

/// The one sample of each.
pub fn smallest() -> impl Iterator<Item = Asked> {
    WORDS.into_iter().map(|word| Asked {
        given: Rc::new(one_sample(word)),
        x: 0,
        y: 0,
    })
}

/// Sizes at the end of 16 bits and past it.
const PAST: [u32; 7] = [65_535, 65_536, 65_537, 70_000, 131_071, 1 << 31, u32::MAX];

/// Planes with one size, or both, past 16 bits, and so out of bounds; the
/// coordinates around that end and around the size, which is how large the
/// plane is said to be.
fn past_sixteen_bits() -> impl Iterator<Item = Asked> {
    let sizes = PAST
        .iter()
        .flat_map(|&size| [(size, 3), (3, size), (size, size)]);
    sizes.flat_map(|(width, height)| {
        let shape = numbers(width, height, 8, 3, 0);
        let given = Rc::new(Given::new(shape, 64, Contents::Stripes));
        around_the_end(height).into_iter().flat_map(move |y| {
            let given = given.clone();
            around_the_end(width).into_iter().map(move |x| Asked {
                given: given.clone(),
                x,
                y,
            })
        })
    })
}

fn around_the_end(size: u32) -> Vec<i32> {
    let around = |at: u32| (i64::from(at) - 2..=i64::from(at) + 1).map(i32::try_from);
    let near = around(size).chain(around(65_536)).flatten();
    near.chain([0, 8192, i32::MAX]).collect()
}

/// The ends of what `at` takes, and of the type.
const FAR: [i32; 6] = [-65_537, -65_536, 65_536, 65_537, i32::MIN, i32::MAX];

/// Every plane of at most 3 by 3 samples, of four depths and every layout, with
/// a stride of a row or one byte more, and a length that is exact, one short
/// or one long; every coordinate from two before to two after it, and the far
/// ones.
pub fn every_tiny_plane(mut random: Random) -> impl Iterator<Item = Asked> {
    let mut planes = Vec::new();
    for width in 1..=3 {
        for height in 1..=3 {
            for layout in 0..4 {
                for depth in [8, 9, 10, 16] {
                    for padding in [0, 1] {
                        let mut shape = PlaneNumbers {
                            width,
                            height,
                            depth,
                            stride: 0,
                            layout,
                        };
                        shape.stride = judge::row(shape) as u32 + padding;
                        let needed = judge::needed(shape) as usize;
                        let contents = Contents::Noise(random.next());
                        for length in needed - 1..=needed + 1 {
                            planes.push(Given::new(shape, length, contents.clone()));
                        }
                    }
                }
            }
        }
    }
    let around = |size: u32| (-2..=size as i32 + 1).chain(FAR);
    planes.into_iter().flat_map(move |given| {
        let given = Rc::new(given);
        around(given.shape.height).flat_map(move |y| {
            let given = given.clone();
            around(given.shape.width).map(move |x| Asked {
                given: given.clone(),
                x,
                y,
            })
        })
    })
}

/// Coordinates asked of each random plane.
const OF_EACH: u64 = 48;

/// Random planes, `OF_EACH` coordinates of each.
fn random_planes(mut random: Random, planes: u64, outside_in: u64) -> impl Iterator<Item = Asked> {
    (0..planes).flat_map(move |_| {
        let given = Rc::new(given::random(&mut random, 40, 12, LAYOUTS));
        asked_of(&mut random, given, OF_EACH, outside_in)
    })
}

/// The largest planes of either kind, one with the largest stride, and three of
/// usual sizes. Lent one after the other, as the largest has 35 million bytes.
pub fn large_planes(
    mut random: Random,
    of_each: u64,
    outside_in: u64,
) -> impl Iterator<Item = Asked> {
    LARGE.iter().flat_map(move |&(shape, cut)| {
        let length = judge::needed(shape) as usize - cut;
        let contents = Contents::Noise(random.next());
        let given = Rc::new(Given::new(shape, length, contents));
        asked_of(&mut random, given, of_each, outside_in)
    })
}

/// Each with the bytes that it lacks.
const LARGE: [(PlaneNumbers, usize); 9] = [
    (numbers(8192, 4352, 8, 8192, 0), 0),
    (numbers(8192, 256, 16, 65_536, 2), 0),
    (numbers(8192, 256, 16, 65_536, 2), 1),
    (numbers(8192, 3, 16, 65_536, 3), 0),
    (numbers(8191, 5, 9, 32_765, 3), 0),
    (numbers(1, 4352, 9, 3, 1), 0),
    (numbers(1920, 1080, 10, 3840, 1), 0),
    (numbers(1280, 720, 12, 2561, 0), 0),
    (numbers(720, 576, 8, 721, 0), 0),
];

pub const fn numbers(
    width: u32,
    height: u32,
    depth: u32,
    stride: u32,
    layout: u32,
) -> PlaneNumbers {
    PlaneNumbers {
        width,
        height,
        depth,
        stride,
        layout,
    }
}

pub fn asked_of(
    random: &mut Random,
    given: Rc<Given>,
    count: u64,
    outside_in: u64,
) -> impl Iterator<Item = Asked> + use<> {
    let shape = given.shape;
    let asked: Vec<_> = (0..count)
        .map(|_| Asked {
            given: given.clone(),
            x: coordinate(random, shape.width, outside_in),
            y: coordinate(random, shape.height, outside_in),
        })
        .collect();
    asked.into_iter()
}

pub fn coordinate(random: &mut Random, size: u32, outside_in: u64) -> i32 {
    // Past the far ends of the type there is nothing to ask.
    let size = u64::from(size.min(i32::MAX as u32 - 2));
    if size > 0 && !random.one_in(outside_in) {
        return random.below(size) as i32;
    }
    let size = size as i32;
    match random.below(8) {
        0 | 1 => *random.pick(&[-2, -1, 0, 1]),
        2 | 3 => *random.pick(&[size - 2, size - 1, size, size + 1]),
        4 => *random.pick(&FAR),
        5 => *random.pick(&[65_533, 65_534, 65_535, -65_535]),
        6 => random.between(0, 2 * 65_536) as i32 - 65_536,
        _ => random.next() as i32,
    }
}

/// The numbers of a shape in their order.
pub fn listed(shape: PlaneNumbers) -> [u32; 5] {
    let PlaneNumbers {
        width,
        height,
        depth,
        stride,
        layout,
    } = shape;
    [width, height, depth, stride, layout]
}

/// What is asked of small planes, the smallest first, without an end.
pub fn small(mut random: Random, outside_in: u64) -> impl Iterator<Item = Asked> {
    let others = std::iter::repeat_with(move || {
        let given = Rc::new(given::random(&mut random, 12, 8, LAYOUTS));
        asked_of(&mut random, given, 2, outside_in)
    });
    smallest().chain(others.flatten())
}

impl Asked {
    /// The front of the answer: what is asked, and the number that it gives.
    pub fn answer(&self, call: &'static str, number: u8) -> Answer {
        Answer::of(call)
            .numbers(listed(self.given.shape))
            .signed(self.x)
            .signed(self.y)
            .gives(number)
            .slice(&self.given.plane().data)
            .reads(self.strays())
    }
}
