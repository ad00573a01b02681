//! What the runs over three planes share: the planes before, now and after.

use std::rc::Rc;

use desk::calls::PlaneNumbers;
use oracle::video::Deinterlace;
use oracle::video::filter::Samples;

use super::read;
use crate::answers::Answer;
use crate::case::smaller_numbers;
use crate::given::{self, Contents, EDGES_OF_HEIGHT, EDGES_OF_WIDTH, Given, LAYOUTS, edge_of};
use crate::judge::{self, Lent};
use crate::random::Random;
use crate::stray::Strays;

/// The quality of a code that the judge lets pass.
pub fn quality_named(code: u8) -> Deinterlace {
    match code {
        0 => Deinterlace::Weave,
        1 => Deinterlace::Bob,
        2 => Deinterlace::Yadif,
        3 => Deinterlace::Bwdif,
        other => unreachable!("the judge refuses quality {other}"),
    }
}

/// A code of a quality: those that look at all three planes more often.
pub fn quality(random: &mut Random) -> u8 {
    *random.pick(&[0, 1, 2, 2, 3, 3])
}

/// The planes before, now and after. Two of them may be the same.
#[derive(Debug, Clone)]
pub struct Trio(pub [Rc<Given>; 3]);

impl Trio {
    pub fn lent(&self) -> [Lent; 3] {
        self.0.each_ref().map(|given| (given.shape, given.length))
    }

    /// The Rust's view of them, where all are within the bounds.
    pub fn samples(&self) -> [Samples<'_>; 3] {
        self.0.each_ref().map(|given| read::samples(given))
    }

    /// All samples of all three.
    pub fn strays(&self) -> Strays {
        let mut all = Strays::default();
        for given in &self.0 {
            all += given.strays();
        }
        all
    }

    /// The same three planes, each of one sample of ten bits.
    pub fn one_sample(word: u16) -> Self {
        Self([0; 3].map(|_| Rc::new(read::one_sample(word))))
    }

    /// All three with a smaller size or depth, then one of them simpler.
    pub fn smaller(&self) -> Vec<Self> {
        let mut found = Vec::new();
        let PlaneNumbers {
            width,
            height,
            depth,
            ..
        } = self.0[1].shape;
        let mut all = |width, height, depth| {
            let [before, cur, after] = self
                .0
                .each_ref()
                .map(|given| given.resized(width, height, depth));
            if let (Some(before), Some(cur), Some(after)) = (before, cur, after) {
                found.push(Self([before, cur, after].map(Rc::new)));
            }
        };
        for smaller in smaller_numbers(height.into()) {
            all(width, smaller as u32, depth);
        }
        for smaller in smaller_numbers(width.into()) {
            all(smaller as u32, height, depth);
        }
        for smaller in [8, 9].into_iter().filter(|smaller| *smaller < depth) {
            all(width, height, smaller);
        }
        for at in 0..3 {
            for simpler in self.0[at].smaller() {
                let mut planes = self.0.clone();
                planes[at] = Rc::new(simpler);
                found.push(Self(planes));
            }
        }
        found
    }
}

/// Three planes of at most this size that agree and are long enough, or three
/// of which something is at or past a bound.
pub fn random(random: &mut Random, most_width: u32, most_height: u32, whole: bool) -> Trio {
    let (width, height) = size(random, most_width, most_height);
    let depth = given::depth(random);
    let one_layout = random.one_in(3);
    let layout = *random.pick(LAYOUTS);
    let mut drafts = [0; 3].map(|_| Draft {
        shape: PlaneNumbers {
            width,
            height,
            depth,
            stride: 0,
            layout: if one_layout {
                layout
            } else {
                *random.pick(LAYOUTS)
            },
        },
        padding: *random.pick(&[0, 0, 1, 2, 3, 7, 16]),
        more: *random.pick(&[0, 0, 0, 1, 2, 64]),
    });
    if !whole {
        for _ in 0..*random.pick(&[1, 1, 1, 2, 3]) {
            let at = random.below(3) as usize;
            drafts[at].spoil(random);
        }
    }
    let lent = drafts.map(|draft| draft.shape_and_length(random));
    filled(random, lent)
}

/// Three planes of these shapes, of just so many bytes as they need.
pub fn of_shapes(random: &mut Random, shapes: [PlaneNumbers; 3]) -> Trio {
    filled(
        random,
        shapes.map(|shape| (shape, judge::needed(shape) as usize)),
    )
}

/// Contents for three planes: often nothing moves from before to after, or not
/// at all, or little.
fn filled(random: &mut Random, lent: [Lent; 3]) -> Trio {
    let mut contents = [0, 1, 2].map(|at: usize| Contents::picture(random, lent[at].0));
    let same_layout = |a: usize, b: usize| lent[a].0.layout == lent[b].0.layout;
    match random.below(4) {
        0 if same_layout(0, 2) => contents[2] = contents[0].clone(),
        1 if same_layout(0, 1) => contents[0] = contents[1].clone(),
        2 if same_layout(0, 1) && same_layout(1, 2) => {
            contents[0] = contents[1].clone();
            contents[2] = contents[1].clone();
        }
        _ => {}
    }
    let [before, cur, after] = contents;
    let given = |at: usize, contents| {
        let (shape, length) = lent[at];
        Rc::new(Given::new(shape, length, contents))
    };
    Trio([given(0, before), given(1, cur), given(2, after)])
}

fn size(random: &mut Random, most_width: u32, most_height: u32) -> (u32, u32) {
    let width = random.between(1, most_width.into()) as u32;
    let height = random.between(1, most_height.into()) as u32;
    match random.below(10) {
        0 => *random.pick(&[(1, 1), (2, 2), (3, 3), (5, 2), (2, 5)]),
        1 => (1, height),
        2 => (width, 1),
        3 => (width, height.min(4)),
        _ => (width, height),
    }
}

/// A plane on the way: what its stride and its length have beside the least.
pub(super) struct Draft {
    pub shape: PlaneNumbers,
    pub padding: i64,
    pub more: i64,
}

impl Draft {
    /// Puts one of its numbers at or past a bound, or off the others.
    pub fn spoil(&mut self, random: &mut Random) {
        let shape = &mut self.shape;
        let beside = |random: &mut Random, number: u32| {
            let sign = *random.pick(&[-1, 1]);
            number.saturating_add_signed(sign)
        };
        match random.below(12) {
            // Some of them would name a layout if they were cut to fewer bits.
            0 => shape.layout = *random.pick(&[4, 5, 255, 256, 258, 65_537, u32::MAX]),
            1 => shape.width = edge_of(random, shape.width, EDGES_OF_WIDTH),
            2 => shape.height = edge_of(random, shape.height, EDGES_OF_HEIGHT),
            3 => shape.depth = *random.pick(&[0, 7, 8, 16, 17, 255, 256, 264, u32::MAX]),
            4 | 5 => shape.width = beside(random, shape.width),
            6 => shape.height = beside(random, shape.height),
            7 => shape.depth = beside(random, shape.depth),
            8 => self.padding = -1,
            9 => self.padding = 65_537 - judge::row(*shape) as i64,
            10 => self.more = -1,
            _ => self.more = -(random.between(1, 200) as i64),
        }
    }

    pub fn shape_and_length(mut self, random: &mut Random) -> Lent {
        let row = judge::row(self.shape) as i64;
        self.shape.stride = (row + self.padding).clamp(0, u32::MAX.into()) as u32;
        let needed = judge::needed(self.shape);
        let length = if needed > 1 << 16 {
            // Too large to be lent whole: too short.
            random.between(0, 256)
        } else {
            needed.saturating_add_signed(self.more)
        };
        (self.shape, length as usize)
    }
}

impl Trio {
    /// The answer with the numbers and the bytes of the three planes added.
    pub fn answer(&self, mut answer: Answer) -> Answer {
        for given in &self.0 {
            answer = answer
                .numbers(read::listed(given.shape))
                .slice(&given.plane().data);
        }
        answer
    }
}
