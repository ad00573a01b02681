//! `desk_edge` against `filter::edge`.

use std::rc::Rc;

use oracle::video::filter;

use super::read::{self, Asked};
use crate::answers::Answer;
use crate::case::{Case, Difference, Failure, Least, Tally};
use crate::given::{self, Contents, LAYOUTS};
use crate::judge;
use crate::lent::one_place;
use crate::random::Random;
use crate::stray::Strays;

pub const NAME: &str = "edge";

#[derive(Debug, Clone)]
struct Edge(Asked);

impl Edge {
    fn wanted(&self) -> Result<i32, u8> {
        let Asked { given, x, y } = &self.0;
        let (x, y) = (*x, *y);
        match judge::edge(given.shape, given.length, x, y) {
            0 => Ok(filter::edge(&read::samples(given), x, y)),
            number => Err(number),
        }
    }
}

impl Case for Edge {
    fn compare(&self) -> Result<u8, Difference> {
        let Asked { given, x, y } = &self.0;
        let (x, y) = (*x, *y);
        one_place(
            |slant| desk::calls::edge(given.lent(), given.shape, x, y, slant),
            self.wanted(),
        )
    }

    fn smaller(&self) -> Vec<Self> {
        self.0.smaller().into_iter().map(Self).collect()
    }

    fn strays(&self) -> Strays {
        self.0.strays()
    }
}

/// Planes of the random part, and coordinates asked of each.
const PLANES: u64 = 7_000;
const OF_EACH: u64 = 48;

/// Of the random coordinates, one in so many is picked outside or at an edge.
const OUTSIDE_IN: u64 = 4;

pub fn run(random: &mut Random) -> Result<Tally, Failure> {
    let tiny = read::every_tiny_plane(Random::new(random.next()));
    let large = read::large_planes(Random::new(random.next()), 500, OUTSIDE_IN);
    let others = (0..PLANES).flat_map(|_| {
        let mut given = given::random(random, 40, 20, LAYOUTS);
        given.contents = Contents::picture(random, given.shape);
        read::asked_of(random, Rc::new(given), OF_EACH, OUTSIDE_IN)
    });
    let least = Least {
        accepted: 230_000,
        refused: 150_000,
    };
    let all = read::smallest().chain(tiny).chain(large).chain(others);
    Tally::of(NAME, least, all.map(Edge))
}

/// Answers of small planes with pictures in which directions tie, without an
/// end.
pub(crate) fn answers(mut random: Random) -> impl Iterator<Item = Answer> {
    let others = std::iter::repeat_with(move || {
        let mut given = given::random(&mut random, 16, 8, LAYOUTS);
        given.contents = Contents::picture(&mut random, given.shape);
        read::asked_of(&mut random, Rc::new(given), 2, OUTSIDE_IN)
    });
    read::smallest().chain(others.flatten()).map(|asked| {
        let case = Edge(asked);
        let wanted = case.wanted();
        let number = wanted.err().unwrap_or(0);
        case.0.answer("edge", number).slant(wanted.ok())
    })
}
