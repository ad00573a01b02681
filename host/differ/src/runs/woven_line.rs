//! `desk_woven_line` and its twin `desk_line_number` against the rows of the
//! plane that `weave::weave` makes.

use std::cell::OnceCell;
use std::fmt;
use std::hint::black_box;
use std::rc::Rc;

use oracle::mediadecoder::es::Format;
use oracle::mediadecoder::video::{Frame, Plane};

use super::fields;
use super::film::{grid_of, listed};
use super::weave;
use crate::answers::Answer;
use crate::case::{Case, Difference, Failure, Least, Tally, same, smaller_numbers};
use crate::given::Given;
use crate::judge;
use crate::lent::{Guarded, PATTERNS};
use crate::random::Random;

pub const NAME: &str = "woven_line";

/// Two planes, and the Rust's woven one, made when first asked for.
#[derive(Clone)]
struct Planes {
    top: Given,
    bottom: Given,
    woven: OnceCell<Vec<u8>>,
}

impl fmt::Debug for Planes {
    fn fmt(&self, f: &mut fmt::Formatter<'_>) -> fmt::Result {
        f.debug_struct("Planes")
            .field("top", &self.top)
            .field("bottom", &self.bottom)
            .finish()
    }
}

impl Planes {
    fn new(top: Given, bottom: Given) -> Rc<Self> {
        Rc::new(Self {
            top,
            bottom,
            woven: OnceCell::new(),
        })
    }

    /// A line of the Rust's woven plane. The other planes of its frame are one
    /// sample each, since it weaves no plane alone.
    fn line(&self, y: u32) -> &[u8] {
        let frame = |given: &Given| {
            let one = || Plane {
                data: vec![0; 2],
                stride: 2,
                width: 1,
                height: 1,
            };
            Frame {
                format: Format {
                    width: given.shape.width,
                    height: given.shape.height,
                    depth: given.shape.depth as u8,
                    ..Format::default()
                },
                planes: [given.plane().clone(), one(), one()],
                ..Frame::default()
            }
        };
        let woven = self.woven.get_or_init(|| {
            let woven = weave::by_rust(&frame(&self.top), &frame(&self.bottom));
            let [luma, _, _] = woven.expect("the Rust weaves planes that agree").planes;
            luma.data
        });
        let row = judge::row(self.top.shape) as usize;
        &woven[y as usize * row..][..row]
    }
}

/// A line that is asked of two planes.
#[derive(Debug, Clone)]
struct Line {
    planes: Rc<Planes>,
    y: u32,
    /// Bytes that are lent for the line.
    out: usize,
    /// The lengths that the twin is told.
    said: [u64; 2],
}

impl Case for Line {
    fn compare(&self) -> Result<u8, Difference> {
        let Self {
            ref planes,
            y,
            out,
            said,
        } = *self;
        let Planes { top, bottom, .. } = &**planes;
        let twin = judge::weaves::line(top.shape, bottom.shape, said, y);
        let [top_bytes, bottom_bytes] = said;
        let (top_lines, bottom_lines) = (grid_of(top.shape), grid_of(bottom.shape));
        let given = desk::calls::line_number(top_lines, top_bytes, bottom_lines, bottom_bytes, y);
        same("the twin's number, which is the rules'", given, twin)?;

        let lent = [top, bottom].map(|given| (given.shape, given.length));
        let number = judge::weaves::woven_line(lent[0], lent[1], y, out);
        let expected = if number == 0 { planes.line(y) } else { &[] };
        for pattern in PATTERNS {
            let mut lent = Guarded::filled(pattern, out);
            let given = desk::calls::woven_line(
                top.lent(),
                top_lines,
                bottom.lent(),
                bottom_lines,
                y,
                lent.lend(),
            );
            same("the number, which is the rules'", given, number)?;
            // The compiler must not suppose that the call kept to what it was lent.
            black_box(&lent).written(expected)?;
        }
        for given in black_box([top, bottom]) {
            let kept = given.lent() == given.plane().data;
            same("whether a lent plane is as it was", kept, true)?;
        }
        Ok(number)
    }

    fn smaller(&self) -> Vec<Self> {
        let with = |top: Given, bottom: Given| Self {
            planes: Planes::new(top, bottom),
            ..self.clone()
        };
        let Planes { top, bottom, .. } = &*self.planes;
        let mut found = Vec::new();
        let shape = top.shape;
        for (width, height, depth) in
            fields::smaller_sizes((shape.width, shape.height, shape.depth))
        {
            let resized = |given: &Given| given.resized(width, height, depth);
            if let (Some(top), Some(bottom)) = (resized(top), resized(bottom)) {
                found.push(with(top, bottom));
            }
        }
        found.extend(top.smaller().into_iter().map(|t| with(t, bottom.clone())));
        found.extend(bottom.smaller().into_iter().map(|b| with(top.clone(), b)));
        for y in smaller_numbers(self.y.into()) {
            let y = y as u32;
            found.push(Self { y, ..self.clone() });
        }
        for out in smaller_numbers(self.out as u64) {
            let out = out as usize;
            found.push(Self {
                out,
                ..self.clone()
            });
        }
        for at in 0..2 {
            for less in smaller_numbers(self.said[at]) {
                let mut case = self.clone();
                case.said[at] = less;
                found.push(case);
            }
        }
        found
    }
}

/// Every line of two planes, and some past the last.
fn asked_of(random: &mut Random, planes: Rc<Planes>) -> Vec<Line> {
    let Planes { top, bottom, .. } = &*planes;
    let heights = [top.shape.height, bottom.shape.height];
    let mut every: Vec<u32> = (0..heights[0].min(24).saturating_mul(2)).collect();
    for height in heights {
        let past = height.saturating_mul(2);
        every.extend([past.saturating_sub(1), past, past.saturating_add(1)]);
    }
    every.extend([131_069, 131_070, 131_071, u32::MAX / 2, u32::MAX]);
    let row = judge::row(top.shape);
    let lengths = [top, bottom].map(|given| given.length as u64);
    let needed = [top, bottom].map(|given| judge::needed(given.shape));
    every
        .into_iter()
        .map(|y| {
            let mut said = lengths;
            if random.one_in(4) {
                let at = random.below(2) as usize;
                let short = needed[at].saturating_sub(1);
                said[at] = *random.pick(&[0, short, short, needed[at], u64::MAX]);
            }
            let out = match random.below(10) {
                0 => row.saturating_sub(1),
                1 => random.below(row.max(1)),
                _ => row + random.pick(&[0, 0, 1, 2, 17]),
            };
            Line {
                planes: planes.clone(),
                y,
                out: out.min(1 << 16) as usize,
                said,
            }
        })
        .collect()
}

fn random_planes(random: &mut Random) -> Rc<Planes> {
    let size = fields::size(random, 40, 12);
    let mut drafts = [0; 2].map(|_| fields::drafts(random, size)[0]);
    if random.one_in(3) {
        for _ in 0..*random.pick(&[1, 1, 2]) {
            drafts[random.below(2) as usize].spoil(random);
        }
    }
    let [top, bottom] = drafts.map(|draft| draft.given(random));
    Planes::new(top, bottom)
}

/// The widest and the highest, and two that are too high, one of them for 16
/// bits.
const LARGE: [(u32, u32, u32); 5] = [
    (8192, 2, 16),
    (1, 2176, 9),
    (2, 2177, 8),
    (1, 70_000, 8),
    (1920, 540, 10),
];

pub fn run(random: &mut Random) -> Result<Tally, Failure> {
    let mut own = || Random::new(random.next());
    let (mut for_large, mut for_others) = (own(), own());
    let large = LARGE.into_iter().flat_map(move |size| {
        let [top, bottom] = [0; 2].map(|_| {
            let draft = fields::drafts(&mut for_large, size)[0];
            let mut given = draft.given(&mut for_large);
            given.length = judge::needed(given.shape) as usize;
            given
        });
        asked_of(&mut for_large, Planes::new(top, bottom))
    });
    let others = (0..3_000).flat_map(move |_| {
        let planes = random_planes(&mut for_others);
        asked_of(&mut for_others, planes)
    });
    let least = Least {
        accepted: 20_000,
        refused: 40_000,
    };
    Tally::of(NAME, least, large.chain(others))
}

/// Lines of small planes, without an end.
fn small(mut random: Random) -> impl Iterator<Item = Line> {
    std::iter::repeat_with(move || {
        let planes = random_planes(&mut random);
        let mut lines = asked_of(&mut random, planes);
        let at = random.below(lines.len().max(1) as u64) as usize;
        (at < lines.len()).then(|| lines.swap_remove(at))
    })
    .flatten()
}

/// Answers, without an end.
pub(crate) fn answers(random: Random) -> impl Iterator<Item = Answer> {
    small(random).map(|line| {
        let Planes { top, bottom, .. } = &*line.planes;
        let lent = [top, bottom].map(|given| (given.shape, given.length));
        let number = judge::weaves::woven_line(lent[0], lent[1], line.y, line.out);
        let written = if number == 0 {
            line.planes.line(line.y)
        } else {
            &[]
        };
        Answer::of("woven_line")
            .numbers(listed(top.shape))
            .numbers(listed(bottom.shape))
            .number(line.y)
            .gives(number)
            .slice(&top.plane().data)
            .slice(&bottom.plane().data)
            .output(written, line.out)
    })
}

/// Answers of the twin, without an end. The original has no such call: where it
/// gives 0, the original weaves the line.
pub(crate) fn numbers(random: Random) -> impl Iterator<Item = Answer> {
    small(random).map(|line| {
        let Planes { top, bottom, .. } = &*line.planes;
        let [top_bytes, bottom_bytes] = line.said;
        let number = judge::weaves::line(top.shape, bottom.shape, line.said, line.y);
        Answer::of("line_number")
            .numbers(listed(top.shape))
            .number(top_bytes)
            .numbers(listed(bottom.shape))
            .number(bottom_bytes)
            .number(line.y)
            .gives(number)
    })
}
