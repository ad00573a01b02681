//! `desk_readback_sizes` and `desk_readback_copy`, one after the other, against
//! the one call of the Rust: the sizes are the lengths of the planes that it makes.

use std::hint::black_box;
use std::rc::Rc;

use desk::calls::ReadbackNumbers;
use oracle::decode::weave;
use oracle::decode::{About, Readback};
use oracle::mediadecoder::es::Format;
use oracle::mediadecoder::video::Frame;

use super::fields::{self, affordable};
use crate::answers::Answer;
use crate::case::{Case, Difference, Failure, Least, Tally, same, smaller_numbers};
use crate::given::{Contents, EDGES_OF_HEIGHT, EDGES_OF_WIDTH, Given, edge_of};
use crate::judge;
use crate::lent::{Guarded, PATTERNS, three_places};
use crate::random::Random;

pub const NAME: &str = "readback";

/// Never inlined, so that the benchmark times a call on both sides.
#[inline(never)]
pub fn by_rust(read: &Readback) -> Result<Frame, &'static str> {
    weave::frame_of_readback(read)
}

/// What the Rust is told beside the planes.
pub fn about(numbers: ReadbackNumbers) -> About {
    About {
        format: Format {
            width: numbers.width,
            height: numbers.height,
            depth: numbers.depth as u8,
            ..Format::default()
        },
        ..About::default()
    }
}

/// Three planes, of which some may be beyond the count, and the bytes that are
/// lent for each output. A plane's shape only says how it was filled.
#[derive(Debug, Clone)]
struct Read {
    about: ReadbackNumbers,
    planes: [Rc<Given>; 3],
    outs: [usize; 3],
}

/// Outputs about the sizes, each with the number that the copy is to give: just
/// as long, longer, and for each one that lacks a byte.
fn outs_about(sizes: [usize; 3]) -> Vec<([usize; 3], u8)> {
    let mut all = vec![(sizes, 0), (sizes.map(|size| size + 33), 0)];
    for at in 0..3 {
        let mut short = sizes;
        short[at] -= 1;
        all.push((short, 7));
    }
    all
}

impl Read {
    /// The number of `readback_sizes`.
    fn asked(&self) -> u8 {
        judge::weaves::readback_sizes(self.about, self.lengths())
    }

    /// The number of `readback_copy`.
    fn copied(&self) -> u8 {
        judge::weaves::readback_copy(self.about, self.lengths(), self.outs)
    }

    fn lengths(&self) -> [usize; 3] {
        self.planes.each_ref().map(|given| given.length)
    }

    /// The Rust's readback has as many planes as the count says, or enough to
    /// be too many.
    fn by_rust(&self) -> Result<Frame, &'static str> {
        let pitches = [
            self.about.luma_pitch,
            self.about.second_pitch,
            self.about.third_pitch,
        ];
        let all = self.planes.iter().zip(pitches).cycle();
        let planes = all
            .take(self.about.planes.min(5) as usize)
            .map(|(given, pitch)| (given.plane().data.clone(), pitch as usize, 0))
            .collect();
        by_rust(&Readback {
            about: about(self.about),
            planes,
        })
    }
}

impl Read {
    /// What the Rust makes of planes that are not refused; and it has two of the
    /// refusals as well, each in its words.
    fn wanted(&self) -> Result<Option<[Vec<u8>; 3]>, Difference> {
        match self.asked() {
            number @ (1 | 2) => {
                let words = ["プレーンが無い", "色差のプレーンが無い（輝度だけ）"];
                let refused = self.by_rust().map(|_| "a frame");
                let wanted = Err(words[usize::from(number) - 1]);
                same("the Rust's own refusal", wanted, refused)?;
                Ok(None)
            }
            number => Ok(self.made(number)),
        }
    }

    fn ask(&self, sizes: Option<[usize; 3]>) -> Result<(), Difference> {
        let [luma, second, third] = self.planes.each_ref().map(|given| given.lent());
        let wanted = sizes.map(|sizes| sizes.map(|size| size as u64));
        three_places(
            |luma_bytes, cb_bytes, cr_bytes| {
                desk::calls::readback_sizes(
                    self.about, luma, second, third, luma_bytes, cb_bytes, cr_bytes,
                )
            },
            wanted.ok_or(self.asked()),
        )?;
        Ok(())
    }

    fn copy(
        &self,
        outs: [usize; 3],
        number: u8,
        planes: &Option<[Vec<u8>; 3]>,
    ) -> Result<(), Difference> {
        let nothing = Default::default();
        let expected = match planes {
            Some(planes) if number == 0 => planes,
            _ => &nothing,
        };
        for pattern in PATTERNS {
            let mut lent = outs.map(|length| Guarded::filled(pattern, length));
            let [luma, second, third] = self.planes.each_ref().map(|given| given.lent());
            let [out_luma, out_cb, out_cr] = lent.each_mut().map(Guarded::lend);
            let given = desk::calls::readback_copy(
                self.about, luma, second, third, out_luma, out_cb, out_cr,
            );
            same("the number, which is the rules'", given, number)?;
            // The compiler must not suppose that the call kept to what it was lent.
            for (lent, expected) in black_box(&lent).iter().zip(expected) {
                lent.written(expected)?;
            }
        }
        Ok(())
    }
}

impl Case for Read {
    fn compare(&self) -> Result<u8, Difference> {
        let planes = self.wanted()?;
        let sizes = planes
            .as_ref()
            .map(|planes| planes.each_ref().map(Vec::len));
        self.ask(sizes)?;
        for (outs, number) in sizes.map(outs_about).unwrap_or_default() {
            self.copy(outs, number, &planes)?;
        }
        let number = self.copied();
        self.copy(self.outs, number, &planes)?;
        for given in black_box(&self.planes) {
            let kept = given.lent() == given.plane().data;
            same("whether a lent plane is as it was", kept, true)?;
        }
        Ok(number)
    }

    fn smaller(&self) -> Vec<Self> {
        let mut found = Vec::new();
        let with = |change: &dyn Fn(&mut Self)| {
            let mut simpler = self.clone();
            change(&mut simpler);
            simpler
        };
        let numbers = |number: u32| smaller_numbers(number.into()).into_iter().map(|n| n as u32);
        // A smaller frame with all that goes with it, then each number alone.
        let about = self.about;
        for height in numbers(about.height) {
            found.extend(self.resized(ReadbackNumbers { height, ..about }));
        }
        for width in numbers(about.width) {
            found.extend(self.resized(ReadbackNumbers { width, ..about }));
        }
        for depth in [8, 9].into_iter().filter(|depth| *depth < about.depth) {
            found.extend(self.resized(ReadbackNumbers { depth, ..about }));
        }
        for planes in numbers(about.planes) {
            found.push(with(&|case| case.about.planes = planes));
        }
        for height in numbers(about.height) {
            found.push(with(&|case| case.about.height = height));
        }
        for width in numbers(about.width) {
            found.push(with(&|case| case.about.width = width));
        }
        for depth in numbers(about.depth) {
            found.push(with(&|case| case.about.depth = depth));
        }
        for pitch in numbers(about.luma_pitch) {
            found.push(with(&|case| case.about.luma_pitch = pitch));
        }
        for pitch in numbers(about.second_pitch) {
            found.push(with(&|case| case.about.second_pitch = pitch));
        }
        for pitch in numbers(about.third_pitch) {
            found.push(with(&|case| case.about.third_pitch = pitch));
        }
        for at in 0..3 {
            let given = &self.planes[at];
            for length in smaller_numbers(given.length as u64) {
                let shorter = Given::new(given.shape, length as usize, given.contents.clone());
                let shorter = Rc::new(shorter);
                found.push(with(&|case| case.planes[at] = shorter.clone()));
            }
            for contents in given.contents.smaller(&given.plane().data) {
                let simpler = Rc::new(Given::new(given.shape, given.length, contents));
                found.push(with(&|case| case.planes[at] = simpler.clone()));
            }
            for out in smaller_numbers(self.outs[at] as u64) {
                found.push(with(&|case| case.outs[at] = out as usize));
            }
        }
        found
    }
}

impl Read {
    /// With these numbers, but for the pitches, which have the padding that they
    /// had; planes and outputs are as much longer, or too short, as they were.
    fn resized(&self, about: ReadbackNumbers) -> Option<Self> {
        let was = judge::weaves::read_from(self.about);
        let rows = judge::weaves::read_from(about).map(|(shape, _)| judge::row(shape) as i64);
        let pitch = |at: usize| {
            let (old, _) = was[at];
            let padding = i64::from(old.stride) - judge::row(old) as i64;
            u32::try_from(rows[at] + padding).ok()
        };
        let about = ReadbackNumbers {
            luma_pitch: pitch(0)?,
            second_pitch: pitch(1)?,
            third_pitch: if about.planes == 2 { 0 } else { pitch(2)? },
            ..about
        };
        let now = judge::weaves::read_from(about);
        let mut case = self.clone();
        case.about = about;
        for at in 0..3 {
            let ((old, from), (new, _)) = (was[at], now[at]);
            let alike = |length: usize, old: u64, new: u64| {
                let length = length as i128 - i128::from(old) + i128::from(new);
                usize::try_from(length).ok()
            };
            let (given, out) = (&self.planes[from], self.outs[at]);
            let length = alike(given.length, judge::needed(old), judge::needed(new))?;
            let length = (length <= given.length).then_some(length)?;
            case.planes[from] = Rc::new(Given::new(new, length, given.contents.clone()));
            let [old, new] = [old, new].map(judge::weaves::component);
            case.outs[at] = alike(out, old, new)?.min(out);
        }
        Some(case)
    }
}

/// A readback on the way: the padding of each pitch, and what each plane and
/// each output have beside the least.
struct Draft {
    about: ReadbackNumbers,
    padding: [i64; 3],
    more: [i64; 3],
    room: [i64; 3],
}

impl Draft {
    fn of(random: &mut Random, planes: u32, width: u32, height: u32, depth: u32) -> Self {
        Self {
            about: ReadbackNumbers {
                planes,
                width,
                height,
                depth,
                luma_pitch: 0,
                second_pitch: 0,
                third_pitch: 0,
            },
            padding: [0; 3].map(|_| *random.pick(&[0, 0, 1, 2, 3, 7, 16])),
            more: [0; 3].map(|_| *random.pick(&[0, 0, 0, 1, 2, 64])),
            room: [0; 3].map(|_| *random.pick(&[0, 0, 0, 1, 2, 17])),
        }
    }

    /// Puts one of its numbers at or past a bound.
    fn spoil(&mut self, random: &mut Random) {
        let about = &mut self.about;
        let at = random.below(3) as usize;
        match random.below(12) {
            0 => about.width = edge_of(random, about.width, EDGES_OF_WIDTH),
            1 => about.height = edge_of(random, about.height, EDGES_OF_HEIGHT),
            2 => about.depth = *random.pick(&[0, 7, 8, 16, 17, 255, 256, 264, u32::MAX]),
            // Some of them would be a count if they were cut to fewer bits.
            3 => about.planes = *random.pick(&[0, 1, 4, 5, 255, 256, 258, 65_539, u32::MAX]),
            4 => self.padding[at] = -1,
            5 => self.padding[at] = 65_537,
            6 | 7 => self.more[at] = -1,
            8 => self.more[at] = -(random.between(1, 200) as i64),
            9 => about.planes = *random.pick(&[0, 1, 1, 4]),
            _ => self.room[at] = -(*random.pick(&[1, 1, 1, 2, 100])),
        }
    }

    /// The planes and outputs. A plane beyond the count is of any length, as is
    /// its pitch.
    fn read(mut self, random: &mut Random) -> Read {
        let rows = judge::weaves::read_from(self.about).map(|(shape, _)| judge::row(shape) as i64);
        let pitch = |at: usize| {
            let least = if self.padding[at] > 65_536 {
                0
            } else {
                rows[at]
            };
            (least + self.padding[at]).clamp(0, u32::MAX.into()) as u32
        };
        self.about.luma_pitch = pitch(0);
        self.about.second_pitch = pitch(1);
        self.about.third_pitch = pitch(2);
        let mut shapes = judge::weaves::read_from(self.about).map(|(shape, _)| shape);
        if self.about.planes == 2 {
            shapes[2].stride = self.about.third_pitch;
            if random.one_in(2) {
                self.about.third_pitch = random.next() as u32;
            }
        }
        let planes = [0, 1, 2].map(|at: usize| {
            let length = affordable(random, judge::needed(shapes[at]), 0) as i64 + self.more[at];
            let beyond = at as u32 >= self.about.planes && random.one_in(2);
            let length = if beyond { 0 } else { length.max(0) };
            Rc::new(Given::new(
                shapes[at],
                length as usize,
                Contents::random(random),
            ))
        });
        let outs = [0, 1, 2].map(|at: usize| {
            let needed = judge::weaves::component(shapes[at]);
            (affordable(random, needed, 0) as i64 + self.room[at]).max(0) as usize
        });
        Read {
            about: self.about,
            planes,
            outs,
        }
    }
}

fn right(random: &mut Random, planes: u32) -> Draft {
    let (width, height, depth) = fields::size(random, 40, 16);
    Draft::of(random, planes, width, height, depth)
}

fn spoilt(random: &mut Random) -> Read {
    let planes = random.between(2, 3) as u32;
    let mut draft = right(random, planes);
    for _ in 0..*random.pick(&[1, 1, 1, 2, 3]) {
        draft.spoil(random);
    }
    draft.read(random)
}

/// The widest and the highest, and those just past the bound.
const LARGE: [(u32, u32, u32, u32); 8] = [
    (2, 8192, 3, 16),
    (3, 8192, 3, 16),
    (2, 8191, 3, 8),
    (2, 1, 4352, 9),
    (3, 3, 4351, 8),
    (2, 8193, 1, 8),
    (3, 1, 4353, 8),
    (2, 320, 240, 10),
];

pub fn run(random: &mut Random) -> Result<Tally, Failure> {
    let mut own = || Random::new(random.next());
    let (mut for_large, mut for_right, mut for_spoilt) = (own(), own(), own());
    let large = LARGE
        .into_iter()
        .map(move |(planes, width, height, depth)| {
            Draft::of(&mut for_large, planes, width, height, depth).read(&mut for_large)
        });
    let others = (0..8_000).map(move |_| {
        let planes = for_right.between(2, 3) as u32;
        right(&mut for_right, planes).read(&mut for_right)
    });
    let refused = (0..8_000).map(move |_| spoilt(&mut for_spoilt));
    let least = Least {
        accepted: 8_000,
        refused: 6_000,
    };
    Tally::of(NAME, least, large.chain(others).chain(refused))
}

/// Small frames, without an end; one in three has something wrong.
fn small(mut random: Random) -> impl Iterator<Item = Read> {
    std::iter::repeat_with(move || {
        if random.one_in(3) {
            return spoilt(&mut random);
        }
        let planes = random.between(2, 3) as u32;
        let (width, height, depth) = fields::size(&mut random, 14, 9);
        Draft::of(&mut random, planes, width, height, depth).read(&mut random)
    })
}

impl Read {
    /// The planes that the Rust makes, where the call gets 0.
    fn made(&self, number: u8) -> Option<[Vec<u8>; 3]> {
        (number == 0).then(|| {
            let frame = self.by_rust().expect("the Rust takes planes that suffice");
            frame.planes.map(|plane| plane.data)
        })
    }

    /// The numbers that both calls are given, then the number that this one gives.
    fn answer(&self, call: &'static str, number: u8) -> Answer {
        let ReadbackNumbers {
            planes,
            width,
            height,
            depth,
            luma_pitch,
            second_pitch,
            third_pitch,
        } = self.about;
        Answer::of(call)
            .numbers([planes, width, height, depth])
            .numbers([luma_pitch, second_pitch, third_pitch])
            .gives(number)
    }

    fn with_planes(&self, answer: Answer) -> Answer {
        let planes = self.planes.iter();
        planes.fold(answer, |answer, given| answer.slice(&given.plane().data))
    }
}

/// Answers of `readback_sizes`, without an end.
pub(crate) fn sizes(random: Random) -> impl Iterator<Item = Answer> {
    small(random).map(|read| {
        let made = read.made(read.asked());
        let mut answer = read.answer("readback_sizes", read.asked());
        for at in 0..3 {
            answer = answer.count(made.as_ref().map(|planes| planes[at].len() as u64));
        }
        read.with_planes(answer)
    })
}

/// Answers of `readback_copy`, without an end.
pub(crate) fn copies(random: Random) -> impl Iterator<Item = Answer> {
    small(random).map(|read| {
        let number = read.copied();
        let made = read.made(number).unwrap_or_default();
        let answer = read.with_planes(read.answer("readback_copy", number));
        let outs = made.iter().zip(read.outs);
        outs.fold(answer, |answer, (made, lent)| answer.output(made, lent))
    })
}
