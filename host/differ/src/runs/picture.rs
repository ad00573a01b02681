//! `desk_picture` against `filter::picture_of`, byte by byte.
//!
//! The Rust makes the nine colour numbers itself, of a matrix, a depth and a
//! range; the desk is given them. So for such numbers both whole calls are
//! compared. For any others the Rust's own pieces are put together as
//! `picture_of` puts them: `sample`, `Conversion::to_rgb`, `quantise`.

use std::rc::Rc;

use desk::calls::{FrameNumbers, OutputNumbers, PlaneNumbers};
use oracle::video::colour::{self, Matrix};
use oracle::video::field::{Output, Parity, Source};
use oracle::video::filter::{self, Planes, Rows};
use oracle::video::{Deinterlace, Settings};

use super::read;
use super::to_rgb::{self, Nine};
use super::trio::{self, Draft, quality_named};
use crate::answers::Answer;
use crate::case::{Case, Difference, Failure, Least, Tally, same, smaller_numbers};
use crate::given::{self, Contents, Given, LAYOUTS};
use crate::judge::{self, Lent};
use crate::lent::{Guarded, PATTERNS};
use crate::random::Random;
use crate::stray::Strays;

pub const NAME: &str = "picture";

/// Never inlined, so that the benchmark times a call on both sides.
#[inline(never)]
pub fn by_rust(
    [before, cur, after]: &[Planes<'_>; 3],
    depth: u8,
    output: &Output,
    settings: Settings,
) -> Vec<u8> {
    filter::picture_of(before, cur, after, depth, output, settings)
}

/// `picture_of` once more, line by line, with a conversion that it could not
/// have made.
fn by_pieces(
    [before, cur, after]: &[Planes<'_>; 3],
    conversion: &colour::Conversion,
    output: &Output,
    quality: Deinterlace,
) -> Vec<u8> {
    let pick = |source: Source| match source {
        Source::Previous => before,
        Source::Current => cur,
        Source::Next => after,
    };
    let (earlier, later) = (pick(output.before), pick(output.after));
    let rows = Rows::of(output);
    let quality = match output.field {
        None => Deinterlace::Weave,
        Some(_) => quality,
    };
    let mut out = Vec::new();
    for y in 0..cur.y.height() as i32 {
        for x in 0..cur.y.width() as i32 {
            let rgb = conversion.to_rgb(
                filter::sample(quality, &earlier.y, &cur.y, &later.y, rows, x, y),
                filter::sample(quality, &earlier.cb, &cur.cb, &later.cb, rows, x / 2, y / 2),
                filter::sample(quality, &earlier.cr, &cur.cr, &later.cr, rows, x / 2, y / 2),
            );
            out.extend(rgb.map(colour::quantise));
            out.push(255);
        }
    }
    out
}

/// The output of numbers that the judge lets pass. The last three of its fields
/// say nothing about the picture.
pub fn output_named(numbers: OutputNumbers) -> Output {
    let field = |code| match code {
        0 => Some(Parity::Top),
        1 => Some(Parity::Bottom),
        2 => None,
        other => unreachable!("the judge refuses field {other}"),
    };
    let source = |code| match code {
        0 => Source::Previous,
        1 => Source::Current,
        2 => Source::Next,
        other => unreachable!("the judge refuses frame {other}"),
    };
    Output {
        field: field(numbers.field),
        weave: field(numbers.weave),
        before: source(numbers.earlier),
        after: source(numbers.later),
        at: 0,
        of: 1,
        matched: false,
    }
}

/// Where the nine numbers come from.
#[derive(Debug, Clone, Copy)]
enum Colours {
    Made {
        matrix: Matrix,
        depth: u8,
        limited: bool,
    },
    Listed(Nine),
}

impl Colours {
    fn nine(self) -> Nine {
        match self {
            Self::Made {
                matrix,
                depth,
                limited,
            } => to_rgb::nine_of(colour::Conversion::new(matrix, depth, limited)),
            Self::Listed(nine) => nine,
        }
    }
}

/// The planes of a frame: luma and the two of chroma.
#[derive(Debug, Clone)]
struct Frame([Rc<Given>; 3]);

impl Frame {
    fn lent(&self) -> [Lent; 3] {
        self.0.each_ref().map(|given| (given.shape, given.length))
    }

    /// The bytes of each plane. Where the two of chroma share a plane, the same
    /// bytes are lent twice.
    fn bytes(&self) -> [&[u8]; 3] {
        let [luma, cb, cr] = &self.0;
        let second = if self.is_shared() { cb } else { cr };
        [luma.lent(), cb.lent(), second.lent()]
    }

    fn is_shared(&self) -> bool {
        let [_, cb, cr] = &self.0;
        let as_second = PlaneNumbers {
            layout: 3,
            ..cb.shape
        };
        cb.shape.layout == 2
            && cr.shape == as_second
            && cr.length == cb.length
            && cr.contents == cb.contents
    }

    fn shapes(&self) -> FrameNumbers {
        let [luma, cb, cr] = self.0.each_ref().map(|given| given.shape);
        FrameNumbers { luma, cb, cr }
    }

    /// The Rust's view, where all is within the bounds.
    fn planes(&self) -> Planes<'_> {
        let [y, cb, cr] = self.0.each_ref().map(|given| read::samples(given));
        Planes { y, cb, cr }
    }

    fn resized(&self, width: u32, height: u32, depth: u32) -> Option<Self> {
        let [luma, cb, cr] = &self.0;
        let half = |given: &Given| given.resized(width.div_ceil(2), height.div_ceil(2), depth);
        let planes = [luma.resized(width, height, depth)?, half(cb)?, half(cr)?];
        Some(Self(planes.map(Rc::new)))
    }
}

#[derive(Debug, Clone)]
struct Picture {
    quality: u8,
    output: OutputNumbers,
    colours: Colours,
    /// Before, now and after.
    frames: [Frame; 3],
    /// Bytes that are lent for the answer.
    out: usize,
}

impl Picture {
    /// The number, and what is written.
    fn wanted(&self) -> (u8, Vec<u8>) {
        let conversion = to_rgb::for_desk(self.colours.nine());
        let lent = self.frames.each_ref().map(Frame::lent);
        match judge::pictures::picture(self.quality, self.output, conversion, lent, self.out) {
            0 => (0, self.rust()),
            number => (number, Vec::new()),
        }
    }

    fn rust(&self) -> Vec<u8> {
        let planes = self.frames.each_ref().map(Frame::planes);
        let output = output_named(self.output);
        let deinterlace = quality_named(self.quality);
        match self.colours {
            Colours::Made {
                matrix,
                depth,
                limited,
            } => {
                let settings = Settings {
                    deinterlace,
                    matrix,
                    limited,
                };
                by_rust(&planes, depth, &output, settings)
            }
            Colours::Listed(nine) => {
                by_pieces(&planes, &to_rgb::for_rust(nine), &output, deinterlace)
            }
        }
    }
}

impl Case for Picture {
    fn compare(&self) -> Result<u8, Difference> {
        let conversion = to_rgb::for_desk(self.colours.nine());
        let (number, expected) = self.wanted();
        let [previous, current, following] = &self.frames;
        for pattern in PATTERNS {
            let mut out = Guarded::<u8>::filled(pattern, self.out);
            let [previous_luma, previous_cb, previous_cr] = previous.bytes();
            let [current_luma, current_cb, current_cr] = current.bytes();
            let [following_luma, following_cb, following_cr] = following.bytes();
            let given = desk::calls::picture(
                self.quality,
                self.output,
                conversion,
                previous.shapes(),
                previous_luma,
                previous_cb,
                previous_cr,
                current.shapes(),
                current_luma,
                current_cb,
                current_cr,
                following.shapes(),
                following_luma,
                following_cb,
                following_cr,
                out.lend(),
            );
            same("the number, which is the rules'", given, number)?;
            // The compiler must not suppose that the call kept to what it was lent.
            std::hint::black_box(&out).written(&expected)?;
        }
        for given in std::hint::black_box(&self.frames).iter().flat_map(|f| &f.0) {
            let kept = given.lent() == given.plane().data;
            same("whether a lent plane is as it was", kept, true)?;
        }
        Ok(number)
    }

    fn smaller(&self) -> Vec<Self> {
        let with = |change: &dyn Fn(&mut Self)| {
            let mut simpler = self.clone();
            change(&mut simpler);
            simpler
        };
        let mut found = Vec::new();
        let current = self.frames[1].0[0].shape;
        let more = self.out as i128 - i128::from(judge::pictures::pixels(current));
        let mut all = |width, height, depth| {
            let resized = self
                .frames
                .each_ref()
                .map(|frame| frame.resized(width, height, depth));
            if let [Some(previous), Some(current), Some(following)] = resized {
                let pixels = judge::pictures::pixels(current.0[0].shape);
                let Ok(out) = usize::try_from(i128::from(pixels) + more) else {
                    return;
                };
                found.push(Self {
                    frames: [previous, current, following],
                    out,
                    ..self.clone()
                });
            }
        };
        let PlaneNumbers {
            width,
            height,
            depth,
            ..
        } = current;
        for less in smaller_numbers(height.into()) {
            all(width, less as u32, depth);
        }
        for less in smaller_numbers(width.into()) {
            all(less as u32, height, depth);
        }
        for less in [8, 9].into_iter().filter(|less| *less < depth) {
            all(width, height, less);
        }
        for less in smaller_numbers(self.quality.into()) {
            found.push(with(&|case| case.quality = less as u8));
        }
        for less in smaller_numbers(self.output.field.into()) {
            found.push(with(&|case| case.output.field = less as u32));
        }
        for less in smaller_numbers(self.output.weave.into()) {
            found.push(with(&|case| case.output.weave = less as u32));
        }
        for less in smaller_numbers(self.output.earlier.into()) {
            found.push(with(&|case| case.output.earlier = less as u32));
        }
        for less in smaller_numbers(self.output.later.into()) {
            found.push(with(&|case| case.output.later = less as u32));
        }
        for frame in 0..3 {
            for at in 0..3 {
                for simpler in self.frames[frame].0[at].smaller() {
                    let simpler = Rc::new(simpler);
                    found.push(with(&|case| case.frames[frame].0[at] = simpler.clone()));
                }
            }
        }
        for less in smaller_numbers(self.out as u64) {
            found.push(with(&|case| case.out = less as usize));
        }
        if let Colours::Listed(nine) = self.colours {
            for at in 0..nine.len() {
                for simpler in to_rgb::simpler_floats(nine[at]) {
                    let mut nine = nine;
                    nine[at] = simpler;
                    found.push(with(&|case| case.colours = Colours::Listed(nine)));
                }
            }
        }
        found
    }

    fn strays(&self) -> Strays {
        let mut all = Strays::default();
        for given in self.frames.iter().flat_map(|frame| &frame.0) {
            all += given.strays();
        }
        all
    }
}

/// How the planes of a frame stand: each for itself, luma beside shared chroma,
/// or any of the layouts for each plane.
fn layouts(random: &mut Random) -> [u32; 3] {
    match random.below(5) {
        0 | 1 => [0, 0, 0],
        2 | 3 => [1, 2, 3],
        _ => [0; 3].map(|_| *random.pick(LAYOUTS)),
    }
}

/// A frame of this size whose planes agree and are long enough, unless `spoil`
/// asks for a plane that is not.
fn frame(
    random: &mut Random,
    (width, height, depth): (u32, u32, u32),
    layouts: [u32; 3],
    spoil: Option<usize>,
) -> Frame {
    let half = (width.div_ceil(2), height.div_ceil(2));
    let sizes = [(width, height), half, half];
    let mut drafts = [0, 1, 2].map(|at: usize| Draft {
        shape: PlaneNumbers {
            width: sizes[at].0,
            height: sizes[at].1,
            depth,
            stride: 0,
            layout: layouts[at],
        },
        padding: *random.pick(&[0, 0, 1, 2, 3, 7, 16]),
        more: *random.pick(&[0, 0, 0, 1, 2, 64]),
    });
    let shared = layouts[1..] == [2, 3];
    if shared {
        drafts[2].padding = drafts[1].padding;
        drafts[2].more = drafts[1].more;
    }
    if let Some(at) = spoil {
        drafts[at].spoil(random);
    }
    let lent = drafts.map(|draft| draft.shape_and_length(random));
    let mut contents = lent.map(|(shape, _)| Contents::picture(random, shape));
    if shared {
        contents[2] = contents[1].clone();
    }
    let mut at = 0;
    Frame(lent.map(|(shape, length)| {
        let given = Rc::new(Given::new(shape, length, contents[at].clone()));
        at += 1;
        given
    }))
}

fn size(random: &mut Random) -> (u32, u32, u32) {
    let side = |random: &mut Random| match random.below(8) {
        0 => random.between(1, 3) as u32,
        1 => *random.pick(&[7, 8, 9, 15, 16, 17, 31, 32, 33]),
        _ => random.between(1, 40) as u32,
    };
    let depth = given::depth(random);
    (side(random), side(random), depth)
}

/// Three frames of one size, often at rest: the planes of another frame, where
/// the layouts are the same.
fn frames(random: &mut Random, size: (u32, u32, u32), spoil: Option<(usize, usize)>) -> [Frame; 3] {
    let one = layouts(random);
    let alike = random.one_in(2);
    let mut three = [0, 1, 2].map(|at: usize| {
        let own = if alike { one } else { layouts(random) };
        let spoil = spoil.filter(|(which, _)| *which == at).map(|(_, at)| at);
        frame(random, size, own, spoil)
    });
    if alike && spoil.is_none() {
        match random.below(4) {
            0 => three[2] = three[0].clone(),
            1 => three[0] = three[1].clone(),
            2 => {
                three[0] = three[1].clone();
                three[2] = three[1].clone();
            }
            _ => {}
        }
    }
    three
}

fn output(random: &mut Random) -> OutputNumbers {
    let mut code = || random.below(3) as u32;
    let any = OutputNumbers {
        field: code(),
        weave: code(),
        earlier: code(),
        later: code(),
    };
    match random.below(4) {
        // As the two fields of a frame are shown.
        0 => OutputNumbers {
            field: 0,
            weave: 2,
            earlier: 0,
            later: 1,
        },
        1 => OutputNumbers {
            field: 1,
            weave: 2,
            earlier: 1,
            later: 2,
        },
        _ => any,
    }
}

fn colours(random: &mut Random, depth: u32) -> Colours {
    let matrix = *random.pick(&[Matrix::Bt709, Matrix::Bt2020]);
    let limited = random.one_in(2);
    match random.below(6) {
        // The conversion's depth is told apart from the planes'.
        0 => Colours::Made {
            matrix,
            depth: random.between(8, 16) as u8,
            limited,
        },
        1 => Colours::Listed(to_rgb::made_by_rust(random)),
        2 => Colours::Listed(to_rgb::random_nine(random)),
        _ => Colours::Made {
            matrix,
            depth: depth.clamp(8, 16) as u8,
            limited,
        },
    }
}

fn right(random: &mut Random, depth: u32, frames: [Frame; 3]) -> Picture {
    let pixels = judge::pictures::pixels(frames[1].0[0].shape) as usize;
    Picture {
        quality: trio::quality(random),
        output: output(random),
        colours: colours(random, depth),
        frames,
        out: pixels + random.pick(&[0, 0, 1, 3, 4, 100]),
    }
}

/// A picture of which a plane, a code, the room or a colour number is wrong, or
/// several of them.
fn spoilt(random: &mut Random) -> Picture {
    let (width, height, depth) = size(random);
    let size = (width.min(12), height.min(12), depth);
    let planes = random.one_in(2);
    let place = planes.then(|| (random.below(3) as usize, random.below(3) as usize));
    let frames = frames(random, size, place);
    let pixels = judge::pictures::pixels(frames[1].0[0].shape);
    let mut case = right(random, depth, frames);
    if pixels > 1 << 16 {
        // Too large to be lent whole: too short.
        case.out = random.between(0, 256) as usize;
    }
    if !planes || random.one_in(3) {
        // Some of them would name something if they were cut to fewer bits.
        let unnamed = *random.pick(&[3, 4, 255, 256, 257, 258, 65_536, u32::MAX]);
        match random.below(10) {
            0 => case.quality = *random.pick(&[4, 5, 128, 254, 255]),
            1 => case.output.field = unnamed,
            2 => case.output.weave = unnamed,
            3 => case.output.earlier = unnamed,
            4 => case.output.later = unnamed,
            5 => case.out = 0,
            6 => case.out = (pixels as usize).saturating_sub(1).min(1 << 16),
            7 => case.out = random.below(pixels.clamp(1, 1 << 16)) as usize,
            _ => {
                let mut nine = case.colours.nine();
                let at = random.below(9) as usize;
                nine[at] = to_rgb::outside(random, to_rgb::range(at));
                case.colours = Colours::Listed(nine);
            }
        }
    }
    case
}

/// Every quality and output of one set of frames.
fn every_output(random: &mut Random, layouts: [u32; 3], depth: u32) -> Vec<Picture> {
    let three = [0; 3].map(|_| frame(random, (5, 7, depth), layouts, None));
    let mut found = Vec::new();
    for quality in 0..4 {
        for codes in 0..81 {
            let code = |place: u32| codes / place % 3;
            let case = right(random, depth, three.clone());
            found.push(Picture {
                quality,
                output: OutputNumbers {
                    field: code(1),
                    weave: code(3),
                    earlier: code(9),
                    later: code(27),
                },
                ..case
            });
        }
    }
    found
}

/// Widest, highest and some usual sizes: width, height, depth and layouts.
const LARGE: [(u32, u32, u32, [u32; 3]); 8] = [
    (8192, 3, 8, [0, 0, 0]),
    (8191, 5, 16, [1, 2, 3]),
    (3, 4352, 9, [0, 0, 0]),
    (2, 4351, 8, [1, 2, 3]),
    (640, 36, 8, [0, 0, 0]),
    (353, 65, 10, [1, 2, 3]),
    (130, 97, 12, [0, 2, 1]),
    (720, 480, 10, [0, 0, 0]),
];

pub fn run(random: &mut Random) -> Result<Tally, Failure> {
    let mut own = || Random::new(random.next());
    let (mut for_outputs, mut for_large) = (own(), own());
    let (mut for_right, mut for_spoilt) = (own(), own());
    let outputs = [
        ([0, 0, 0], 8),
        ([1, 2, 3], 10),
        ([1, 2, 3], 8),
        ([0, 0, 0], 12),
    ];
    let outputs = outputs
        .into_iter()
        .flat_map(move |(layouts, depth)| every_output(&mut for_outputs, layouts, depth));
    let large = LARGE
        .into_iter()
        .enumerate()
        .map(move |(at, (width, height, depth, layouts))| {
            let random = &mut for_large;
            let three = [0; 3].map(|_| frame(random, (width, height, depth), layouts, None));
            Picture {
                quality: [2, 3, 3, 2, 1, 0, 2, 3][at],
                ..right(random, depth, three)
            }
        });
    let others = (0..4_000).map(move |_| {
        let size = size(&mut for_right);
        let three = frames(&mut for_right, size, None);
        right(&mut for_right, size.2, three)
    });
    let refused = (0..4_000).map(move |_| spoilt(&mut for_spoilt));
    let least = Least {
        accepted: 5_000,
        refused: 3_000,
    };
    let all = smallest().chain(outputs).chain(large);
    Tally::of(NAME, least, all.chain(others).chain(refused))
}

/// Every quality of one pixel, of ten bits. Chroma is 512, or likewise.
fn smallest() -> impl Iterator<Item = Picture> {
    let colours = Colours::Made {
        matrix: Matrix::Bt709,
        depth: 10,
        limited: false,
    };
    let output = OutputNumbers {
        field: 1,
        weave: 2,
        earlier: 0,
        later: 2,
    };
    let pixels = read::WORDS.map(|word| [[word, 512, 512], [word; 3]]);
    pixels.into_iter().flatten().flat_map(move |words| {
        let frame = Frame(words.map(|word| Rc::new(read::one_sample(word))));
        (0..4).map(move |quality| Picture {
            quality,
            output,
            colours,
            frames: [frame.clone(), frame.clone(), frame.clone()],
            out: 4,
        })
    })
}

/// Answers of small pictures, without an end; one in four has something wrong.
/// The colours are the Rust's own, not adjusted, or random.
pub(crate) fn answers(mut random: Random) -> impl Iterator<Item = Answer> {
    let mut smallest = smallest().step_by(7);
    std::iter::repeat_with(move || {
        let random = &mut random;
        let mut case = if let Some(smallest) = smallest.next() {
            smallest
        } else if random.one_in(4) {
            spoilt(random)
        } else {
            let (width, height, depth) = size(random);
            let three = frames(random, (width.min(11), height.min(9), depth), None);
            right(random, depth, three)
        };
        // As of `to_rgb`: no sine, but what is wrong stays.
        if let Colours::Listed(nine) = case.colours
            && judge::to_rgb(to_rgb::for_desk(nine), [0.0; 3]) == 0
        {
            case.colours = Colours::Listed(if random.one_in(2) {
                to_rgb::plain_by_rust(random)
            } else {
                to_rgb::random_nine(random)
            });
        }
        let OutputNumbers {
            field,
            weave,
            earlier,
            later,
        } = case.output;
        let (number, written) = case.wanted();
        let mut answer = Answer::of("picture")
            .number(case.quality)
            .numbers([field, weave, earlier, later])
            .floats(case.colours.nine());
        for given in case.frames.iter().flat_map(|frame| &frame.0) {
            answer = answer
                .numbers(read::listed(given.shape))
                .slice(&given.plane().data);
        }
        let answer = answer.gives(number).output(&written, case.out);
        answer.reads(case.strays())
    })
}
