//! What the runs of block counts and of the detector share: pictures of luma
//! for both sides, the Rust's view of them, and films of symbols.

use std::cell::OnceCell;
use std::fmt;

use desk::calls::{GridNumbers, PlaneNumbers};
use oracle::mediadecoder::es::Format;
use oracle::mediadecoder::video::{Frame, Plane};
use oracle::video::field::{Cadence, Parity};
use oracle::video::filter::Samples;

use crate::judge;
use crate::lent::Between;
use crate::random::Random;
use crate::stray::Strays;

/// The field of a code that the judge lets pass.
pub fn parity_named(code: u8) -> Parity {
    match code {
        0 => Parity::Top,
        1 => Parity::Bottom,
        other => unreachable!("the judge refuses parity {other}"),
    }
}

/// The desk's number of a cadence.
pub fn cadence_number(cadence: Cadence) -> u8 {
    match cadence {
        Cadence::None => 0,
        Cadence::Whole => 1,
        Cadence::Drop => 2,
        Cadence::Spanning => 3,
    }
}

// ---- Pictures

/// The numbers of a planar shape as the calls take them, which have no layout.
pub fn grid_of(shape: PlaneNumbers) -> GridNumbers {
    let PlaneNumbers {
        width,
        height,
        depth,
        stride,
        layout: _,
    } = shape;
    GridNumbers {
        width,
        height,
        depth,
        stride,
    }
}

/// The same in their order.
pub fn listed(shape: PlaneNumbers) -> [u32; 4] {
    [shape.width, shape.height, shape.depth, shape.stride]
}

/// A frame as the Rust takes it: nothing but luma, which is cut where codes can
/// be past the largest, and the field that leads.
pub fn frame_of(luma: Plane, depth: u32, first: u8) -> Frame {
    Frame {
        format: Format {
            width: luma.width as u32,
            height: luma.height as u32,
            depth: depth as u8,
            ..Format::default()
        },
        planes: [luma, Plane::default(), Plane::default()],
        top_field_first: first == 0,
        ..Frame::default()
    }
}

/// The frame that a store keeps, row by row, of a plane that is cut: each code
/// without its lowest depth - 8 bits.
pub fn kept_of(cut: &Plane, shape: PlaneNumbers) -> Vec<u8> {
    let samples = Samples::new(cut, shape.depth as u8);
    let mut kept = Vec::with_capacity(shape.width as usize * shape.height as usize);
    for y in 0..shape.height as usize {
        for x in 0..shape.width as usize {
            let code = samples.code(x, y) >> (shape.depth - 8);
            kept.push(u8::try_from(code).expect("eight bits are left of a code that is cut"));
        }
    }
    kept
}

/// One field of a picture: a level, and so much more than it in the first
/// samples of the first blocks, or so much less where more is too much.
#[derive(Debug, Clone, Copy, PartialEq, Eq)]
pub struct Look {
    pub level: u8,
    pub blocks: u32,
    pub samples: u32,
    pub more: u8,
}

impl Look {
    pub const fn flat(level: u8) -> Self {
        Self {
            level,
            blocks: 0,
            samples: 0,
            more: 0,
        }
    }

    /// The kept sample in a column and a row of the field.
    fn at(&self, width: u32, x: u32, row: u32) -> u8 {
        let block = x / 16 + width.div_ceil(16) * (row / 8);
        let within = x % 16 + 16 * (row % 8);
        if block < self.blocks && within < self.samples {
            let more = self.level.checked_add(self.more);
            more.unwrap_or(self.level.wrapping_sub(self.more))
        } else {
            self.level
        }
    }
}

/// What a picture that is put to a detector shows.
#[derive(Debug, Clone)]
pub enum Shows {
    /// Its fields, top and bottom, with noise from this seed: in the padding, and
    /// below the kept eight bits. Where 255 is kept, the word is mostly one past
    /// the largest code, any of them.
    Looks([Look; 2], u64),
    /// These bytes, then zeros.
    Listed(Vec<u8>),
}

/// A picture that is put to a detector: the planar shape that is said of it, which
/// need not be within the bounds, a length, which need not suffice, and what it
/// shows.
pub struct Shown {
    pub shape: PlaneNumbers,
    pub length: usize,
    shows: Shows,
    /// Made when first asked for.
    sides: OnceCell<Sides>,
}

struct Sides {
    rattle: Between,
    rust: Option<Taken>,
}

/// Of a whole picture.
struct Taken {
    /// The frame as the Rust is fed it, led by either field: its luma is cut.
    frames: [Frame; 2],
    kept: Vec<u8>,
    strays: Strays,
}

impl fmt::Debug for Shown {
    fn fmt(&self, f: &mut fmt::Formatter<'_>) -> fmt::Result {
        let Self {
            shape,
            length,
            shows,
            ..
        } = self;
        write!(f, "Shown {{ {shape:?}, length: {length}, {shows:?} }}")
    }
}

impl Shown {
    pub fn new(shape: PlaneNumbers, length: usize, shows: Shows) -> Self {
        Self {
            shape,
            length,
            shows,
            sides: OnceCell::new(),
        }
    }

    /// Just as long as it needs to be.
    pub fn whole(shape: PlaneNumbers, shows: Shows) -> Self {
        Self::new(shape, judge::needed(shape) as usize, shows)
    }

    /// The same in another shape, just as long as that needs it to be.
    pub fn reshaped(&self, shape: PlaneNumbers) -> Self {
        Self::whole(shape, self.shows.clone())
    }

    /// The same once more, to be changed.
    pub fn again(&self) -> Self {
        Self::new(self.shape, self.length, self.shows.clone())
    }

    fn bytes(&self) -> Vec<u8> {
        let (looks, noise) = match &self.shows {
            Shows::Looks(looks, noise) => (looks, *noise),
            Shows::Listed(bytes) => {
                let mut bytes = bytes.clone();
                bytes.resize(self.length, 0);
                return bytes;
            }
        };
        let mut random = Random::new(noise);
        let mut bytes = random.bytes(self.length);
        let PlaneNumbers {
            width,
            height,
            depth,
            stride,
            layout: _,
        } = self.shape;
        if !judge::in_bounds(self.shape) {
            return bytes;
        }
        let size = if depth > 8 { 2 } else { 1 };
        for y in 0..height {
            for x in 0..width {
                let kept = u16::from(looks[(y % 2) as usize].at(width, x, y / 2));
                let at = y as usize * stride as usize + x as usize * size;
                let Some(place) = bytes.get_mut(at..at + size) else {
                    return bytes;
                };
                if depth == 8 {
                    place[0] = kept as u8;
                    continue;
                }
                let noise = u16::from_le_bytes([place[0], place[1]]);
                let past = u32::from(noise) >= 1 << depth;
                let word = if kept == 255 && past {
                    noise
                } else {
                    kept << (depth - 8) | noise & ((1 << (depth - 8)) - 1)
                };
                place.copy_from_slice(&word.to_le_bytes());
            }
        }
        bytes
    }

    /// Whether its shape is within the bounds and its length suffices.
    pub fn is_whole(&self) -> bool {
        judge::in_bounds(self.shape) && self.length as u64 >= judge::needed(self.shape)
    }

    fn sides(&self) -> &Sides {
        self.sides.get_or_init(|| {
            let bytes = self.bytes();
            let rattle = Between::noise(&bytes);
            let shape = self.shape;
            let rust = self.is_whole().then(|| {
                let strays = Strays::of_plane(&bytes, shape);
                let plane = Plane {
                    data: bytes,
                    stride: shape.stride as usize,
                    width: shape.width as usize,
                    height: shape.height as usize,
                };
                let cut = oracle::cut(plane, shape.depth);
                Taken {
                    frames: [0, 1].map(|first| frame_of(cut.clone(), shape.depth, first)),
                    kept: kept_of(&cut, shape),
                    strays,
                }
            });
            Sides { rattle, rust }
        })
    }

    pub fn lent(&self) -> &[u8] {
        self.sides().rattle.lent()
    }

    fn taken(&self) -> &Taken {
        self.sides().rust.as_ref().expect("the judge let it pass")
    }

    /// The frame as the Rust is fed it, and the bytes that are kept of it; only
    /// of a picture that the judge lets pass.
    pub fn rust(&self, first: u8) -> (&Frame, &[u8]) {
        let Taken { frames, kept, .. } = self.taken();
        (&frames[usize::from(first)], kept)
    }

    /// All its samples; of such a picture too.
    pub fn strays(&self) -> Strays {
        self.taken().strays
    }
}

// ---- Symbols

/// What a frame shows against the one before.
#[derive(Debug, Clone, Copy, PartialEq, Eq)]
pub enum Symbol {
    Still,
    Moved,
    RepeatFirst,
    RepeatSecond,
}

pub const SYMBOLS: [Symbol; 4] = [
    Symbol::Still,
    Symbol::Moved,
    Symbol::RepeatFirst,
    Symbol::RepeatSecond,
];

/// What the table of docs/RULES.md expects at each step.
pub const PATTERN: [Symbol; 5] = [
    Symbol::Moved,
    Symbol::Moved,
    Symbol::RepeatFirst,
    Symbol::Moved,
    Symbol::RepeatSecond,
];

impl Symbol {
    /// Busy blocks of the leading and of the trailing field that show it, of
    /// 1,350.
    pub fn usual(self) -> [u64; 2] {
        match self {
            Self::Still => [0, 0],
            Self::Moved => [40, 40],
            Self::RepeatFirst => [0, 40],
            Self::RepeatSecond => [40, 0],
        }
    }

    /// Busy blocks that show it just so, of `total` blocks: moving is
    /// max(blocks/128, 4), and quiet max(blocks/1024, 1).
    pub fn near(self, random: &mut Random, total: u64) -> [u64; 2] {
        let moving = (total / 128).max(4);
        let quiet = (total / 1024).max(1);
        let low = |random: &mut Random| *random.pick(&[0, quiet - 1, quiet]);
        let high = |random: &mut Random| {
            let above = *random.pick(&[0, 1, 9, 1000]);
            moving.saturating_add(above)
        };
        match self {
            Self::Still => {
                [0; 2].map(|_| *random.pick(&[0, quiet, quiet + 1, moving - 2, moving - 1]))
            }
            Self::Moved => {
                let other = *random.pick(&[quiet + 1, moving - 1, moving, moving + 1]);
                let mut both = [other, high(random)];
                if random.one_in(2) {
                    both.reverse();
                }
                both
            }
            Self::RepeatFirst => [low(random), high(random)],
            Self::RepeatSecond => [high(random), low(random)],
        }
    }
}

/// One frame of a film: what it shows, or nothing; and the field that leads.
#[derive(Debug, Clone, Copy, PartialEq, Eq)]
pub struct Seen {
    pub symbol: Option<Symbol>,
    pub first: u8,
}

/// A film that keeps to the pattern, but for splices, stills, frames that show
/// nothing and changes of the leading field, now and then.
pub struct Film {
    step: usize,
    first: u8,
    /// Stills that are yet to come.
    stills: u64,
    /// One in so many frames is out of order.
    seldom: u64,
}

impl Film {
    pub fn new(random: &mut Random) -> Self {
        Self {
            step: random.below(5) as usize,
            first: random.below(2) as u8,
            stills: 0,
            seldom: *random.pick(&[6, 12, 25, 60, 200]),
        }
    }

    pub fn next(&mut self, random: &mut Random) -> Seen {
        let mut symbol = Some(PATTERN[self.step]);
        self.step = (self.step + 1) % 5;
        if self.stills > 0 {
            self.stills -= 1;
            symbol = Some(Symbol::Still);
        } else if random.one_in(self.seldom) {
            match random.below(8) {
                0 | 1 => self.step = random.below(5) as usize,
                2 | 3 => {
                    // The eleventh still keeps a lock, and the twelfth ends it.
                    self.stills = *random.pick(&[0, 1, 3, 9, 10, 11, 12, 14, 20]);
                    symbol = Some(Symbol::Still);
                }
                4 => self.first ^= 1,
                5 => symbol = None,
                _ => symbol = Some(*random.pick(&SYMBOLS)),
            }
        }
        Seen {
            symbol,
            first: self.first,
        }
    }
}
