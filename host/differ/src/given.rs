//! Planes that are lent for reading: a shape by its numbers, which need not be
//! within the bounds, a length, which need not suffice, and bytes. Where codes are
//! read, the desk gets the bytes as they are, and the Rust gets them cut.

use std::cell::OnceCell;
use std::fmt;

use desk::calls::PlaneNumbers;
use oracle::mediadecoder::video::Plane;

use crate::case::smaller_numbers;
use crate::judge;
use crate::lent::Between;
use crate::random::Random;
use crate::stray::Strays;

/// How the bytes of an input are made.
#[derive(Debug, Clone, PartialEq, Eq)]
pub enum Contents {
    /// Any bytes, from this seed.
    Noise(u64),
    /// Codes within the depth, from this seed; noise where a code is a byte.
    Within(u64),
    /// Each byte 0 or 255, from this seed.
    Ends(u64),
    /// Rows of 0 and rows of 255 in turn: the largest comb.
    Stripes,
    /// Any codes of the depth, from this seed. They stand so many bits further
    /// up, as those of a biplanar frame do. With stray bits, more than half of the
    /// words have some: above the code, or below one that stands further up.
    Codes { seed: u64, up: u32, stray: bool },
    /// Codes that make a picture, from this seed, so many bits further up. With
    /// stray bits, the codes go on to twice the largest of the depth, and words
    /// past it, any of them, count as it; below codes that stand further up there
    /// is noise.
    Picture {
        kind: Kind,
        seed: u64,
        up: u32,
        stray: bool,
    },
    /// These bytes, then zeros.
    Listed(Vec<u8>),
}

/// Pictures in which directions tie, or nearly do.
#[derive(Debug, Clone, Copy, PartialEq, Eq)]
pub enum Kind {
    /// One code.
    Flat,
    /// So much more with each column and each row, wrapping around.
    Ramp,
    /// A short pattern, repeated along a slant: often two slants match alike.
    Slant,
    /// Two, three or four codes, in any order.
    Few,
    /// One code, and on it noise about as large as the bias against slants.
    Calm,
    /// Two rows near 0 and two near the largest code in turn, which may go on just
    /// past it: a cut that is off by one makes another picture.
    Bars,
}

const KINDS: [Kind; 6] = [
    Kind::Flat,
    Kind::Ramp,
    Kind::Slant,
    Kind::Few,
    Kind::Calm,
    Kind::Bars,
];

impl Kind {
    /// The code at any place of a picture with codes from 0 to `full`; or, where
    /// it goes `past` that, to twice as many.
    fn painter(self, seed: u64, full: u64, past: bool) -> Box<dyn FnMut(i64, i64) -> u64> {
        let mut random = Random::new(seed);
        let codes = if past { 2 * (full + 1) } else { full + 1 };
        let ground = random.below(codes);
        match self {
            Self::Flat => Box::new(move |_, _| ground),
            Self::Ramp => {
                let steep = *random.pick(&[2, 5, 40, codes]);
                let mut slope = || random.below(2 * steep + 1) as i64 - steep as i64;
                let (across, down) = (slope(), slope());
                Box::new(move |x, y| {
                    (ground as i64 + across * x + down * y).rem_euclid(codes as i64) as u64
                })
            }
            Self::Slant => {
                let levels = [random.below(codes), random.below(codes), ground];
                let period = random.between(2, 9) as i64;
                let slope = random.between(0, 8) as i64 - 4;
                let pattern: Vec<u64> = (0..period).map(|_| *random.pick(&levels)).collect();
                Box::new(move |x, y| pattern[(x + slope * y).rem_euclid(period) as usize])
            }
            Self::Few => {
                let count = random.between(2, 4) as usize;
                let levels = [0; 4].map(|_| random.below(codes));
                Box::new(move |_, _| *random.pick(&levels[..count]))
            }
            Self::Calm => {
                let above = random.between(1, 1 + full / 200);
                Box::new(move |_, _| (ground + random.below(above + 1)).min(codes - 1))
            }
            Self::Bars => {
                let noise = random.between(2, 4);
                let highest = if past { full + 2 } else { full };
                Box::new(move |_, y| match y % 4 {
                    0 | 1 => random.below(noise),
                    _ => highest - random.below(noise),
                })
            }
        }
    }
}

/// A failing input of at most so many bytes is printed byte by byte.
const LISTED: usize = 64;

/// A code as it is, or with stray bits: any above it, or below one that stands
/// `up` further; words around the largest code; and the largest word.
fn strayed(random: &mut Random, code: u64, depth: u32, up: u32) -> u64 {
    let full = (1 << depth) - 1;
    let beside = 1 + random.below((1 << (16 - depth)) - 1);
    match random.below(8) {
        0 | 1 => code << up,
        2 | 3 if up == 0 => full - 1 + random.below(4),
        2 | 3 => (full - random.below(2)) << up | random.below(1 << up),
        4 => 65_535,
        _ if up == 0 => beside << depth | code,
        _ => code << up | beside,
    }
}

/// How far up the codes of a plane stand. A depth or a layout past its bounds
/// needs contents as well.
fn up(shape: PlaneNumbers) -> u32 {
    match shape.depth.clamp(8, 16) {
        depth @ 9.. if shape.layout > 0 => 16 - depth,
        _ => 0,
    }
}

impl Contents {
    /// For planes that are copied.
    pub fn random(random: &mut Random) -> Self {
        match random.below(8) {
            0 | 1 => Self::Noise(random.next()),
            2 => Self::Ends(random.next()),
            3 => Self::Stripes,
            _ => Self::Within(random.next()),
        }
    }

    /// For a plane of this depth and layout whose codes are read.
    pub fn codes(random: &mut Random, shape: PlaneNumbers) -> Self {
        match random.below(8) {
            0 => Self::Noise(random.next()),
            1 => Self::Ends(random.next()),
            2 => Self::Stripes,
            kind => Self::Codes {
                seed: random.next(),
                up: up(shape),
                stray: kind > 3,
            },
        }
    }

    /// Likewise, and mostly pictures.
    pub fn picture(random: &mut Random, shape: PlaneNumbers) -> Self {
        if random.one_in(4) {
            return Self::codes(random, shape);
        }
        Self::Picture {
            kind: *random.pick(&KINDS),
            seed: random.next(),
            up: up(shape),
            stray: !random.one_in(6),
        }
    }

    /// So many bytes, for a plane of this stride and depth.
    pub fn bytes(&self, length: usize, stride: usize, depth: u32) -> Vec<u8> {
        match self {
            Self::Noise(seed) => Random::new(*seed).bytes(length),
            Self::Within(seed) => {
                let mut bytes = Random::new(*seed).bytes(length);
                if let 9..16 = depth {
                    let highest = (1 << (depth - 8)) - 1;
                    for row in bytes.chunks_mut(stride.max(1)) {
                        for high in row.iter_mut().skip(1).step_by(2) {
                            *high &= highest;
                        }
                    }
                }
                bytes
            }
            Self::Ends(seed) => {
                let mut bytes = Random::new(*seed).bytes(length);
                for byte in &mut bytes {
                    *byte = if *byte >= 128 { 255 } else { 0 };
                }
                bytes
            }
            Self::Stripes => {
                let mut bytes = vec![0; length];
                for row in bytes.chunks_mut(stride.max(1)).skip(1).step_by(2) {
                    row.fill(255);
                }
                bytes
            }
            Self::Codes { seed, up, stray } => {
                let depth = depth.clamp(8, 16);
                let mut random = Random::new(*seed);
                let stray = *stray && (9..16).contains(&depth);
                painted(length, stride, depth, |_, _| {
                    let code = random.below(1 << depth);
                    if stray {
                        strayed(&mut random, code, depth, *up)
                    } else {
                        code << up
                    }
                })
            }
            Self::Picture {
                kind,
                seed,
                up,
                stray,
            } => {
                let depth = depth.clamp(8, 16);
                let full = (1 << depth) - 1;
                let stray = *stray && (9..16).contains(&depth);
                let mut code = kind.painter(*seed, full, stray && *up == 0);
                let mut random = Random::new(!seed);
                painted(length, stride, depth, |x, y| {
                    let code = code(x, y);
                    if code > full && random.one_in(2) {
                        random.between(full + 1, 65_535)
                    } else if stray && *up > 0 {
                        code << up | random.below(1 << up)
                    } else {
                        code << up
                    }
                })
            }
            Self::Listed(bytes) => {
                let mut bytes = bytes.clone();
                bytes.resize(length, 0);
                bytes
            }
        }
    }

    /// Simpler contents in place of these, which made `bytes`.
    pub fn smaller(&self, bytes: &[u8]) -> Vec<Self> {
        let Self::Listed(listed) = self else {
            let mut found = vec![Self::Listed(Vec::new())];
            if bytes.len() <= LISTED {
                found.push(Self::Listed(bytes.to_vec()));
            }
            return found;
        };
        let mut found = Vec::new();
        if listed.len() > bytes.len() {
            found.push(Self::Listed(bytes.to_vec()));
        }
        if let Some((0, rest)) = listed.split_last() {
            found.push(Self::Listed(rest.to_vec()));
        }
        for (at, byte) in listed.iter().enumerate() {
            for smaller in smaller_numbers(u64::from(*byte)) {
                let mut listed = listed.clone();
                listed[at] = smaller as u8;
                found.push(Self::Listed(listed));
            }
        }
        found
    }
}

/// So many bytes of words, or of bytes at a depth of 8, by column and row; the
/// padding likewise.
fn painted(
    length: usize,
    stride: usize,
    depth: u32,
    mut word: impl FnMut(i64, i64) -> u64,
) -> Vec<u8> {
    let mut bytes = vec![0; length];
    let size = if depth > 8 { 2 } else { 1 };
    for (y, row) in bytes.chunks_mut(stride.max(1)).enumerate() {
        for (x, sample) in row.chunks_mut(size).enumerate() {
            let word = word(x as i64, y as i64).to_le_bytes();
            let count = sample.len();
            sample.copy_from_slice(&word[..count]);
        }
    }
    bytes
}

/// A plane that is lent, with the shape that is said of it.
#[derive(Clone)]
pub struct Given {
    pub shape: PlaneNumbers,
    pub length: usize,
    pub contents: Contents,
    /// Each made when first asked for: shrinking names many more than it tries.
    sides: OnceCell<Sides>,
    fed: OnceCell<Plane>,
    strays: OnceCell<Strays>,
}

#[derive(Clone)]
struct Sides {
    rattle: Between,
    rust: Plane,
}

impl fmt::Debug for Given {
    fn fmt(&self, f: &mut fmt::Formatter<'_>) -> fmt::Result {
        f.debug_struct("Given")
            .field("shape", &self.shape)
            .field("length", &self.length)
            .field("contents", &self.contents)
            .finish()
    }
}

impl Given {
    pub fn new(shape: PlaneNumbers, length: usize, contents: Contents) -> Self {
        Self {
            shape,
            length,
            contents,
            sides: OnceCell::new(),
            fed: OnceCell::new(),
            strays: OnceCell::new(),
        }
    }

    fn sides(&self) -> &Sides {
        self.sides.get_or_init(|| {
            let PlaneNumbers {
                width,
                height,
                depth,
                stride,
                layout,
            } = self.shape;
            let components = judge::components(layout) as usize;
            let bytes = self.contents.bytes(self.length, stride as usize, depth);
            Sides {
                rattle: Between::noise(&bytes),
                rust: Plane {
                    data: bytes,
                    stride: stride as usize,
                    width: width as usize * components,
                    height: height as usize,
                },
            }
        })
    }

    /// The plane as it is lent to the desk.
    pub fn lent(&self) -> &[u8] {
        self.sides().rattle.lent()
    }

    /// The same plane, every bit of it: as it was before a call, and as the Rust has
    /// it where it only copies.
    pub fn plane(&self) -> &Plane {
        &self.sides().rust
    }

    /// The plane as the Rust is fed it where it reads codes: a planar one is cut.
    pub fn fed(&self) -> &Plane {
        if self.shape.layout > 0 {
            return self.plane();
        }
        let cut = || oracle::cut(self.plane().clone(), self.shape.depth);
        self.fed.get_or_init(cut)
    }

    /// All its samples.
    pub fn strays(&self) -> Strays {
        let counted = || Strays::of_plane(&self.plane().data, self.shape);
        *self.strays.get_or_init(counted)
    }

    /// The sample at the nearest place inside.
    pub fn strays_at(&self, x: i32, y: i32) -> Strays {
        Strays::at(&self.plane().data, self.shape, x, y)
    }

    /// With another shape, as long or as much too short as this one is.
    fn length_for(&self, shape: PlaneNumbers) -> Option<usize> {
        let short = self.length as i128 - i128::from(judge::needed(self.shape));
        usize::try_from(i128::from(judge::needed(shape)) + short).ok()
    }

    /// This plane with another size and depth, and the padding that it has.
    pub fn resized(&self, width: u32, height: u32, depth: u32) -> Option<Self> {
        let mut shape = PlaneNumbers {
            width,
            height,
            depth,
            ..self.shape
        };
        let padding = i64::from(self.shape.stride) - judge::row(self.shape) as i64;
        shape.stride = u32::try_from(judge::row(shape) as i64 + padding).ok()?;
        let length = self.length_for(shape)?;
        let length = (length <= self.length).then_some(length)?;
        Some(Self::new(shape, length, self.contents.clone()))
    }

    /// Planes of smaller numbers, fewer bytes or simpler contents.
    pub fn smaller(&self) -> Vec<Self> {
        let mut found = Vec::new();
        for shape in smaller_shapes(self.shape) {
            // As long, or as much too short, as it was; then the bytes as they are.
            let lengths = [self.length_for(shape), Some(self.length)];
            for length in lengths.into_iter().flatten() {
                if length <= self.length {
                    found.push(Self::new(shape, length, self.contents.clone()));
                }
            }
        }
        for length in smaller_numbers(self.length as u64) {
            found.push(Self::new(
                self.shape,
                length as usize,
                self.contents.clone(),
            ));
        }
        for contents in self.contents.smaller(&self.plane().data) {
            found.push(Self::new(self.shape, self.length, contents));
        }
        found
    }
}

/// Shapes of which one number is smaller; the stride follows a shorter row.
fn smaller_shapes(shape: PlaneNumbers) -> Vec<PlaneNumbers> {
    let numbers = |number: u32| {
        smaller_numbers(u64::from(number))
            .into_iter()
            .map(|smaller| smaller as u32)
    };
    let mut found = Vec::new();
    let mut add = |smaller: PlaneNumbers| {
        let padding = i64::from(shape.stride) - judge::row(shape) as i64;
        let stride = judge::row(smaller) as i64 + padding;
        if (0..i64::from(shape.stride)).contains(&stride) {
            found.push(PlaneNumbers {
                stride: stride as u32,
                ..smaller
            });
        }
        found.push(smaller);
    };
    for height in numbers(shape.height) {
        add(PlaneNumbers { height, ..shape });
    }
    for width in numbers(shape.width) {
        add(PlaneNumbers { width, ..shape });
    }
    for depth in [8, 9].into_iter().chain(numbers(shape.depth)) {
        if depth < shape.depth {
            add(PlaneNumbers { depth, ..shape });
        }
    }
    for layout in numbers(shape.layout) {
        add(PlaneNumbers { layout, ..shape });
    }
    let row = u32::try_from(judge::row(shape)).unwrap_or(u32::MAX);
    for stride in numbers(shape.stride.saturating_sub(row)).map(|padding| row + padding) {
        found.push(PlaneNumbers { stride, ..shape });
    }
    for stride in numbers(shape.stride) {
        found.push(PlaneNumbers { stride, ..shape });
    }
    found
}

/// A depth of a plane whose codes are read: mostly one that leaves room for stray
/// bits.
pub fn depth(random: &mut Random) -> u32 {
    match random.below(16) {
        0 | 1 => 8,
        2 => 16,
        _ => random.between(9, 15) as u32,
    }
}

/// Layouts to pick from: half of the planes are planar, since there alone a code
/// is cut.
pub const LAYOUTS: &[u32] = &[0, 0, 0, 1, 2, 3];

/// For calls that are told none.
pub const PLANAR: &[u32] = &[0];

/// A plane with at most so many samples in a row and so many rows: two in three
/// within the bounds and long enough, the others at or past some bound.
pub fn random(random: &mut Random, most_width: u32, most_height: u32, layouts: &[u32]) -> Given {
    let mut shape = PlaneNumbers {
        width: random.between(1, most_width.into()) as u32,
        height: random.between(1, most_height.into()) as u32,
        depth: depth(random),
        stride: 0,
        layout: *random.pick(layouts),
    };
    let mut padding = *random.pick(&[0, 0, 1, 2, 3, 7, 16, 61]);
    let whole = !random.one_in(3);
    if !whole {
        for _ in 0..random.between(1, 2) {
            match random.below(4) {
                0 => shape.width = edge_of(random, shape.width, EDGES_OF_WIDTH),
                1 => shape.height = edge_of(random, shape.height, EDGES_OF_HEIGHT),
                2 => shape.depth = *random.pick(&[0, 7, 8, 16, 17, 255, 256, 264, u32::MAX]),
                _ => padding = *random.pick(&[-1, -1, 0, 1]),
            }
        }
    }
    let row = judge::row(shape) as i64;
    shape.stride = (row + padding).clamp(0, u32::MAX.into()) as u32;
    if random.one_in(if whole { 100 } else { 8 }) {
        // The largest stride; past it where something may be wrong.
        let strides = &[65_536, 65_537, u32::MAX];
        shape.stride = *random.pick(if whole { &strides[..1] } else { strides });
        shape.height = shape.height.min(3);
    }
    if layouts.len() > 1 && !whole && random.one_in(8) {
        // Some of them would name a layout if they were cut to fewer bits.
        shape.layout = *random.pick(&[4, 5, 255, 256, 258, 65_537, u32::MAX]);
    }

    let needed = judge::needed(shape);
    let affordable = if random.one_in(16) { 1 << 20 } else { 1 << 14 };
    let length = if needed > affordable && !(whole && shape.stride == 65_536) {
        // Too large to be lent whole: too short.
        random.between(0, 256)
    } else if whole {
        needed + random.pick(&[0, 0, 0, 1, 2, u64::from(shape.stride)])
    } else {
        let less = *random.pick(&[0, 0, 1, 1, 2, needed / 2, needed]);
        needed.saturating_sub(less)
    };
    let contents = if shape.stride > 1 << 12 {
        // Most of it is padding, and noise is quick to make.
        Contents::Noise(random.next())
    } else {
        Contents::codes(random, shape)
    };
    Given::new(shape, length as usize, contents)
}

/// Around the bounds, and around the ends of 16 and of 32 bits.
pub const EDGES_OF_WIDTH: &[u32] = &[0, 1, 2, 8191, 8192, 8193, 65_535, 65_536, u32::MAX];
pub const EDGES_OF_HEIGHT: &[u32] = &[0, 1, 2, 4351, 4352, 4353, 65_535, 65_536, u32::MAX];

/// One of the edges, or the size past 16 bits, which would be the size itself
/// if it were cut to them.
pub fn edge_of(random: &mut Random, size: u32, edges: &[u32]) -> u32 {
    if random.one_in(10) {
        65_536 + size
    } else {
        *random.pick(edges)
    }
}

/// A width and a height of which one is at an edge.
pub fn at_an_edge(random: &mut Random, width: u32, height: u32) -> (u32, u32) {
    if random.one_in(2) {
        (edge_of(random, width, EDGES_OF_WIDTH), height)
    } else {
        (width, edge_of(random, height, EDGES_OF_HEIGHT))
    }
}
