//! `desk_busy` against the words of docs/RULES.md and the Rust's own counts.
//!
//! The Rust counts in a private function, and its detector says only which
//! symbol the counts of two fields make. So the counts are written out here once
//! more, from docs/RULES.md ("Blocks and symbols"), apart from the proved code and
//! its statements. Then the Rust is asked whether it counts alike, by its public
//! calls alone: `confirm` puts bands of known blocks above the picture, until
//! one busy block more or less decides between two cadences.

use oracle::mediadecoder::video::Plane;
use oracle::video::field::Cadence;
use oracle::video::telecine::Detector;

use super::film::{self, PATTERN, parity_named};
use super::read;
use crate::answers::Answer;
use crate::case::{Case, Difference, Failure, Least, Tally, same, smaller_numbers};
use crate::given::{self, Contents, Given, PLANAR};
use crate::judge;
use crate::lent::{Between, PATTERNS};
use crate::random::Random;
use crate::stray::Strays;

pub const NAME: &str = "busy";

const ACROSS: usize = 16;
const DOWN: usize = 8;

/// Busy blocks and all blocks of a field.
type Counts = (u64, u64);

/// A block has 16 columns and 8 rows of a field, fewer at the edges. It is busy
/// if more than a quarter of its samples are more than 8 from what they were.
pub(crate) fn by_reading(
    now: &[u8],
    then: &[u8],
    width: usize,
    height: usize,
    parity: u8,
) -> Counts {
    let rows: Vec<usize> = (usize::from(parity)..height).step_by(2).collect();
    let columns: Vec<usize> = (0..width).collect();
    let (mut busy, mut total) = (0, 0);
    for band in rows.chunks(DOWN) {
        for block in columns.chunks(ACROSS) {
            let places = band
                .iter()
                .flat_map(|y| block.iter().map(move |x| y * width + x));
            let differing = places.filter(|at| now[*at].abs_diff(then[*at]) > 8).count();
            busy += u64::from(4 * differing > band.len() * block.len());
            total += 1;
        }
    }
    (busy, total)
}

/// A picture of luma, as the Rust is fed it, that stands below bands of known
/// blocks.
struct Below<'a> {
    luma: &'a Plane,
    depth: u32,
    /// What was kept of the frame before.
    then: &'a [u8],
    parity: u8,
}

impl Below<'_> {
    /// Whether the Rust takes the leading field for one that moved, below this
    /// many bands of which this many blocks are busy. In the other field nothing
    /// is, so it is at rest: the frame shows RepeatSecond, or Still.
    fn has_moved(&self, bands: usize, busy: usize) -> bool {
        let (width, height) = (self.luma.width, self.luma.height);
        let above = 2 * DOWN * bands;
        let size = if self.depth > 8 { 2 } else { 1 };
        let columns = width.div_ceil(ACROSS);
        let mut now = Plane {
            data: vec![0; width * size * (above + height)],
            stride: width * size,
            width,
            height: above + height,
        };
        let mut then = Plane {
            data: vec![0; width * (above + height)],
            stride: width,
            width,
            height: above + height,
        };
        let first = usize::from(self.parity);
        for y in (first..above).step_by(2) {
            let row = &mut now.data[y * width * size..(y + 1) * width * size];
            for (block, samples) in row.chunks_mut(ACROSS * size).enumerate() {
                if y / (2 * DOWN) * columns + block < busy {
                    samples.fill(255);
                }
            }
        }
        for y in (first..height).step_by(2) {
            let to = (above + y) * width;
            let row = &self.luma.row(y)[..width * size];
            now.data[to * size..(to + width) * size].copy_from_slice(row);
            then.data[to..to + width].copy_from_slice(&self.then[y * width..(y + 1) * width]);
        }

        // Counts that were measured elsewhere lock the detector between the two
        // frames. The frame after is to have moved: a Still leaves the lock, and
        // a RepeatSecond contradicts it.
        let mut detector = Detector::new();
        detector.push(&film::frame_of(then, 8, self.parity));
        let leading = parity_named(self.parity);
        for frame in 2..11 {
            let [busy, other] = PATTERN[frame % 5].usual().map(|busy| busy as usize);
            detector.push_measured(leading, Some(((busy, 1350), (other, 1350))));
        }
        assert!(detector.locked(), "nine frames of the pattern lock");
        match detector.push(&film::frame_of(now, self.depth, self.parity)) {
            Cadence::Whole => false,
            Cadence::None => true,
            other => unreachable!("a frame that is to have moved, and gave {other:?}"),
        }
    }

    /// Moving is max(blocks/128, 4): just at it, and one below.
    fn confirm(&self, (busy, total): Counts) -> Result<(), Difference> {
        let (busy, total) = (busy as usize, total as usize);
        let columns = self.luma.width.div_ceil(ACROSS);
        let moving = |bands: usize| ((total + columns * bands) / 128).max(4);
        let enough = |bands: &usize| {
            let known = moving(*bands) as i64 - busy as i64;
            (1..=(columns * bands) as i64).contains(&known)
        };
        let bands = (1..).find(enough).expect("moving grows with the bands");
        let known = moving(bands) - busy;
        let found = (
            self.has_moved(bands, known),
            self.has_moved(bands, known - 1),
        );
        same(
            "whether the Rust counts so many busy blocks",
            (true, false),
            found,
        )
    }

    /// Five bands of 128 blocks are 640: from there on four busy ones are few.
    fn confirm_total(&self, (busy, total): Counts) -> Result<(), Difference> {
        let (busy, total) = (busy as usize, total as usize);
        let columns = self.luma.width.div_ceil(ACROSS);
        let bands = (640 - total).div_ceil(columns);
        let found = (
            self.has_moved(bands, 4 - busy),
            self.has_moved(bands - 1, 4 - busy),
        );
        same("whether the Rust has so many blocks", (false, true), found)
    }
}

/// How the kept frame differs from the picture.
#[derive(Debug, Clone, PartialEq, Eq)]
enum Store {
    /// Any bytes, from this seed.
    Noise(u64),
    /// In each block about a quarter of the samples differ, by about 8, from
    /// this seed.
    Near(u64),
    /// These bytes, then zeros.
    Listed(Vec<u8>),
}

#[derive(Debug, Clone)]
struct Blocks {
    given: Given,
    store: Store,
    /// Bytes that are lent of the store.
    room: usize,
    parity: u8,
    /// The Rust is asked for its total as well.
    total: bool,
}

impl Blocks {
    /// Whether picture and shape are in order, so that there is something kept.
    fn is_whole(&self) -> bool {
        let (shape, length) = (self.given.shape, self.given.length);
        judge::films::busy(shape, length, usize::MAX, 0) == 0
    }

    /// The picture as it would be kept; nothing of one that is not in order.
    fn now(&self) -> Vec<u8> {
        if !self.is_whole() {
            return Vec::new();
        }
        film::kept_of(self.given.fed(), self.given.shape)
    }

    /// The number, and busy and all blocks where it is 0.
    fn wanted(&self, now: &[u8], then: &[u8]) -> (u8, Option<Counts>) {
        let shape = self.given.shape;
        let number = judge::films::busy(shape, self.given.length, self.room, self.parity);
        let counts = (number == 0).then(|| {
            let size = (shape.width as usize, shape.height as usize);
            by_reading(now, then, size.0, size.1, self.parity)
        });
        (number, counts)
    }

    fn store(&self, now: &[u8]) -> Vec<u8> {
        let mut store = match &self.store {
            Store::Noise(seed) => Random::new(*seed).bytes(self.room),
            Store::Listed(bytes) => bytes.clone(),
            Store::Near(seed) if self.is_whole() => {
                let shape = self.given.shape;
                let mut kept = now.to_vec();
                let size = (shape.width as usize, shape.height as usize);
                alter(&mut kept, size, &mut Random::new(*seed));
                kept.extend(Random::new(*seed).bytes(16));
                kept
            }
            Store::Near(seed) => Random::new(*seed).bytes(self.room),
        };
        store.resize(self.room, 0);
        store
    }
}

/// In each block of each field alters some samples by more than 8, and others
/// by at most that.
fn alter(kept: &mut [u8], (width, height): (usize, usize), random: &mut Random) {
    let calm = random.one_in(3);
    for parity in 0..2 {
        let rows: Vec<usize> = (parity..height).step_by(2).collect();
        for band in rows.chunks(DOWN) {
            for start in (0..width).step_by(ACROSS) {
                let wide = ACROSS.min(width - start);
                let size = band.len() * wide;
                let differing = match random.below(if calm { 12 } else { 6 }) {
                    0 => size / 4 + 1,
                    1 => random.below(size as u64 + 1) as usize,
                    2 => size,
                    3 => 0,
                    _ => size / 4,
                };
                // The first of them in an order of their own.
                let stride = *random.pick(&[1, 3, 5, 7, 11]);
                let from = random.below(size as u64) as usize;
                let coprime = !size.is_multiple_of(stride);
                for nth in 0..size {
                    let step = if coprime { nth * stride } else { nth };
                    let place = (from + step) % size;
                    let at = band[place / wide] * width + start + place % wide;
                    let by = if nth < differing {
                        *random.pick(&[9, 9, 10, 100, 120])
                    } else {
                        *random.pick(&[0, 0, 7, 8, 8])
                    };
                    let sample = kept[at];
                    let up = random.one_in(2);
                    kept[at] = match (up, sample.checked_add(by), sample.checked_sub(by)) {
                        (true, Some(more), _) | (false, Some(more), None) => more,
                        (_, _, Some(less)) => less,
                        (_, None, None) => sample,
                    };
                }
            }
        }
    }
}

impl Case for Blocks {
    fn compare(&self) -> Result<u8, Difference> {
        let shape = self.given.shape;
        let now = self.now();
        let then = self.store(&now);
        let (number, wanted) = self.wanted(&now, &then);
        let lent = Between::noise(&then);
        for pattern in PATTERNS {
            let mut places = [pattern; 5];
            let [_, busy, _, total, _] = &mut places;
            let given = desk::calls::busy(
                self.given.lent(),
                film::grid_of(shape),
                lent.lent(),
                self.parity,
                busy,
                total,
            );
            // The compiler must not suppose that the call kept to its own places.
            let [before, busy, between, total, after] = std::hint::black_box(places);
            same("the number, which is the rules'", given, number)?;
            let wanted = wanted.unwrap_or((pattern, pattern));
            same("busy and all blocks", (busy, total), wanted)?;
            let beside = [before, between, after];
            same("the places beside the answers", beside, [pattern; 3])?;
        }
        let kept = std::hint::black_box(&lent).lent() == then
            && std::hint::black_box(&self.given).lent() == self.given.plane().data;
        same("whether plane and store are as they were", kept, true)?;

        if let Some(counts) = wanted {
            let below = Below {
                luma: self.given.fed(),
                depth: shape.depth,
                then: &then,
                parity: self.parity,
            };
            // To more busy blocks more bands must be added than are worth it.
            let samples = shape.width * shape.height;
            if counts.0 <= 3 || counts.0 <= 9 && samples <= 4096 && self.total {
                below.confirm(counts)?;
            }
            if self.total && counts.0 <= 3 && counts.1 <= 320 {
                below.confirm_total(counts)?;
            }
        }
        Ok(number)
    }

    fn smaller(&self) -> Vec<Self> {
        let mut found = Vec::new();
        let more = self.room as i128 - i128::from(judge::floats(self.given.shape));
        for given in self.given.smaller() {
            let alike = i128::from(judge::floats(given.shape)) + more;
            let rooms = [usize::try_from(alike).ok(), Some(self.room)];
            for room in rooms
                .into_iter()
                .flatten()
                .filter(|room| *room <= self.room)
            {
                found.push(Self {
                    given: given.clone(),
                    room,
                    ..self.clone()
                });
            }
        }
        for parity in smaller_numbers(self.parity.into()) {
            found.push(Self {
                parity: parity as u8,
                ..self.clone()
            });
        }
        for room in smaller_numbers(self.room as u64) {
            found.push(Self {
                room: room as usize,
                ..self.clone()
            });
        }
        match &self.store {
            Store::Listed(bytes) => {
                for at in 0..bytes.len() {
                    for less in smaller_numbers(bytes[at].into()) {
                        let mut bytes = bytes.clone();
                        bytes[at] = less as u8;
                        found.push(Self {
                            store: Store::Listed(bytes),
                            ..self.clone()
                        });
                    }
                }
            }
            _ => {
                found.push(Self {
                    store: Store::Listed(Vec::new()),
                    ..self.clone()
                });
                if self.room <= 256 {
                    found.push(Self {
                        store: Store::Listed(self.store(&self.now())),
                        ..self.clone()
                    });
                }
            }
        }
        if self.total {
            found.push(Self {
                total: false,
                ..self.clone()
            });
        }
        found
    }

    fn strays(&self) -> Strays {
        self.given.strays()
    }
}

/// A store for a plane, near to it or not, and long enough.
fn right(random: &mut Random, given: Given) -> Blocks {
    let samples = judge::floats(given.shape) as usize;
    Blocks {
        given,
        store: if random.one_in(8) {
            Store::Noise(random.next())
        } else {
            Store::Near(random.next())
        },
        room: samples + random.pick(&[0, 0, 1, 16, 40]),
        parity: random.below(2) as u8,
        total: random.one_in(40),
    }
}

fn shaped(random: &mut Random, width: u32, height: u32) -> Given {
    let mut shape = desk::calls::PlaneNumbers {
        width,
        height,
        depth: given::depth(random),
        stride: 0,
        layout: 0,
    };
    shape.stride = judge::row(shape) as u32 + *random.pick(&[0, 0, 1, 3, 16]);
    let length = judge::needed(shape) as usize + *random.pick(&[0, 0, 1, 64]);
    // The words of a biplanar luma too, whose codes stand in the high bits: neither
    // side is told, and nearly all of them count as the largest code.
    let layout = *random.pick(&[0, 0, 0, 0, 0, 1]);
    let contents = Contents::picture(random, desk::calls::PlaneNumbers { layout, ..shape });
    Given::new(shape, length, contents)
}

/// Around the edges of blocks.
fn size(random: &mut Random) -> (u32, u32) {
    let near = |random: &mut Random, most: u64| match random.below(3) {
        0 => random.between(1, 16 * most) as u32,
        _ => {
            let edge = 16 * random.between(0, most);
            (edge + random.below(3)).saturating_sub(1).max(1) as u32
        }
    };
    (near(random, 5), near(random, 5))
}

fn spoilt(random: &mut Random) -> Blocks {
    let given = given::random(random, 40, 40, PLANAR);
    let samples = judge::floats(given.shape);
    let mut case = Blocks {
        given,
        store: Store::Noise(random.next()),
        room: samples.min(1 << 14) as usize,
        parity: random.below(2) as u8,
        total: false,
    };
    match random.below(4) {
        0 => case.parity = *random.pick(&[2, 3, 128, 255]),
        1 => case.room = case.room.saturating_sub(1),
        2 => case.room = random.below(samples.clamp(1, 1 << 14)) as usize,
        _ => {}
    }
    case
}

/// Widest, highest, largest, and usual sizes.
const LARGE: [(u32, u32); 8] = [
    (8192, 17),
    (8191, 33),
    (1, 4352),
    (17, 4351),
    (720, 480),
    (1920, 1080),
    (1280, 64),
    (1279, 63),
];

pub fn run(random: &mut Random) -> Result<Tally, Failure> {
    let mut own = || Random::new(random.next());
    let (mut for_right, mut for_large, mut for_spoilt) = (own(), own(), own());
    let others = (0..20_000).map(move |_| {
        let (width, height) = size(&mut for_right);
        let given = shaped(&mut for_right, width, height);
        right(&mut for_right, given)
    });
    let large = LARGE.into_iter().map(move |(width, height)| {
        let given = shaped(&mut for_large, width, height);
        Blocks {
            store: Store::Near(for_large.next()),
            ..right(&mut for_large, given)
        }
    });
    let refused = (0..8_000).map(move |_| spoilt(&mut for_spoilt));
    let least = Least {
        accepted: 20_000,
        refused: 4_000,
    };
    let all = smallest().chain(others).chain(large).chain(refused);
    Tally::of(NAME, least, all)
}

/// One sample of ten bits, against a kept 0, 246 and 247. Also one whose ten bits
/// stand in the high bits of a word, as a biplanar luma's do: the word is above
/// 1,023, counts as that, and 255 is kept of it.
fn smallest() -> impl Iterator<Item = Blocks> {
    let words = read::WORDS.into_iter().chain([0x0C00]);
    words.flat_map(|word| {
        [0, 246, 247].map(|then| Blocks {
            given: read::one_sample(word),
            store: Store::Listed(vec![then]),
            room: 1,
            parity: 0,
            total: true,
        })
    })
}

/// Answers of small planes that the Rust itself confirms, without an end; one in
/// four has something wrong.
pub(crate) fn answers(mut random: Random) -> impl Iterator<Item = Answer> {
    let others = std::iter::repeat_with(move || {
        if random.one_in(4) {
            return spoilt(&mut random);
        }
        let (width, height) = size(&mut random);
        let given = shaped(&mut random, width.min(50), height.min(20));
        right(&mut random, given)
    });
    let answer = |case: Blocks| {
        let now = case.now();
        let then = case.store(&now);
        let (number, counts) = case.wanted(&now, &then);
        if let Some(counts) = counts {
            let below = Below {
                luma: case.given.fed(),
                depth: case.given.shape.depth,
                then: &then,
                parity: case.parity,
            };
            // To more busy blocks more bands must be added than are worth it.
            if counts.0 > 3 {
                return None;
            }
            below.confirm(counts).expect("the Rust counts alike");
            if case.total {
                below.confirm_total(counts).expect("the Rust counts alike");
            }
        }
        let answer = Answer::of("busy")
            .numbers(film::listed(case.given.shape))
            .number(case.parity)
            .gives(number)
            .count(counts.map(|(busy, _)| busy))
            .count(counts.map(|(_, total)| total))
            .slice(&case.given.plane().data)
            .slice(&then)
            .reads(case.strays());
        Some(answer)
    };
    smallest().step_by(2).chain(others).filter_map(answer)
}

#[cfg(test)]
mod tests {
    use super::smallest;

    /// By the rules: of ten bits 1,022 and 1,023 are kept as 255, and so is every
    /// word above. That is more than 8 from 0 and 246, and 8 from 247.
    #[test]
    fn a_code_past_the_largest_is_kept_as_255() {
        let cases: Vec<_> = smallest().collect();
        assert_eq!(cases.len(), 7 * 3);
        for (at, case) in cases.iter().enumerate() {
            let now = case.now();
            assert_eq!(now, [255], "{case:?}");
            let found = case.wanted(&now, &case.store(&now));
            let busy = u64::from(at % 3 < 2);
            assert_eq!(found, (0, Some((busy, 1))), "{case:?}");
        }
    }
}
