//! The desk's example `measure` beside the original: of the same pictures, given
//! as a YUV4MPEG2 stream, it makes a reel that lists the cadences and locks which
//! the original's detector gives over the pictures themselves.

use std::fmt::Write;

use desk::Parity::{self, Bottom, Top};
use differ::random::Random;
use differ::shots::{Grain, Reel, Scene, Shot, Size, Tape};
use oracle::mediadecoder::es::Format;
use oracle::mediadecoder::video::{Frame, Plane};
use oracle::video::field::Cadence;
use oracle::video::telecine::Detector;

#[path = "../../desk/examples/measure/tape.rs"]
mod tape;

/// Pictures of one size and depth, their luma alone, without padding.
struct Pictures {
    width: usize,
    height: usize,
    depth: u8,
    all: Vec<Vec<u8>>,
}

impl Pictures {
    /// The same with ten bits a sample: codes are shifted up by two, and the low
    /// bits differ from frame to frame.
    fn deeper(&self) -> Self {
        assert_eq!(self.depth, 8);
        let deep = |(at, luma): (usize, &Vec<u8>)| {
            let codes = luma
                .iter()
                .map(|code| u16::from(*code) << 2 | at as u16 & 3);
            codes.flat_map(u16::to_le_bytes).collect()
        };
        Self {
            depth: 10,
            all: self.all.iter().enumerate().map(deep).collect(),
            ..*self
        }
    }

    /// The same with stray bits: where a code is kept as 255, a word past 1,023
    /// stands in its place, another one in every frame.
    fn strayed(&self) -> Self {
        assert_eq!(self.depth, 10);
        let mut random = Random::new(1);
        let mut word = |code: &[u8]| {
            let code = u16::from_le_bytes([code[0], code[1]]);
            let past = random.between(1024, 65_535) as u16;
            if code < 1020 { code } else { past }
        };
        let mut stray = |luma: &Vec<u8>| {
            let words = luma.chunks_exact(2).map(&mut word);
            words.flat_map(u16::to_le_bytes).collect()
        };
        Self {
            all: self.all.iter().map(&mut stray).collect(),
            ..*self
        }
    }

    /// The same with the two fields in each other's place; the height is even.
    fn turned(&self) -> Self {
        let row = self.width * if self.depth > 8 { 2 } else { 1 };
        let turned = |luma: &Vec<u8>| {
            let pairs = luma.chunks(2 * row).map(|pair| pair.split_at(row));
            pairs
                .flat_map(|(one, other)| [other, one].concat())
                .collect()
        };
        Self {
            all: self.all.iter().map(turned).collect(),
            ..*self
        }
    }

    /// A line for each frame, by the original's detector, which is fed cut codes.
    fn by_the_original(&self, first: impl Fn(usize) -> Parity) -> String {
        let bytes = if self.depth > 8 { 2 } else { 1 };
        let mut detector = Detector::new();
        let mut text = String::new();
        for (at, luma) in self.all.iter().enumerate() {
            let plane = Plane {
                data: luma.clone(),
                stride: self.width * bytes,
                width: self.width,
                height: self.height,
            };
            let plane = oracle::cut(plane, self.depth.into());
            let cadence = detector.push(&Frame {
                format: Format {
                    width: self.width as u32,
                    height: self.height as u32,
                    depth: self.depth,
                    ..Format::default()
                },
                planes: [plane, Plane::default(), Plane::default()],
                top_field_first: first(at) == Top,
                ..Frame::default()
            });
            let cadence = match cadence {
                Cadence::None => "none",
                Cadence::Whole => "whole",
                Cadence::Drop => "drop",
                Cadence::Spanning => "spanning",
            };
            let lock = u8::from(detector.locked());
            writeln!(text, "{at} {cadence} {lock}").expect("a String takes every line");
        }
        text
    }

    /// A line for each frame of the reel that `measure` makes, by the second
    /// reader. The stream's chroma is another in every frame.
    fn by_measure(&self, format: &str, order: &str, word: Option<Parity>) -> String {
        self.by_measure_each(format, order, word, |_| "")
    }

    /// The same with what stands behind each FRAME.
    fn by_measure_each(
        &self,
        format: &str,
        order: &str,
        word: Option<Parity>,
        frame: impl Fn(usize) -> &'static str,
    ) -> String {
        let (width, height) = (self.width, self.height);
        let rows = if format.starts_with("420") {
            height.div_ceil(2)
        } else {
            height
        };
        let bytes = if self.depth > 8 { 2 } else { 1 };
        let chroma = 2 * width.div_ceil(2) * rows * bytes;
        let mut stream = format!("YUV4MPEG2 W{width} H{height} {order} C{format}\n").into_bytes();
        for (at, luma) in self.all.iter().enumerate() {
            stream.extend(format!("FRAME{}\n", frame(at)).bytes());
            stream.extend(luma);
            stream.resize(stream.len() + chroma, 90 * (at % 3) as u8);
        }
        let reel = tape::reel_of(&mut &stream[..], word).expect("a whole stream");
        assert_eq!(reel.len(), 6 + 12 * self.all.len());
        let text = reader::listing(&reel);
        let lines: Vec<&str> = text.split_inclusive('\n').collect();
        assert!(lines[self.all.len()].starts_with("whole "), "{text}");
        lines[..self.all.len()].concat()
    }
}

/// The films of host/differ/data: 96 by 48, 8 bits, the top field first.
fn films() -> [(&'static str, Pictures); 2] {
    // Behind the counts and the shape there are only pictures.
    const HEAD_BYTES: usize = 16;
    let (width, height) = (96, 48);
    let film = |file: &[u8]| Pictures {
        width,
        height,
        depth: 8,
        all: file[HEAD_BYTES..]
            .chunks(width * height)
            .map(<[u8]>::to_vec)
            .collect(),
    };
    [
        ("cells", film(include_bytes!("../data/cells.reel"))),
        ("pan", film(include_bytes!("../data/pan.reel"))),
    ]
}

fn locked_lines(text: &str) -> usize {
    text.lines().filter(|line| line.ends_with(" 1")).count()
}

/// Of both films frame 10 is the first that is locked, and every later one is.
const LOCKED: usize = 50;

#[test]
fn films_are_listed_as_the_original_does_over_their_pictures() {
    for (name, film) in films() {
        assert_eq!(film.all.len(), 60, "{name}");
        let formats: [(Pictures, [&str; 2]); 3] = [
            (film.deeper(), ["420p10", "422p10"]),
            (film.deeper().strayed(), ["420p10", "422p10"]),
            (film, ["420jpeg", "422"]),
        ];
        for (film, formats) in formats {
            let turned = film.turned();
            // What the stream's header says, and the word; how many frames lock.
            for (pictures, order, word, first, locked) in [
                (&film, "It", None, Top, LOCKED),
                (&film, "Ib", Some(Top), Top, LOCKED),
                (&turned, "Ib", None, Bottom, LOCKED),
                (&turned, "Ip", Some(Bottom), Bottom, LOCKED),
                // The wrong field is said to come first.
                (&film, "Ib", None, Bottom, 0),
                (&turned, "It", None, Top, 0),
            ] {
                let wanted = pictures.by_the_original(|_| first);
                assert_eq!(locked_lines(&wanted), locked, "{name} {order} {word:?}");
                for format in formats {
                    let found = pictures.by_measure(format, order, word);
                    assert_eq!(found, wanted, "{name} {format} {order} {word:?}");
                }
            }
        }
    }
}

/// Stray bits change no line, though one film has them in many of its samples.
#[test]
fn stray_bits_change_no_line() {
    let mut stray = 0;
    for (name, film) in films() {
        let (clean, strayed) = (film.deeper(), film.deeper().strayed());
        let wanted = clean.by_measure("422p10", "It", None);
        assert_eq!(strayed.by_measure("422p10", "It", None), wanted, "{name}");
        let pairs = clean.all.iter().zip(&strayed.all);
        stray += pairs.filter(|(clean, strayed)| clean != strayed).count();
    }
    assert!(stray >= 60, "{stray} pictures");
}

/// From frame 30 on the bottom field comes first. That frame is compared with none,
/// and the ten behind it are needed to find film again.
#[test]
fn a_change_of_order_is_listed_as_the_original_does() {
    for (name, mut film) in films() {
        let turned = film.turned();
        film.all[30..].clone_from_slice(&turned.all[30..]);
        let wanted = film.by_the_original(|at| if at < 30 { Top } else { Bottom });
        assert_eq!(locked_lines(&wanted), 20 + 20, "{name}");
        let frame = |at| if at < 30 { " Itip" } else { " Ibip" };
        let found = film.by_measure_each("420jpeg", "Im", None, frame);
        assert_eq!(found, wanted, "{name}");
    }
}

/// A pan is cut to drifting stars. A picture of this size fits in no reel, and one
/// field has a row more than the other.
#[test]
fn a_cut_in_large_pictures_is_listed_as_the_original_does() {
    let size = Size {
        width: 333,
        height: 121,
    };
    let shot = |scene, tape, frames| Shot {
        scene,
        tape,
        grain: Grain::None,
        frames,
    };
    let reel = Reel {
        size,
        top_first: false,
        shots: vec![
            shot(Scene::Pan, Tape::Film(0), 15),
            shot(Scene::Stars, Tape::Video, 14),
        ],
    };
    let pictures = Pictures {
        width: size.width,
        height: size.height,
        depth: 8,
        all: reel.frames().map(|frame| frame.luma).collect(),
    };
    let wanted = pictures.by_the_original(|_| Bottom);
    // The pan from frame 10 on, and twelve frames of the stars.
    assert_eq!(locked_lines(&wanted), 5 + 12);
    assert_eq!(pictures.by_measure("420mpeg2", "Ib", None), wanted);
    assert_eq!(pictures.deeper().by_measure("422p10", "Ib", None), wanted);
}
