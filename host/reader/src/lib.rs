//! A second reader of reel files: docs/RULES.md, "Reel file and listing", over
//! the original's detector. It is written from that page alone, so that it can
//! judge the program `cadence`.

use std::fmt::Write;

use oracle::mediadecoder::es::{Format, Structure};
use oracle::mediadecoder::video::{Frame, Plane};
use oracle::video::field::{Cadence, Parity};
use oracle::video::telecine::Detector;

pub mod reel;

/// Why a file is refused: a number of the listing's own.
#[derive(Debug, Clone, Copy, PartialEq, Eq)]
struct Fault(u8);

/// A count, parity or present number cannot be, there are pictures and no shape,
/// or there are bytes behind the end.
const WRONG: Fault = Fault(3);
/// A shape is out of bounds.
const SHAPE: Fault = Fault(4);
/// The file ends too soon.
const SHORT: Fault = Fault(6);
/// Pictures are too large, told once there are any.
const LARGE: Fault = Fault(7);

/// The largest picture.
const MOST_BYTES: usize = 16_384;

/// What `cadence` prints of a file with these bytes.
pub fn listing(file: &[u8]) -> String {
    let mut listing = Listing::default();
    match listing.read(&mut Rest(file)) {
        Ok(()) => listing.totals(),
        Err(Fault(number)) => listing.line(format_args!("refused {number}")),
    }
    listing.text
}

/// The bytes that are still to be read.
struct Rest<'a>(&'a [u8]);

impl<'a> Rest<'a> {
    /// The next bytes, if so many are left.
    fn bytes(&mut self, count: usize) -> Result<&'a [u8], Fault> {
        let (bytes, rest) = self.0.split_at_checked(count).ok_or(SHORT)?;
        self.0 = rest;
        Ok(bytes)
    }

    /// Numbers have two bytes, and the low one comes first.
    fn numbers<const COUNT: usize>(&mut self) -> Result<[u16; COUNT], Fault> {
        let bytes = self.bytes(2 * COUNT)?;
        let mut numbers = [0; COUNT];
        for (number, pair) in numbers.iter_mut().zip(bytes.chunks(2)) {
            *number = u16::from_le_bytes([pair[0], pair[1]]);
        }
        Ok(numbers)
    }

    fn count(&mut self) -> Result<u16, Fault> {
        let [count] = self.numbers()?;
        Ok(count)
    }
}

/// The shape of every picture of a file.
#[derive(Debug, Clone, Copy)]
struct Shape {
    width: u16,
    height: u16,
    depth: u16,
    stride: u16,
    leading: Parity,
}

impl Shape {
    fn of(numbers: [u16; 5]) -> Result<Self, Fault> {
        let [width, height, depth, stride, parity] = numbers;
        // The parity first: it has the lower number.
        let leading = parity_named(parity)?;
        let row = u32::from(width) * if depth > 8 { 2 } else { 1 };
        let good = (1..=8192).contains(&width)
            && (1..=4352).contains(&height)
            && (8..=16).contains(&depth)
            && row <= u32::from(stride);
        if !good {
            return Err(SHAPE);
        }
        Ok(Self {
            width,
            height,
            depth,
            stride,
            leading,
        })
    }

    /// How many a picture has.
    fn bytes(&self) -> usize {
        usize::from(self.stride) * usize::from(self.height)
    }

    /// A picture as the original's detector is fed it: it looks at luma alone, and
    /// a code above the largest of the depth, which counts as that, is cut before.
    fn frame(&self, bytes: &[u8]) -> Frame {
        let luma = Plane {
            data: bytes.to_vec(),
            stride: self.stride.into(),
            width: self.width.into(),
            height: self.height.into(),
        };
        let luma = oracle::cut(luma, self.depth.into());
        Frame {
            format: Format {
                width: self.width.into(),
                height: self.height.into(),
                depth: self.depth as u8,
                ..Format::default()
            },
            planes: [luma, Plane::default(), Plane::default()],
            structure: Structure::Frame,
            top_field_first: self.leading == Parity::Top,
            ..Frame::default()
        }
    }
}

fn parity_named(number: u16) -> Result<Parity, Fault> {
    match number {
        0 => Ok(Parity::Top),
        1 => Ok(Parity::Bottom),
        _ => Err(WRONG),
    }
}

/// The detector, and what is printed so far.
#[derive(Default)]
struct Listing {
    detector: Detector,
    text: String,
    frames: u32,
    whole: u32,
    drop: u32,
    spanning: u32,
    none: u32,
}

impl Listing {
    /// Reads the three sections in turn, each behind its count.
    fn read(&mut self, rest: &mut Rest<'_>) -> Result<(), Fault> {
        let shape = match rest.count()? {
            0 => None,
            5 => Some(Shape::of(rest.numbers()?)?),
            _ => return Err(WRONG),
        };
        for _ in 0..rest.count()? {
            self.entry(rest.numbers()?)?;
        }
        let pictures = rest.count()?;
        if pictures > 0 {
            let shape = shape.ok_or(WRONG)?;
            if shape.bytes() > MOST_BYTES {
                return Err(LARGE);
            }
            for _ in 0..pictures {
                let frame = shape.frame(rest.bytes(shape.bytes())?);
                let cadence = self.detector.push(&frame);
                self.frame(cadence);
            }
        }
        if rest.0.is_empty() {
            Ok(())
        } else {
            Err(WRONG)
        }
    }

    /// Parity, 0 for top; whether it is present; busy and all blocks of the leading
    /// field, then of the trailing one. Of an absent entry these mean nothing.
    fn entry(&mut self, numbers: [u16; 6]) -> Result<(), Fault> {
        let [parity, present, busy, total, busy_after, total_after] = numbers;
        let leading = parity_named(parity)?;
        let counts = |busy: u16, total: u16| (busy.into(), total.into());
        let measured = match present {
            0 => None,
            1 => Some((counts(busy, total), counts(busy_after, total_after))),
            _ => return Err(WRONG),
        };
        let cadence = self.detector.push_measured(leading, measured);
        self.frame(cadence);
        Ok(())
    }

    /// A frame's line: its number, its cadence, and whether there is a lock.
    fn frame(&mut self, cadence: Cadence) {
        let (name, total) = match cadence {
            Cadence::Whole => ("whole", &mut self.whole),
            Cadence::Drop => ("drop", &mut self.drop),
            Cadence::Spanning => ("spanning", &mut self.spanning),
            Cadence::None => ("none", &mut self.none),
        };
        *total += 1;
        let number = self.frames;
        self.frames += 1;
        let lock = u8::from(self.detector.locked());
        self.line(format_args!("{number} {name} {lock}"));
    }

    fn totals(&mut self) {
        let Self {
            whole,
            drop,
            spanning,
            none,
            ..
        } = *self;
        self.line(format_args!(
            "whole {whole} drop {drop} spanning {spanning} none {none}"
        ));
    }

    fn line(&mut self, line: std::fmt::Arguments<'_>) {
        writeln!(self.text, "{line}").expect("a String takes every line");
    }
}

#[cfg(test)]
mod tests;
