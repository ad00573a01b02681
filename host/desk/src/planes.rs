//! Planes that are lent, and the reads of one sample: crates/desk/src/planes.rt.

use crate::calls::{GridNumbers, PlaneNumbers};
use crate::{Refusal, calls};

/// How a component lies in the bytes of its plane. The numbers are the desk's. Wherever a code is
/// read, one above the largest of its depth, 2^depth - 1, counts as that.
#[derive(Debug, Clone, Copy, PartialEq, Eq)]
pub enum Layout {
    /// Alone, its codes not shifted: bits above them, which a capture card may leave, make a code
    /// that counts as the largest.
    Planar = 0,
    /// The luma of a biplanar frame: alone, and a code deeper than 8 bits stands in the high bits
    /// of its two bytes. Bits below it are dropped.
    BiplanarLuma = 1,
    /// The first of two that share a plane sample by sample, as cb does in a biplanar frame.
    /// Codes stand as in `BiplanarLuma`.
    FirstOfTwo = 2,
    /// The second of the two, cr.
    SecondOfTwo = 3,
}

/// A plane that is lent: its bytes, its shape and its layout.
#[derive(Debug, Clone, Copy, PartialEq, Eq)]
pub struct Plane<'a> {
    /// As many as (height - 1) times stride and one row, or more.
    pub bytes: &'a [u8],
    /// Samples of one component in a row, 1 to 8,192.
    pub width: u32,
    /// Rows, 1 to 4,352.
    pub height: u32,
    /// Bits of a sample, 8 to 16. Above 8 a sample has two bytes, the low one first.
    pub depth: u32,
    /// Bytes from one row to the next: at least a row, and at most 65,536.
    pub stride: u32,
    pub layout: Layout,
}

impl<'a> Plane<'a> {
    /// A planar one whose rows have no padding.
    pub fn packed(bytes: &'a [u8], width: u32, height: u32, depth: u32) -> Self {
        Self {
            bytes,
            width,
            height,
            depth,
            stride: row_bytes(width, depth),
            layout: Layout::Planar,
        }
    }

    pub(crate) fn numbers(self) -> PlaneNumbers {
        PlaneNumbers {
            width: self.width,
            height: self.height,
            depth: self.depth,
            stride: self.stride,
            layout: self.layout as u32,
        }
    }

    /// Samples that a call gives for it.
    pub(crate) fn samples(self) -> usize {
        samples(self.bytes, self.width, self.height)
    }
}

/// Rows of samples that are lent. They have no layout, since the calls that take them do not shift
/// codes: the luma of a biplanar frame deeper than 8 bits goes through
/// [`readback`](crate::readback) first, and so do chroma components that share a plane. Where codes
/// are read, one above 2^depth - 1 counts as that; weaving copies every bit.
#[derive(Debug, Clone, Copy, PartialEq, Eq)]
pub struct Lines<'a> {
    /// As many as (height - 1) times stride and one row, or more.
    pub bytes: &'a [u8],
    /// Samples in a row, 1 to 8,192.
    pub width: u32,
    /// Rows, 1 to 4,352; of a field that is woven at most 2,176.
    pub height: u32,
    /// Bits of a sample, 8 to 16. Above 8 a sample has two bytes, the low one first.
    pub depth: u32,
    /// Bytes from one row to the next: at least a row, and at most 65,536.
    pub stride: u32,
}

impl<'a> Lines<'a> {
    /// Rows without padding.
    pub fn packed(bytes: &'a [u8], width: u32, height: u32, depth: u32) -> Self {
        Self {
            bytes,
            width,
            height,
            depth,
            stride: row_bytes(width, depth),
        }
    }

    pub(crate) fn numbers(self) -> GridNumbers {
        GridNumbers {
            width: self.width,
            height: self.height,
            depth: self.depth,
            stride: self.stride,
        }
    }

    /// Samples that a call keeps of it.
    pub(crate) fn samples(self) -> usize {
        samples(self.bytes, self.width, self.height)
    }

    /// Bytes that a call makes of it: its samples without padding.
    pub(crate) fn packed_bytes(self) -> usize {
        self.samples() * sample_bytes(self.depth) as usize
    }
}

/// How many samples a call gives of so many bytes. A shape that they cannot fill, with a byte or
/// more for each sample, gets none: the call refuses it, and no room has to be made, however
/// large the shape says it is.
fn samples(bytes: &[u8], width: u32, height: u32) -> usize {
    let samples = u64::from(width) * u64::from(height);
    let fits = samples <= bytes.len() as u64;
    if fits { samples as usize } else { 0 }
}

fn sample_bytes(depth: u32) -> u32 {
    if depth > 8 { 2 } else { 1 }
}

/// Bytes of a row of one component. Too large a number stays too large.
pub(crate) fn row_bytes(width: u32, depth: u32) -> u32 {
    width.saturating_mul(sample_bytes(depth))
}

/// The code at a place inside the plane, after the layout's shift; one above the largest of its
/// depth, 2^depth - 1, counts as that. Refused with 3 outside the plane, with 4 and with 6.
pub fn code(plane: Plane<'_>, x: i32, y: i32) -> Result<u16, Refusal> {
    let mut code = 0;
    let number = calls::code(plane.bytes, plane.numbers(), x, y, &mut code);
    Refusal::check(number)?;
    Ok(code)
}

/// The [`code`] at a place, divided by the largest of its depth: 0 to 1. A place outside the plane
/// is the nearest inside. Refused with 3 where a coordinate is not within -65,536 to 65,536, with 4
/// and with 6.
pub fn value(plane: Plane<'_>, x: i32, y: i32) -> Result<f32, Refusal> {
    let mut value = 0.0;
    let number = calls::at(plane.bytes, plane.numbers(), x, y, &mut value);
    Refusal::check(number)?;
    Ok(value)
}

#[cfg(test)]
mod tests {
    use super::{Layout, Lines, Plane, calls, code, value};
    use crate::Refusal;

    /// The cards of docs/RULES.md: FF 03 as a value, C0 FF as a code.
    #[test]
    fn ten_bits_are_read_by_their_layout() {
        let planar = Plane::packed(&[0xFF, 0x03], 1, 1, 10);
        assert_eq!((planar.stride, planar.layout), (2, Layout::Planar));
        let luma = Plane {
            bytes: &[0xC0, 0xFF],
            layout: Layout::BiplanarLuma,
            ..planar
        };
        assert_eq!(value(planar, 0, 0), Ok(1.0));
        assert_eq!(value(planar, -65_536, 65_536), Ok(1.0));
        assert_eq!(code(luma, 0, 0), Ok(1023));
        let refused = |plane, x| code(plane, x, 0).map_err(Refusal::number);
        assert_eq!(refused(luma, 1), Err(3));
        assert_eq!(refused(Plane { depth: 17, ..luma }, 0), Err(4));
        let short = Plane {
            bytes: &[0xC0],
            ..luma
        };
        assert_eq!(refused(short, 0), Err(6));
        assert_eq!(value(planar, 0, 65_537).map_err(Refusal::number), Err(3));
    }

    /// The largest code of ten bits is 1,023; FF 07 is 2,047.
    #[test]
    fn a_code_past_the_largest_counts_as_it() {
        let of = |word: u16| {
            let bytes = word.to_le_bytes();
            let plane = Plane::packed(&bytes, 1, 1, 10);
            let code = code(plane, 0, 0).expect("inside");
            (code, value(plane, 0, 0).expect("inside"))
        };
        assert_eq!(of(0x07FF), (1023, 1.0));
        assert_eq!(of(0x03FE), (1022, 1022.0 / 1023.0));
        for word in [0x03FF, 0x0400, 0x0401, 0xFFFF] {
            assert_eq!(of(word), (1023, 1.0), "{word:04x}");
        }
        // Below the code of a biplanar luma they are dropped.
        let luma = Plane {
            layout: Layout::BiplanarLuma,
            ..Plane::packed(&[0xBF, 0xFF], 1, 1, 10)
        };
        assert_eq!(code(luma, 0, 0), Ok(1022));
        // All bits of 16 are the code's.
        let deep = Plane::packed(&[0xFE, 0xFF], 1, 1, 16);
        assert_eq!(code(deep, 0, 0), Ok(0xFFFE));
    }

    #[test]
    fn two_components_share_a_plane_sample_by_sample() {
        let of = |layout| Plane {
            stride: 4,
            layout,
            ..Plane::packed(&[1, 2, 3, 4], 2, 1, 8)
        };
        let codes = |layout| [0, 1].map(|x| code(of(layout), x, 0).expect("inside"));
        assert_eq!(codes(Layout::FirstOfTwo), [1, 3]);
        assert_eq!(codes(Layout::SecondOfTwo), [2, 4]);
        assert_eq!(codes(Layout::Planar), [1, 2]);
    }

    #[test]
    fn a_refused_read_leaves_what_is_lent() {
        let plane = Plane::packed(&[7], 1, 1, 8);
        let mut shape = plane.numbers();
        shape.layout = 4;
        let (mut code, mut value) = (9, 9.0);
        assert_eq!(calls::code(&[7], shape, 0, 0, &mut code), 3);
        assert_eq!(calls::at(&[7], shape, 0, 0, &mut value), 3);
        assert_eq!((code, value), (9, 9.0));
    }

    #[test]
    fn room_is_made_for_no_more_than_the_bytes_can_fill() {
        let bytes = [0; 6];
        assert_eq!(Plane::packed(&bytes, 3, 2, 8).samples(), 6);
        assert_eq!(Lines::packed(&bytes, 3, 1, 10).packed_bytes(), 6);
        for (width, height) in [(7, 1), (u32::MAX, u32::MAX), (0, 9)] {
            let plane = Plane::packed(&bytes, width, height, 16);
            assert_eq!(plane.samples(), 0);
            assert!(value(plane, 0, 0).is_err());
        }
        assert_eq!(Lines::packed(&bytes, u32::MAX, 1, 16).stride, u32::MAX);
    }
}
