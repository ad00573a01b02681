//! Stray bits: bits of a stored word that are no part of its code. How many of the
//! samples that are read have some, so that a run can be held to have seen enough.

use std::fmt;
use std::ops::AddAssign;

use desk::calls::PlaneNumbers;

use crate::judge;

/// The bits of a stored word that are no part of its code (docs/RULES.md,
/// "Planes"): those above a planar one, those below a biplanar one, and none of 8
/// and of 16 bits.
fn beside_a_code(shape: PlaneNumbers) -> u16 {
    match (shape.depth, shape.layout) {
        (depth @ 9..16, 0) => u16::MAX << depth,
        (depth @ 9..16, _) => u16::MAX >> depth,
        _ => 0,
    }
}

/// Samples that were read, and those among them that have stray bits.
#[derive(Debug, Clone, Copy, PartialEq, Eq, Default)]
pub struct Strays {
    pub samples: u64,
    pub stray: u64,
    /// Those whose code is above the largest of the depth, and counts as that:
    /// the planar ones.
    pub cut: u64,
}

impl AddAssign for Strays {
    fn add_assign(&mut self, other: Self) {
        self.samples += other.samples;
        self.stray += other.stray;
        self.cut += other.cut;
    }
}

impl Strays {
    fn of(shape: PlaneNumbers, samples: u64, stray: u64) -> Self {
        Self {
            samples,
            stray,
            cut: if shape.layout == 0 { stray } else { 0 },
        }
    }

    /// All samples of a component; none where a call would refuse its plane.
    pub fn of_plane(bytes: &[u8], shape: PlaneNumbers) -> Self {
        if !is_readable(bytes, shape) {
            return Self::default();
        }
        let samples = judge::floats(shape);
        let beside = beside_a_code(shape);
        if beside == 0 {
            return Self::of(shape, samples, 0);
        }
        let components = judge::components(shape.layout) as usize;
        let first = usize::from(shape.layout == 3);
        let row_bytes = judge::row(shape) as usize;
        let mut stray = 0;
        for y in 0..shape.height as usize {
            let row = &bytes[y * shape.stride as usize..][..row_bytes];
            let words = row.chunks_exact(2).skip(first).step_by(components);
            stray += words.filter(|word| is_stray(word, beside)).count() as u64;
        }
        Self::of(shape, samples, stray)
    }

    /// The one sample at the nearest place inside the plane.
    pub fn at(bytes: &[u8], shape: PlaneNumbers, x: i32, y: i32) -> Self {
        if !is_readable(bytes, shape) {
            return Self::default();
        }
        let nearest = |at: i32, size: u32| at.clamp(0, size as i32 - 1) as usize;
        let (x, y) = (nearest(x, shape.width), nearest(y, shape.height));
        let components = judge::components(shape.layout) as usize;
        let sample = x * components + usize::from(shape.layout == 3);
        let beside = beside_a_code(shape);
        let word = |row: &[u8]| is_stray(&row[2 * sample..][..2], beside);
        let stray = beside != 0 && word(&bytes[y * shape.stride as usize..]);
        Self::of(shape, 1, stray.into())
    }

    /// Whether a run has seen enough of each kind: at least a third of the samples
    /// have stray bits, a tenth are cut, and a quarter have none.
    pub fn suffice(self) -> bool {
        let Self {
            samples,
            stray,
            cut,
        } = self;
        samples > 0 && 3 * stray >= samples && 10 * cut >= samples && 4 * stray <= 3 * samples
    }
}

fn is_readable(bytes: &[u8], shape: PlaneNumbers) -> bool {
    shape.layout < 4 && judge::in_bounds(shape) && bytes.len() as u64 >= judge::needed(shape)
}

fn is_stray(word: &[u8], beside: u16) -> bool {
    u16::from_le_bytes([word[0], word[1]]) & beside != 0
}

impl fmt::Display for Strays {
    fn fmt(&self, f: &mut fmt::Formatter<'_>) -> fmt::Result {
        let percent = |part: u64| 100 * part / self.samples.max(1);
        let (stray, cut) = (percent(self.stray), percent(self.cut));
        write!(f, "{stray} % of the samples with stray bits, {cut} % cut")
    }
}

#[cfg(test)]
mod tests {
    use super::{PlaneNumbers, Strays};
    use crate::judge;

    fn shape(width: u32, height: u32, depth: u32, layout: u32, padding: u32) -> PlaneNumbers {
        let mut shape = PlaneNumbers {
            width,
            height,
            depth,
            stride: 0,
            layout,
        };
        shape.stride = judge::row(shape) as u32 + padding;
        shape
    }

    fn bytes(words: &[u16]) -> Vec<u8> {
        words.iter().copied().flat_map(u16::to_le_bytes).collect()
    }

    /// Three samples in a row and a word of padding, two rows.
    #[test]
    fn planar_words_are_counted_above_the_largest_code() {
        let words = bytes(&[1023, 1024, 2047, 65_535, 0, 65_535, 7]);
        let planar = shape(3, 2, 10, 0, 2);
        let strays = |samples, stray, cut| Strays {
            samples,
            stray,
            cut,
        };
        assert_eq!(Strays::of_plane(&words, planar), strays(6, 3, 3));
        let of = |depth| Strays::of_plane(&words, shape(3, 2, depth, 0, 2));
        assert_eq!(of(11), strays(6, 1, 1));
        assert_eq!(of(9), strays(6, 4, 4));
        assert_eq!(of(16), strays(6, 0, 0));
        let eight = shape(4, 2, 8, 0, 3);
        assert_eq!(Strays::of_plane(&words, eight), strays(8, 0, 0));

        // The nearest place inside; padding is none.
        let at = |x, y| Strays::at(&words, planar, x, y);
        let (clean, cut) = (strays(1, 0, 0), strays(1, 1, 1));
        assert_eq!((at(0, 0), at(1, 0), at(2, 0)), (clean, cut, cut));
        assert_eq!((at(-9, -9), at(9, -9), at(9, 9)), (clean, cut, clean));
        assert_eq!((at(1, 1), at(2, 1)), (cut, clean));
        assert_eq!(Strays::at(&words, eight, 3, 0), clean);
    }

    /// Of two components that share a plane each is counted alone, and none is
    /// ever cut.
    #[test]
    fn biplanar_words_are_counted_below_the_code() {
        let words = bytes(&[0xFFC0, 0xFFC1, 0x0020, 0x8000]);
        let of = |layout, width, depth| {
            let shape = shape(width, 1, depth, layout, 0);
            let Strays {
                samples,
                stray,
                cut,
            } = Strays::of_plane(&words, shape);
            assert_eq!(cut, 0);
            let singly = (0..width as i32).map(|x| Strays::at(&words, shape, x, 0).stray);
            assert_eq!(singly.sum::<u64>(), stray);
            (samples, stray)
        };
        assert_eq!((of(1, 4, 10), of(1, 4, 9)), ((4, 2), (4, 3)));
        assert_eq!((of(2, 2, 10), of(3, 2, 10)), ((2, 1), (2, 1)));
        assert_eq!((of(1, 4, 11), of(1, 4, 15)), ((4, 1), (4, 1)));
        assert_eq!((of(1, 4, 16), of(2, 4, 8)), ((4, 0), (4, 0)));
    }

    #[test]
    fn what_a_call_refuses_has_no_samples() {
        let none = Strays::default();
        for shape in [
            shape(1, 1, 17, 0, 0),
            shape(1, 1, 10, 4, 0),
            shape(0, 1, 10, 0, 0),
            shape(1, 3, 10, 0, 0),
        ] {
            let found = Strays::of_plane(&[255; 4], shape);
            assert_eq!((found, Strays::at(&[255; 4], shape, 0, 0)), (none, none));
        }
    }

    #[test]
    fn a_third_a_tenth_and_a_quarter_suffice() {
        let suffice = |samples, stray, cut| {
            let strays = Strays {
                samples,
                stray,
                cut,
            };
            strays.suffice()
        };
        assert!(suffice(300, 100, 30));
        assert!(!suffice(301, 100, 40));
        assert!(!suffice(301, 150, 30));
        assert!(suffice(400, 300, 300));
        assert!(!suffice(400, 301, 300));
        assert!(!suffice(0, 0, 0));
    }

    #[test]
    fn shares_are_shown_in_whole_percent() {
        let strays = Strays {
            samples: 1000,
            stray: 378,
            cut: 210,
        };
        let text = "37 % of the samples with stray bits, 21 % cut";
        assert_eq!(strays.to_string(), text);
    }
}
