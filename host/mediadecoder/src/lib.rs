//! A stand-in for the crate `mediadecoder`, which the original uses and which
//! is not in its text. All of it is ours: it has the fields and the one method
//! that the original's files name, and nothing else. docs/RULES.md decides what
//! they mean; each item says by which rule.

pub mod es {
    //! What a stream says of its pictures.

    /// How a picture was coded. Ours; the three cases are those that
    /// `field::first_field` tells apart, and their numbers at the desk are 0,
    /// 1 and 2.
    #[derive(Debug, Clone, Copy, PartialEq, Eq, Default)]
    pub enum Structure {
        #[default]
        Frame,
        Top,
        Bottom,
    }

    /// The colour tags. Ours; they are not carried over (docs/RULES.md, "Port
    /// order"), and here only so that `colour.rs` compiles.
    #[derive(Debug, Clone, Copy, PartialEq, Eq, Default)]
    pub struct Colour {
        pub primaries: u8,
        pub transfer: u8,
        pub matrix: u8,
    }

    /// The format of a frame. Ours. Sizes and the rate are u32, because
    /// docs/RULES.md has `woven` stop at 4,294,967,295 ("Fields and readback":
    /// u32 is our choice); the depth is u8, which holds 8 to 16 ("Planes").
    #[derive(Debug, Clone, Copy, PartialEq, Eq, Default)]
    pub struct Format {
        pub width: u32,
        pub height: u32,
        pub depth: u8,
        /// Numerator, then denominator.
        pub rate: (u32, u32),
        pub field_pictures: bool,
        pub progressive: bool,
        pub woven: bool,
        pub colour: Colour,
    }
}

pub mod video {
    //! Frames in memory.

    use crate::es::{Format, Structure};

    /// One plane of samples. Ours; docs/RULES.md, "Planes".
    #[derive(Debug, Clone, PartialEq, Eq, Default)]
    pub struct Plane {
        pub data: Vec<u8>,
        /// Bytes from one row to the next.
        pub stride: usize,
        /// Numbers in a row: twice the picture's where two components share
        /// the plane.
        pub width: usize,
        pub height: usize,
    }

    impl Plane {
        /// The bytes of row `y`. Ours; it starts `y` strides into the plane, and
        /// the last row may end before its stride does, as no plane needs more
        /// (docs/RULES.md, "What the desk gets back"). A row past the end is
        /// empty, which the original reads as zeros. Inlined, as it would be in
        /// one crate with its callers, so that no time is lost that the original
        /// did not lose.
        #[inline]
        pub fn row(&self, y: usize) -> &[u8] {
            let tail = y
                .checked_mul(self.stride)
                .and_then(|start| self.data.get(start..))
                .unwrap_or(&[]);
            &tail[..tail.len().min(self.stride)]
        }
    }

    /// A frame of three planes: luma, blue, red. Ours; the fields are those
    /// that `weave.rs` builds. docs/RULES.md says nothing of the tag.
    #[derive(Debug, Clone, PartialEq, Eq, Default)]
    pub struct Frame {
        pub tag: u64,
        pub format: Format,
        pub planes: [Plane; 3],
        pub structure: Structure,
        pub top_field_first: bool,
        pub repeat_first_field: bool,
        pub progressive: bool,
    }
}

#[cfg(test)]
mod tests {
    use super::video::Plane;

    #[test]
    fn rows_start_at_multiples_of_the_stride_and_never_panic() {
        let plane = Plane {
            data: (0..8).collect(),
            stride: 5,
            width: 3,
            height: 2,
        };
        assert_eq!(plane.row(0), [0, 1, 2, 3, 4]);
        assert_eq!(plane.row(1), [5, 6, 7]);
        assert!(plane.row(2).is_empty());
        assert!(plane.row(usize::MAX).is_empty());
        assert!(Plane::default().row(0).is_empty());
    }
}
