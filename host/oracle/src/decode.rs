//! The original's module `decode`: one file of it, and stand-ins for the two
//! types that this file and `field.rs` take from it.

use mediadecoder::es::{Format, Structure};
use mediadecoder::video::Frame;

#[rustfmt::skip]
#[path = "../../../docs/src/core/src/decode/weave.rs"]
pub mod weave;

/// What is said of a frame beside its samples. Ours; the fields are those that
/// the original reads. docs/RULES.md carries two of them over the desk, as
/// numbers: the structure, and whether the top field comes first.
#[derive(Debug, Clone, Copy, PartialEq, Eq, Default)]
pub struct About {
    pub tag: u64,
    pub format: Format,
    pub structure: Structure,
    pub top_field_first: bool,
    pub repeat_first_field: bool,
    pub progressive: bool,
}

impl About {
    /// Ours; `telecine.rs` asks it for a frame's leading parity, so it can only
    /// hand on what the frame says of itself.
    pub fn of_frame(frame: &Frame) -> Self {
        Self {
            tag: frame.tag,
            format: frame.format,
            structure: frame.structure,
            top_field_first: frame.top_field_first,
            repeat_first_field: frame.repeat_first_field,
            progressive: frame.progressive,
        }
    }
}

/// A frame read back from a device. Ours; docs/RULES.md, "Fields and readback":
/// one to three planes that may be padded, the size and depth from `about`.
#[derive(Debug, Clone, PartialEq, Eq, Default)]
pub struct Readback {
    pub about: About,
    /// Bytes, bytes from one row to the next, and a number that `weave.rs`
    /// does not read.
    pub planes: Vec<(Vec<u8>, usize, usize)>,
}
