//! The capture desk's calls for Rust programs: fields are woven into frames, the rows that a field
//! lacks are made, frames become RGBA pictures, comb is measured, and film is found that was spread
//! over video by 2:3 pulldown.
//!
//! The work is done by archives of x86-64 code for Linux, which are made of the proved crates of
//! this repository; README.md says how to build and link them. What each call gives and when it
//! refuses is proved for every input. docs/RULES.md has the rules; its sections are named below.
//!
//! # An example
//!
//! ```text
//! use desk::{Detector, Field, Lines, Parity, comb, weave};
//!
//! // Two fields of 720 by 240, 8 bits, planes without padding.
//! let top = Field::packed([&y0, &cb0, &cr0], 720, 240, 8);
//! let bottom = Field::packed([&y1, &cb1, &cr1], 720, 240, 8);
//! let [luma, cb, cr] = weave(top, bottom)?;
//!
//! // How combed the frame is; and, after enough others, whether it is film.
//! let luma = Lines::packed(&luma, 720, 480, 8);
//! let combed = comb(luma)?;
//! let mut detector = Detector::new(); // once for a tape
//! let cadence = detector.push(Parity::Top, luma)?;
//! ```
//!
//! examples/desk.rs is a whole program: `host/cargo run -p desk --example desk`.
//!
//! # Which call for what
//!
//! | To | use | rules in docs/RULES.md |
//! |---|---|---|
//! | pair fields as they come | [`Weaver`] | Fields and readback |
//! | weave two fields, or one line of them | [`weave`], [`woven_line`], [`woven_format`] | Fields and readback |
//! | take out padding and part shared chroma | [`readback`]; into buffers of one's own [`readback_sizes`], [`readback_copy`] | Fields and readback |
//! | find film in pictures, or in counts | [`Detector`], [`cadences`] | Runs, phases, cadence |
//! | count what changed between two frames | [`KeptFrame`], [`busy_blocks`], [`Entry`] | Blocks and symbols |
//! | see which field is first | [`first_field`] | Port order |
//! | make an RGBA picture | [`picture`] | Colour and comb |
//! | make the rows a field lacks | [`fill_plane`], [`sample`], [`slant`] | Rows a field lacks |
//! | read a sample | [`code`], [`value`] | Planes |
//! | measure comb | [`comb`], [`comb_rgba`] | Colour and comb |
//! | change colours | [`rgb`], [`quantise`], [`luma_weights`] | Colour and comb |
//!
//! Planes are lent as a [`Plane`], which has a [`Layout`], or as [`Lines`], whose codes are not
//! shifted; three of them are a [`Frame`] or a [`Field`]. Where a code is read, one above the largest
//! of its depth, 2^depth - 1, counts as that: a capture card may leave stray bits. Weaving and reading
//! back copy bits.
//!
//! # Refusals
//!
//! A call is done, or it is refused with the lowest number that applies, and then nothing was
//! written and no state changed: it may be made again with better bytes. [`Refusal`] has the number
//! and says it in words. These mean the same everywhere; each function says what else it gives:
//!
//! - 4: a width, height, depth or stride is out of its bounds, which stand beside each field of
//!   [`Plane`] and [`Lines`];
//! - 5: planes or frames that must agree differ;
//! - 6: there are fewer bytes than the shape needs.
//!
//! # Buffers and threads
//!
//! A function here makes the buffers that it gives; only [`readback_copy`] fills the caller's own. Where
//! others should be used again, [`calls`] has every call as it is exported: numbers and lent slices in,
//! a number out. It is made from the exports' own source.
//!
//! The archives keep nothing between two calls: all state is in the bytes that the caller lends. So
//! any thread may make any call at any time, and a [`Detector`] or a [`Weaver`] may be sent to
//! another thread, cloned, and dropped anywhere.

mod colours;
mod combs;
mod detector;
mod fields;
mod films;
mod filters;
mod pictures;
mod planes;
mod readbacks;
mod refusal;
mod weaves;

#[rustfmt::skip]
pub mod calls;

#[doc(inline)]
pub use calls::Conversion;
pub use colours::{Primaries, luma_weights, quantise, rgb};
pub use combs::{comb, comb_rgba};
pub use detector::{Detector, STATE_BYTES};
pub use fields::{Parity, Structure, first_field};
pub use films::{
    Cadence, Counts, ENTRY_BYTES, Entry, KeptFrame, TooManyBlocks, busy_blocks, cadences,
};
pub use filters::{Quality, Rows, fill_plane, sample, slant};
pub use pictures::{Frame, Output, Source, picture};
pub use planes::{Layout, Lines, Plane, code, value};
pub use readbacks::{Padded, ReadPlanes, Readback, readback, readback_copy, readback_sizes};
pub use refusal::Refusal;
pub use weaves::{
    Field, Format, WEAVER_BYTES, Weaver, WovenPicture, weave, woven_format, woven_line,
};

#[cfg(test)]
mod tests {
    use crate::{Detector, KeptFrame, Weaver};

    /// What the front page says of threads; the compiler is the test.
    #[test]
    fn states_may_go_to_other_threads() {
        fn sent<T: Send + Sync + Clone>() {}
        sent::<(Detector, Weaver, KeptFrame)>();
    }
}
