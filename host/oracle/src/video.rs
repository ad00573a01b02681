//! The original's module `output::video`: four files of it, and stand-ins for
//! the two types that `filter.rs` and `field.rs` take from it.

// Its comments link to files of it that stay behind.
#![allow(rustdoc::broken_intra_doc_links)]

#[rustfmt::skip]
#[path = "../../../docs/src/core/src/output/video/colour.rs"]
pub mod colour;
#[rustfmt::skip]
#[path = "../../../docs/src/core/src/output/video/field.rs"]
pub mod field;
#[rustfmt::skip]
#[path = "../../../docs/src/core/src/output/video/filter.rs"]
pub mod filter;
#[rustfmt::skip]
#[path = "../../../docs/src/core/src/output/video/telecine.rs"]
pub mod telecine;

/// The quality, one of four. Ours; docs/RULES.md, "Rows a field lacks".
#[derive(Debug, Clone, Copy, PartialEq, Eq, Default)]
pub enum Deinterlace {
    #[default]
    Weave,
    Bob,
    Yadif,
    Bwdif,
}

/// What `picture_of` is told beside its planes. Ours; the fields are those that
/// it reads. The matrix and the range lead it to the nine numbers of a
/// `Conversion`, which docs/RULES.md has the caller give instead ("Port order").
#[derive(Debug, Clone, Copy, PartialEq, Eq, Default)]
pub struct Settings {
    pub deinterlace: Deinterlace,
    pub matrix: colour::Matrix,
    pub limited: bool,
}
