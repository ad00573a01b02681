//! Differential runs: the proved code and the original get the same inputs, and
//! every result is compared: numbers, values, the bytes that were written and
//! those that were not. In one thing the inputs differ: the original is fed codes
//! that are cut ([`oracle::cut`]), and the proved code the stored words.
//!
//! [`case`] is the frame of a run, [`random`], [`plane`], [`given`] and
//! [`lent`] make its inputs and its buffers, [`stray`] counts the samples that
//! have bits beside their code, [`judge`] says which number docs/RULES.md gives,
//! and [`runs`] lists the runs; every call is among one's.
//! [`program`] starts the program `cadence`, for the runs over whole reel files.
//! [`answers`] makes the lists that the programs `replay_..` go through. [`shots`]
//! makes shots as they come to tape, and [`cuts`] puts them to both detectors.

pub mod answers;
pub mod case;
pub mod cuts;
pub mod given;
pub mod judge;
pub mod lent;
pub mod plane;
pub mod program;
pub mod random;
pub mod runs;
pub mod shots;
pub mod stray;
