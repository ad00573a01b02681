//! The oracle: the original's files, compiled as they stand in docs/src, over
//! small stand-ins for what is not in its text. The modules lie where the
//! files look for them (`crate::decode`, and the siblings of `video`).
//! Private items of the original are reached only through its public calls.
//! [`cut`] is ours: what the original is fed where it reads codes.
//!
//! Each of the files is marked `rustfmt::skip`: the formatter follows `#[path]`,
//! and would change it.

mod cut;
pub mod decode;
pub mod video;

pub use cut::cut;
pub use mediadecoder;

#[cfg(test)]
mod tests;
