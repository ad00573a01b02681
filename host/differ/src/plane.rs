//! Random planes, and damaged copies of what is lent.

use crate::case::smaller_numbers;
use crate::random::Random;

/// The layout of a plane (docs/RULES.md, "Planes").
#[derive(Debug, Clone, Copy, PartialEq, Eq)]
pub struct Layout {
    /// Samples of one component in a row.
    pub width: usize,
    pub height: usize,
    /// 8 to 16.
    pub depth: u8,
    /// Bytes from one row to the next.
    pub stride: usize,
    /// 2 where two components share the plane, else 1.
    pub components: usize,
}

impl Layout {
    /// A layout within the bounds, often with an odd stride, or the least one.
    pub fn random(
        random: &mut Random,
        most_width: usize,
        most_height: usize,
        components: usize,
    ) -> Self {
        let mut layout = Self {
            width: random.between(1, most_width as u64) as usize,
            height: random.between(1, most_height as u64) as usize,
            // Half of them 8 deep, the one depth of a byte a sample.
            depth: if random.one_in(2) {
                8
            } else {
                random.between(9, 16) as u8
            },
            stride: 0,
            components,
        };
        let padding = *random.pick(&[0, 0, 1, 3, 7, 16, 61]);
        layout.stride = layout.row() + padding;
        layout
    }

    pub fn bytes_a_sample(&self) -> usize {
        if self.depth > 8 { 2 } else { 1 }
    }

    /// Bytes of a row without its padding.
    pub fn row(&self) -> usize {
        self.width * self.components * self.bytes_a_sample()
    }

    /// Bytes that a plane needs: the last row has no padding.
    pub fn needed(&self) -> usize {
        (self.height - 1) * self.stride + self.row()
    }

    /// Layouts with a smaller width, height or padding, all of them valid.
    pub fn smaller(&self) -> Vec<Self> {
        let padding = self.stride - self.row();
        let with = |width: u64, height: u64, padding: u64| {
            let mut layout = Self {
                width: width as usize,
                height: height as usize,
                ..*self
            };
            layout.stride = layout.row() + padding as usize;
            layout
        };
        let (width, height, padding) = (self.width as u64, self.height as u64, padding as u64);
        let mut found = Vec::new();
        for smaller in smaller_numbers(height) {
            found.push(with(width, smaller, padding));
        }
        for smaller in smaller_numbers(width) {
            found.push(with(smaller, height, padding));
        }
        for smaller in smaller_numbers(padding) {
            found.push(with(width, height, smaller));
        }
        found.retain(|layout| layout.width > 0 && layout.height > 0);
        found
    }
}

/// The bytes of a plane, exactly as many as it needs. The padding is noise. The
/// samples are noise as well, so that codes above 8 bits exceed the depth; or
/// codes within it; or one code with specks, as pictures at rest have.
pub fn plane(random: &mut Random, layout: &Layout) -> Vec<u8> {
    let mut bytes = random.bytes(layout.needed());
    let kind = random.below(3);
    if kind == 0 {
        return bytes;
    }
    let codes = 1u64 << layout.depth;
    let ground = random.below(codes);
    let size = layout.bytes_a_sample();
    for y in 0..layout.height {
        let start = y * layout.stride;
        for sample in bytes[start..start + layout.row()].chunks_exact_mut(size) {
            let code = if kind == 1 || random.one_in(8) {
                random.below(codes)
            } else {
                ground
            };
            sample.copy_from_slice(&code.to_le_bytes()[..size]);
        }
    }
    bytes
}

/// A copy in which one bit of one byte is another; none of nothing.
pub fn flipped(random: &mut Random, bytes: &[u8]) -> Option<Vec<u8>> {
    if bytes.is_empty() {
        return None;
    }
    let mut copy = bytes.to_vec();
    let at = random.below(bytes.len() as u64) as usize;
    copy[at] ^= 1 << random.below(8);
    Some(copy)
}

/// A copy without the last byte; none of nothing.
pub fn cut(bytes: &[u8]) -> Option<Vec<u8>> {
    let (_, rest) = bytes.split_last()?;
    Some(rest.to_vec())
}
