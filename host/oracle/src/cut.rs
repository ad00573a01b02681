//! What the original is fed where it reads codes.

use mediadecoder::video::Plane;

/// A planar plane in which a code above 2^depth - 1 is 2^depth - 1. Padding, the
/// bytes behind the last row and all other codes are as they were.
///
/// By docs/RULES.md such a code counts as 2^depth - 1 wherever one is read. The
/// original reads it as it stands, and is not changed; so what it is given to
/// read is cut before (docs/DIFFERENCES.md says why). A biplanar plane is given
/// to it as it is: there stray bits stand below the code, and the original's own
/// shift drops them. So is what it only copies, by weaving and reading back.
pub fn cut(mut plane: Plane, depth: u32) -> Plane {
    if !(9..16).contains(&depth) {
        // No stored word is above the largest code of 8 bits, or of 16.
        return plane;
    }
    let largest = (1 << depth) - 1;
    let rows = plane.data.chunks_mut(plane.stride.max(1));
    for row in rows.take(plane.height) {
        for word in row.chunks_exact_mut(2).take(plane.width) {
            let code = u16::from_le_bytes([word[0], word[1]]).min(largest);
            word.copy_from_slice(&code.to_le_bytes());
        }
    }
    plane
}

#[cfg(test)]
mod tests {
    use super::{Plane, cut};
    use crate::video::filter::{Planes, Samples, comb};

    fn plane(words: &[u16], width: usize) -> Plane {
        Plane {
            data: words.iter().copied().flat_map(u16::to_le_bytes).collect(),
            stride: 2 * width,
            width,
            height: words.len() / width,
        }
    }

    /// Around the largest code of each depth, and the largest word.
    #[test]
    fn a_code_past_the_largest_is_the_largest() {
        for depth in 9..16 {
            let past = 1u16 << depth;
            let full = past - 1;
            let before = plane(&[0, full - 1, full, past, past + 1, u16::MAX], 6);
            let after = plane(&[0, full - 1, full, full, full, full], 6);
            assert_eq!(cut(before, depth), after, "{depth} bits");
            assert_eq!(cut(after.clone(), depth), after, "{depth} bits");
        }
    }

    #[test]
    fn nothing_is_past_the_largest_of_8_and_of_16_bits() {
        let words = plane(&[0x0000, 0x00FF, 0x0100, 0xFFFF], 2);
        assert_eq!(cut(words.clone(), 16), words);
        let bytes = Plane { width: 4, ..words };
        assert_eq!(cut(bytes.clone(), 8), bytes);
    }

    /// Two samples in a row, three bytes of padding, two rows, and a row behind
    /// them; then the same without its last bytes.
    #[test]
    fn padding_and_what_is_behind_the_plane_stay() {
        let padded = |row: [u8; 4]| [&row[..], &[0xFE; 3]].concat();
        let (stray, clean) = ([0xFF, 0x07, 0x12, 0x34], [0xFF, 0x03, 0xFF, 0x03]);
        let of = |rows: [[u8; 4]; 3]| Plane {
            data: rows.into_iter().flat_map(padded).collect(),
            stride: 7,
            width: 2,
            height: 2,
        };
        let (before, after) = (of([stray, stray, stray]), of([clean, clean, stray]));
        assert_eq!(cut(before.clone(), 10), after);
        let short = |plane: &Plane, bytes: usize| Plane {
            data: plane.data[..bytes].to_vec(),
            ..plane.clone()
        };
        // A word that is not there as a whole is none.
        assert_eq!(cut(short(&before, 11), 10), short(&after, 11));
        assert_eq!(cut(short(&before, 8), 10).data[7], before.data[7]);
        // Of no use to the original, and yet no panic.
        let flat = Plane {
            stride: 0,
            ..before.clone()
        };
        assert_eq!(cut(flat, 10).data.len(), before.data.len());
    }

    /// The request's word, FF 07 at ten bits, by the original itself.
    #[test]
    fn the_original_reads_full_where_it_is_fed_so() {
        let stray = plane(&[0x07FF], 1);
        assert!(Samples::new(&stray, 10).at(0, 0) > 2.0);
        let fed = cut(stray, 10);
        assert_eq!(Samples::new(&fed, 10).at(0, 0), 1.0);
        assert_eq!(Samples::new(&fed, 10).code(0, 0), 1023);
        let column = cut(plane(&[0x07FF, 0, 0x07FF], 1), 10);
        assert_eq!(comb(&column, 10), 2046);
        // Below the code of a biplanar plane: the shift drops them.
        let biplanar = plane(&[0xFFC0, 0xFFFF], 2);
        let luma = Planes::biplanar(&biplanar, &biplanar, 10).y;
        assert_eq!((luma.code(0, 0), luma.code(1, 0)), (1023, 1023));
    }
}
