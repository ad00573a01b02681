//! The numbers of block counts and of the detector.

use desk::calls::PlaneNumbers;

use super::{Lent, floats, in_bounds, lowest, needed};

/// A field is counted against the field of that parity in the kept frame, which
/// has a byte for each of its samples. There is no layout: the shape is planar.
pub fn busy(shape: PlaneNumbers, length: usize, store: usize, parity: u8) -> u8 {
    lowest(&[
        (3, parity > 1),
        (4, !in_bounds(shape)),
        (6, (length as u64) < needed(shape)),
        (6, (store as u64) < floats(shape)),
    ])
}

/// Bytes of a measured entry: six numbers of 16 bits.
pub const ENTRY: usize = 12;

/// 3 for a parity or a present number above 1 in a whole entry, 6 for bytes that
/// end inside an entry, 7 for fewer bytes of output than entries. No run can lend
/// so many entries that 9 is given: they would be 48,000,000,012 bytes.
pub fn cadences(entries: &[u8], out: usize) -> u8 {
    let number = |bytes: &[u8], at: usize| u16::from_le_bytes([bytes[at], bytes[at + 1]]);
    let unnamed = |entry: &[u8]| number(entry, 0) > 1 || number(entry, 2) > 1;
    lowest(&[
        (3, entries.chunks_exact(ENTRY).any(unnamed)),
        (6, !entries.len().is_multiple_of(ENTRY)),
        (7, out < entries.len() / ENTRY),
    ])
}

/// Frames that a detector takes since fresh or reset.
pub const MOST_FRAMES: u64 = 4_000_000_000;

/// Bytes in which the host keeps a detector: crates/filmdesk/specs/Kept.antt.
pub const STATE: usize = 96;

/// Of a fresh detector the state is a lent output.
pub fn detector_new(state: usize) -> u8 {
    lowest(&[(7, state < STATE)])
}

/// Elsewhere it is read too, and a lent input.
pub fn detector_read(state: usize) -> u8 {
    lowest(&[(6, state < STATE)])
}

pub fn detector_predict(state: usize, ahead: u64) -> u8 {
    lowest(&[(6, state < STATE), (10, ahead > 1_000_000)])
}

/// `taken` frames came since fresh or reset.
pub fn detector_push_measured(state: usize, parity: u8, present: u8, taken: u64) -> u8 {
    lowest(&[
        (3, parity > 1 || present > 1),
        (6, state < STATE),
        (9, taken >= MOST_FRAMES),
    ])
}

/// 6 also for a store that is too short for the frame whose shape the state has:
/// `kept` is how many samples that frame has, 0 for none. Where the state is
/// too short, what it keeps is not known, and 6 is given anyway.
pub fn detector_push(
    state: usize,
    parity: u8,
    (shape, length): Lent,
    store: usize,
    kept: usize,
    taken: u64,
) -> u8 {
    lowest(&[
        (3, parity > 1),
        (4, !in_bounds(shape)),
        (6, state < STATE || store < kept),
        (6, (length as u64) < needed(shape)),
        (7, (store as u64) < floats(shape)),
        (9, taken >= MOST_FRAMES),
    ])
}

#[cfg(test)]
mod tests {
    use super::{
        MOST_FRAMES, busy, cadences, detector_new, detector_predict, detector_push,
        detector_push_measured, detector_read,
    };
    use desk::calls::PlaneNumbers;

    const SHAPE: PlaneNumbers = PlaneNumbers {
        width: 5,
        height: 2,
        depth: 9,
        stride: 11,
        layout: 0,
    };

    #[test]
    fn the_lowest_number_is_given() {
        assert_eq!(busy(SHAPE, 21, 10, 1), 0);
        assert_eq!((busy(SHAPE, 20, 10, 1), busy(SHAPE, 21, 9, 1)), (6, 6));
        assert_eq!(busy(PlaneNumbers { depth: 17, ..SHAPE }, 0, 0, 0), 4);
        assert_eq!(busy(PlaneNumbers { depth: 17, ..SHAPE }, 0, 0, 2), 3);

        let entries = |parity, present| [[0; 12], [parity, 0, present, 0, 0, 0, 0, 0, 0, 0, 0, 0]];
        let of = |parity, present, cut: usize, out| {
            let all = entries(parity, present).concat();
            cadences(&all[..24 - cut], out)
        };
        assert_eq!((of(1, 1, 0, 2), cadences(&[], 0)), (0, 0));
        assert_eq!((of(1, 1, 0, 1), of(1, 1, 1, 1), of(1, 1, 1, 0)), (7, 6, 6));
        assert_eq!((of(2, 1, 0, 1), of(1, 2, 0, 2)), (3, 3));
        // An entry that is cut short is not judged.
        assert_eq!(of(2, 2, 1, 1), 6);

        let push =
            |parity, store, kept, taken| detector_push(96, parity, (SHAPE, 21), store, kept, taken);
        assert_eq!(push(1, 10, 10, MOST_FRAMES - 1), 0);
        assert_eq!(push(1, 10, 10, MOST_FRAMES), 9);
        assert_eq!((push(1, 9, 0, MOST_FRAMES), push(1, 9, 10, 0)), (7, 6));
        assert_eq!(push(2, 9, 10, 0), 3);
        assert_eq!(detector_push(95, 0, (SHAPE, 21), 10, 0, 0), 6);
        let measured =
            |state, parity, present| detector_push_measured(state, parity, present, MOST_FRAMES);
        assert_eq!((measured(96, 1, 1), measured(95, 1, 1)), (9, 6));
        assert_eq!((measured(0, 2, 1), measured(0, 1, 2)), (3, 3));
        assert_eq!((detector_new(96), detector_new(95)), (0, 7));
        assert_eq!((detector_read(96), detector_read(95)), (0, 6));
        let predict = detector_predict;
        assert_eq!((predict(96, 1_000_000), predict(96, 1_000_001)), (0, 10));
        assert_eq!(predict(95, u64::MAX), 6);
    }
}
