//! What is measured of frames, and what that says of film: crates/filmdesk/src/lib.rt.

use std::error::Error;
use std::fmt;

use crate::{Detector, Lines, Parity, Refusal, calls};

/// Bytes of a measured entry.
pub const ENTRY_BYTES: usize = 12;

/// What is found of a frame. The numbers are the desk's.
#[derive(Debug, Clone, Copy, PartialEq, Eq)]
pub enum Cadence {
    /// No film is found.
    None = 0,
    /// Both fields are of one film frame.
    Whole = 1,
    /// The frame has no film frame of its own.
    Drop = 2,
    /// The leading field and the trailing one before it are of one film frame.
    Spanning = 3,
}

impl Cadence {
    pub(crate) fn named(number: u8) -> Self {
        match number {
            0 => Self::None,
            1 => Self::Whole,
            2 => Self::Drop,
            3 => Self::Spanning,
            other => unreachable!("the desk promises cadence 0 to 3, and gave {other}"),
        }
    }
}

/// Busy blocks and all blocks of a field.
#[derive(Debug, Clone, Copy, PartialEq, Eq)]
pub struct Counts {
    pub busy: u64,
    pub total: u64,
}

/// A frame's luma as the next frame is compared with it: 8-bit samples, row by row.
#[derive(Debug, Clone, PartialEq, Eq)]
pub struct KeptFrame {
    width: u32,
    height: u32,
    samples: Vec<u8>,
}

impl KeptFrame {
    /// Of a frame's luma: of each code the highest eight bits. Codes are not shifted before, and
    /// one above 2^depth - 1 counts as that: so the luma of a biplanar frame deeper than 8 bits,
    /// whose codes stand in the high bits, would be kept as 255 nearly everywhere, and goes through
    /// [`readback`](crate::readback) first. Refused with 4 and with 6.
    pub fn of(picture: Lines<'_>) -> Result<Self, Refusal> {
        // No call has this alone. A push keeps exactly this frame in the store that it is lent,
        // and a fresh detector has nothing else there; which field leads plays no part.
        let mut detector = Detector::new();
        detector.push(Parity::Top, picture)?;
        Ok(Self {
            width: picture.width,
            height: picture.height,
            samples: detector.into_store(),
        })
    }

    /// As [`calls::busy`] takes it for its store.
    pub fn samples(&self) -> &[u8] {
        &self.samples
    }
}

/// The blocks of a field that differ from the same field of the frame before, and all blocks. Codes
/// are not shifted, and one above 2^depth - 1 counts as that: so the luma of a biplanar frame deeper
/// than 8 bits, whose codes stand in the high bits, would count as full nearly everywhere, and goes
/// through [`readback`](crate::readback) first. Refused with 4, with 6, and with 5 where the frames
/// differ in width or height: [`calls::busy`] knows no size of the kept frame, and would compare
/// samples of other places.
pub fn busy_blocks(picture: Lines<'_>, kept: &KeptFrame, field: Parity) -> Result<Counts, Refusal> {
    let alike = (picture.width, picture.height) == (kept.width, kept.height);
    // A frame of another size is lent as if it were empty, so that no sample is compared: the call
    // gives 4 for a bad shape, and for a good one 6, in whose place 5 stands.
    let store: &[u8] = if alike { &kept.samples } else { &[] };
    let mut counts = Counts { busy: 0, total: 0 };
    let number = calls::busy(
        picture.bytes,
        picture.numbers(),
        store,
        field as u8,
        &mut counts.busy,
        &mut counts.total,
    );
    Refusal::check(if alike || number == 4 { number } else { 5 })?;
    Ok(counts)
}

/// What was measured of a frame, as a reel file has it.
#[derive(Debug, Clone, Copy, PartialEq, Eq)]
pub struct Entry {
    first: Parity,
    counts: Option<[Counts; 2]>,
}

impl Entry {
    /// Of a frame led by `first`: the counts of the leading field, then of the trailing; or none,
    /// where the frame could not be compared.
    pub fn new(first: Parity, counts: Option<[Counts; 2]>) -> Result<Self, TooManyBlocks> {
        let both = counts.iter().flatten();
        let largest = both.map(|field| field.busy.max(field.total)).max();
        match largest {
            Some(count) if count > u16::MAX.into() => Err(TooManyBlocks { count }),
            _ => Ok(Self { first, counts }),
        }
    }

    pub fn first(self) -> Parity {
        self.first
    }

    pub fn counts(self) -> Option<[Counts; 2]> {
        self.counts
    }

    /// Six numbers of 16 bits, low byte first: which field leads, whether there are counts, and
    /// the counts.
    pub fn to_bytes(self) -> [u8; ENTRY_BYTES] {
        let nothing = Counts { busy: 0, total: 0 };
        let [leading, trailing] = self.counts.unwrap_or([nothing; 2]);
        let numbers = [
            self.first as u64,
            self.counts.is_some().into(),
            leading.busy,
            leading.total,
            trailing.busy,
            trailing.total,
        ];
        let mut bytes = [0; ENTRY_BYTES];
        for (place, number) in bytes.chunks_exact_mut(2).zip(numbers) {
            let number = u16::try_from(number).expect("an entry is made of numbers that fit");
            place.copy_from_slice(&number.to_le_bytes());
        }
        bytes
    }
}

/// A count is too large for an entry. [`Detector::push_measured`] takes every count.
#[derive(Debug, Clone, Copy, PartialEq, Eq)]
pub struct TooManyBlocks {
    pub count: u64,
}

impl fmt::Display for TooManyBlocks {
    fn fmt(&self, f: &mut fmt::Formatter<'_>) -> fmt::Result {
        let Self { count } = self;
        write!(
            f,
            "a count is {count} blocks; expected at most 65535, since an entry of a reel file has \
             16 bits for it"
        )
    }
}

impl Error for TooManyBlocks {}

/// The cadence of each entry, from a fresh detector on: what [`Detector::push_measured`] would say
/// of one after the other. Refused with 9 where there are more than 4,000,000,000. Entries in bytes,
/// as a reel file has them, go to [`calls::cadences`] as they are.
pub fn cadences(entries: &[Entry]) -> Result<Vec<Cadence>, Refusal> {
    let bytes: Vec<u8> = entries.iter().flat_map(|entry| entry.to_bytes()).collect();
    let mut numbers = vec![0; entries.len()];
    Refusal::check(calls::cadences(&bytes, &mut numbers))?;
    Ok(numbers.into_iter().map(Cadence::named).collect())
}

#[cfg(test)]
pub(crate) mod tests {
    use super::{Cadence, Counts, Entry, KeptFrame, TooManyBlocks, busy_blocks, cadences};
    use crate::Parity::{Bottom, Top};
    use crate::{Lines, Refusal, calls};

    /// Busy blocks of the thirteen entries of the reel file of docs/RULES.md; none of
    /// the first.
    pub(crate) const REEL: [Option<[u64; 2]>; 13] = [
        None,
        Some([0, 40]),
        Some([40, 40]),
        Some([40, 0]),
        Some([40, 40]),
        Some([40, 40]),
        Some([0, 40]),
        Some([40, 40]),
        Some([40, 0]),
        Some([40, 40]),
        Some([40, 40]),
        Some([0, 40]),
        Some([0, 40]),
    ];

    pub(crate) const ANSWERS: [Cadence; 13] = {
        let mut all = [Cadence::None; 13];
        all[9] = Cadence::Whole;
        all[10] = Cadence::Whole;
        all[11] = Cadence::Drop;
        all
    };

    pub(crate) fn counts(busy: [u64; 2]) -> [Counts; 2] {
        busy.map(|busy| Counts { busy, total: 1350 })
    }

    fn entries() -> Vec<Entry> {
        let entry = |busy: Option<[u64; 2]>| Entry::new(Top, busy.map(counts)).expect("small");
        REEL.map(entry).to_vec()
    }

    #[test]
    fn the_reel_of_the_example_in_entries() {
        assert_eq!(cadences(&entries()), Ok(ANSWERS.to_vec()));
        assert_eq!(cadences(&[]), Ok(Vec::new()));
    }

    #[test]
    fn an_entry_has_sixteen_bits_for_each_number() {
        let large = Counts {
            busy: 0x0102,
            total: 0xFFFF,
        };
        let small = Counts { busy: 3, total: 4 };
        let entry = Entry::new(Bottom, Some([large, small])).expect("all fit");
        let bytes = [1, 0, 1, 0, 2, 1, 0xFF, 0xFF, 3, 0, 4, 0];
        assert_eq!(entry.to_bytes(), bytes);
        assert_eq!(
            (entry.first(), entry.counts()),
            (Bottom, Some([large, small]))
        );
        let absent = Entry::new(Top, None).expect("nothing to fit");
        assert_eq!(absent.to_bytes(), [0; 12]);

        let too_large = Counts {
            total: 0x1_0000,
            ..large
        };
        for counts in [[too_large, small], [small, too_large]] {
            let refused = Entry::new(Top, Some(counts)).expect_err("one does not fit");
            assert_eq!(refused, TooManyBlocks { count: 0x1_0000 });
            assert!(refused.to_string().contains("65536 blocks; expected"));
        }
    }

    #[test]
    fn the_same_reel_in_bytes() {
        let mut bytes: Vec<u8> = entries().iter().flat_map(|e| e.to_bytes()).collect();
        // Nothing is read of the counts that are said to be absent.
        bytes[4..12].fill(9);
        let mut out = [9; 14];
        assert_eq!(calls::cadences(&bytes, &mut out), 0);
        let wanted = ANSWERS.map(|cadence| cadence as u8);
        assert_eq!((&out[..13], out[13]), (&wanted[..], 9));
        assert_eq!(calls::cadences(&[], &mut []), 0);
        out = [9; 14];
        assert_eq!(calls::cadences(&bytes, &mut out[..12]), 7);
        assert_eq!(calls::cadences(&bytes[1..], &mut out[..12]), 3);
        assert_eq!(calls::cadences(&bytes[..155], &mut out[..12]), 6);
        bytes[2] = 2;
        assert_eq!(calls::cadences(&bytes[..155], &mut out[..12]), 3);
        assert_eq!(out, [9; 14]);
    }

    fn picture(bytes: &[u8]) -> Lines<'_> {
        Lines::packed(bytes, 64, 16, 8)
    }

    /// The cards of docs/RULES.md: 33 of 128 differ, and 32.
    #[test]
    fn a_quarter_of_a_block_is_not_busy() {
        let before = [100; 64 * 16];
        let kept = KeptFrame::of(picture(&before)).expect("a good shape");
        let of = |samples: usize, code: u8, field| {
            let mut bytes = before;
            for at in 0..samples {
                // The columns of the second block, and the rows of the bottom field.
                bytes[64 * (2 * (at / 16) + 1) + 16 + at % 16] = code;
            }
            let counts = busy_blocks(picture(&bytes), &kept, field).expect("all within");
            (counts.busy, counts.total)
        };
        assert_eq!(of(33, 109, Bottom), (1, 4));
        assert_eq!(of(33, 91, Bottom), (1, 4));
        assert_eq!(of(33, 108, Bottom), (0, 4));
        assert_eq!(of(32, 109, Bottom), (0, 4));
        assert_eq!(of(33, 109, Top), (0, 4));

        let refused = |picture| busy_blocks(picture, &kept, Top).map_err(Refusal::number);
        let shallow = Lines {
            depth: 7,
            ..picture(&before)
        };
        assert_eq!(refused(shallow), Err(4));
        assert_eq!(refused(picture(&before[1..])), Err(6));
        let (mut busy, mut total) = (7, 8);
        let grid = picture(&before).numbers();
        for (store, field, number) in [(&before[1..], 0, 6), (&before[..], 2, 3)] {
            let given = calls::busy(&before, grid, store, field, &mut busy, &mut total);
            assert_eq!((given, busy, total), (number, 7, 8));
        }
    }

    #[test]
    fn a_kept_frame_of_another_size_is_refused() {
        let bytes = [0; 64 * 16];
        let kept = KeptFrame::of(picture(&bytes)).expect("a good shape");
        let refused = |bytes, width, height| {
            let found = busy_blocks(Lines::packed(bytes, width, height, 8), &kept, Top);
            found.map_err(Refusal::number)
        };
        // As many samples, fewer, more; too few bytes; and shapes that are none.
        assert_eq!(refused(&bytes[..], 16, 64), Err(5));
        assert_eq!(refused(&bytes[..], 64, 15), Err(5));
        assert_eq!(refused(&[0; 65 * 16][..], 65, 16), Err(5));
        assert_eq!(refused(&[], 64, 15), Err(5));
        assert_eq!(refused(&bytes[..], 0, 16), Err(4));
        assert_eq!(refused(&bytes[..], u32::MAX, u32::MAX), Err(4));
    }

    #[test]
    fn a_frame_is_kept_in_eight_bits_without_padding() {
        let words = [0x0004, 0x03FF, 0x7777, 0x0008, 0x0C00].map(u16::to_le_bytes);
        let padded = Lines {
            stride: 6,
            ..Lines::packed(words.as_flattened(), 2, 2, 10)
        };
        let kept = KeptFrame::of(padded).expect("a good shape");
        // The last is above 1,023, and counts as that.
        assert_eq!(kept.samples(), [1, 255, 2, 255]);
        let refused = |picture| KeptFrame::of(picture).map_err(Refusal::number);
        let narrow = Lines {
            stride: 3,
            ..padded
        };
        assert_eq!(refused(narrow), Err(4));
        let short = Lines {
            bytes: &padded.bytes[1..],
            ..padded
        };
        assert_eq!(refused(short), Err(6));
        let vast = Lines::packed(padded.bytes, u32::MAX, u32::MAX, 8);
        assert_eq!(refused(vast), Err(4));
    }

    /// Of ten bits a word is cut at 1,023, and then goes right by two. A biplanar
    /// luma's 0C00 would be 0030, kept as 12; as it stands it is full.
    #[test]
    fn a_code_past_the_largest_is_kept_as_255() {
        let ten = |word: u16| {
            let word = word.to_le_bytes();
            let kept = KeptFrame::of(Lines::packed(&word, 1, 1, 10)).expect("a good shape");
            let busy = |then: u8| {
                let then = KeptFrame::of(Lines::packed(&[then], 1, 1, 8)).expect("a good shape");
                let counts = busy_blocks(Lines::packed(&word, 1, 1, 10), &then, Top);
                counts.expect("all within").busy
            };
            (kept.samples()[0], [0, 246, 247].map(busy))
        };
        for full in [0x07FF, 0x03FF, 0x0400, 0x0C00, 0xFFFF] {
            assert_eq!(ten(full), (255, [1, 1, 0]), "{full:04x}");
        }
        assert_eq!(ten(0x0030), (12, [1, 1, 1]));
        assert_eq!(ten(0x0023), (8, [0, 1, 1]));
    }
}
