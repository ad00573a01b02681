//! The detector of 2:3 pulldown: crates/filmdesk/src/lib.rt.

use crate::{Cadence, Counts, Lines, Parity, Refusal, calls};

/// Bytes in which a detector is kept between calls.
pub const STATE_BYTES: usize = 96;

/// Finds film in frames that come one after the other. Owns its state, and a store for the frame
/// that it keeps, as large as the largest frame so far.
#[derive(Debug, Clone, PartialEq, Eq)]
pub struct Detector {
    state: [u8; STATE_BYTES],
    store: Vec<u8>,
}

impl Default for Detector {
    fn default() -> Self {
        Self::new()
    }
}

impl Detector {
    pub fn new() -> Self {
        let mut state = [0; STATE_BYTES];
        let number = calls::detector_new(&mut state);
        assert_eq!(number, 0, "desk_detector_new needs no more than the state");
        Self {
            state,
            store: Vec::new(),
        }
    }

    /// Starts again; only which field led in the last frame is remembered.
    pub fn reset(&mut self) {
        let number = calls::detector_reset(&mut self.state);
        assert_eq!(number, 0, "desk_detector_reset refuses no whole state");
    }

    /// Whether film is found, and with it the phase of its pattern.
    pub fn locked(&self) -> bool {
        let mut locked = 0;
        let number = calls::detector_locked(&self.state, &mut locked);
        assert_eq!(number, 0, "desk_detector_locked refuses no whole state");
        locked == 1
    }

    /// The cadence of the frame that comes after `ahead` others. Refused with 10 where these are
    /// more than 1,000,000.
    pub fn predict(&self, ahead: u64) -> Result<Cadence, Refusal> {
        let mut cadence = 0;
        Refusal::check(calls::detector_predict(&self.state, ahead, &mut cadence))?;
        Ok(Cadence::named(cadence))
    }

    /// Takes the luma of a frame led by `first`, compares it with the one before and keeps it.
    /// Codes are not shifted, and one above 2^depth - 1 counts as that: so the luma of a biplanar
    /// frame deeper than 8 bits, whose codes stand in the high bits, would count as full nearly
    /// everywhere, and goes through [`readback`](crate::readback) first. Refused with 4, with 6,
    /// and with 9 after 4,000,000,000 frames.
    pub fn push(&mut self, first: Parity, picture: Lines<'_>) -> Result<Cadence, Refusal> {
        let had = self.store.len();
        self.store.resize(had.max(picture.samples()), 0);
        let mut cadence = 0;
        let number = calls::detector_push(
            &mut self.state,
            first as u8,
            picture.bytes,
            picture.numbers(),
            &mut self.store,
            &mut cadence,
        );
        if number != 0 {
            self.store.truncate(had);
        }
        Refusal::check(number)?;
        Ok(Cadence::named(cadence))
    }

    /// Takes counts of a frame led by `first`, of the leading field and then of the trailing; or
    /// none, where the frame could not be compared. Refused with 9 after 4,000,000,000 frames.
    pub fn push_measured(
        &mut self,
        first: Parity,
        counts: Option<[Counts; 2]>,
    ) -> Result<Cadence, Refusal> {
        let nothing = Counts { busy: 0, total: 0 };
        let [leading, trailing] = counts.unwrap_or([nothing; 2]);
        let mut cadence = 0;
        Refusal::check(calls::detector_push_measured(
            &mut self.state,
            first as u8,
            counts.is_some().into(),
            leading.busy,
            leading.total,
            trailing.busy,
            trailing.total,
            &mut cadence,
        ))?;
        Ok(Cadence::named(cadence))
    }

    /// The frame that is kept, where one was pushed and none before it.
    pub(crate) fn into_store(self) -> Vec<u8> {
        self.store
    }
}

#[cfg(test)]
mod tests {
    use super::{Cadence, Detector, Lines, STATE_BYTES, calls};
    use crate::Parity::{Bottom, Top};
    use crate::Refusal;
    use crate::calls::GridNumbers;
    use crate::films::tests::{ANSWERS, REEL, counts};

    #[test]
    fn the_reel_of_the_example() {
        let mut detector = Detector::new();
        for (at, busy) in REEL.into_iter().enumerate() {
            let found = detector.push_measured(Top, busy.map(counts));
            assert_eq!(found, Ok(ANSWERS[at]), "entry {at}");
            assert_eq!(detector.locked(), (9..12).contains(&at), "entry {at}");
            if at == 9 {
                assert_eq!(detector.predict(0), Ok(Cadence::None));
                assert_eq!(detector.predict(4), Ok(Cadence::Whole));
                assert_eq!(detector.predict(6), Ok(Cadence::Drop));
                let far = detector.predict(1_000_001);
                assert_eq!(far.map_err(Refusal::number), Err(10));
                let mut again = detector.clone();
                again.reset();
                assert!(!again.locked());
                assert_eq!(again.predict(4), Ok(Cadence::None));
                // Led by the other field, the next frame cannot be compared.
                let mut other = detector.clone();
                let found = other.push_measured(Bottom, REEL[10].map(counts));
                assert_eq!((found, other.locked()), (Ok(Cadence::None), false));
            }
        }
    }

    #[test]
    fn pictures_lock_as_their_counts_do() {
        let mut detector = Detector::new();
        let (mut top, mut bottom) = (0, 0);
        for (at, entry) in REEL.into_iter().enumerate() {
            let [leading, trailing] = entry.unwrap_or([0, 0]);
            top ^= if leading > 0 { 200 } else { 0 };
            bottom ^= if trailing > 0 { 200 } else { 0 };
            let rows = (0..16).flat_map(|y| [if y % 2 == 0 { top } else { bottom }; 64]);
            let bytes: Vec<u8> = rows.collect();
            let picture = Lines::packed(&bytes, 64, 16, 8);
            let found = detector.push(Top, picture);
            assert_eq!(found, Ok(ANSWERS[at]), "entry {at}");
            if at == 10 {
                let mut other = detector.clone();
                let found = other.push(Bottom, picture);
                assert_eq!((found, other.locked()), (Ok(Cadence::None), false));
                let was = detector.clone();
                let short = Lines::packed(&bytes[1..], 64, 16, 8);
                let short = detector.push(Top, short);
                assert_eq!(short.map_err(Refusal::number), Err(6));
                // Room is made for these, and taken back.
                let shallow = Lines::packed(&bytes, 16, 64 * 16 / 16, 7);
                let shallow = detector.push(Top, shallow);
                assert_eq!(shallow.map_err(Refusal::number), Err(4));
                let twice = [&bytes[..], &bytes].concat();
                let padded = Lines {
                    stride: 65,
                    ..Lines::packed(&twice[1..], 64, 32, 8)
                };
                let padded = detector.push(Top, padded);
                assert_eq!(padded.map_err(Refusal::number), Err(6));
                let large = Lines::packed(&bytes, u32::MAX, u32::MAX, 8);
                let large = detector.push(Top, large);
                assert_eq!(large.map_err(Refusal::number), Err(4));
                assert_eq!(detector, was);
            }
        }
        assert_eq!(detector.into_store().len(), 64 * 16);
    }

    /// Of ten bits; the words of a full field have other stray bits in each frame, also where
    /// it repeats one.
    #[test]
    fn stray_bits_move_nothing() {
        let mut detector = Detector::new();
        let mut full = [true; 2];
        for (at, entry) in REEL.into_iter().enumerate() {
            let moved = entry.unwrap_or([0, 0]);
            full = [0, 1].map(|field| full[field] ^ (moved[field] > 0));
            let strays = [0x03FF, 0x0400, 0x07FF, 0x0C00, 0xFFFF];
            let word = |sample: usize| match full[sample / 64 % 2] {
                true => strays[(sample + at) % strays.len()],
                false => (sample + at) as u16 & 3,
            };
            let bytes: Vec<u8> = (0..64 * 16).flat_map(|at| word(at).to_le_bytes()).collect();
            let found = detector.push(Top, Lines::packed(&bytes, 64, 16, 10));
            assert_eq!(found, Ok(ANSWERS[at]), "entry {at}");
        }
    }

    /// No call trusts what it is lent: numbers that no history reaches are read
    /// as some detector, too.
    #[test]
    fn any_bytes_are_some_detector() {
        const TAKEN: std::ops::Range<usize> = 2 * 8..3 * 8;
        const GRID: GridNumbers = GridNumbers {
            width: 64,
            height: 16,
            depth: 8,
            stride: 64,
        };
        let plane = [100; 64 * 16];
        for fill in [0x01, 0x7F, 0xFF] {
            let mut state = [fill; STATE_BYTES];
            let (mut locked, mut cadence) = (9, 9);
            assert_eq!(calls::detector_locked(&state, &mut locked), 0);
            assert_eq!(calls::detector_predict(&state, 5, &mut cadence), 0);
            assert!(locked <= 1 && cadence <= 3, "{locked} {cadence}");

            // More frames than are ever taken; then none.
            cadence = 9;
            let number = calls::detector_push_measured(&mut state, 0, 1, 0, 9, 9, 9, &mut cadence);
            assert_eq!((number, cadence, state), (9, 9, [fill; STATE_BYTES]));
            state[TAKEN].fill(0);
            let number = calls::detector_push_measured(&mut state, 0, 1, 0, 9, 9, 9, &mut cadence);
            assert!(number == 0 && cadence <= 3, "{number} {cadence}");

            // The frame that is said to be kept is larger than the store.
            let mut store = [7; 64 * 16];
            let was = state;
            let push = |state: &mut [u8], store: &mut [u8]| {
                let mut cadence = 9;
                let number = calls::detector_push(state, 0, &plane, GRID, store, &mut cadence);
                (number, cadence)
            };
            assert_eq!(push(&mut state, &mut store), (6, 9));
            assert_eq!((state, store), (was, [7; 64 * 16]));
            assert_eq!(calls::detector_reset(&mut state), 0);
            assert_eq!(push(&mut state, &mut store), (0, 0));
            assert_eq!(store, plane);
        }
    }

    #[test]
    fn a_fresh_detector_needs_its_bytes() {
        let mut state = [5; STATE_BYTES - 1];
        let number = calls::detector_new(&mut state);
        assert_eq!((number, state), (7, [5; STATE_BYTES - 1]));
    }
}
