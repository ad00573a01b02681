//! Reel files from their parts: docs/RULES.md, "Reel file and listing".

/// A file in its three sections. Nothing holds the parts to the rules, so that
/// damaged files can be made too.
#[derive(Debug, Clone, PartialEq, Eq, Default)]
pub struct Reel {
    /// None, or width, height, depth, stride and parity.
    pub shape: Vec<u16>,
    pub entries: Vec<Entry>,
    pub pictures: Vec<Vec<u8>>,
}

/// What was measured of a frame.
#[derive(Debug, Clone, Copy, PartialEq, Eq)]
pub struct Entry {
    /// Of the leading field: 0 top, 1 bottom.
    pub parity: u16,
    /// 1, or 0 where there are no counts.
    pub present: u16,
    /// Busy blocks and all blocks, of the leading field, then of the trailing.
    pub counts: [u16; 4],
}

impl Entry {
    pub fn bytes(&self) -> Vec<u8> {
        let mut bytes = Vec::new();
        put(&mut bytes, &[self.parity, self.present]);
        put(&mut bytes, &self.counts);
        bytes
    }
}

fn put(bytes: &mut Vec<u8>, numbers: &[u16]) {
    for number in numbers {
        bytes.extend(number.to_le_bytes());
    }
}

impl Reel {
    /// The file. A section that is too long for a count has it modulo 65,536.
    pub fn bytes(&self) -> Vec<u8> {
        let mut bytes = Vec::new();
        put(&mut bytes, &[self.shape.len() as u16]);
        put(&mut bytes, &self.shape);
        put(&mut bytes, &[self.entries.len() as u16]);
        for entry in &self.entries {
            bytes.extend(entry.bytes());
        }
        put(&mut bytes, &[self.pictures.len() as u16]);
        bytes.extend(self.pictures.concat());
        bytes
    }

    /// The example of docs/RULES.md: thirteen measured entries, of which the first
    /// is absent, and neither a shape nor pictures.
    pub fn example() -> Self {
        let entry = |at| {
            let (leading, trailing) = match at {
                1 | 6 | 11 | 12 => (0, 40),
                3 | 8 => (40, 0),
                _ => (40, 40),
            };
            Entry {
                parity: 0,
                present: u16::from(at != 0),
                counts: [leading, 1350, trailing, 1350],
            }
        };
        Self {
            entries: (0..13).map(entry).collect(),
            ..Self::default()
        }
    }

    /// A reel that no buffer of 64 KB holds, with a listing that no page of 64 KB
    /// holds: 6,000 entries of film that is spliced every 97 frames, each time a
    /// step further on, with a few stills, absent entries and bottom fields among
    /// them; then four pictures of the largest size, each two alike.
    pub fn long() -> Self {
        let entry = |at: u16| {
            let (leading, trailing) = match (at + at / 97) % 5 {
                _ if at % 211 < 3 => (2, 3),
                2 => (1, 40),
                4 => (40, 1),
                _ => (40, 41),
            };
            Entry {
                parity: u16::from(at / 1000 == 3),
                present: u16::from(at % 631 != 0),
                counts: [leading, 1350, trailing, 1350],
            }
        };
        let picture = |at: usize| {
            (0..16_384)
                .map(|byte| (byte * (at / 2) / 7) as u8)
                .collect()
        };
        Self {
            shape: vec![128, 128, 8, 128, 0],
            entries: (0..6000).map(entry).collect(),
            pictures: (0..4).map(picture).collect(),
        }
    }
}
