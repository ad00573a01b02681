//! `desk_cadences` against `Detector::push_measured` of a fresh detector, entry
//! by entry.

use std::collections::BTreeMap;

use oracle::video::telecine::Detector;

use super::film::{Film, SYMBOLS, Seen, cadence_number, parity_named};
use crate::answers::Answer;
use crate::case::{Case, Difference, Failure, Least, Tally, same, smaller_numbers};
use crate::judge::films;
use crate::lent::{Between, Guarded, PATTERNS};
use crate::random::Random;

pub const NAME: &str = "cadences";

/// An entry of a reel file; an absent one's numbers are ignored.
#[derive(Debug, Clone, Copy, PartialEq, Eq)]
pub struct Entry {
    pub parity: u16,
    pub present: u16,
    /// Busy and all blocks of the leading field, then of the trailing.
    pub numbers: [u16; 4],
}

impl Entry {
    pub fn write(&self, bytes: &mut Vec<u8>) {
        let [a, b, c, d] = self.numbers;
        for number in [self.parity, self.present, a, b, c, d] {
            bytes.extend(number.to_le_bytes());
        }
    }

    fn simpler(&self) -> Vec<Self> {
        let mut found = Vec::new();
        let less = |number: u16| smaller_numbers(number.into()).into_iter().map(|n| n as u16);
        for parity in less(self.parity) {
            found.push(Self { parity, ..*self });
        }
        for present in less(self.present) {
            found.push(Self { present, ..*self });
        }
        for at in 0..4 {
            for number in less(self.numbers[at]) {
                let mut simpler = *self;
                simpler.numbers[at] = number;
                found.push(simpler);
            }
        }
        found
    }
}

/// The cadences of entries that the judge lets pass. Never inlined, so that the
/// benchmark times a call on both sides.
#[inline(never)]
pub fn by_rust(entries: &[Entry]) -> Vec<u8> {
    let mut detector = Detector::new();
    let cadence = |entry: &Entry| {
        let [busy, total, other_busy, other_total] = entry.numbers.map(usize::from);
        let measured = (entry.present == 1).then_some(((busy, total), (other_busy, other_total)));
        let first = parity_named(entry.parity as u8);
        cadence_number(detector.push_measured(first, measured))
    };
    entries.iter().map(cadence).collect()
}

#[derive(Clone)]
struct Reel {
    entries: Vec<Entry>,
    /// Bytes that are cut off at the end.
    cut: usize,
    /// Bytes that are lent for the answer.
    out: usize,
}

impl std::fmt::Debug for Reel {
    fn fmt(&self, f: &mut std::fmt::Formatter<'_>) -> std::fmt::Result {
        let Self { entries, cut, out } = self;
        write!(
            f,
            "{} entries, {cut} bytes cut off, {out} lent:",
            entries.len()
        )?;
        for entry in entries {
            let [a, b, c, d] = entry.numbers;
            let (parity, present) = (entry.parity, entry.present);
            write!(f, " {parity}/{present} {a}/{b} {c}/{d},")?;
        }
        Ok(())
    }
}

impl Reel {
    /// The bytes of the entries, the number, and what is written.
    fn wanted(&self) -> (Vec<u8>, u8, Vec<u8>) {
        let mut bytes = Vec::with_capacity(self.entries.len() * films::ENTRY);
        for entry in &self.entries {
            entry.write(&mut bytes);
        }
        bytes.truncate(bytes.len() - self.cut);
        let number = films::cadences(&bytes, self.out);
        let expected = match number {
            // Where whole entries are cut off, the others are left.
            0 => by_rust(&self.entries[..bytes.len() / films::ENTRY]),
            _ => Vec::new(),
        };
        (bytes, number, expected)
    }
}

impl Case for Reel {
    fn compare(&self) -> Result<u8, Difference> {
        let (bytes, number, expected) = self.wanted();
        let lent = Between::noise(&bytes);
        for pattern in PATTERNS {
            let mut out = Guarded::<u8>::filled(pattern, self.out);
            let given = desk::calls::cadences(lent.lent(), out.lend());
            same("the number, which is the rules'", given, number)?;
            // The compiler must not suppose that the call kept to what it was lent.
            std::hint::black_box(&out).written(&expected)?;
        }
        let kept = std::hint::black_box(&lent).lent() == bytes;
        same("whether the lent entries are as they were", kept, true)?;
        Ok(number)
    }

    fn smaller(&self) -> Vec<Self> {
        let mut found = Vec::new();
        let more = self.out as i64 - self.entries.len() as i64;
        // Without a stretch of them, from half of all down to one.
        let mut stretch = self.entries.len() / 2;
        while stretch > 0 {
            for start in (0..self.entries.len()).step_by(stretch) {
                let mut entries = self.entries.clone();
                entries.drain(start..(start + stretch).min(self.entries.len()));
                let out = (entries.len() as i64 + more).max(0) as usize;
                if entries.len() * films::ENTRY >= self.cut {
                    found.push(Self {
                        entries,
                        out,
                        ..*self
                    });
                }
            }
            stretch /= 2;
        }
        if self.entries.len() <= 40 {
            for at in 0..self.entries.len() {
                for simpler in self.entries[at].simpler() {
                    let mut case = self.clone();
                    case.entries[at] = simpler;
                    found.push(case);
                }
            }
        }
        for cut in smaller_numbers(self.cut as u64) {
            let cut = cut as usize;
            found.push(Self {
                cut,
                ..self.clone()
            });
        }
        for out in smaller_numbers(self.out as u64) {
            let out = out as usize;
            found.push(Self {
                out,
                ..self.clone()
            });
        }
        found
    }

    /// An entry is an input; what is refused is one.
    fn inputs(&self) -> u64 {
        self.entries.len().max(1) as u64
    }

    fn count(&self, number: u8, numbers: &mut BTreeMap<u8, u64>) {
        let inputs = if number == 0 { self.inputs() } else { 1 };
        *numbers.entry(number).or_default() += inputs;
    }
}

/// Every sequence of this many symbols, after a first entry with which nothing
/// can be compared.
fn every_sequence(length: u32) -> impl Iterator<Item = Reel> {
    (0..4u64.pow(length)).map(move |code| {
        let first = Entry {
            parity: 0,
            present: (code % 2) as u16,
            numbers: [40, 1350, 40, 1350],
        };
        let symbols = (0..length).map(|at| {
            let [busy, other] = SYMBOLS[(code >> (2 * at) & 3) as usize].usual();
            Entry {
                parity: 0,
                present: 1,
                numbers: [busy as u16, 1350, other as u16, 1350],
            }
        });
        let entries: Vec<_> = std::iter::once(first).chain(symbols).collect();
        Reel {
            cut: 0,
            out: entries.len(),
            entries,
        }
    })
}

/// The entry that shows what was seen, by counts at or near a threshold.
fn entry(random: &mut Random, seen: Seen) -> Entry {
    let total = *random.pick(&[0, 1, 100, 511, 512, 639, 640, 1350, 8160, 65_535]);
    let numbers = match seen.symbol {
        Some(symbol) => {
            let [busy, other] = symbol.near(random, total);
            // The trailing field's total is not looked at.
            let any = random.below(65_536);
            let other_total = *random.pick(&[0, total, any]);
            [busy, total, other, other_total].map(|number| number as u16)
        }
        None => [0; 4].map(|_| random.below(65_536) as u16),
    };
    Entry {
        parity: seen.first.into(),
        present: seen.symbol.is_some().into(),
        numbers,
    }
}

fn random_reel(random: &mut Random, length: u64) -> Reel {
    let mut film = Film::new(random);
    let entries: Vec<_> = (0..length)
        .map(|_| {
            let seen = film.next(random);
            entry(random, seen)
        })
        .collect();
    Reel {
        cut: 0,
        out: entries.len() + *random.pick(&[0, 0, 1, 7, 100]),
        entries,
    }
}

/// A reel of which a number, the end or the room is wrong, or several of them.
fn spoilt(random: &mut Random) -> Reel {
    let length = random.below(30);
    let mut reel = random_reel(random, length);
    for _ in 0..random.between(1, 2) {
        let place = random.below(length.max(1)) as usize;
        match random.below(5) {
            // Some of them would be 0 or 1 if they were cut to a byte.
            0 | 1 if length > 0 => {
                let unnamed = *random.pick(&[2, 3, 255, 256, 257, 65_535]);
                let entry = &mut reel.entries[place];
                if random.one_in(2) {
                    entry.parity = unnamed;
                } else {
                    entry.present = unnamed;
                }
            }
            2 => {
                let most = (length as usize * films::ENTRY).min(25);
                reel.cut = random.between(0, most as u64) as usize;
            }
            3 => reel.out = (length as usize).saturating_sub(1),
            _ => reel.out = place,
        }
    }
    reel
}

pub fn run(random: &mut Random) -> Result<Tally, Failure> {
    let mut own = || Random::new(random.next());
    let (mut for_short, mut for_long, mut for_spoilt) = (own(), own(), own());
    let none = Reel {
        entries: Vec::new(),
        cut: 0,
        out: 3,
    };
    let every = (0..=9).flat_map(every_sequence);
    let short = (0..6_000).map(move |_| {
        let length = for_short.between(1, 60);
        random_reel(&mut for_short, length)
    });
    let long = [1_000; 100]
        .into_iter()
        .chain([65_535, 65_536, 200_000])
        .map(move |length| random_reel(&mut for_long, length));
    let refused = (0..10_000).map(move |_| spoilt(&mut for_spoilt));
    let least = Least {
        accepted: 3_500_000,
        refused: 7_000,
    };
    let all = std::iter::once(none).chain(every).chain(short).chain(long);
    Tally::of(NAME, least, all.chain(refused))
}

/// Answers of reels of up to 120 entries, without an end; one in four has
/// something wrong.
pub(crate) fn answers(mut random: Random) -> impl Iterator<Item = Answer> {
    std::iter::repeat_with(move || {
        let reel = if random.one_in(4) {
            spoilt(&mut random)
        } else {
            let length = random.between(0, 120);
            random_reel(&mut random, length)
        };
        let (bytes, number, written) = reel.wanted();
        Answer::of("cadences")
            .gives(number)
            .slice(&bytes)
            .output(&written, reel.out)
    })
}
