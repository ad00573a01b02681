//! Makes reel files, good and damaged, and compares what the program `cadence`
//! prints of each with the listing of the second reader (crate `reader`). On
//! standard error it has to say why it refuses a file, and nothing of another.
//!
//!     reels                    every kind of file, to crates/cadence/out/cadence,
//!                              as ./run starts it
//!     reels cuts films         these kinds: cuts, bytes, pairs, films, longest
//!     reels --whole            all files; else of three kinds a part is made
//!     reels .. PROGRAM WORDS   another program
//!
//! Prints the seed and a line for each kind of file. Ends with 1 at the first
//! difference, after the smallest file that shows it; with 2 where there is no
//! program to start. A process is started for each file, one after the other:
//! under the emulator a start beside a thread can hang. Two processors are used by
//! two calls, with other kinds.

use std::env;
use std::fmt;
use std::process::ExitCode;
use std::rc::Rc;

use differ::case::{Case, Difference, Failure, Least, Tally, same, smaller_numbers};
use differ::program::{Program, same_lines};
use differ::random::{self, Random, SEED_VARIABLE};
use reader::reel::{Entry, Reel};

// ---- The comparison

/// A file that is put to both readers.
#[derive(Clone)]
struct File {
    bytes: Vec<u8>,
    program: Rc<Program>,
}

impl fmt::Debug for File {
    fn fmt(&self, f: &mut fmt::Formatter<'_>) -> fmt::Result {
        write!(f, "{} bytes:", self.bytes.len())?;
        for byte in &self.bytes {
            write!(f, " {byte:02x}")?;
        }
        Ok(())
    }
}

impl Case for File {
    fn compare(&self) -> Result<u8, Difference> {
        let wanted = reader::listing(&self.bytes);
        let ran = self.program.ran(&self.bytes);
        let ran = ran.map_err(|fault| Difference::new("how it ends", fault, "a listing"))?;
        same_lines(&ran.printed, &wanted)?;
        let last = wanted.lines().last().unwrap_or_default();
        let Some(number) = last.strip_prefix("refused ") else {
            same("what is told", ran.told.as_str(), "")?;
            return Ok(0);
        };
        let told = format!("cadence: refused with {number}: ");
        if !ran.told.starts_with(&told) || ran.told.lines().count() != 1 {
            return Err(Difference::new("what is told", ran.told, told));
        }
        Ok(number.parse().expect("a number"))
    }

    /// Without a stretch of it, the longest first; then with a smaller byte.
    fn smaller(&self) -> Vec<Self> {
        let with = |bytes| Self {
            bytes,
            program: self.program.clone(),
        };
        let length = self.bytes.len();
        let mut found = Vec::new();
        // Of a long file only long stretches: each candidate is a copy of it.
        let shortest = if length > 4096 { length / 64 } else { 0 };
        let mut stretch = length.div_ceil(2);
        while stretch > shortest {
            for start in (0..length).step_by(stretch) {
                let mut bytes = self.bytes.clone();
                bytes.drain(start..length.min(start + stretch));
                found.push(with(bytes));
            }
            stretch /= 2;
        }
        let few = if length > 1_000 { 0 } else { length };
        for (at, byte) in self.bytes.iter().enumerate().take(few) {
            for less in smaller_numbers((*byte).into()) {
                let mut bytes = self.bytes.clone();
                bytes[at] = less as u8;
                found.push(with(bytes));
            }
        }
        found
    }
}

// ---- Files of each kind

/// How many there are: of each kind a part, for the gate, or all of them. Of some
/// kinds, the cuts among them, the part is the whole.
#[derive(Debug, Clone, Copy, PartialEq, Eq)]
enum Amount {
    Part,
    Whole,
}

/// One entry and two pictures, of 8 bits.
fn small() -> Reel {
    Reel {
        shape: vec![2, 2, 8, 2, 1],
        entries: vec![entry(1, 1, [0, 40, 40, 40])],
        pictures: vec![vec![1, 2, 3, 4], vec![5, 6, 7, 8]],
    }
}

fn entry(parity: u16, present: u16, counts: [u16; 4]) -> Entry {
    Entry {
        parity,
        present,
        counts,
    }
}

/// A small reel of each kind: both, entries alone, pictures alone, none.
fn each_small() -> [Reel; 5] {
    let both = small();
    [
        Reel {
            shape: Vec::new(),
            pictures: Vec::new(),
            ..both.clone()
        },
        Reel {
            entries: Vec::new(),
            shape: vec![1, 3, 10, 3, 0],
            pictures: vec![vec![9; 9], (0..9).collect()],
        },
        Reel {
            pictures: Vec::new(),
            ..both.clone()
        },
        Reel::default(),
        both,
    ]
}

/// Every cut of small reels, and each with bytes after its end.
fn cuts() -> Vec<Vec<u8>> {
    let mut files = Vec::new();
    for reel in each_small().into_iter().chain([Reel::example()]) {
        let bytes = reel.bytes();
        files.extend((0..=bytes.len()).map(|cut| bytes[..cut].to_vec()));
        for more in [vec![0], vec![5], vec![0, 0], vec![1; 12], vec![255; 100]] {
            files.push([bytes.clone(), more].concat());
        }
    }
    files
}

/// Every byte of small reels with some values; of one, with each.
fn bytes(amount: Amount) -> Vec<Vec<u8>> {
    let mut files = Vec::new();
    let mut each = |reel: Reel, values: &[u8]| {
        let bytes = reel.bytes();
        for at in 0..bytes.len() {
            for value in values {
                let mut bytes = bytes.clone();
                bytes[at] = *value;
                files.push(bytes);
            }
        }
    };
    match amount {
        Amount::Part => {
            for reel in each_small() {
                each(reel, &[0, 1, 5, 6, 128, 255]);
            }
            each(Reel::example(), &[1, 255]);
        }
        Amount::Whole => {
            let every: Vec<u8> = (0..=u8::MAX).collect();
            each(small(), &every);
            for reel in each_small() {
                each(reel, &[0, 1, 2, 5, 6, 16, 127, 128, 254, 255]);
            }
            each(Reel::example(), &[0, 1, 2, 255]);
        }
    }
    files
}

/// A file whose counts need not be those of its parts.
#[derive(Debug, Clone)]
struct Raw {
    counts: [u16; 3],
    reel: Reel,
    /// Bytes after the end.
    more: Vec<u8>,
    /// Bytes that are missing at the end.
    less: usize,
}

impl Raw {
    fn of(reel: Reel) -> Self {
        let counts = [
            reel.shape.len() as u16,
            reel.entries.len() as u16,
            reel.pictures.len() as u16,
        ];
        Self {
            counts,
            reel,
            more: Vec::new(),
            less: 0,
        }
    }

    fn bytes(&self) -> Vec<u8> {
        let Self {
            counts: [shape, entries, pictures],
            ..
        } = *self;
        let mut bytes = shape.to_le_bytes().to_vec();
        for number in &self.reel.shape {
            bytes.extend(number.to_le_bytes());
        }
        bytes.extend(entries.to_le_bytes());
        for entry in &self.reel.entries {
            bytes.extend(entry.bytes());
        }
        bytes.extend(pictures.to_le_bytes());
        bytes.extend(self.reel.pictures.concat());
        bytes.extend(&self.more);
        bytes.truncate(bytes.len().saturating_sub(self.less));
        bytes
    }
}

type Fault = Box<dyn Fn(&mut Raw)>;

/// Each fault that docs/RULES.md names, at each place where it can stand.
fn faults(reel: &Reel) -> Vec<Fault> {
    let mut faults: Vec<Fault> = Vec::new();
    for count in [1, 2, 4, 6, 256, 261, 65_535] {
        faults.push(Box::new(move |raw| raw.counts[0] = count));
    }
    faults.push(Box::new(|raw| {
        raw.counts[0] = 0;
        raw.reel.shape.clear();
    }));
    let shapes: [(usize, &[u16]); 5] = [
        (0, &[0, 8192, 8193, 65_535]),
        (1, &[0, 1, 4352, 4353, 65_535]),
        (2, &[0, 7, 9, 17, 264]),
        (3, &[0, 1, 16_384, 65_535]),
        (4, &[0, 2, 256, 65_535]),
    ];
    for (at, numbers) in shapes {
        for number in numbers {
            let number = *number;
            faults.push(Box::new(move |raw| {
                if let Some(old) = raw.reel.shape.get_mut(at) {
                    *old = number;
                }
            }));
        }
    }
    for at in 0..reel.entries.len() {
        for number in [2, 256, 65_535] {
            faults.push(Box::new(move |raw| raw.reel.entries[at].parity = number));
            faults.push(Box::new(move |raw| raw.reel.entries[at].present = number));
        }
    }
    for section in 1..3 {
        for add in [1, 2, 0xFFFF, 256] {
            faults.push(Box::new(move |raw| {
                raw.counts[section] = raw.counts[section].wrapping_add(add);
            }));
        }
    }
    for more in [1, 2, 12] {
        faults.push(Box::new(move |raw| raw.more = vec![more as u8; more]));
    }
    for less in [1, 2, 3, 4, 5, 7, 12, 20, 27] {
        faults.push(Box::new(move |raw| raw.less = less));
    }
    faults
}

/// Every fault alone and with every other, or every fifth, in a reel of three
/// entries and two pictures.
fn pairs(amount: Amount) -> Vec<Vec<u8>> {
    let mut reel = small();
    reel.entries.insert(0, entry(0, 0, [9; 4]));
    reel.entries.push(entry(1, 1, [40, 40, 0, 40]));
    let faults = faults(&reel);
    let mut files = Vec::new();
    for (at, first) in faults.iter().enumerate() {
        for (other, second) in faults.iter().enumerate().skip(at) {
            if amount == Amount::Part && at != other && (at + other) % 5 != 0 {
                continue;
            }
            let mut raw = Raw::of(reel.clone());
            first(&mut raw);
            second(&mut raw);
            files.push(raw.bytes());
        }
    }
    files
}

// ---- Long reels

/// Steps through the pattern, mostly; now and then a splice, a still stretch,
/// another parity, or anything.
struct Film {
    random: Random,
    step: u64,
    still: u64,
}

/// What becomes of a frame: does the leading field move, does the trailing.
type Moves = (bool, bool);

impl Film {
    fn next(&mut self, splice_in: u64) -> Moves {
        let random = &mut self.random;
        if random.one_in(splice_in) {
            self.step = random.below(5);
        }
        if random.one_in(splice_in * 2) {
            self.still = random.between(1, 15);
        }
        let step = self.step;
        self.step = (step + 1) % 5;
        if self.still > 0 {
            self.still -= 1;
            return (false, false);
        }
        match step {
            2 => (false, true),
            4 => (true, false),
            _ => (true, true),
        }
    }
}

/// Entries of a film with totals of any size, and counts around its bounds.
fn film_entries(random: &mut Random, count: u64) -> Vec<Entry> {
    let splice_in = *random.pick(&[5, 15, 40, 1_000_000]);
    let total = *random.pick(&[0, 1, 100, 640, 1350, 8160, 65_535]);
    let moving = (total / 128).max(4);
    let quiet = (total / 1024).max(1);
    let mut parity = random.below(2) as u16;
    let mut film = Film {
        step: random.below(5),
        still: 0,
        random: Random::new(random.next()),
    };
    let busy = |random: &mut Random, moves: bool| -> u16 {
        match (moves, random.below(12)) {
            (_, 0) => (quiet + 1).min(moving - 1),
            (true, 1) => 65_535,
            (true, 2..6) => moving,
            (true, _) => moving + random.below(100) as u16,
            (false, 1..6) => quiet,
            (false, _) => 0,
        }
    };
    let entries = (0..count).map(|_| {
        let (leading, trailing) = film.next(splice_in);
        if random.one_in(splice_in * 3) {
            parity = 1 - parity;
        }
        let present = u16::from(!random.one_in(splice_in * 3));
        let [first, second] = [leading, trailing].map(|moves| busy(random, moves));
        entry(parity, present, [first, total, second, total])
    });
    entries.collect()
}

/// Shapes of pictures: width, height, depth, and padding of the stride.
const SHAPES: [(u16, u16, u16, u16); 14] = [
    (64, 16, 8, 0),
    (64, 16, 8, 5),
    (50, 34, 8, 0),
    (33, 40, 10, 1),
    (64, 16, 10, 0),
    (50, 18, 9, 3),
    (65, 17, 12, 0),
    (48, 32, 15, 2),
    (64, 16, 16, 0),
    (128, 64, 8, 0),
    (1, 1, 8, 0),
    (3, 2, 9, 0),
    (16_384 / 2, 2, 8, 0),
    (1, 4352, 8, 0),
];

/// A row of any bytes. Where a word has more bits than its code, half of the words
/// have stray bits, and count as the largest code.
fn any_row(random: &mut Random, stride: usize, depth: u16) -> Vec<u8> {
    let mut row = random.bytes(stride);
    if let 9..16 = depth {
        for word in row.chunks_exact_mut(2) {
            word[1] &= u8::MAX >> (16 - depth);
            if random.one_in(2) {
                stray(random, word, depth);
            }
        }
    }
    row
}

/// Any word past the largest code in place of this one.
fn stray(random: &mut Random, word: &mut [u8], depth: u16) {
    let past = random.between(1 << depth, u16::MAX.into()) as u16;
    word.copy_from_slice(&past.to_le_bytes());
}

/// Other stray bits in place of those in a row, which leave it as it was.
fn stray_again(random: &mut Random, row: &mut [u8], depth: u16) {
    for word in row.chunks_exact_mut(2) {
        if u32::from(u16::from_le_bytes([word[0], word[1]])) >= 1 << depth {
            stray(random, word, depth);
        }
    }
}

/// Pictures of a film: each field is that of the picture before, or another.
fn film_pictures(random: &mut Random, count: u64, shape: &[u16]) -> Vec<Vec<u8>> {
    let splice_in = *random.pick(&[15, 40, 1_000_000]);
    let [height, stride, parity] = [shape[1], shape[3], shape[4]].map(usize::from);
    let depth = shape[2];
    let mut film = Film {
        step: random.below(5),
        still: 0,
        random: Random::new(random.next()),
    };
    let rows = (0..height).map(|_| any_row(random, stride, depth));
    let mut picture: Vec<u8> = rows.collect::<Vec<_>>().concat();
    // Of 8 bits: all samples a little off, by just so much as counts as
    // different, or as just does not. Else any others, and few a little off; stray
    // bits are others in every picture.
    let least = depth == 8 && random.one_in(3);
    let noise = random.one_in(2);
    let pictures = (0..count).map(|_| {
        let (leading, trailing) = film.next(splice_in);
        for (y, row) in picture.chunks_mut(stride).enumerate() {
            let moves = if y % 2 == parity { leading } else { trailing };
            if least {
                let off = if moves { 9 } else { 8 };
                for byte in row {
                    *byte = if *byte < 128 {
                        *byte + off
                    } else {
                        *byte - off
                    };
                }
            } else if moves {
                row.copy_from_slice(&any_row(random, stride, depth));
            } else {
                if noise && random.one_in(4) {
                    let at = random.below(stride as u64) as usize;
                    row[at] = row[at].wrapping_add(random.between(7, 9) as u8);
                }
                if let 9..16 = depth {
                    stray_again(random, row, depth);
                }
            }
        }
        picture.clone()
    });
    pictures.collect()
}

fn good(random: &mut Random) -> Reel {
    let (width, height, depth, padding) = *random.pick(&SHAPES);
    let row = if depth > 8 { 2 * width } else { width };
    let parity = random.below(2) as u16;
    let shape = vec![width, height, depth, row + padding, parity];
    let long = |random: &mut Random| *random.pick(&[0, 1, 5, 12, 20, 40, 80]);
    let entries = match random.below(3) {
        0 => 0,
        _ => long(random),
    };
    let pictures = match random.below(3) {
        0 => 0,
        _ if width > 1000 || height > 1000 => random.below(4),
        _ => long(random).min(40),
    };
    let without = pictures == 0 && random.one_in(2);
    Reel {
        entries: film_entries(random, entries),
        pictures: film_pictures(random, pictures, &shape),
        shape: if without { Vec::new() } else { shape },
    }
}

/// Good reels, and every third one with one, two or three faults.
fn films(random: &mut Random, count: u64) -> impl Iterator<Item = Vec<u8>> {
    (0..count).map(move |at| {
        let reel = good(random);
        let faults = faults(&reel);
        let mut raw = Raw::of(reel);
        if at % 3 == 2 {
            for _ in 0..*random.pick(&[1, 1, 2, 3]) {
                random.pick(&faults)(&mut raw);
            }
        }
        raw.bytes()
    })
}

/// The most entries that a file can have, and the most pictures.
fn longest(random: &mut Random) -> Vec<Vec<u8>> {
    let shape = vec![1, 2, 8, 1, 0];
    [(65_535, 0), (0, 65_535), (65_535, 65_535)]
        .into_iter()
        .map(|(entries, pictures)| {
            let reel = Reel {
                entries: film_entries(random, entries),
                pictures: film_pictures(random, pictures, &shape),
                shape: shape.clone(),
            };
            reel.bytes()
        })
        .collect()
}

// ---- All of them

const KINDS: [&str; 5] = ["cuts", "bytes", "pairs", "films", "longest"];

fn all(program: &Rc<Program>, seed: u64, amount: Amount, kinds: &[String]) -> Result<(), Failure> {
    let part = amount == Amount::Part;
    let mut compared = 0;
    for kind in KINDS {
        if !kinds.is_empty() && !kinds.iter().any(|name| name == kind) {
            continue;
        }
        let mut random = Random::for_run(seed, kind);
        // With the files, the fewest that are accepted and refused.
        let (files, (accepted, refused)): (Box<dyn Iterator<Item = Vec<u8>>>, _) = match kind {
            "cuts" => (Box::new(cuts().into_iter()), (6, 300)),
            "bytes" if part => (Box::new(bytes(amount).into_iter()), (500, 400)),
            "bytes" => (Box::new(bytes(amount).into_iter()), (4_000, 5_000)),
            "pairs" if part => (Box::new(pairs(amount).into_iter()), (3, 400)),
            "pairs" => (Box::new(pairs(amount).into_iter()), (5, 2_000)),
            "films" if part => (Box::new(films(&mut random, 600)), (350, 130)),
            "films" => (Box::new(films(&mut random, 8_000)), (5_000, 2_000)),
            _ => (Box::new(longest(&mut random).into_iter()), (3, 0)),
        };
        let files = files.map(|bytes| File {
            bytes,
            program: program.clone(),
        });
        let tally = Tally::of(kind, Least { accepted, refused }, files)?;
        println!("{tally}");
        compared += tally.compared();
    }
    println!("{compared} files, each in a process of its own");
    Ok(())
}

fn main() -> ExitCode {
    let mut words: Vec<String> = env::args().skip(1).collect();
    let whole = words.first().is_some_and(|word| word == "--whole");
    words.drain(..usize::from(whole));
    let kind = |word: &&String| KINDS.contains(&word.as_str());
    let other = words.split_off(words.iter().take_while(kind).count());
    let chosen = random::seed().and_then(|seed| Ok((seed, Program::among(other)?)));
    let (seed, program) = match chosen {
        Ok(chosen) => chosen,
        Err(complaint) => {
            eprintln!("reels: {complaint}");
            return ExitCode::from(2);
        }
    };
    println!("seed {seed} (another by {SEED_VARIABLE})");
    let amount = if whole { Amount::Whole } else { Amount::Part };
    match all(&Rc::new(program), seed, amount, &words) {
        Ok(()) => ExitCode::SUCCESS,
        Err(failure) => {
            println!("{failure}");
            ExitCode::from(1)
        }
    }
}

#[cfg(test)]
mod tests {
    use super::{Raw, film_entries, film_pictures, good, small};
    use desk::calls::PlaneNumbers;
    use differ::random::Random;
    use differ::stray::Strays;
    use reader::listing;
    use reader::reel::Reel;

    fn locks(reel: &Reel) -> bool {
        listing(&reel.bytes()).contains("spanning 1\n")
    }

    #[test]
    fn films_of_either_kind_lock_and_lose_the_lock() {
        let mut random = Random::new(1);
        let shape = vec![64, 16, 8, 64, 0];
        let (mut by_entries, mut by_pictures, mut lost) = (0, 0, 0);
        for _ in 0..100 {
            let mut reel = Reel {
                entries: film_entries(&mut random, 60),
                ..Reel::default()
            };
            by_entries += u32::from(locks(&reel));
            reel.entries.clear();
            reel.pictures = film_pictures(&mut random, 40, &shape);
            reel.shape = shape.clone();
            by_pictures += u32::from(locks(&reel));
            let text = listing(&reel.bytes());
            let last = text.rfind(" 1\n").unwrap_or(text.len());
            lost += u32::from(text[last..].contains("none 0\n"));
        }
        assert!(by_entries >= 20, "{by_entries}");
        assert!(by_pictures >= 40, "{by_pictures}");
        assert!(lost >= 5, "{lost}");
    }

    /// About half of the samples are past the largest code, and films are found as
    /// those of 8 bits are.
    #[test]
    fn deeper_films_have_stray_bits_and_lock() {
        let mut random = Random::new(3);
        for depth in 9..16 {
            let shape = vec![64, 16, depth, 129, 0];
            let numbers = PlaneNumbers {
                width: 64,
                height: 16,
                depth: depth.into(),
                stride: 129,
                layout: 0,
            };
            let mut strays = Strays::default();
            let mut locked = 0;
            for _ in 0..20 {
                let pictures = film_pictures(&mut random, 40, &shape);
                for picture in &pictures {
                    strays += Strays::of_plane(picture, numbers);
                }
                let reel = Reel {
                    shape: shape.clone(),
                    pictures,
                    ..Reel::default()
                };
                locked += u32::from(locks(&reel));
            }
            let Strays { samples, cut, .. } = strays;
            assert!((45..55).contains(&(100 * cut / samples)), "{strays}");
            assert!(locked >= 8, "{depth} bits: {locked}");
        }
    }

    #[test]
    fn good_reels_are_taken_and_raw_ones_are_the_same_bytes() {
        let mut random = Random::new(2);
        for reel in (0..50).map(|_| good(&mut random)).chain([small()]) {
            let bytes = reel.bytes();
            assert!(!listing(&bytes).contains("refused"), "{:?}", reel.shape);
            assert_eq!(Raw::of(reel).bytes(), bytes);
        }
    }
}
