//! The detector over lent bytes against the Rust's `Detector`, call by call:
//! after every call the cadence, the lock, predictions and the kept frame are
//! compared, and that a refused call left everything as it was.
//!
//! The Rust refuses nothing, so it is not told of a refused call. Its kept frame
//! is private, but it prints itself (`Debug`), and some cases read it there.

use std::cell::Cell;
use std::collections::BTreeMap;
use std::fmt;
use std::mem;
use std::rc::Rc;

use desk::calls::PlaneNumbers;
use oracle::video::telecine::Detector;

use super::film::{
    Film, Look, PATTERN, SYMBOLS, Seen, Shown, Shows, Symbol, cadence_number, grid_of, listed,
    parity_named,
};
use super::read;
use crate::answers::{Answer, FILL, STATE_ROOM, STORE_ROOM};
use crate::case::{Case, Difference, Failure, Least, Tally, same, smaller_numbers};
use crate::given;
use crate::judge;
use crate::judge::films::{self, MOST_FRAMES, STATE};
use crate::random::Random;
use crate::stray::Strays;

pub const NAME: &str = "detector";

/// One call, with the bytes that are lent of the state, and of the store, from
/// their start on; no more than there are.
#[derive(Clone)]
enum Call {
    Push {
        parity: u8,
        shown: Rc<Shown>,
        store: usize,
        state: usize,
    },
    Measured {
        parity: u8,
        present: u8,
        /// Busy and all blocks of the leading field, then of the trailing.
        numbers: [u64; 4],
        state: usize,
    },
    Reset {
        state: usize,
    },
    /// No call: raises the state's count of frames until this many are left
    /// before number 9, or up to four more, since it is raised by a multiple of
    /// five. No step of a phase changes by that, so that the Rust, whose count
    /// cannot be raised, still goes with it.
    Late(u64),
}

/// All that there is.
const ALL: usize = usize::MAX;

impl fmt::Debug for Call {
    fn fmt(&self, f: &mut fmt::Formatter<'_>) -> fmt::Result {
        let lent = |f: &mut fmt::Formatter<'_>, name: &str, bytes: usize| match bytes {
            ALL => Ok(()),
            bytes => write!(f, ", {bytes} bytes of the {name}"),
        };
        match self {
            Self::Push {
                parity,
                shown,
                store,
                state,
            } => {
                write!(f, "push {parity} {shown:?}")?;
                lent(f, "store", *store)?;
                lent(f, "state", *state)
            }
            Self::Measured {
                parity,
                present,
                numbers: [a, b, c, d],
                state,
            } => {
                write!(f, "measured {parity}/{present} {a}/{b} {c}/{d}")?;
                lent(f, "state", *state)
            }
            Self::Reset { state } => {
                write!(f, "reset")?;
                lent(f, "state", *state)
            }
            Self::Late(left) => write!(f, "late by all but {left}"),
        }
    }
}

/// How far ahead predictions are compared after every call.
const AHEAD: [u64; 8] = [0, 1, 2, 3, 4, 5, 999_999, 1_000_000];

/// Bytes on either side of state and store.
const GUARD: usize = 32;

/// Bytes of the state beyond those that it needs.
const MORE_STATE: usize = 5;

/// Numbers in the state, by crates/filmdesk/specs/Kept.antt: the frames taken,
/// and the frame that locked.
const TAKEN: usize = 2;
const SINCE: usize = 3;

/// Both sides, and what the next call is expected to find.
struct Sides {
    rust: Detector,
    /// The state between guards.
    state: [u8; GUARD + STATE + MORE_STATE + GUARD],
    /// The store between guards, and as it is to be.
    store: Vec<u8>,
    wanted_store: Vec<u8>,
    /// Samples of the kept frame; 0 for none.
    kept: usize,
    taken: u64,
    /// How many calls gave each number.
    gave: [u64; 11],
    /// The samples of the pictures that were taken.
    strays: Strays,
}

impl Sides {
    fn new(room: usize) -> Result<Self, Difference> {
        let mut state = [0x5A; GUARD + STATE + MORE_STATE + GUARD];
        for (at, byte) in state.iter_mut().enumerate() {
            *byte ^= at as u8;
        }
        let was = state;
        let store: Vec<u8> = (0..room + 2 * GUARD).map(|at| (at * 7) as u8).collect();
        let short = desk::calls::detector_new(&mut state[GUARD..GUARD + STATE - 1]);
        same(
            "the number of a state too short",
            short,
            films::detector_new(STATE - 1),
        )?;
        same("a state too short", state == was, true)?;
        let number = desk::calls::detector_new(&mut state[GUARD..][..STATE + MORE_STATE]);
        same("the number of a fresh detector", number, 0)?;
        let sides = Self {
            rust: Detector::new(),
            state,
            wanted_store: store.clone(),
            store,
            kept: 0,
            taken: 0,
            gave: [0; 11],
            strays: Strays::default(),
        };
        sides.beside(&was)?;
        sides.asked()?;
        Ok(sides)
    }

    fn number(&self, place: usize) -> u64 {
        let at = GUARD + 8 * place;
        u64::from_le_bytes(self.state[at..at + 8].try_into().expect("eight bytes"))
    }

    fn put(&mut self, place: usize, number: u64) {
        let at = GUARD + 8 * place;
        self.state[at..at + 8].copy_from_slice(&number.to_le_bytes());
    }

    /// The bytes before and after the state are as they were.
    fn beside(&self, was: &[u8]) -> Result<(), Difference> {
        let end = GUARD + STATE;
        let kept = self.state[..GUARD] == was[..GUARD] && self.state[end..] == was[end..];
        same(
            "whether the bytes beside the state are as they were",
            kept,
            true,
        )
    }

    /// Lock and predictions.
    fn asked(&self) -> Result<(), Difference> {
        let state = &self.state[GUARD..][..STATE];
        let mut locked = 9;
        let number = desk::calls::detector_locked(state, &mut locked);
        let wanted = (0, u8::from(self.rust.locked()));
        same("whether it is locked", (number, locked), wanted)?;
        for ahead in AHEAD {
            let mut cadence = 9;
            let number = desk::calls::detector_predict(state, ahead, &mut cadence);
            let wanted = cadence_number(self.rust.predict(ahead));
            if (number, cadence) != (0, wanted) {
                let what = format!("the prediction {ahead} ahead");
                same(&what, (number, cadence), (0, wanted))?;
            }
        }
        let taken = self.number(TAKEN);
        same("the frames taken, in the state", taken, self.taken)
    }

    /// What is asked of a state too short, or too far ahead.
    fn asked_wrongly(&self) -> Result<(), Difference> {
        let mut place = 9;
        for length in [0, 1, STATE - 1] {
            let short = &self.state[GUARD..][..length];
            let number = desk::calls::detector_locked(short, &mut place);
            let wanted = (films::detector_read(length), 9);
            same("the lock of a state too short", (number, place), wanted)?;
            for ahead in [0, 1_000_001] {
                let number = desk::calls::detector_predict(short, ahead, &mut place);
                let wanted = (films::detector_predict(length, ahead), 9);
                same("a prediction of a state too short", (number, place), wanted)?;
            }
        }
        let state = &self.state[GUARD..][..STATE];
        for ahead in [1_000_001, 1 << 32, u64::MAX] {
            let number = desk::calls::detector_predict(state, ahead, &mut place);
            let wanted = (films::detector_predict(STATE, ahead), 9);
            same("a prediction too far ahead", (number, place), wanted)?;
        }
        Ok(())
    }

    fn take(&mut self, call: &Call) -> Result<(), Difference> {
        let was = self.state;
        // No cadence, so that a refusal that wrote one shows.
        let mut cadence = 9;
        let (given, number, answer) = match *call {
            Call::Push {
                parity,
                ref shown,
                store,
                state,
            } => {
                let state = state.min(STATE + MORE_STATE);
                let store = store.min(self.store.len() - 2 * GUARD);
                let given = desk::calls::detector_push(
                    &mut self.state[GUARD..][..state],
                    parity,
                    shown.lent(),
                    grid_of(shown.shape),
                    &mut self.store[GUARD..][..store],
                    &mut cadence,
                );
                let lent = (shown.shape, shown.length);
                let number =
                    films::detector_push(state, parity, lent, store, self.kept, self.taken);
                let answer = (number == 0).then(|| {
                    let (frame, kept) = shown.rust(parity);
                    self.wanted_store[GUARD..][..kept.len()].copy_from_slice(kept);
                    self.kept = kept.len();
                    self.taken += 1;
                    self.strays += shown.strays();
                    self.rust.push(frame)
                });
                (given, number, answer)
            }
            Call::Measured {
                parity,
                present,
                numbers: [busy, total, other_busy, other_total],
                state,
            } => {
                let state = state.min(STATE + MORE_STATE);
                let given = desk::calls::detector_push_measured(
                    &mut self.state[GUARD..][..state],
                    parity,
                    present,
                    busy,
                    total,
                    other_busy,
                    other_total,
                    &mut cadence,
                );
                let number = films::detector_push_measured(state, parity, present, self.taken);
                let answer = (number == 0).then(|| {
                    let measured = (present == 1).then_some((
                        (busy as usize, total as usize),
                        (other_busy as usize, other_total as usize),
                    ));
                    self.taken += 1;
                    self.rust.push_measured(parity_named(parity), measured)
                });
                (given, number, answer)
            }
            Call::Reset { state } => {
                let state = state.min(STATE + MORE_STATE);
                let given = desk::calls::detector_reset(&mut self.state[GUARD..][..state]);
                let number = films::detector_read(state);
                if number == 0 {
                    self.rust.reset();
                    self.kept = 0;
                    self.taken = 0;
                }
                (given, number, None)
            }
            Call::Late(left) => {
                let on = MOST_FRAMES.saturating_sub(left + self.taken) / 5 * 5;
                self.put(TAKEN, self.number(TAKEN) + on);
                self.put(SINCE, self.number(SINCE) + on);
                self.taken += on;
                return self.asked();
            }
        };
        same("the number, which is the rules'", given, number)?;
        same("the cadence", cadence, answer.map_or(9, cadence_number))?;
        let store = std::hint::black_box(&self.store) == &self.wanted_store;
        same("whether the store is as it is to be", store, true)?;
        if number == 0 {
            self.beside(&was)?;
            self.asked()?;
        } else {
            same(
                "whether a refused call left the state",
                self.state == was,
                true,
            )?;
        }
        self.gave[usize::from(number)] += 1;
        Ok(())
    }

    /// The kept frame as the Rust prints it: the rows of either field.
    fn printed(&self) -> Result<(), Difference> {
        if self.kept == 0 {
            return Ok(());
        }
        let text = format!("{:?}", self.rust);
        let (_, previous) = text.split_once("previous: Snapshot").expect("a kept frame");
        let after = |text: &'_ str, name: &str| -> String {
            let (_, rest) = text.split_once(name).expect(name);
            rest.to_owned()
        };
        let rows = after(previous, "rows: [[");
        let (top, rest) = rows.split_once("], [").expect("two fields");
        let (bottom, rest) = rest.split_once("]]").expect("two fields");
        let width = after(rest, "width: ");
        let width = width.split([' ', ',', '}']).next().expect("a number");
        let width: usize = width.parse().expect("a number");
        let read = |list: &str| -> Vec<u8> {
            let numbers = list.split(", ").filter(|number| !number.is_empty());
            numbers.map(|n| n.parse().expect("a byte")).collect()
        };
        let fields = [read(top), read(bottom)];
        let mut rows = [fields[0].chunks(width), fields[1].chunks(width)];
        let mut printed = Vec::new();
        for y in 0..self.kept / width {
            printed.extend(rows[y % 2].next().expect("as many rows as were kept"));
        }
        let kept = &self.store[GUARD..][..self.kept];
        same(
            "whether the store is the frame that the Rust prints",
            kept == printed,
            true,
        )
    }
}

/// Calls from a fresh detector on.
#[derive(Clone)]
struct Calls {
    calls: Vec<Call>,
    /// The Rust's kept frame is read from what it prints, at the end.
    printed: bool,
    gave: Cell<[u64; 11]>,
    strays: Cell<Strays>,
}

impl fmt::Debug for Calls {
    fn fmt(&self, f: &mut fmt::Formatter<'_>) -> fmt::Result {
        write!(f, "{} calls: {:?}", self.calls.len(), self.calls)
    }
}

impl Calls {
    fn new(calls: Vec<Call>) -> Self {
        Self {
            calls,
            printed: false,
            gave: Cell::default(),
            strays: Cell::default(),
        }
    }

    /// Room for every picture that can be taken.
    fn room(&self) -> usize {
        let samples = |call: &Call| match call {
            Call::Push { shown, .. } if judge::in_bounds(shown.shape) => {
                judge::floats(shown.shape) as usize
            }
            _ => 0,
        };
        let most = self.calls.iter().map(samples).max().unwrap_or(0);
        most.min(1 << 22) + 7
    }
}

impl Case for Calls {
    fn compare(&self) -> Result<u8, Difference> {
        let mut sides = Sides::new(self.room())?;
        for call in &self.calls {
            sides.take(call)?;
        }
        sides.asked_wrongly()?;
        if self.printed {
            sides.printed()?;
        }
        self.gave.set(sides.gave);
        self.strays.set(sides.strays);
        Ok(0)
    }

    fn smaller(&self) -> Vec<Self> {
        let mut found = Vec::new();
        let mut stretch = self.calls.len().div_ceil(2);
        while stretch > 0 {
            for start in (0..self.calls.len()).step_by(stretch) {
                let mut calls = self.calls.clone();
                calls.drain(start..(start + stretch).min(self.calls.len()));
                found.push(Self {
                    calls,
                    ..self.clone()
                });
            }
            stretch /= 2;
        }
        if self.calls.len() <= 40 {
            for at in 0..self.calls.len() {
                for simpler in self.calls[at].simpler() {
                    let mut case = self.clone();
                    case.calls[at] = simpler;
                    found.push(case);
                }
            }
        }
        found
    }

    fn inputs(&self) -> u64 {
        self.gave.get().iter().sum()
    }

    fn count(&self, _: u8, numbers: &mut BTreeMap<u8, u64>) {
        for (number, count) in self.gave.get().into_iter().enumerate() {
            if count > 0 {
                *numbers.entry(number as u8).or_default() += count;
            }
        }
    }

    fn strays(&self) -> Strays {
        self.strays.get()
    }
}

impl Call {
    fn simpler(&self) -> Vec<Self> {
        let mut found = Vec::new();
        match self {
            Self::Push {
                parity,
                shown,
                store,
                state,
            } => {
                let shallower = [8, 9]
                    .into_iter()
                    .filter(|depth| *depth < shown.shape.depth);
                let with = |depth| PlaneNumbers {
                    depth,
                    ..shown.shape
                };
                let mut shapes: Vec<PlaneNumbers> = shallower.map(with).collect();
                for width in smaller_numbers(shown.shape.width.into()) {
                    let width = width as u32;
                    shapes.push(PlaneNumbers {
                        width,
                        ..shown.shape
                    });
                }
                for height in smaller_numbers(shown.shape.height.into()) {
                    let height = height as u32;
                    shapes.push(PlaneNumbers {
                        height,
                        ..shown.shape
                    });
                }
                for mut shape in shapes {
                    shape.stride = judge::row(shape) as u32;
                    found.push(Self::Push {
                        parity: *parity,
                        shown: Rc::new(shown.reshaped(shape)),
                        store: *store,
                        state: *state,
                    });
                }
            }
            Self::Measured {
                parity,
                present,
                numbers,
                state,
            } => {
                for at in 0..4 {
                    for less in smaller_numbers(numbers[at]) {
                        let mut numbers = *numbers;
                        numbers[at] = less;
                        found.push(Self::Measured {
                            parity: *parity,
                            present: *present,
                            numbers,
                            state: *state,
                        });
                    }
                }
            }
            Self::Reset { .. } | Self::Late(_) => {}
        }
        found
    }
}

// ---- Calls

fn push(parity: u8, shown: &Rc<Shown>) -> Call {
    Call::Push {
        parity,
        shown: shown.clone(),
        store: ALL,
        state: ALL,
    }
}

fn measured(parity: u8, symbol: Symbol) -> Call {
    let [busy, other] = symbol.usual();
    Call::Measured {
        parity,
        present: 1,
        numbers: [busy, 1350, other, 1350],
        state: ALL,
    }
}

fn absent(parity: u8) -> Call {
    Call::Measured {
        parity,
        present: 0,
        numbers: [40, 1350, 0, 1350],
        state: ALL,
    }
}

const RESET: Call = Call::Reset { state: ALL };

/// Of 8 bits, or of ten where a field is 255: there most words are past 1,023.
fn flat(width: u32, height: u32, top: u8, bottom: u8) -> Rc<Shown> {
    let deep = top == 255 || bottom == 255;
    let (depth, bytes) = if deep { (10, 2) } else { (8, 1) };
    let looks = [Look::flat(top), Look::flat(bottom)];
    let shape = read::numbers(width, height, depth, width * bytes, 0);
    Rc::new(Shown::whole(shape, Shows::Looks(looks, 0)))
}

/// Every sequence of `length` calls of the alphabet, each after `before`.
fn every(before: Vec<Call>, alphabet: Vec<Call>, length: u32) -> impl Iterator<Item = Calls> {
    let letters = alphabet.len() as u64;
    (0..letters.pow(length)).map(move |code| {
        let letter = |at: u32| alphabet[(code / letters.pow(at) % letters) as usize].clone();
        let calls = before.iter().cloned().chain((0..length).map(letter));
        Calls {
            printed: code % 64 == 0,
            ..Calls::new(calls.collect())
        }
    })
}

/// From a fresh detector on: pictures that repeat one field or none, led by
/// either, of another size, of one row; counts; a reset; a refused picture.
fn alphabet() -> Vec<Call> {
    let [one, other, third] = [(0, 0), (0, 255), (255, 255)].map(|(a, b)| flat(64, 8, a, b));
    let narrow = flat(48, 8, 255, 255);
    let row = flat(64, 1, 0, 0);
    vec![
        push(0, &one),
        push(0, &other),
        push(0, &third),
        push(1, &one),
        push(0, &narrow),
        push(0, &row),
        measured(0, Symbol::Moved),
        absent(0),
        measured(1, Symbol::RepeatFirst),
        RESET,
        Call::Push {
            parity: 0,
            shown: third,
            store: 400,
            state: ALL,
        },
    ]
}

/// Frames of the pattern from this step on, after a first one, until it locks,
/// and so many more.
fn locking(step: usize, more: usize) -> Vec<Call> {
    // The cards: the frame at which it locks, by the step of the first.
    let until = [11, 10, 9, 13, 12][step] + more;
    let frames = (0..until).map(|at| measured(0, PATTERN[(step + at) % 5]));
    std::iter::once(absent(0)).chain(frames).collect()
}

/// From a lock on: every symbol, none, another field, a reset, a refused call,
/// and the same four billion frames on.
fn alphabet_of_a_lock() -> Vec<Call> {
    let mut all: Vec<Call> = SYMBOLS.map(|symbol| measured(0, symbol)).into();
    all.extend([
        absent(0),
        measured(1, Symbol::Moved),
        RESET,
        Call::Measured {
            parity: 0,
            present: 2,
            numbers: [0, 1350, 40, 1350],
            state: ALL,
        },
        Call::Late(2),
    ]);
    all
}

/// A frame that is kept, and then a lock by counts.
fn locking_after(kept: Call, step: usize) -> Vec<Call> {
    let mut calls = locking(step, 0);
    calls[0] = kept;
    calls
}

/// Pictures after that: as it was, with a field or both moved, one row or one
/// column more or less, led by the other field.
fn alphabet_of_pictures() -> Vec<Call> {
    let moved = [(0, 0), (255, 0), (0, 255), (90, 90)];
    let mut all: Vec<Call> = moved
        .into_iter()
        .map(|(top, bottom)| push(0, &flat(64, 32, top, bottom)))
        .collect();
    for (width, height) in [(64, 31), (64, 33), (63, 32), (65, 32), (32, 64)] {
        all.push(push(0, &flat(width, height, 255, 255)));
    }
    all.push(push(1, &flat(64, 32, 0, 0)));
    all
}

/// Stills in a row after a lock, then the pattern goes on, at every step.
fn stills() -> impl Iterator<Item = Calls> {
    (0..5).flat_map(|step| {
        (0..5).flat_map(move |more| {
            (0..=16).map(move |stills| {
                let mut calls = locking(step, more);
                let taken = calls.len() - 1;
                calls.extend((0..stills).map(|_| measured(0, Symbol::Still)));
                let on = (0..20).map(|at| measured(0, PATTERN[(step + taken + stills + at) % 5]));
                calls.extend(on);
                Calls::new(calls)
            })
        })
    })
}

/// Counts for what was seen, at or near a threshold, of any totals.
fn random_measured(random: &mut Random, seen: Seen) -> Call {
    let total = match random.below(8) {
        0 => random.next(),
        1 => u64::MAX - random.below(3),
        2 => random.near(&[512, 640, 1024, 2048, 65_536]),
        _ => *random.pick(&[0, 1, 100, 1350, 8160]),
    };
    let [busy, other] = match seen.symbol {
        Some(symbol) => symbol.near(random, total),
        None => [random.next(), random.next()],
    };
    Call::Measured {
        parity: seen.first,
        present: seen.symbol.is_some().into(),
        numbers: [busy, total, other, random.next()],
        state: ALL,
    }
}

/// Now and then puts a detector so far on that it takes few frames more, and
/// resets it soon after the last of them.
#[derive(Default)]
struct Lateness {
    /// Frames until the reset; 0 for no lateness.
    left: u64,
}

impl Lateness {
    fn start(&mut self, random: &mut Random, calls: &mut Vec<Call>) {
        let left = random.between(0, 30);
        calls.push(Call::Late(left));
        self.left = left + random.between(1, 12);
    }

    fn frame(&mut self, calls: &mut Vec<Call>) {
        if self.left == 1 {
            calls.push(RESET);
        }
        self.left = self.left.saturating_sub(1);
    }
}

/// A film of counts with resets, refused calls, and frames four billion later.
fn measured_film(random: &mut Random, length: u64) -> Calls {
    let mut film = Film::new(random);
    let mut late = Lateness::default();
    let mut calls = Vec::with_capacity(length as usize);
    while (calls.len() as u64) < length {
        let seen = film.next(random);
        calls.push(random_measured(random, seen));
        late.frame(&mut calls);
        match random.below(600) {
            0 => calls.push(RESET),
            1 => late.start(random, &mut calls),
            2..14 => calls.push(refused_measured(random)),
            _ => {}
        }
    }
    Calls::new(calls)
}

fn refused_measured(random: &mut Random) -> Call {
    let numbers = [0; 4].map(|_| random.below(100));
    let unnamed = *random.pick(&[2, 3, 128, 255]);
    let short = random.below(STATE as u64) as usize;
    match random.below(4) {
        0 => Call::Measured {
            parity: unnamed,
            present: random.below(3) as u8,
            numbers,
            state: *random.pick(&[ALL, short]),
        },
        1 => Call::Measured {
            parity: random.below(2) as u8,
            present: unnamed,
            numbers,
            state: *random.pick(&[ALL, short]),
        },
        2 => Call::Measured {
            parity: 0,
            present: 1,
            numbers,
            state: *random.pick(&[STATE - 1, short]),
        },
        _ => Call::Reset {
            state: *random.pick(&[STATE - 1, short]),
        },
    }
}

/// Sizes around the edges of blocks; of most the fields have four blocks or
/// more, so that one can have moved.
fn size(random: &mut Random) -> (u32, u32) {
    let edge = |random: &mut Random, edges: &[u32]| {
        let offset = random.below(3) as u32;
        *random.pick(edges) + offset - 1
    };
    match random.below(8) {
        0 => (random.between(1, 70) as u32, random.between(1, 5) as u32),
        1 => (random.between(1, 3) as u32, edge(random, &[16, 64, 80])),
        2 | 3 => (edge(random, &[16, 32]), edge(random, &[32, 48, 64])),
        _ => (edge(random, &[48, 64, 80, 112]), edge(random, &[16, 32])),
    }
}

fn shape(random: &mut Random) -> PlaneNumbers {
    let (width, height) = size(random);
    let mut shape = PlaneNumbers {
        width,
        height,
        depth: given::depth(random),
        stride: 0,
        layout: 0,
    };
    shape.stride = judge::row(shape) as u32 + *random.pick(&[0, 0, 1, 5, 16]);
    shape
}

/// A level that differs by more than 8. Often 255, since only there the words of a
/// picture can have stray bits.
fn next_level(random: &mut Random, level: u8) -> u8 {
    if level < 247 && !random.one_in(4) {
        255
    } else {
        level.wrapping_add(*random.pick(&[9, 100, 128, 247]))
    }
}

/// The field of the next frame: as it was or nearly so, or moved, in all blocks
/// or in just as few as count. At 255 it stays longer than elsewhere.
fn next_look(random: &mut Random, look: Look, moved: bool) -> Look {
    let leaves = if look.level == 255 {
        random.one_in(3)
    } else {
        !random.one_in(3)
    };
    let level = if look.blocks > 0 && random.one_in(2) {
        // What was more in some blocks is gone.
        return Look {
            blocks: if moved { 0 } else { look.blocks.min(1) },
            ..look
        };
    } else if moved && leaves {
        next_level(random, look.level)
    } else {
        look.level
    };
    if level != look.level {
        return Look::flat(level);
    }
    Look {
        level,
        blocks: if moved {
            *random.pick(&[3, 4, 4, 5])
        } else {
            *random.pick(&[0, 0, 1, 2])
        },
        samples: *random.pick(&[31, 32, 33, 33, 128]),
        more: *random.pick(&[8, 9, 9, 200, 247, 248]),
    }
}

/// A film of pictures, among them some counts, resets, changes of size, refused
/// calls, and frames four billion later.
fn shown_film(
    random: &mut Random,
    length: u64,
    shape_of: fn(&mut Random) -> PlaneNumbers,
) -> Calls {
    let mut film = Film::new(random);
    let mut calls = Vec::new();
    let mut shape = shape_of(random);
    let mut looks = [Look::flat(20), Look::flat(255)];
    let mut late = Lateness::default();
    let counted = random.one_in(3);
    let restless = *random.pick(&[20, 60, 400]);
    while (calls.len() as u64) < length {
        let seen = film.next(random);
        late.frame(&mut calls);
        if seen.symbol.is_none() || counted && random.one_in(4) {
            calls.push(random_measured(random, seen));
            continue;
        }
        let (first, second) = match seen.symbol {
            Some(Symbol::RepeatFirst) => (false, true),
            Some(Symbol::RepeatSecond) => (true, false),
            Some(Symbol::Moved) => (true, true),
            _ => (false, false),
        };
        let [leading, trailing] = [seen.first, 1 - seen.first].map(usize::from);
        looks[leading] = next_look(random, looks[leading], first);
        looks[trailing] = next_look(random, looks[trailing], second);
        let more = *random.pick(&[0, 0, 0, 1, 64]);
        let needed = judge::needed(shape) as usize;
        let shows = Shows::Looks(looks, random.next());
        let shown = Rc::new(Shown::new(shape, needed + more, shows));
        calls.push(push(seen.first, &shown));
        if random.one_in(restless) {
            match random.below(5) {
                0 => match random.below(4) {
                    0 => shape = shape_of(random),
                    1 => shape.height = (shape.height + random.below(3) as u32).max(2) - 1,
                    2 => shape.width = (shape.width + random.below(3) as u32).max(2) - 1,
                    _ => shape.depth = given::depth(random),
                },
                1 => calls.push(RESET),
                2 => late.start(random, &mut calls),
                _ => calls.push(refused_push(random, seen.first, &shown)),
            }
            shape.stride = shape.stride.max(judge::row(shape) as u32);
        }
    }
    Calls {
        printed: true,
        ..Calls::new(calls)
    }
}

/// A picture of which the parity, the shape, the length, the store or the state is
/// wrong, or two of them.
fn refused_push(random: &mut Random, first: u8, shown: &Rc<Shown>) -> Call {
    let samples = judge::floats(shown.shape);
    let mut wrong = shown.again();
    let (mut parity, mut store, mut state) = (first, ALL, ALL);
    for _ in 0..random.between(1, 2) {
        match random.below(8) {
            0 => parity = *random.pick(&[2, 3, 255]),
            1 => wrong.shape.depth = *random.pick(&[0, 7, 17, 264]),
            2 => wrong.shape.width = *random.pick(&[0, 8193, 65_537]),
            3 => wrong.shape.height = *random.pick(&[0, 4353, 65_537]),
            4 => wrong.length = (judge::needed(shown.shape) as usize).saturating_sub(1),
            5 => store = samples.saturating_sub(1) as usize,
            6 => store = random.below(samples.max(1)) as usize,
            _ => state = *random.pick(&[0, 1, 100, STATE - 1]),
        }
    }
    Call::Push {
        parity,
        shown: Rc::new(wrong),
        store,
        state,
    }
}

pub fn run(random: &mut Random) -> Result<Tally, Failure> {
    let mut own = || Random::new(random.next());
    let (mut for_measured, mut for_shown) = (own(), own());
    let fresh = every(Vec::new(), alphabet(), 5);
    let locked = (0..5).flat_map(|step| every(locking(step, step), alphabet_of_a_lock(), 4));
    let pictured = (0..5).flat_map(|step| {
        let kept = push(0, &flat(64, 32, 0, 0));
        every(locking_after(kept, step), alphabet_of_pictures(), 3)
    });
    let counts = (0..400).map(move |_| measured_film(&mut for_measured, 1_000));
    let pictures = (0..600).map(move |_| shown_film(&mut for_shown, 100, shape));
    let least = Least {
        accepted: 1_400_000,
        refused: 90_000,
    };
    let all = smallest().chain(fresh).chain(locked).chain(pictured);
    let all = all.chain(stills()).chain(counts).chain(pictures);
    Tally::of(NAME, least, all)
}

/// A picture of one sample, of ten bits: 255 is kept of it.
fn smallest() -> impl Iterator<Item = Calls> {
    read::WORDS.into_iter().map(|word| {
        let shape = read::numbers(1, 1, 10, 2, 0);
        let shown = Shown::whole(shape, Shows::Listed(word.to_le_bytes().to_vec()));
        Calls {
            printed: true,
            ..Calls::new(vec![push(0, &Rc::new(shown))])
        }
    })
}

/// Sequences of symbols, numbered, of one length.
#[derive(Clone)]
struct Sequences {
    first: u64,
    count: u64,
    length: u32,
}

impl Sequences {
    fn symbol(&self, code: u64, at: u32) -> Symbol {
        SYMBOLS[(code >> (2 * at) & 3) as usize]
    }
}

impl fmt::Debug for Sequences {
    fn fmt(&self, f: &mut fmt::Formatter<'_>) -> fmt::Result {
        let symbols = (0..self.length).map(|at| self.symbol(self.first, at));
        let symbols: Vec<_> = symbols.collect();
        write!(f, "{symbols:?} after a first frame")?;
        if self.count > 1 {
            write!(f, ", and the {} after it", self.count - 1)?;
        }
        Ok(())
    }
}

impl Case for Sequences {
    fn compare(&self) -> Result<u8, Difference> {
        for code in self.first..self.first + self.count {
            let mut sides = Sides::new(0)?;
            sides.take(&absent(0))?;
            for at in 0..self.length {
                sides.take(&measured(0, self.symbol(code, at)))?;
            }
        }
        Ok(0)
    }

    fn smaller(&self) -> Vec<Self> {
        if self.count == 1 {
            return Vec::new();
        }
        let half = self.count / 2;
        let later = Self {
            first: self.first + half,
            count: self.count - half,
            ..*self
        };
        vec![
            Self {
                count: half,
                ..*self
            },
            later,
        ]
    }

    fn inputs(&self) -> u64 {
        self.count * u64::from(self.length + 1)
    }
}

/// Every sequence of eleven symbols, and long films of counts and of pictures:
/// more than a hundred million frames.
pub fn many(random: &mut Random) -> Result<Tally, Failure> {
    let mut own = || Random::new(random.next());
    let (mut for_measured, mut for_shown) = (own(), own());
    let least = |accepted| Least {
        accepted,
        refused: 0,
    };
    const LENGTH: u32 = 11;
    const AT_ONCE: u64 = 1 << 10;
    let sequences = (0..4u64.pow(LENGTH) / AT_ONCE).map(|stretch| Sequences {
        first: stretch * AT_ONCE,
        count: AT_ONCE,
        length: LENGTH,
    });
    let mut tally = Tally::of(NAME, least(50_000_000), sequences)?;
    let counts = (0..5_400).map(move |_| measured_film(&mut for_measured, 10_000));
    tally.add(Tally::of(NAME, least(51_000_000), counts)?);
    let pictures = (0..5_000).map(move |_| shown_film(&mut for_shown, 200, shape));
    tally.add(Tally::of(NAME, least(900_000), pictures)?.with_strays()?);
    Ok(tally)
}

// ---- Answers

/// The Rust's detector alone, and what the program `replay_filmdesk` has to find: its
/// store goes on from one detector to the next.
struct Recorder {
    rust: Detector,
    store: Vec<u8>,
    /// Samples of the kept frame; 0 for none.
    kept: usize,
    taken: u64,
    found: Vec<Answer>,
}

impl Recorder {
    fn new() -> Self {
        Self {
            rust: Detector::new(),
            store: vec![FILL; STORE_ROOM],
            kept: 0,
            taken: 0,
            found: Vec::new(),
        }
    }

    fn fresh(&mut self, state: usize) {
        let number = films::detector_new(state);
        if number == 0 {
            self.rust = Detector::new();
            self.kept = 0;
            self.taken = 0;
        }
        let answer = Answer::of("detector_new");
        self.found.push(answer.number(state as u64).gives(number));
    }

    fn locked(&mut self, state: usize) {
        let number = films::detector_read(state);
        let locked = (number == 0).then(|| self.rust.locked().into());
        let answer = Answer::of("detector_locked");
        let answer = answer.number(state as u64).gives(number).byte(locked);
        self.found.push(answer);
    }

    fn predict(&mut self, state: usize, ahead: u64) {
        let number = films::detector_predict(state, ahead);
        let cadence = (number == 0).then(|| cadence_number(self.rust.predict(ahead)));
        let answer = Answer::of("detector_predict");
        let answer = answer.number(state as u64).number(ahead);
        self.found.push(answer.gives(number).byte(cadence));
    }

    fn take(&mut self, call: &Call, room: usize) {
        match *call {
            Call::Push {
                parity,
                ref shown,
                store,
                state,
            } => {
                let state = state.min(STATE_ROOM);
                let store = store.min(room);
                let lent = (shown.shape, shown.length);
                let number =
                    films::detector_push(state, parity, lent, store, self.kept, self.taken);
                let cadence = (number == 0).then(|| {
                    let (frame, kept) = shown.rust(parity);
                    self.store[..kept.len()].copy_from_slice(kept);
                    self.kept = kept.len();
                    self.taken += 1;
                    cadence_number(self.rust.push(frame))
                });
                let answer = Answer::of("detector_push")
                    .number(state as u64)
                    .number(parity)
                    .numbers(listed(shown.shape))
                    .gives(number)
                    .byte(cadence)
                    .slice(shown.lent())
                    .slice(&self.store[..store]);
                let strays = match number {
                    0 => shown.strays(),
                    _ => Strays::default(),
                };
                self.found.push(answer.reads(strays));
            }
            Call::Measured {
                parity,
                present,
                numbers: [busy, total, other_busy, other_total],
                state,
            } => {
                let state = state.min(STATE_ROOM);
                let number = films::detector_push_measured(state, parity, present, self.taken);
                let cadence = (number == 0).then(|| {
                    let measured = (present == 1).then_some((
                        (busy as usize, total as usize),
                        (other_busy as usize, other_total as usize),
                    ));
                    self.taken += 1;
                    cadence_number(self.rust.push_measured(parity_named(parity), measured))
                });
                let answer = Answer::of("detector_push_measured")
                    .number(state as u64)
                    .number(parity)
                    .number(present)
                    .number(busy)
                    .number(total)
                    .number(other_busy)
                    .number(other_total)
                    .gives(number)
                    .byte(cadence);
                self.found.push(answer);
            }
            Call::Reset { state } => {
                let state = state.min(STATE_ROOM);
                let number = films::detector_read(state);
                if number == 0 {
                    self.rust.reset();
                    self.kept = 0;
                    self.taken = 0;
                }
                let answer = Answer::of("detector_reset");
                self.found.push(answer.number(state as u64).gives(number));
            }
            // How a state's bytes stand for its numbers is the desk's own affair.
            Call::Late(_) => {}
        }
    }

    /// A fresh detector, the calls, now and then what it foretells, and a reset.
    fn film(&mut self, random: &mut Random, film: &Calls) {
        if random.one_in(4) {
            self.fresh(random.below(STATE as u64) as usize);
        }
        self.fresh(STATE + random.below(6) as usize);
        let room = film.room().min(STORE_ROOM);
        for call in &film.calls {
            self.take(call, room);
            if random.one_in(16) {
                self.take(&refused_measured(random), room);
            }
            if let Call::Push { parity, shown, .. } = call
                && random.one_in(10)
            {
                self.take(&refused_push(random, parity % 2, shown), room);
            }
            let short = *random.pick(&[0, 1, 100, STATE - 1]);
            let state = if random.one_in(12) { short } else { STATE };
            match random.below(8) {
                0 | 1 => self.locked(state),
                2 | 3 => self.predict(state, *random.pick(&AHEAD)),
                4 if random.one_in(6) => {
                    let ahead = *random.pick(&[1_000_001, 1 << 32, u64::MAX]);
                    self.predict(state, ahead);
                }
                _ => {}
            }
        }
        self.take(&RESET, 0);
        self.locked(STATE);
        self.predict(STATE, 3);
    }
}

/// How many frames of a film belong to a cadence.
fn cadenced(film: &Calls) -> usize {
    let mut recorder = Recorder::new();
    let room = film.room().min(STORE_ROOM);
    film.calls.iter().for_each(|call| recorder.take(call, room));
    let belongs = |answer: &&Answer| {
        let frame = matches!(answer.call, "detector_push" | "detector_push_measured");
        frame && answer.gives == 0 && answer.last() != Some(0)
    };
    recorder.found.iter().filter(belongs).count()
}

/// Small shapes whose fields have four blocks or more, and one of a single row.
fn small_shape(random: &mut Random) -> PlaneNumbers {
    let sizes = [(49, 2), (64, 2), (50, 3), (3, 50), (17, 18), (64, 1)];
    let (width, height) = *random.pick(&sizes);
    let mut shape = PlaneNumbers {
        width,
        height,
        ..shape(random)
    };
    shape.stride = judge::row(shape) as u32 + *random.pick(&[0, 0, 1, 5]);
    shape
}

/// A film of small pictures, some counts among them. What a frame shows is plain:
/// a field moves in all blocks or in at most one.
fn plain_film(random: &mut Random, length: usize) -> Calls {
    let mut film = Film::new(random);
    let mut calls = Vec::new();
    let mut shape = small_shape(random);
    let mut looks = [Look::flat(20), Look::flat(255)];
    while calls.len() < length {
        let seen = film.next(random);
        let Some(symbol) = seen.symbol.filter(|_| !random.one_in(12)) else {
            calls.push(random_measured(random, seen));
            continue;
        };
        let [leading, trailing] = [seen.first, 1 - seen.first].map(usize::from);
        for (field, moved) in [leading, trailing].into_iter().zip(symbol.usual()) {
            let Look { level, .. } = looks[field];
            looks[field] = if moved > 0 {
                Look::flat(next_level(random, level))
            } else {
                Look {
                    level,
                    blocks: random.below(2) as u32,
                    samples: 128,
                    more: *random.pick(&[8, 9, 200]),
                }
            };
        }
        let needed = judge::needed(shape) as usize;
        let more = *random.pick(&[0, 0, 1]);
        let shows = Shows::Looks(looks, random.next());
        let shown = Shown::new(shape, needed + more, shows);
        calls.push(push(seen.first, &Rc::new(shown)));
        if random.one_in(40) {
            shape = small_shape(random);
        }
    }
    Calls::new(calls)
}

/// Films of counts and of pictures with splices, stills, resets, changes of the
/// leading field and of the size, and refused calls: of each kind those in which
/// a third of the frames or more belong to a cadence, and a few others. Then a
/// lock from every step, ended by the twelfth still, the smallest pictures, and
/// short runs of any calls.
pub(crate) fn answers(mut random: Random, store: &mut Vec<u8>) -> Vec<Answer> {
    let random = &mut random;
    let mut recorder = Recorder::new();
    mem::swap(&mut recorder.store, store);
    for kind in 0..11 {
        let film = loop {
            let film = if kind < 5 {
                measured_film(random, 80)
            } else {
                plain_film(random, 40)
            };
            if 3 * cadenced(&film) >= film.calls.len() {
                break film;
            }
        };
        recorder.film(random, &film);
    }
    for _ in 0..2 {
        let film = measured_film(random, 40);
        recorder.film(random, &film);
        let film = shown_film(random, 30, small_shape);
        recorder.film(random, &film);
    }
    for step in 0..5 {
        let mut calls = locking(step, step);
        calls.extend((0..12).map(|_| measured(0, Symbol::Still)));
        recorder.film(random, &Calls::new(calls));
    }
    for film in smallest() {
        recorder.film(random, &film);
    }
    let letters = alphabet();
    for _ in 0..14 {
        let calls = (0..6).map(|_| random.pick(&letters).clone()).collect();
        recorder.film(random, &Calls::new(calls));
    }
    mem::swap(&mut recorder.store, store);
    recorder.found
}

#[cfg(test)]
mod tests {
    use super::{ALL, Call, Calls, Random, SYMBOLS, Shown, Symbol, shape, shown_film};
    use crate::runs::busy::by_reading;

    /// What a frame shows, by docs/RULES.md, "Blocks and symbols": busy and all
    /// blocks of the leading field, busy ones of the trailing.
    fn symbol_of((first, blocks): (u64, u64), second: u64) -> Symbol {
        let moving = (blocks / 128).max(4);
        let quiet = (blocks / 1024).max(1);
        if first <= quiet && second >= moving {
            Symbol::RepeatFirst
        } else if second <= quiet && first >= moving {
            Symbol::RepeatSecond
        } else if first < moving && second < moving {
            Symbol::Still
        } else {
            Symbol::Moved
        }
    }

    /// What the pictures of a film show against those before them, where they
    /// have the same size and leading field.
    fn symbols(film: &Calls) -> Vec<Symbol> {
        let taken: Vec<_> = film
            .calls
            .iter()
            .filter_map(|call| match call {
                Call::Push {
                    parity,
                    shown,
                    store: ALL,
                    state: ALL,
                } if *parity < 2 && shown.is_whole() => Some((*parity, shown)),
                _ => None,
            })
            .collect();
        let mut found = Vec::new();
        for pair in taken.windows(2) {
            let [(before, then), (parity, now)] = pair else {
                unreachable!("two of them");
            };
            let size = |shown: &Shown| (shown.shape.width, shown.shape.height);
            let (width, height) = size(now);
            if before != parity || size(then) != (width, height) || height == 1 {
                continue;
            }
            let counts = |parity| {
                let (now, then) = (now.rust(0).1, then.rust(0).1);
                by_reading(now, then, width as usize, height as usize, parity)
            };
            found.push(symbol_of(counts(*parity), counts(1 - *parity).0));
        }
        found
    }

    /// Stray bits stand where 255 is kept, and so leave what a picture shows.
    #[test]
    fn pictures_show_every_symbol() {
        let mut random = Random::new(3);
        let mut counts = [0; 4];
        for _ in 0..60 {
            for symbol in symbols(&shown_film(&mut random, 100, shape)) {
                let at = SYMBOLS.iter().position(|known| *known == symbol);
                counts[at.expect("one of the four")] += 1;
            }
        }
        let all: u32 = counts.iter().sum();
        assert!(counts.iter().all(|count| 10 * count > all), "{counts:?}");
    }
}
