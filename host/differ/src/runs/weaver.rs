//! `desk_weaver_new`, `desk_weaver_clear` and `desk_weaver_push` against
//! `weave::Weaver`, in long streams. A refused call is not given to the Rust,
//! and must leave all that is lent as it was.
//!
//! How the bytes of a state stand for a weaver is the desk's to choose
//! (crates/weavedesk/specs/Waiting.antt): seven numbers of eight bytes, low
//! byte first. Any bytes stand for some weaver.

use std::cell::RefCell;
use std::collections::BTreeMap;
use std::fmt;
use std::hint::black_box;
use std::mem;

use desk::WEAVER_BYTES;
use oracle::decode::weave::Weaver;
use oracle::mediadecoder::es::Format;
use oracle::mediadecoder::video::{Frame, Plane};

use super::fields::{self, Field};
use crate::answers::Answer;
use crate::case::{Case, Difference, Failure, Least, Tally, same, smaller_numbers};
use crate::judge;
use crate::judge::weaves::{Kept, Room};
use crate::lent::Guarded;
use crate::random::Random;

pub const NAME: &str = "weaver";

/// Bytes of the state that are there; a call may be lent fewer.
const STATE: usize = WEAVER_BYTES + 8;

#[derive(Debug, Clone)]
enum Step {
    /// Each with the bytes of the state that are lent.
    New(usize),
    Clear(usize),
    Push(Push),
    /// The state becomes another one between two calls.
    State(Numbers),
}

/// A state: whether a field waits, its width, height, depth and parity, whether
/// it has a time (1 a time `n`, 2 a time `-(n + 1)`), and `n`.
type Numbers = [u64; 7];

const EMPTY: Numbers = [0; 7];

fn waiting((width, height, depth): (u32, u32, u32), parity: u8, time: Option<i64>) -> Numbers {
    let (kind, size) = match time {
        None => (0, 0),
        Some(time) if time >= 0 => (1, time as u64),
        Some(time) => (2, !time as u64),
    };
    let [width, height, depth] = [width, height, depth].map(u64::from);
    [1, width, height, depth, parity.into(), kind, size]
}

fn bytes_of(numbers: Numbers) -> Vec<u8> {
    numbers.map(u64::to_le_bytes).concat()
}

/// The field that waits by these numbers, and its time: each is cut to the size
/// of its place, and one that names nothing counts as the last that does.
fn kept_by(numbers: Numbers) -> Option<(Kept, Option<i64>)> {
    let [held, width, height, depth, parity, kind, size] = numbers;
    let size_of = (width as u16, height as u16, depth as u8);
    let (width, height, depth) = (size_of.0.into(), size_of.1.into(), size_of.2.into());
    let size = (size & i64::MAX as u64) as i64;
    let time = match kind {
        0 => None,
        1 => Some(size),
        _ => Some(!size),
    };
    let kept = Kept {
        size: (width, height, depth),
        parity: u8::from(parity != 0),
        stored: stored((width, height, depth)),
    };
    (held != 0).then_some((kept, time))
}

/// Bytes of a field of this size without padding.
fn stored((width, height, depth): (u32, u32, u32)) -> u64 {
    let [width, height] = [width, height].map(u64::from);
    let size = if depth > 8 { 2 } else { 1 };
    (width * height + 2 * width.div_ceil(2) * height.div_ceil(2)) * size
}

#[derive(Debug, Clone)]
struct Push {
    parity: u8,
    timed: u8,
    time: i64,
    field: Field,
    room: Room,
}

/// A weaver from new on.
#[derive(Clone)]
struct Stream {
    /// Of what lent places hold before each call.
    seed: u64,
    /// Bytes of the store that are there; a call may be lent fewer.
    store: usize,
    steps: Vec<Step>,
    /// How many calls gave each number, once it is compared.
    numbers: RefCell<BTreeMap<u8, u64>>,
}

impl fmt::Debug for Stream {
    fn fmt(&self, f: &mut fmt::Formatter<'_>) -> fmt::Result {
        f.debug_struct("Stream")
            .field("seed", &self.seed)
            .field("store", &self.store)
            .field("steps", &self.steps)
            .finish()
    }
}

/// Both sides between two calls.
struct Sides {
    random: Random,
    state: Vec<u8>,
    store: Vec<u8>,
    rust: Weaver,
    kept: Option<Kept>,
}

impl Sides {
    /// Lends the first bytes of the state to a call that has nothing else.
    fn of_state(
        &mut self,
        length: usize,
        number: u8,
        call: impl Fn(&mut [u8]) -> u8,
    ) -> Result<u8, Difference> {
        let mut lent = Guarded::holding(self.random.next(), &self.state[..length]);
        let given = call(lent.lend());
        same("the number, which is the rules'", given, number)?;
        self.take_state(black_box(lent), (number == 0).then_some(EMPTY))?;
        if number == 0 {
            self.rust.clear();
            self.kept = None;
        }
        Ok(number)
    }

    /// The state after a call, which is as it was after a refusal.
    fn take_state(&mut self, lent: Guarded<u8>, now: Option<Numbers>) -> Result<(), Difference> {
        let now = now.map(bytes_of).unwrap_or_default();
        lent.written(&now)
            .map_err(|difference| within("the state", difference))?;
        self.state[..now.len()].copy_from_slice(&now);
        Ok(())
    }

    /// Another state, over the store as it is: the Rust gets the field that the
    /// store then holds, if it holds one.
    fn put_state(&mut self, numbers: Numbers) {
        self.state[..WEAVER_BYTES].copy_from_slice(&bytes_of(numbers));
        self.rust = Weaver::default();
        self.kept = None;
        if let Some((kept, time)) = kept_by(numbers) {
            self.kept = Some(kept);
            if let Some(frame) = unpack(&self.store, kept.size) {
                self.rust.push(frame, kept.parity == 0, time);
            }
        }
    }

    fn push(&mut self, push: &Push) -> Result<u8, Difference> {
        let Push {
            parity,
            timed,
            time,
            ref field,
            room,
        } = *push;
        let lent = field.lent();
        let number = judge::weaves::push(self.kept, parity, timed, lent, room);
        let mut woven: [Vec<u8>; 3] = Default::default();
        let mut packed = Vec::new();
        let mut answer = None;
        let mut now = None;
        if number == 0 {
            let at = (timed == 1).then_some(time);
            let by_rust = self.rust.push(field.frame(), parity == 0, at);
            let fits = self.kept.is_some_and(|kept| kept.fits(lent, parity));
            let found = by_rust.is_some();
            same("whether docs/RULES.md and the Rust pair it", fits, found)?;
            self.kept = match by_rust {
                Some((frame, earlier)) => {
                    woven = frame.planes.map(|plane| plane.data);
                    answer = Some((1, earlier.is_some().into(), earlier.unwrap_or(0)));
                    now = Some(EMPTY);
                    None
                }
                None => {
                    packed = pack(field);
                    answer = Some((0, 0, 0));
                    now = Some(waiting(field.size(), parity, at));
                    Some(Kept::of(lent, parity))
                }
            };
        }

        let random = &mut self.random;
        let mut state = Guarded::holding(random.next(), &self.state[..room.state]);
        let mut store = Guarded::holding(random.next(), &self.store[..room.store]);
        let mut outs = room.outs.map(|out| Guarded::noise(random.next(), out));
        let mut flags = [0; 2].map(|_| Guarded::<u8>::noise(random.next(), 1));
        let mut earlier = Guarded::<i64>::noise(random.next(), 1);
        let [picture, earlier_timed] = &mut flags;
        let [luma, cb, cr] = field.planes();
        let [out_luma, out_cb, out_cr] = outs.each_mut().map(Guarded::lend);
        let given = desk::calls::weaver_push(
            state.lend(),
            parity,
            timed,
            time,
            field.numbers(),
            luma,
            cb,
            cr,
            store.lend(),
            out_luma,
            out_cb,
            out_cr,
            &mut picture.lend()[0],
            &mut earlier_timed.lend()[0],
            &mut earlier.lend()[0],
        );
        same("the number, which is the rules'", given, number)?;
        // The compiler must not suppose that the call kept to what it was lent.
        let [picture, earlier_timed] = black_box(flags);
        let expected = answer.map_or((None, None, None), |(picture, timed, time)| {
            (Some(picture), Some(timed), Some(time))
        });
        let one = |name, written: Result<(), Difference>| {
            written.map_err(|difference| within(name, difference))
        };
        one("`picture`", picture.written(expected.0.as_slice()))?;
        one(
            "`earlier_timed`",
            earlier_timed.written(expected.1.as_slice()),
        )?;
        one(
            "`earlier_time`",
            black_box(earlier).written(expected.2.as_slice()),
        )?;
        for (out, expected) in black_box(outs).iter().zip(&woven) {
            one("a woven plane", out.written(expected))?;
        }
        let mut store = black_box(store);
        one("the store", store.written(&packed))?;
        self.store[..room.store].copy_from_slice(store.lend());
        self.take_state(black_box(state), now)?;
        field.kept()?;
        Ok(number)
    }
}

/// A difference in one of several lent parts.
fn within(part: &str, difference: Difference) -> Difference {
    Difference {
        what: format!("{part}: {}", difference.what),
        ..difference
    }
}

/// The lines of a field's planes, one after the other, without padding: what
/// the store keeps.
fn pack(field: &Field) -> Vec<u8> {
    let mut packed = Vec::new();
    for given in &field.0 {
        let row = judge::row(given.shape) as usize;
        for y in 0..given.shape.height as usize {
            let start = y * given.shape.stride as usize;
            packed.extend_from_slice(&given.plane().data[start..start + row]);
        }
    }
    packed
}

/// The field of this size that a store keeps, if the sizes are a field's and
/// the store is long enough.
fn unpack(store: &[u8], (width, height, depth): (u32, u32, u32)) -> Option<Frame> {
    let field =
        (1..=8192).contains(&width) && (1..=2176).contains(&height) && (8..=16).contains(&depth);
    if !field || (store.len() as u64) < stored((width, height, depth)) {
        return None;
    }
    let mut rest = store;
    let mut plane = |width: u32, height: u32| {
        let stride = width as usize * if depth > 8 { 2 } else { 1 };
        let (data, after) = rest.split_at(stride * height as usize);
        rest = after;
        Plane {
            data: data.to_vec(),
            stride,
            width: width as usize,
            height: height as usize,
        }
    };
    let (half_width, half_height) = (width.div_ceil(2), height.div_ceil(2));
    let planes = [
        plane(width, height),
        plane(half_width, half_height),
        plane(half_width, half_height),
    ];
    Some(Frame {
        format: Format {
            width,
            height,
            depth: depth as u8,
            ..Format::default()
        },
        planes,
        ..Frame::default()
    })
}

impl Case for Stream {
    fn compare(&self) -> Result<u8, Difference> {
        let mut random = Random::new(self.seed);
        let mut sides = Sides {
            state: random.bytes(STATE),
            store: random.bytes(self.store),
            random,
            rust: Weaver::default(),
            kept: None,
        };
        let mut numbers = BTreeMap::new();
        sides.of_state(STATE, 0, desk::calls::weaver_new)?;
        for (at, step) in self.steps.iter().enumerate() {
            let too_short = |length: usize, number| if length < WEAVER_BYTES { number } else { 0 };
            let number = match step {
                Step::New(length) => {
                    sides.of_state(*length, too_short(*length, 7), desk::calls::weaver_new)
                }
                Step::Clear(length) => {
                    sides.of_state(*length, too_short(*length, 6), desk::calls::weaver_clear)
                }
                Step::Push(push) => sides.push(push),
                Step::State(numbers) => {
                    sides.put_state(*numbers);
                    continue;
                }
            };
            let number = number.map_err(|difference| within(&format!("step {at}"), difference))?;
            *numbers.entry(number).or_default() += 1;
        }
        self.numbers.replace(numbers);
        Ok(0)
    }

    fn count(&self, _: u8, numbers: &mut BTreeMap<u8, u64>) {
        for (number, count) in &*self.numbers.borrow() {
            *numbers.entry(*number).or_default() += count;
        }
    }

    fn smaller(&self) -> Vec<Self> {
        let with = |steps: Vec<Step>| Self {
            steps,
            ..self.clone()
        };
        let mut found = Vec::new();
        // Without a stretch of steps, the longest first.
        let mut stretch = self.steps.len();
        while stretch > 0 {
            for start in (0..self.steps.len()).step_by(stretch) {
                let mut steps = self.steps.clone();
                steps.drain(start..steps.len().min(start + stretch));
                found.push(with(steps));
            }
            stretch /= 2;
        }
        if self.steps.len() > 8 {
            return found;
        }
        let sizes: Vec<_> = self.steps.iter().filter_map(Step::size).collect();
        if let Some(first) = sizes.first()
            && sizes.iter().all(|size| size == first)
        {
            // All fields of one size: all of them smaller.
            for size in fields::smaller_sizes(*first) {
                let resized = self.steps.iter().map(|step| step.resized(size));
                if let Some(steps) = resized.collect() {
                    found.push(with(steps));
                }
            }
        }
        for (at, step) in self.steps.iter().enumerate() {
            for simpler in step.smaller() {
                let mut steps = self.steps.clone();
                steps[at] = simpler;
                found.push(with(steps));
            }
        }
        found
    }
}

impl Step {
    fn size(&self) -> Option<(u32, u32, u32)> {
        match self {
            Self::Push(push) => Some(push.field.size()),
            _ => None,
        }
    }

    fn resized(&self, size: (u32, u32, u32)) -> Option<Self> {
        let Self::Push(push) = self else {
            return Some(self.clone());
        };
        let mut push = push.clone();
        push.field = push.field.resized(size)?;
        Some(Self::Push(push))
    }

    fn smaller(&self) -> Vec<Self> {
        if let Self::State(numbers) = self {
            let mut found = Vec::new();
            for at in 0..numbers.len() {
                for less in smaller_numbers(numbers[at]) {
                    let mut numbers = *numbers;
                    numbers[at] = less;
                    found.push(Self::State(numbers));
                }
            }
            return found;
        }
        let Self::Push(push) = self else {
            return Vec::new();
        };
        let mut found = Vec::new();
        let mut with = |change: &dyn Fn(&mut Push)| {
            let mut simpler = push.clone();
            change(&mut simpler);
            found.push(Self::Push(simpler));
        };
        for less in smaller_numbers(push.timed.into()) {
            with(&|push| push.timed = less as u8);
        }
        for less in smaller_numbers(push.time.unsigned_abs()) {
            with(&|push| push.time = less as i64);
        }
        for field in push.field.simpler() {
            with(&|push| push.field = field.clone());
        }
        found
    }
}

/// Makes a stream step by step; it knows what waits, so that it can go just
/// past each bound.
struct Maker {
    random: Random,
    store: usize,
    sizes: Vec<(u32, u32, u32)>,
    size: (u32, u32, u32),
    parity: u8,
    kept: Option<Kept>,
}

impl Maker {
    fn new(mut random: Random) -> Self {
        let (width, height) = *random.pick(&[(24, 8), (24, 8), (6, 4), (40, 12)]);
        let first = fields::size(&mut random, width, height);
        let mut sizes = vec![first];
        for _ in 0..random.between(0, 3) {
            // Another size, or one that differs in a single number.
            let (width, height, depth) = first;
            sizes.push(match random.below(5) {
                0 => (width + 1, height, depth),
                1 => (width, height + 1, depth),
                2 => (width, height, if depth == 16 { 8 } else { depth + 1 }),
                _ => fields::size(&mut random, 24, 8),
            });
        }
        let most = sizes.iter().map(|size| stored(*size)).max().unwrap_or(0) as usize;
        Self {
            store: most + *random.pick(&[0, 1, 100]),
            random,
            sizes,
            size: first,
            parity: 0,
            kept: None,
        }
    }

    fn step(&mut self) -> Step {
        let random = &mut self.random;
        // With a state that no store of ours fits, nothing else is taken.
        let stuck = self
            .kept
            .is_some_and(|kept| kept.stored > self.store as u64);
        if random.one_in(if stuck { 3 } else { 25 }) {
            let length = *random.pick(&[0, 1, 55, 55, 56, 56, 57, STATE, STATE, STATE]);
            if length >= WEAVER_BYTES {
                self.kept = None;
            }
            return if random.one_in(4) {
                Step::New(length)
            } else {
                Step::Clear(length)
            };
        }
        if random.one_in(60) {
            let numbers = self.numbers();
            self.kept = kept_by(numbers).map(|(kept, _)| kept);
            return Step::State(numbers);
        }
        if random.one_in(8) {
            self.size = *random.pick(&self.sizes);
        }
        if !random.one_in(6) {
            self.parity = 1 - self.parity;
        }
        let spoilt = random.one_in(5);
        let push = self.push(spoilt);
        let lent = push.field.lent();
        let Push { parity, timed, .. } = push;
        if judge::weaves::push(self.kept, parity, timed, lent, push.room) == 0 {
            let fits = self.kept.is_some_and(|kept| kept.fits(lent, parity));
            self.kept = (!fits).then(|| Kept::of(lent, parity));
        } else if self.random.one_in(2) {
            // The field that was refused may come again as it should.
            self.parity = 1 - self.parity;
        }
        Step::Push(push)
    }

    /// A state that names one of the sizes, with bits past each number's place,
    /// or anything.
    fn numbers(&mut self) -> Numbers {
        let random = &mut self.random;
        if random.one_in(4) {
            return EMPTY.map(|_| random.next());
        }
        let time = random.one_in(2).then(|| random.next() as i64);
        let size = *random.pick(&self.sizes);
        let mut numbers = waiting(size, random.below(2) as u8, time);
        for (number, place) in numbers.iter_mut().zip([0, 16, 16, 8, 0, 0, 63]) {
            if random.one_in(4) {
                *number |= random.next() << place;
            }
        }
        numbers
    }

    fn push(&mut self, spoilt: bool) -> Push {
        let random = &mut self.random;
        let mut drafts = fields::drafts(random, self.size);
        let mut faults = Vec::new();
        if spoilt {
            for _ in 0..*random.pick(&[1, 1, 2]) {
                faults.push(random.below(8));
            }
        }
        if faults.iter().any(|fault| *fault <= 2) {
            for _ in 0..*random.pick(&[1, 1, 2]) {
                drafts[random.below(3) as usize].spoil(random);
            }
        }
        let field = fields::filled(random, drafts);
        let lent = field.lent();
        let outs = lent.map(|(shape, _)| {
            let more = *random.pick(&[0, 0, 1, 17]);
            fields::affordable(random, judge::weaves::woven(shape), more)
        });
        let mut push = Push {
            parity: self.parity,
            timed: random.below(2) as u8,
            time: match random.below(4) {
                0 => *random.pick(&[0, -1, 1, i64::MIN, i64::MAX]),
                1 => random.below(1 << 20) as i64,
                _ => random.next() as i64,
            },
            field,
            room: Room {
                state: *random.pick(&[WEAVER_BYTES, WEAVER_BYTES + 1, STATE]),
                store: self.store,
                outs,
            },
        };
        let within = |length: u64| length.min(self.store as u64) as usize;
        let needed = judge::weaves::stored(lent);
        for fault in faults {
            match fault {
                3 => push.parity = *random.pick(&[2, 3, 128, 255]),
                4 => push.timed = *random.pick(&[2, 3, 128, 255]),
                5 => push.room.state = *random.pick(&[0, 1, 8, 55, 55]),
                6 => {
                    // Just enough, or too little, for what waits or for this one.
                    let waits = self.kept.map_or(0, |kept| kept.stored);
                    let bound = *random.pick(&[waits, needed]);
                    let less = *random.pick(&[0, 1, 1, bound / 2, bound]);
                    push.room.store = within(bound.saturating_sub(less));
                }
                7 => {
                    let at = random.below(3) as usize;
                    let less = *random.pick(&[1, 1, 2, 1 << 20]);
                    let enough = judge::weaves::woven(lent[at].0).min(1 << 16) as usize;
                    push.room.outs[at] = enough.saturating_sub(less);
                }
                _ => {}
            }
        }
        push
    }
}

/// Steps of each stream.
const STEPS: usize = 600;
const STREAMS: u64 = 250;

pub fn run(random: &mut Random) -> Result<Tally, Failure> {
    let streams = (0..STREAMS).map(|_| {
        let seed = random.next();
        let mut maker = Maker::new(Random::new(random.next()));
        Stream {
            seed,
            store: maker.store,
            steps: (0..STEPS).map(|_| maker.step()).collect(),
            numbers: RefCell::default(),
        }
    });
    let least = Least {
        accepted: 110_000,
        refused: 12_000,
    };
    Tally::of(NAME, least, streams)
}

// ---- Answers

/// The Rust's weaver alone, and what the program `replay_weavedesk` has to find: its store
/// goes on from one weaver to the next.
struct Recorder {
    rust: Weaver,
    store: Vec<u8>,
    kept: Option<Kept>,
    found: Vec<Answer>,
}

impl Recorder {
    /// A call that has nothing but the state.
    fn of_state(&mut self, call: &'static str, state: usize, too_short: u8) {
        let number = if state < WEAVER_BYTES { too_short } else { 0 };
        if number == 0 {
            self.rust.clear();
            self.kept = None;
        }
        let answer = Answer::of(call).number(state as u64).gives(number);
        self.found.push(answer);
    }

    fn push(&mut self, push: &Push) {
        let Push {
            parity,
            timed,
            time,
            ref field,
            room,
        } = *push;
        let lent = field.lent();
        let number = judge::weaves::push(self.kept, parity, timed, lent, room);
        let mut woven: [Vec<u8>; 3] = Default::default();
        let mut picture = None;
        if number == 0 {
            let at = (timed == 1).then_some(time);
            let by_rust = self.rust.push(field.frame(), parity == 0, at);
            let fits = self.kept.is_some_and(|kept| kept.fits(lent, parity));
            assert_eq!(
                fits,
                by_rust.is_some(),
                "docs/RULES.md pairs as the Rust does"
            );
            self.kept = match by_rust {
                Some((frame, earlier)) => {
                    woven = frame.planes.map(|plane| plane.data);
                    picture = Some((1, u8::from(earlier.is_some()), earlier.unwrap_or(0)));
                    None
                }
                None => {
                    let packed = pack(field);
                    self.store[..packed.len()].copy_from_slice(&packed);
                    picture = Some((0, 0, 0));
                    Some(Kept::of(lent, parity))
                }
            };
        }
        let front = Answer::of("weaver_push")
            .number(room.state as u64)
            .number(parity)
            .number(timed)
            .signed(time);
        let mut answer = field
            .answer(front)
            .gives(number)
            .byte(picture.map(|(picture, ..)| picture))
            .byte(picture.map(|(_, timed, _)| timed))
            .time(picture.map(|(.., time)| time))
            .slice(&self.store[..room.store]);
        for (written, lent) in woven.iter().zip(room.outs) {
            answer = answer.output(written, lent);
        }
        self.found.push(answer);
    }
}

/// A push of more bytes is left out.
const MOST_BYTES: usize = 2_000;

/// Streams of small fields that alternate, repeat and change, with and without
/// times, with clears and refused calls, each from a new weaver.
pub(crate) fn answers(mut random: Random, store: &mut Vec<u8>) -> Vec<Answer> {
    let mut recorder = Recorder {
        rust: Weaver::default(),
        store: mem::take(store),
        kept: None,
        found: Vec::new(),
    };
    let mut streams = 0;
    while streams < 32 {
        let mut maker = Maker::new(Random::new(random.next()));
        if maker.store > 220 {
            continue;
        }
        streams += 1;
        if random.one_in(3) {
            let short = random.below(WEAVER_BYTES as u64) as usize;
            recorder.of_state("weaver_new", short, 7);
        }
        recorder.of_state("weaver_new", STATE, 7);
        for _ in 0..16 {
            match maker.step() {
                Step::New(state) => recorder.of_state("weaver_new", state, 7),
                Step::Clear(state) => recorder.of_state("weaver_clear", state, 6),
                Step::Push(push) => {
                    let planes = push.field.lent().map(|(_, length)| length);
                    let lent = planes.into_iter().chain(push.room.outs);
                    if lent.sum::<usize>() <= MOST_BYTES {
                        recorder.push(&push);
                    }
                }
                // How a state's bytes stand for a weaver is the desk's own affair.
                Step::State(_) => {}
            }
        }
        recorder.of_state("weaver_clear", STATE, 6);
    }
    *store = recorder.store;
    recorder.found
}
