//! The lists of answers that the programs `replay_..` go through, one for each
//! archive (crates/replay_desk/stdin and the others): what the original answers
//! to fixed inputs of every call of the desk, and which number docs/RULES.md gives
//! where it refuses. Nothing of the proved code is asked.
//!
//! The inputs are those of the differential runs, small ones, from a seed that
//! does not change. A record of the list, by crates/answers: four numbers (its
//! bytes, the call, how many numbers and how many slices follow), the numbers,
//! where each slice starts in the record and how many bytes it has, then the
//! bytes of the slices. Every number has eight bytes, low byte first. The
//! numbers are those of the call in their order, then the number that it gives,
//! then what lent places hold afterwards; the slices likewise. A float is its
//! bits; a signed number `n` is `2 n`, and `-(n + 1)` is `2 n + 1`.

use std::collections::BTreeMap;
use std::fmt;

use desk::calls::{CALLS, Call};

use crate::random::{Random, SEED};
use crate::runs::RUNS;
use crate::stray::Strays;

/// A call of the table.
pub fn call(name: &str) -> &'static Call {
    let found = CALLS.iter().find(|known| known.name == name);
    found.unwrap_or_else(|| panic!("`{name}` is no exported call"))
}

/// The archives, each with its calls in the order of their numbers in its list.
pub fn archives() -> BTreeMap<&'static str, Vec<&'static str>> {
    let mut found: BTreeMap<_, Vec<_>> = BTreeMap::new();
    for call in &CALLS {
        found.entry(call.archive).or_default().push(call.name);
    }
    found
}

/// The numbers with which a call refuses an input that a list can hold: 9 needs
/// four billion frames.
pub fn refusals(call: &str) -> impl Iterator<Item = u8> {
    let refusals = self::call(call).refusals;
    refusals.iter().copied().filter(|number| *number != 9)
}

/// What `replay_..` fills every lent byte with before a call.
pub const FILL: u8 = 0xA5;

/// Bytes of the arrays in which `replay_..` keeps a state and a store from record to
/// record: one of each, whatever call they are lent to.
pub const STATE_ROOM: usize = 256;
pub const STORE_ROOM: usize = 8192;

/// A call, and what is expected of it.
#[derive(Debug, Clone, PartialEq, Eq)]
pub struct Answer {
    pub call: &'static str,
    /// What the call gives; 0 for one that always answers.
    pub gives: u8,
    numbers: Vec<u64>,
    slices: Vec<Vec<u8>>,
    /// The samples that the call reads where it gets 0; no part of the record.
    pub strays: Strays,
}

impl Answer {
    pub fn of(call: &'static str) -> Self {
        Self {
            call,
            gives: 0,
            numbers: Vec::new(),
            slices: Vec::new(),
            strays: Strays::default(),
        }
    }

    pub fn number(mut self, number: impl Into<u64>) -> Self {
        self.numbers.push(number.into());
        self
    }

    pub fn numbers(mut self, numbers: impl IntoIterator<Item = u32>) -> Self {
        self.numbers.extend(numbers.into_iter().map(u64::from));
        self
    }

    pub fn signed(mut self, number: impl Into<i64>) -> Self {
        let number = number.into();
        self.numbers.push(((number << 1) ^ (number >> 63)) as u64);
        self
    }

    pub fn floats(mut self, floats: impl IntoIterator<Item = f32>) -> Self {
        self.numbers
            .extend(floats.into_iter().map(|float| u64::from(float.to_bits())));
        self
    }

    /// The number that the call gives.
    pub fn gives(mut self, number: u8) -> Self {
        self.gives = number;
        self.number(number)
    }

    /// What a lent byte holds afterwards: a value, or what it held before.
    pub fn byte(self, value: Option<u8>) -> Self {
        self.number(value.unwrap_or(FILL))
    }

    pub fn code(self, value: Option<u16>) -> Self {
        self.number(value.unwrap_or(u16::from_le_bytes([FILL; 2])))
    }

    pub fn count(self, value: Option<u64>) -> Self {
        self.number(value.unwrap_or(u64::from_le_bytes([FILL; 8])))
    }

    pub fn float(self, value: Option<f32>) -> Self {
        self.floats([value.unwrap_or(f32::from_le_bytes([FILL; 4]))])
    }

    pub fn slant(self, value: Option<i32>) -> Self {
        self.signed(value.unwrap_or(i32::from_le_bytes([FILL; 4])))
    }

    pub fn time(self, value: Option<i64>) -> Self {
        self.signed(value.unwrap_or(i64::from_le_bytes([FILL; 8])))
    }

    pub fn slice(mut self, bytes: &[u8]) -> Self {
        self.slices.push(bytes.to_vec());
        self
    }

    /// A lent output of so many bytes that begins with what was written.
    pub fn output(mut self, written: &[u8], lent: usize) -> Self {
        let mut bytes = written.to_vec();
        assert!(bytes.len() <= lent, "an output has room for its answer");
        bytes.resize(lent, FILL);
        self.slices.push(bytes);
        self
    }

    /// The same of floats: each by its bits, as a number.
    pub fn float_output(mut self, written: &[f32], lent: usize) -> Self {
        assert!(written.len() <= lent, "an output has room for its answer");
        let left = f32::from_le_bytes([FILL; 4]);
        let floats = (0..lent).map(|at| *written.get(at).unwrap_or(&left));
        let bytes = floats.flat_map(|float| u64::from(float.to_bits()).to_le_bytes());
        self.slices.push(bytes.collect());
        self
    }

    pub fn reads(self, strays: Strays) -> Self {
        Self { strays, ..self }
    }

    /// The bytes of the record.
    pub fn bytes(&self) -> Vec<u8> {
        let front = 8 * (4 + self.numbers.len() + 2 * self.slices.len());
        let all = front + self.slices.iter().map(Vec::len).sum::<usize>();
        let head = [
            all,
            archives()[call(self.call).archive]
                .iter()
                .position(|name| *name == self.call)
                .expect("an archive has its calls"),
            self.numbers.len(),
            self.slices.len(),
        ];
        let mut bytes = Vec::with_capacity(all);
        let mut add = |number: u64| bytes.extend(number.to_le_bytes());
        head.into_iter().for_each(|number| add(number as u64));
        self.numbers.iter().for_each(|number| add(*number));
        let mut start = front;
        for slice in &self.slices {
            add(start as u64);
            add(slice.len() as u64);
            start += slice.len();
        }
        self.slices.iter().for_each(|slice| bytes.extend(slice));
        bytes
    }

    /// The last of its numbers: the value of a call that gives one number.
    pub fn last(&self) -> Option<u64> {
        self.numbers.last().copied()
    }
}

/// A record that is longer is left out.
const MOST_BYTES: usize = 4_000;

/// Tries after which a call has to have had all that is asked of it.
const MOST_TRIES: usize = 100_000;

/// Answers that are refused with each number that a call can give.
const REFUSED: usize = 6;

/// So many answers of a call that get 0, and some of every other number.
pub fn picked(
    call: &'static str,
    least: usize,
    mut answers: impl Iterator<Item = Answer>,
) -> Vec<Answer> {
    let mut found = Vec::new();
    let mut gave: BTreeMap<u8, usize> = BTreeMap::new();
    for _ in 0..MOST_TRIES {
        let full = |number: u8, enough: usize| gave.get(&number).copied().unwrap_or(0) >= enough;
        if full(0, least) && refusals(call).all(|number| full(number, REFUSED)) {
            break;
        }
        let Some(answer) = answers.next() else { break };
        assert_eq!(answer.call, call);
        let enough = if answer.gives == 0 { least } else { REFUSED };
        if answer.bytes().len() > MOST_BYTES || full(answer.gives, enough) {
            continue;
        }
        *gave.entry(answer.gives).or_default() += 1;
        found.push(answer);
    }
    let accepted = gave.get(&0).copied().unwrap_or(0);
    assert_eq!(accepted, least, "answers of {call} that get 0");
    found
}

/// The list of an archive, the same each time. Every run of its calls gives a
/// part; the store is handed on from one to the next, as `replay_..` does.
pub fn list(archive: &str) -> Vec<Answer> {
    let mut store = vec![FILL; STORE_ROOM];
    let mut all = Vec::new();
    for run in RUNS {
        if call(run.calls[0]).archive == archive {
            all.extend((run.answers)(Random::for_run(SEED, run.name), &mut store));
        }
    }
    assert!(
        all.iter()
            .all(|answer| call(answer.call).archive == archive)
    );
    all
}

/// What `replay_..` prints of a list where nothing differs.
pub fn printed(list: &[Answer]) -> String {
    format!("{} compared, 0 differ\n", list.len())
}

/// The bytes of the list.
pub fn bytes(list: &[Answer]) -> Vec<u8> {
    list.iter().flat_map(Answer::bytes).collect()
}

/// How many answers of each call the list has, and how many get 0.
#[derive(Debug, Clone, Default, PartialEq, Eq)]
pub struct Counts {
    gave: BTreeMap<&'static str, BTreeMap<u8, usize>>,
    kinds: BTreeMap<&'static str, Kinds>,
}

/// Of the answers of a call that reads codes and gets 0: how many read a sample
/// with stray bits, how many one that is cut, and how many only others.
#[derive(Debug, Clone, Copy, Default, PartialEq, Eq)]
pub struct Kinds {
    pub stray: usize,
    pub cut: usize,
    pub clean: usize,
}

impl Counts {
    pub fn of(list: &[Answer]) -> Self {
        let mut counts = Self::default();
        for answer in list {
            let gave = counts.gave.entry(answer.call).or_default();
            *gave.entry(answer.gives).or_default() += 1;
            let strays = answer.strays;
            if answer.gives == 0 && strays.samples > 0 {
                let kinds = counts.kinds.entry(answer.call).or_default();
                kinds.stray += usize::from(strays.stray > 0);
                kinds.cut += usize::from(strays.cut > 0);
                kinds.clean += usize::from(strays.stray == 0);
            }
        }
        counts
    }

    /// Answers of a call that are given this number.
    pub fn gave(&self, call: &str, number: u8) -> usize {
        let gave = self.gave.get(call).and_then(|gave| gave.get(&number));
        gave.copied().unwrap_or(0)
    }

    /// All answers of a call.
    pub fn of_call(&self, call: &str) -> usize {
        self.gave.get(call).map_or(0, |gave| gave.values().sum())
    }

    pub fn kinds(&self, call: &str) -> Kinds {
        self.kinds.get(call).copied().unwrap_or_default()
    }

    pub fn all(&self) -> usize {
        self.gave.values().flat_map(BTreeMap::values).sum()
    }

    pub fn accepted(&self) -> usize {
        self.gave.keys().map(|name| self.gave(name, 0)).sum()
    }
}

impl fmt::Display for Counts {
    fn fmt(&self, f: &mut fmt::Formatter<'_>) -> fmt::Result {
        for (name, gave) in &self.gave {
            let all = self.of_call(name);
            let refused: Vec<_> = gave
                .iter()
                .filter(|(number, _)| **number != 0)
                .map(|(number, count)| format!("{count} with {number}"))
                .collect();
            let accepted = self.gave(name, 0);
            write!(f, "{name}: {all}, {accepted} accepted")?;
            if !refused.is_empty() {
                write!(f, " ({})", refused.join(", "))?;
            }
            if let Some(Kinds { stray, cut, .. }) = self.kinds.get(name) {
                write!(f, ", {stray} with stray bits, {cut} of them cut")?;
            }
            writeln!(f)?;
        }
        write!(f, "total: {}, {} accepted", self.all(), self.accepted())
    }
}

/// Whether a file is the list; else the first record, counted from 1, that is
/// another.
pub fn check(list: &[Answer], file: &[u8]) -> Result<(), String> {
    let mut rest = file;
    for (at, answer) in list.iter().enumerate() {
        let record = answer.bytes();
        match rest.strip_prefix(&*record) {
            Some(after) => rest = after,
            None => {
                let (record, name) = (at + 1, answer.call);
                return Err(format!(
                    "record {record} is not the answer of {name} that the original gives; expected \
                     the file that `answers` writes"
                ));
            }
        }
    }
    match rest.len() {
        0 => Ok(()),
        more => Err(format!(
            "{more} bytes follow the last of {} records; expected none",
            list.len()
        )),
    }
}
