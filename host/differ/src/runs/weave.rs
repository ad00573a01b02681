//! `desk_weave` against `weave::weave`.

use std::hint::black_box;

use oracle::decode::weave;
use oracle::mediadecoder::video::Frame;

use super::fields::{self, Field, affordable};
use crate::answers::Answer;
use crate::case::{Case, Difference, Failure, Least, Tally, same, smaller_numbers};
use crate::judge;
use crate::lent::{Guarded, PATTERNS};
use crate::random::Random;

pub const NAME: &str = "weave";

/// Never inlined, so that the benchmark times a call on both sides.
#[inline(never)]
pub fn by_rust(top: &Frame, bottom: &Frame) -> Option<Frame> {
    weave::weave(top, bottom, true)
}

/// Two fields, and the bytes that are lent for each woven plane.
#[derive(Debug, Clone)]
struct Pair {
    top: Field,
    bottom: Field,
    outs: [usize; 3],
}

impl Pair {
    /// The number, and what is written.
    fn wanted(&self) -> (u8, [Vec<u8>; 3]) {
        let Self { top, bottom, outs } = self;
        match judge::weaves::weave(top.lent(), bottom.lent(), *outs) {
            0 => {
                let woven = by_rust(&top.frame(), &bottom.frame());
                let woven = woven.expect("the Rust weaves fields that agree");
                (0, woven.planes.map(|plane| plane.data))
            }
            number => (number, Default::default()),
        }
    }
}

impl Case for Pair {
    fn compare(&self) -> Result<u8, Difference> {
        let Self { top, bottom, outs } = self;
        let (number, expected) = self.wanted();
        for pattern in PATTERNS {
            let mut lent = outs.map(|length| Guarded::filled(pattern, length));
            let [out_luma, out_cb, out_cr] = lent.each_mut().map(Guarded::lend);
            let [top_luma, top_cb, top_cr] = top.planes();
            let [luma, cb, cr] = bottom.planes();
            let (top, bottom) = (top.numbers(), bottom.numbers());
            let given = desk::calls::weave(
                top, top_luma, top_cb, top_cr, bottom, luma, cb, cr, out_luma, out_cb, out_cr,
            );
            same("the number, which is the rules'", given, number)?;
            // The compiler must not suppose that the call kept to what it was lent.
            for (lent, expected) in black_box(&lent).iter().zip(&expected) {
                lent.written(expected)?;
            }
        }
        top.kept()?;
        bottom.kept()?;
        Ok(number)
    }

    fn smaller(&self) -> Vec<Self> {
        let mut found = Vec::new();
        // Both fields smaller, and the outputs as much longer, or too short, as
        // they were; then as they are.
        let mut add = |top: Field, bottom: Field| {
            let mut outs = self.outs;
            for ((out, old), new) in outs.iter_mut().zip(&self.top.0).zip(&top.0) {
                let [old, new] = [old.shape, new.shape].map(judge::weaves::woven);
                let alike = *out as i128 - i128::from(old) + i128::from(new);
                *out = usize::try_from(alike).unwrap_or(0).min(*out);
            }
            for outs in [outs, self.outs] {
                let (top, bottom) = (top.clone(), bottom.clone());
                found.push(Self { top, bottom, outs });
            }
        };
        for size in fields::smaller_sizes(self.top.size()) {
            if let (Some(top), Some(bottom)) = (self.top.resized(size), self.bottom.resized(size)) {
                add(top, bottom);
            }
        }
        for top in self.top.simpler() {
            add(top, self.bottom.clone());
        }
        for bottom in self.bottom.simpler() {
            add(self.top.clone(), bottom);
        }
        for at in 0..3 {
            for less in smaller_numbers(self.outs[at] as u64) {
                let mut case = self.clone();
                case.outs[at] = less as usize;
                found.push(case);
            }
        }
        found
    }
}

/// Two fields that are right, and room for the answer or more.
fn right(random: &mut Random, size: (u32, u32, u32)) -> Pair {
    let top = fields::right(random, size);
    let bottom = fields::right(random, size);
    fitted(random, top, bottom)
}

fn fitted(random: &mut Random, top: Field, bottom: Field) -> Pair {
    let outs = top.0.each_ref().map(|given| {
        let more = *random.pick(&[0, 0, 1, 2, 17, 100]);
        affordable(random, judge::weaves::woven(given.shape), more)
    });
    Pair { top, bottom, outs }
}

/// Two fields of which something may be wrong, or the room.
fn spoilt(random: &mut Random) -> Pair {
    let size = fields::size(random, 24, 10);
    let mut drafts = [0; 2].map(|_| fields::drafts(random, size));
    let only_room = random.one_in(5);
    if !only_room {
        for _ in 0..*random.pick(&[1, 1, 1, 2, 3]) {
            let field = random.below(2) as usize;
            drafts[field][random.below(3) as usize].spoil(random);
        }
    }
    let [top, bottom] = drafts.map(|drafts| fields::filled(random, drafts));
    let mut pair = fitted(random, top, bottom);
    if only_room || random.one_in(4) {
        let at = random.below(3) as usize;
        let needed = judge::weaves::woven(pair.top.0[at].shape).min(1 << 16);
        let less = *random.pick(&[1, 1, 2, needed / 2, needed]);
        pair.outs[at] = needed.saturating_sub(less) as usize;
    }
    pair
}

/// The widest, the highest, and those just past the bound.
const LARGE: [(u32, u32, u32); 8] = [
    (8192, 2, 16),
    (8191, 3, 8),
    (1, 2176, 9),
    (3, 2175, 8),
    (1, 2177, 8),
    (2, 4352, 8),
    (1, 70_000, 8),
    (1920, 540, 10),
];

pub fn run(random: &mut Random) -> Result<Tally, Failure> {
    let mut own = || Random::new(random.next());
    let (mut for_large, mut for_right, mut for_spoilt) = (own(), own(), own());
    let large = LARGE
        .into_iter()
        .map(move |size| large(&mut for_large, size));
    let others = (0..8_000).map(move |_| {
        let size = fields::size(&mut for_right, 40, 12);
        right(&mut for_right, size)
    });
    let refused = (0..8_000).map(move |_| spoilt(&mut for_spoilt));
    let least = Least {
        accepted: 8_000,
        refused: 6_500,
    };
    Tally::of(NAME, least, large.chain(others).chain(refused))
}

/// Lent whole, however large.
fn large(random: &mut Random, size: (u32, u32, u32)) -> Pair {
    let mut pair = right(random, size);
    for field in [&mut pair.top, &mut pair.bottom] {
        for plane in &mut field.0 {
            let mut given = (**plane).clone();
            given.length = judge::needed(given.shape) as usize;
            *plane = given.into();
        }
    }
    pair.outs = pair
        .top
        .0
        .each_ref()
        .map(|given| judge::weaves::woven(given.shape) as usize + 3);
    pair
}

/// Answers of small fields, without an end; one in three has something wrong.
pub(crate) fn answers(mut random: Random) -> impl Iterator<Item = Answer> {
    std::iter::repeat_with(move || {
        let pair = if random.one_in(3) {
            spoilt(&mut random)
        } else {
            let size = fields::size(&mut random, 12, 6);
            right(&mut random, size)
        };
        let (number, written) = pair.wanted();
        let mut answer = pair.top.answer(Answer::of("weave"));
        answer = pair.bottom.answer(answer).gives(number);
        for (written, lent) in written.iter().zip(pair.outs) {
            answer = answer.output(written, lent);
        }
        answer
    })
}
