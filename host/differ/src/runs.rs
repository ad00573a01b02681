//! The differential runs: every exported call is among the `calls` of one. A new
//! one is a module below, with a [`Case`](crate::case::Case), a function that
//! tallies and one that gives answers for the lists of `replay_..`, and an entry here.

use std::collections::BTreeSet;

use crate::answers::{Answer, call, picked};
use crate::case::{Failure, Tally};
use crate::random::Random;

pub mod at;
pub mod busy;
pub mod cadences;
pub mod code;
pub mod comb;
pub mod comb_rgba;
pub mod detector;
pub mod edge;
mod fields;
pub(crate) mod film;
pub mod first_field;
pub mod luma;
pub mod picture;
pub mod plane;
pub mod quantise;
mod read;
pub mod readback;
pub mod sample;
pub mod to_rgb;
mod trio;
pub mod weave;
pub mod weaver;
pub mod woven;
pub mod woven_line;

pub struct Run {
    pub name: &'static str,
    /// The exported calls that it compares.
    pub calls: &'static [&'static str],
    /// What is put to both sides.
    pub about: &'static str,
    /// Whether they read codes, and not only copy them: then many of its samples
    /// have to have stray bits.
    pub reads: bool,
    pub run: fn(&mut Random) -> Result<Tally, Failure>,
    /// Answers for the list of its archive's `replay_..`, with the store that it keeps.
    pub answers: fn(Random, &mut Vec<u8>) -> Vec<Answer>,
}

impl Run {
    /// Does the run, and holds the numbers that it saw to those that the exports
    /// of its calls say they give: each of them, and no other. Where codes are read,
    /// also the samples to the stray bits that they are to have.
    pub fn tally(&self, random: &mut Random) -> Result<Tally, Failure> {
        let mut tally = (self.run)(random)?;
        if self.reads {
            tally = tally.with_strays()?;
        }
        let seen: BTreeSet<u8> = (1..=u8::MAX).filter(|n| tally.gave(*n) > 0).collect();
        let said = self.calls.iter().flat_map(|name| call(name).refusals);
        let mut said: BTreeSet<u8> = said.copied().collect();
        match self.name {
            // Four billion entries would be 48 GB.
            cadences::NAME => said.remove(&9),
            // Asked beside every case, and compared there without being counted.
            detector::NAME => said.remove(&10),
            _ => false,
        };
        if seen == said {
            return Ok(tally);
        }
        Err(Failure::OtherNumbers { tally, said })
    }
}

pub const RUNS: &[Run] = &[
    Run {
        name: first_field::NAME,
        calls: &["first_field"],
        about: "every structure, every flag, two contents of the out byte",
        reads: false,
        run: first_field::run,
        answers: |_, _| picked("first_field", 6, first_field::answers()),
    },
    Run {
        name: at::NAME,
        calls: &["at"],
        about: "every tiny plane with coordinates in and around it; random planes of every depth and \
                layout, many with stray bits; large planes; shapes and lengths past their bounds; \
                sizes past 16 bits",
        reads: true,
        run: at::run,
        answers: |random, _| picked("at", 100, at::answers(random)),
    },
    Run {
        name: code::NAME,
        calls: &["code"],
        about: "the planes of `at`, coordinates mostly inside, also where a size is past 16 bits",
        reads: true,
        run: code::run,
        answers: |random, _| picked("code", 100, code::answers(random)),
    },
    Run {
        name: comb::NAME,
        calls: &["comb"],
        about: "random planes 1 to 70 wide and 1 to 12 high, every depth, stray bits, the largest \
                sums; large planes; shapes and lengths past their bounds",
        reads: true,
        run: comb::run,
        answers: |random, _| picked("comb", 80, comb::answers(random)),
    },
    Run {
        name: comb_rgba::NAME,
        calls: &["comb_rgba"],
        about: "random pictures 1 to 70 wide and 1 to 12 high, the largest sums; large pictures; \
                sizes and lengths past their bounds",
        reads: false,
        run: comb_rgba::run,
        answers: |random, _| picked("comb_rgba", 80, comb_rgba::answers(random)),
    },
    Run {
        name: edge::NAME,
        calls: &["edge"],
        about: "the tiny and the large planes of `at`; random planes up to 40 by 20 with pictures \
                in which directions tie, also as they do where codes past the largest count as it",
        reads: true,
        run: edge::run,
        answers: |random, _| picked("edge", 120, edge::answers(random)),
    },
    Run {
        name: sample::NAME,
        calls: &["sample"],
        about: "three planes up to 40 by 20, each of any layout, with pictures at rest and moving, \
                stray bits, every quality, field and mate; large planes; codes, shapes and \
                lengths past their bounds, planes that differ",
        reads: true,
        run: sample::run,
        answers: |random, _| picked("sample", 160, sample::answers(random)),
    },
    Run {
        name: plane::NAME,
        calls: &["plane"],
        about: "three planes up to 64 by 32 as for `sample`, every value; some 8192 wide; more room \
                than needed; codes, shapes, lengths and room past their bounds",
        reads: true,
        run: plane::run,
        answers: |random, _| picked("plane", 60, plane::answers(random)),
    },
    Run {
        name: to_rgb::NAME,
        calls: &["to_rgb"],
        about: "all twelve numbers at either end of their ranges; each just past its range; the \
                Rust's own conversions; random numbers",
        reads: false,
        run: to_rgb::run,
        answers: |random, _| picked("to_rgb", 200, to_rgb::answers(random)),
    },
    Run {
        name: quantise::NAME,
        calls: &["quantise"],
        about: "every 1021st float by its bits, and all near a threshold",
        reads: false,
        run: quantise::run,
        answers: |random, _| picked("quantise", 200, quantise::answers(random)),
    },
    Run {
        name: luma::NAME,
        calls: &["luma"],
        about: "every code",
        reads: false,
        run: luma::run,
        answers: |_, _| picked("luma", 2, luma::answers()),
    },
    Run {
        name: picture::NAME,
        calls: &["picture"],
        about: "every quality and output of four pictures; pictures up to 40 by 40, planar, biplanar \
                and mixed, of every depth, stray bits, at rest and moving; the widest and the highest; \
                the Rust's own conversions and random ones; codes, shapes, lengths, room and \
                colour numbers past their bounds, planes that differ",
        reads: true,
        run: picture::run,
        answers: |random, _| picked("picture", 60, picture::answers(random)),
    },
    Run {
        name: busy::NAME,
        calls: &["busy"],
        about: "planes up to 81 by 81, mostly around the edges of blocks, of which about a quarter \
                of a block's samples differ by about 8; stray bits; words with codes in their high \
                bits; large planes; parities, shapes and lengths past their bounds",
        reads: true,
        run: busy::run,
        answers: |random, _| picked("busy", 60, busy::answers(random)),
    },
    Run {
        name: cadences::NAME,
        calls: &["cadences"],
        about: "every sequence of up to nine symbols; films with splices, stills, absent entries \
                and counts at the thresholds; numbers, lengths and room past their bounds",
        reads: false,
        run: cadences::run,
        answers: |random, _| picked("cadences", 40, cadences::answers(random)),
    },
    Run {
        name: detector::NAME,
        calls: &[
            "detector_new",
            "detector_reset",
            "detector_locked",
            "detector_predict",
            "detector_push_measured",
            "detector_push",
        ],
        about: "every sequence of five calls from a fresh detector, and of four from each phase of a \
                lock; up to sixteen stills after a lock; films of counts and of pictures with \
                stray bits, splices, resets, other sizes and refused calls; the last frames that \
                are taken",
        reads: true,
        run: detector::run,
        answers: detector::answers,
    },
    Run {
        name: weave::NAME,
        calls: &["weave"],
        about: "two fields up to 40 by 12, every depth, padding; the widest and the highest; more \
                room than needed; shapes, lengths and room past their bounds, fields that differ",
        reads: false,
        run: weave::run,
        answers: |random, _| picked("weave", 50, weave::answers(random)),
    },
    Run {
        name: woven_line::NAME,
        calls: &["line_number", "woven_line"],
        about: "every line of two planes up to 40 by 12 and lines past them, and the twin's number \
                from any lengths; shapes, lengths and room past their bounds",
        reads: false,
        run: woven_line::run,
        answers: |random, _| {
            let numbers = woven_line::numbers(random.clone());
            let mut found = picked("line_number", 50, numbers);
            found.extend(picked("woven_line", 50, woven_line::answers(random)));
            found
        },
    },
    Run {
        name: woven::NAME,
        calls: &["woven"],
        about: "heights and denominators around 2^31 with every flag; random numbers",
        reads: false,
        run: woven::run,
        answers: |random, _| picked("woven", 100, woven::answers(random)),
    },
    Run {
        name: readback::NAME,
        calls: &["readback_sizes", "readback_copy"],
        about: "two and three planes of frames up to 40 by 16, every depth, padding; the widest and \
                the highest; outputs as long as was said, longer, and each a byte too short; \
                counts, shapes, lengths and room past their bounds",
        reads: false,
        run: readback::run,
        answers: |random, _| {
            let mut found = picked("readback_sizes", 50, readback::sizes(random.clone()));
            found.extend(picked("readback_copy", 50, readback::copies(random)));
            found
        },
    },
    Run {
        name: weaver::NAME,
        calls: &["weaver_new", "weaver_clear", "weaver_push"],
        about: "streams of 600 fields that alternate, repeat and change, with and without times; \
                clears; codes, shapes, lengths, states, stores and room past their bounds",
        reads: false,
        run: weaver::run,
        answers: weaver::answers,
    },
];

pub struct Whole {
    pub name: &'static str,
    pub about: &'static str,
    pub run: fn(&mut Random) -> Result<Tally, Failure>,
}

/// Runs over whole ranges: too long to be done each time.
pub const WHOLE: &[Whole] = &[
    Whole {
        name: quantise::NAME,
        about: "every float",
        run: quantise::every,
    },
    Whole {
        name: detector::NAME,
        about: "every sequence of eleven symbols; films of a hundred million frames",
        run: detector::many,
    },
];
