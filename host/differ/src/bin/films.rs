//! Puts two telecined films (host/differ/data), and splices of them, to the
//! program `cadence` and to the second reader (crate `reader`): both must print
//! what docs/RULES.md lets one expect of clean pattern, line by line. Then come
//! shots that are made here, at full size (differ's `cuts`): cuts that are not
//! seen at once, and film that is not found. They are put to the exported
//! detector and to the original's.
//!
//!     films                   crates/cadence/out/cadence, which ./run builds
//!     films PROGRAM ARGUMENT  another program
//!
//! Prints a line for each film, each five splices and each kind of shot. Ends
//! with 1 at the first difference; with 2 where there is no program to start.

use std::fmt::Write;
use std::process::ExitCode;

use differ::case::Difference;
use differ::cuts::{self, LOCKS_AT, Recovery, recovery};
use differ::program::{Program, same_lines};
use reader::reel::Reel;

// ---- The films

/// All films have this shape: 96 by 48, 8 bits, the top field leading.
const SHAPE: [u16; 5] = [96, 48, 8, 96, 0];
const PICTURE_BYTES: usize = 96 * 48;

/// Of both, picture n is at step n mod 5 of the pattern: data/README.md.
const FILMS: [(&str, &[u8]); 2] = [
    ("cells", include_bytes!("../../data/cells.reel")),
    ("pan", include_bytes!("../../data/pan.reel")),
];

/// What ./run lists.
const EXAMPLE: &[u8] = include_bytes!("../../../../docs/example.reel");

/// The counts and the shape of a film's file; only pictures come after them.
const HEAD_BYTES: usize = 2 + 10 + 2 + 2;

fn pictures(file: &[u8]) -> Vec<Vec<u8>> {
    let pictures = file[HEAD_BYTES..].chunks(PICTURE_BYTES);
    pictures.map(<[u8]>::to_vec).collect()
}

/// The first pictures of one film, then those of another from `offset` on.
struct Splice {
    first: usize,
    cut: usize,
    second: usize,
    offset: usize,
}

impl Splice {
    fn reel(&self) -> Reel {
        let mut all = pictures(FILMS[self.first].1);
        all.truncate(self.cut);
        all.extend(pictures(FILMS[self.second].1).drain(self.offset..));
        Reel {
            shape: SHAPE.to_vec(),
            entries: Vec::new(),
            pictures: all,
        }
    }
}

/// The example is this one, as long as one of the films. Its first two frames
/// after the cut fit the old step.
const SHIPPED: Splice = Splice {
    first: 0,
    cut: 30,
    second: 1,
    offset: 2,
};

const OFFSETS: usize = 5;

/// Cuts at each step, all of them long after the first lock; offsets at each
/// step; either film first.
fn splices() -> Vec<Splice> {
    let mut all = Vec::new();
    for first in 0..2 {
        for cut in 30..35 {
            for offset in 0..OFFSETS {
                all.push(Splice {
                    first,
                    cut,
                    second: 1 - first,
                    offset,
                });
            }
        }
    }
    all
}

// ---- What is expected of them

/// The table of docs/RULES.md: the cadence of each step.
const CADENCES: [&str; 5] = ["whole", "whole", "drop", "spanning", "spanning"];

/// The listing of a film, spliced or not: locked all along, but for the start
/// and for the frames from `lost` to before `back`.
fn expected(frames: usize, cut: usize, offset: usize, recovery: Option<Recovery>) -> String {
    // Frame 0 has nothing before it; the run starts after it, at step 1.
    let first_lock = LOCKS_AT[1];
    let mut text = String::new();
    let mut totals = [0; 4];
    for n in 0..frames {
        let without = recovery.is_some_and(|found| (found.lost..found.back).contains(&n));
        let locked = n >= first_lock && !without;
        // Until it is lost, the lock is that of the old pattern.
        let old = n < cut || recovery.is_some_and(|found| n < found.lost);
        let step = if old { n } else { offset + n - cut } % 5;
        let cadence = if locked { CADENCES[step] } else { "none" };
        let names = ["whole", "drop", "spanning", "none"];
        let place = names.iter().position(|name| *name == cadence);
        totals[place.expect("one of the four")] += 1;
        writeln!(text, "{n} {cadence} {}", u8::from(locked)).expect("a String takes every line");
    }
    let [whole, drop, spanning, none] = totals;
    text + &format!("whole {whole} drop {drop} spanning {spanning} none {none}\n")
}

fn expected_of_film(frames: usize) -> String {
    expected(frames, frames, 0, None)
}

fn expected_of_splice(splice: &Splice, frames: usize) -> String {
    let Splice { cut, offset, .. } = *splice;
    expected(frames, cut, offset, recovery(cut, offset))
}

// ---- All of them

/// Both listings are as expected.
fn check(program: &Program, file: &[u8], wanted: &str) -> Result<(), String> {
    let by_reader = same_lines(&reader::listing(file), wanted);
    by_reader.map_err(|found| said_of("the reader", &found))?;
    let by_program = program.prints(file, wanted);
    by_program.map_err(|found| said_of("the program", &found))
}

fn said_of(who: &str, found: &Difference) -> String {
    let Difference { what, rattle, rust } = found;
    format!("{what}, by {who}: {rattle}; expected {rust}")
}

fn all(program: &Program) -> Result<(), String> {
    for (name, file) in FILMS {
        let frames = pictures(file).len();
        check(program, file, &expected_of_film(frames))
            .map_err(|difference| format!("film {name}: {difference}"))?;
        let lock = LOCKS_AT[1];
        println!("film {name}: {frames} frames, locked from frame {lock} to the end");
    }
    let frames = pictures(EXAMPLE).len();
    check(program, EXAMPLE, &expected_of_splice(&SHIPPED, frames))
        .map_err(|difference| format!("docs/example.reel: {difference}"))?;
    println!("docs/example.reel: {frames} frames, as expected of its splice");
    println!("a splice of the two: lost at this frame, locked again from that one to the end");
    let (mut after_lost, mut after_splice) = (0, 0);
    for splices in splices().chunks(OFFSETS) {
        let Splice {
            first, cut, second, ..
        } = splices[0];
        let [first, second] = [first, second].map(|film| FILMS[film].0);
        print!("{cut} frames of {first}, {second} from 0, 1, 2, 3, 4 on:");
        for splice in splices {
            let offset = splice.offset;
            let reel = splice.reel();
            let wanted = expected_of_splice(splice, reel.pictures.len());
            check(program, &reel.bytes(), &wanted)
                .map_err(|difference| format!("\n{second} from {offset} on: {difference}"))?;
            match recovery(cut, offset) {
                None => print!(" never lost"),
                Some(Recovery { lost, back }) => {
                    after_lost = after_lost.max(back - lost);
                    after_splice = after_splice.max(back - cut);
                    print!(" {lost}..{back}");
                }
            }
        }
        println!();
    }
    println!(
        "at the latest, locked again {after_lost} frames after the one that contradicted, \
         {after_splice} after the first of the splice"
    );
    cuts::all()
}

fn main() -> ExitCode {
    let program = match Program::chosen() {
        Ok(program) => program,
        Err(complaint) => {
            eprintln!("films: {complaint}");
            return ExitCode::from(2);
        }
    };
    match all(&program) {
        Ok(()) => ExitCode::SUCCESS,
        Err(difference) => {
            println!("{difference}");
            ExitCode::from(1)
        }
    }
}

#[cfg(test)]
mod tests {
    use super::{
        EXAMPLE, FILMS, Reel, SHAPE, SHIPPED, expected_of_film, expected_of_splice, pictures,
        splices,
    };
    use reader::listing;

    #[test]
    fn a_film_is_its_pictures_and_locks() {
        for (name, file) in FILMS {
            let reel = Reel {
                shape: SHAPE.to_vec(),
                entries: Vec::new(),
                pictures: pictures(file),
            };
            assert_eq!(reel.pictures.len(), 60, "{name}");
            assert!(reel.bytes() == file, "{name}");
            assert_eq!(listing(file), expected_of_film(60), "{name}");
        }
    }

    /// It has a lock, loses it and has one again.
    #[test]
    fn the_example_is_a_splice_of_the_films() {
        let mut reel = SHIPPED.reel();
        reel.pictures.truncate(60);
        assert!(reel.bytes() == EXAMPLE);
        let text = listing(EXAMPLE);
        assert_eq!(text, expected_of_splice(&SHIPPED, 60));
        for line in [
            "9 none 0",
            "10 whole 1",
            "31 whole 1",
            "32 none 0",
            "43 whole 1",
        ] {
            assert!(text.lines().any(|found| found == line), "{line}: {text}");
        }
    }

    /// The original recovers as docs/RULES.md says, without the program.
    #[test]
    fn the_reader_recovers_from_every_splice() {
        for splice in splices() {
            let reel = splice.reel();
            let wanted = expected_of_splice(&splice, reel.pictures.len());
            let (cut, offset) = (splice.cut, splice.offset);
            assert_eq!(listing(&reel.bytes()), wanted, "{cut}, {offset}");
        }
    }
}
