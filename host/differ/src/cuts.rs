//! Cuts that the detector cannot see at once, and film that it does not find:
//! shots in which little differs from frame to frame, grain, drawings, a wrong
//! field order. Each reel is made here ([`shots`](crate::shots)) and put, picture
//! by picture, to the exported detector and to the original's, which have to
//! agree on every frame. What is found has to be what docs/RULES.md lets one
//! expect of such material, and it is what docs/DIFFERENCES.md and
//! docs/ANSWER.md say of it.

use std::collections::BTreeSet;
use std::fmt::Debug;
use std::ops::Range;

use desk::Cadence;
use oracle::mediadecoder::video::Plane;
use oracle::video::telecine::Detector;

use crate::case::{Difference, same};
use crate::runs::busy::by_reading;
use crate::runs::film::{PATTERN, Symbol, cadence_number, frame_of};
use crate::shots::{Grain, Picture, Reel, Scene, Shot, Size, Tape};

// ---- What both detectors say of a reel

/// One frame: what is said of it, and the pictures that its leading and its
/// trailing field show.
#[derive(Debug, Clone, Copy)]
struct Listed {
    cadence: Cadence,
    locked: bool,
    shows: [Picture; 2],
}

/// Both detectors, which are told the same.
struct Both {
    ours: desk::Detector,
    original: Detector,
}

impl Both {
    fn push(
        &mut self,
        size: Size,
        top_first: bool,
        luma: Vec<u8>,
    ) -> Result<(Cadence, bool), Difference> {
        let Size { width, height } = size;
        let first = if top_first {
            desk::Parity::Top
        } else {
            desk::Parity::Bottom
        };
        let picture = desk::Lines::packed(&luma, width as u32, height as u32, 8);
        let given = self.ours.push(first, picture);
        let plane = Plane {
            data: luma,
            stride: width,
            width,
            height,
        };
        let wanted = self.original.push(&frame_of(plane, 8, first as u8));
        let number = given.map(|cadence| cadence as u8);
        same("the cadence", number, Ok(cadence_number(wanted)))?;
        let locked = self.ours.locked();
        same("the lock", locked, self.original.locked())?;
        Ok((given.expect("both gave the same"), locked))
    }
}

/// What both say of a reel whose leading field is said to be the top one, or the
/// bottom one.
fn listed(reel: &Reel, said_top_first: bool) -> Result<Vec<Listed>, String> {
    let mut both = Both {
        ours: desk::Detector::new(),
        original: Detector::new(),
    };
    let mut all = Vec::new();
    for (at, frame) in reel.frames().enumerate() {
        let said = both.push(reel.size, said_top_first, frame.luma);
        let (cadence, locked) = said.map_err(|found| {
            let Difference { what, rattle, rust } = found;
            format!("{what}, at frame {at}: {rattle}; by the original {rust}, of {reel:?}")
        })?;
        let mut shows = frame.shows;
        if said_top_first != reel.top_first {
            shows.reverse();
        }
        all.push(Listed {
            cadence,
            locked,
            shows,
        });
    }
    Ok(all)
}

/// The most busy blocks that a field of a shot has, counted once more from
/// docs/RULES.md; its first frame apart.
fn most_busy(size: Size, shot: Shot) -> u64 {
    let Size { width, height } = size;
    let reel = Reel {
        size,
        top_first: true,
        shots: vec![shot],
    };
    let frames: Vec<_> = reel.frames().map(|frame| frame.luma).collect();
    let pairs = frames.windows(2);
    let busy = |pair: &[Vec<u8>], parity| by_reading(&pair[1], &pair[0], width, height, parity).0;
    let counts = pairs.flat_map(|pair| [0, 1].map(|parity| busy(pair, parity)));
    counts.max().expect("a shot of two frames")
}

// ---- What a listing comes to

/// How many frames, from `cut` on, go by the step that was held there.
fn kept(all: &[Listed], cut: usize) -> usize {
    all[cut..].iter().take_while(|frame| frame.locked).count()
}

/// The fields of which a listed picture is woven: its frame's own two, or the
/// leading one and the trailing one of the frame before. One that is passed as
/// video shows both.
fn woven(all: &[Listed], at: usize) -> Option<[Picture; 2]> {
    let [leading, trailing] = all[at].shows;
    match all[at].cadence {
        Cadence::None | Cadence::Whole => Some([leading, trailing]),
        Cadence::Drop => None,
        Cadence::Spanning => Some([leading, all[at - 1].shows[1]]),
    }
}

/// How many of these frames are listed as a film picture that mixes two.
fn mixed(all: &[Listed], frames: Range<usize>) -> usize {
    let film = frames.filter(|at| all[*at].cadence != Cadence::None);
    let pictures = film.filter_map(|at| woven(all, at));
    pictures.filter(|[one, other]| one != other).count()
}

/// How many pictures of the reel are in none of those that are woven or passed.
/// That of its last field is not counted: the frame that is to show it may be missing.
fn left_out(all: &[Listed]) -> usize {
    let mut there: BTreeSet<Picture> = all.iter().flat_map(|frame| frame.shows).collect();
    if let Some(last) = all.last() {
        there.remove(&last.shows[1]);
    }
    let shown: BTreeSet<Picture> = (0..all.len())
        .filter_map(|at| woven(all, at))
        .flatten()
        .collect();
    there.difference(&shown).count()
}

// ---- What docs/RULES.md lets one expect

/// The table of cadences by step.
const BECOMES: [Cadence; 5] = [
    Cadence::Whole,
    Cadence::Whole,
    Cadence::Drop,
    Cadence::Spanning,
    Cadence::Spanning,
];

/// The cards: a clean run that starts at this step locks at this frame of its
/// own, the first being 1.
pub const LOCKS_AT: [usize; 5] = [11, 10, 9, 13, 12];

/// The card: so many stills in a row end a lock, and one fewer does not.
const STILLS: usize = 12;

/// The frames that a lock looks back upon.
const WINDOW: usize = 15;

/// Moving is max(blocks/128, 4), of the 45 by 30 blocks of a field of 720 by
/// 240: a frame with fewer busy blocks in both fields is still.
const MOVING: u64 = 10;

/// How many frames go by the old step after a cut from film, where frame n is
/// at step n mod 5, to a quiet shot. The first frame differs from the other shot
/// and has moved: where a repeat is expected it contradicts. Elsewhere it fits,
/// and then come stills, of which the twelfth ends the lock.
fn kept_in_quiet(cut: usize) -> usize {
    match PATTERN[cut % 5] {
        Symbol::Moved => STILLS,
        _ => 0,
    }
}

/// The same after a cut to a shot in which every field that shows a new picture
/// moves. Its first frame has moved, whichever step it is at; then the lock ends
/// where the old pattern expects another symbol, if it does.
fn kept_in_motion(cut: usize, tape: Tape) -> Option<usize> {
    let symbol = |after: usize| match tape {
        Tape::Film(step) if after > 0 => PATTERN[(step + after) % 5],
        _ => Symbol::Moved,
    };
    // After five frames in the new pattern no other place can come.
    (0..6).find(|after| symbol(*after) != PATTERN[(cut + after) % 5])
}

/// When the lock ended, and when it came again.
#[derive(Debug, Clone, Copy, PartialEq, Eq)]
pub struct Recovery {
    pub lost: usize,
    pub back: usize,
}

/// What a cut to film that moves, from this step on, does to the lock, if it
/// does not go on.
pub fn recovery(cut: usize, step: usize) -> Option<Recovery> {
    let kept = kept_in_motion(cut, Tape::Film(step))?;
    let lost = cut + kept;
    Some(Recovery {
        lost,
        back: lost + LOCKS_AT[(step + kept + 1) % 5],
    })
}

/// How many frames after a cut from a quiet shot, in which no lock is left, to
/// film that moves, from this step on, its step is held. The first frame has
/// moved, whichever step it is at. Where a repeat is expected, it contradicts
/// nothing, since there is no lock, and has to leave the window.
fn back_after_quiet(step: usize) -> usize {
    match PATTERN[step] {
        Symbol::Moved => LOCKS_AT[step] - 1,
        _ => (WINDOW..)
            .find(|after| (step + after) % 5 < 2)
            .expect("two of five"),
    }
}

// ---- The reels

const SIZE: Size = Size {
    width: 720,
    height: 480,
};

/// 243 rows of the top field and 242 of the bottom one; blocks at the edges are
/// 15 wide, and 3 or 2 deep.
const ODD: Size = Size {
    width: 719,
    height: 485,
};

fn shot(scene: Scene, tape: Tape, frames: usize) -> Shot {
    Shot {
        scene,
        tape,
        grain: Grain::None,
        frames,
    }
}

/// A pan on film, of which frame n is at step n mod 5, up to the cut; then other
/// shots.
fn after_pan(size: Size, cut: usize, shots: &[Shot]) -> Reel {
    let pan = shot(Scene::Pan, Tape::Film(0), cut);
    Reel {
        size,
        top_first: true,
        shots: [&[pan], shots].concat(),
    }
}

/// Frame 0 cannot be compared; the run starts after it, at step 1.
const FIRST_LOCK: usize = LOCKS_AT[1];

/// A cut at each step, all of them after the first lock.
const CUTS: Range<usize> = 15..20;

/// Long enough that a quiet shot leaves no lock.
const QUIET: usize = STILLS + 4;

fn name(tape: Tape) -> String {
    match tape {
        Tape::Video => "video".to_owned(),
        Tape::Film(step) => format!("film from step {step}"),
    }
}

fn spaced<T: ToString>(numbers: impl IntoIterator<Item = T>) -> String {
    let words: Vec<String> = numbers.into_iter().map(|n| n.to_string()).collect();
    words.join(" ")
}

fn expect<T: PartialEq + Debug>(
    what: &str,
    reel: &Reel,
    found: T,
    wanted: T,
) -> Result<(), String> {
    if found == wanted {
        return Ok(());
    }
    Err(format!(
        "{what}: {found:?}; expected {wanted:?}, of {reel:?}"
    ))
}

// ---- Quiet shots

/// What docs/DIFFERENCES.md says of a cut to a quiet shot, for each step of the
/// pan at which it comes: how many of the frames that go by the old step mix two
/// pictures, and how many pictures are left out. It follows from the two tables
/// of steps alone: where the pan's frame n is listed by step n mod 5 for twelve
/// frames from the cut on, or for none. The one picture that is left out after
/// a cut at step 4 is the pan's last: its only field was to be shown there.
struct Said {
    tape: Tape,
    mixed: [usize; 5],
    left_out: [usize; 5],
}

const SAID: [Said; 6] = [
    Said {
        tape: Tape::Video,
        mixed: [10, 9, 0, 10, 0],
        left_out: [4, 6, 0, 5, 1],
    },
    Said {
        tape: Tape::Film(0),
        mixed: [0, 0, 0, 10, 0],
        left_out: [0, 0, 0, 0, 1],
    },
    Said {
        tape: Tape::Film(1),
        mixed: [5, 0, 0, 5, 0],
        left_out: [0, 0, 0, 0, 1],
    },
    Said {
        tape: Tape::Film(2),
        mixed: [10, 5, 0, 1, 0],
        left_out: [0, 0, 0, 0, 1],
    },
    Said {
        tape: Tape::Film(3),
        mixed: [5, 9, 0, 1, 0],
        left_out: [0, 0, 0, 0, 1],
    },
    Said {
        tape: Tape::Film(4),
        mixed: [0, 4, 0, 6, 0],
        left_out: [0, 1, 0, 0, 1],
    },
];

/// A pan, a quiet shot, and a pan again, whose first frame is at each step once.
/// Every frame goes by the step of the first pan until that ends, by none until
/// the second one is found, and then by its own.
fn quiet(size: Size, scene: Scene, said: &Said) -> Result<(), String> {
    let quiet = shot(scene, said.tape, QUIET);
    let (mut kepts, mut mixes, mut lefts, mut backs) = (vec![], vec![], vec![], vec![]);
    for cut in CUTS {
        let step = 3 * cut % 5;
        let back = back_after_quiet(step);
        let again = shot(Scene::Pan, Tape::Film(step), back + 5);
        let reel = after_pan(size, cut, &[quiet, again]);
        let all = listed(&reel, true)?;
        let (ends, start) = (cut + kept_in_quiet(cut), cut + QUIET);
        for (n, frame) in all.iter().enumerate() {
            let wanted = if (FIRST_LOCK..ends).contains(&n) {
                BECOMES[n % 5]
            } else if n >= start + back {
                BECOMES[(step + n - start) % 5]
            } else {
                Cadence::None
            };
            let locked = wanted != Cadence::None;
            let what = format!("frame {n}");
            expect(
                &what,
                &reel,
                (frame.cadence, frame.locked),
                (wanted, locked),
            )?;
        }
        kepts.push(kept(&all, cut));
        mixes.push(mixed(&all, cut..ends));
        lefts.push(left_out(&all));
        backs.push(back);
        let wanted = (said.mixed[cut % 5], said.left_out[cut % 5]);
        let found = (mixes[cut % 5], lefts[cut % 5]);
        expect("frames that mix, pictures left out", &reel, found, wanted)?;
    }
    let busy = most_busy(size, quiet);
    if busy >= MOVING {
        return Err(format!("{busy} busy blocks in {quiet:?}; expected a still"));
    }
    println!(
        "to {scene:?}, {}, at step 0 1 2 3 4: kept {}, mixing {}, left out {}; the pan again after {}",
        name(said.tape),
        spaced(kepts),
        spaced(mixes),
        spaced(lefts),
        spaced(backs),
    );
    Ok(())
}

/// How much has to move for a cut to be seen: so many blocks, or a square.
fn amounts() -> Result<(), String> {
    let cut = CUTS.start;
    for busy in [MOVING - 1, MOVING] {
        let mut kepts = Vec::new();
        for Said { tape, .. } in SAID {
            let blocks = shot(Scene::Blocks(busy as usize), tape, QUIET);
            let reel = after_pan(SIZE, cut, &[blocks]);
            expect("busy blocks", &reel, most_busy(SIZE, blocks), busy)?;
            let wanted = if busy < MOVING {
                kept_in_quiet(cut)
            } else {
                kept_in_motion(cut, tape).unwrap_or(QUIET)
            };
            let found = kept(&listed(&reel, true)?, cut);
            expect("frames kept", &reel, found, wanted)?;
            kepts.push(if wanted == QUIET {
                "all".to_owned()
            } else {
                wanted.to_string()
            });
        }
        println!(
            "to {busy} busy blocks at step 0, video, film from step 0 1 2 3 4: kept {}",
            spaced(kepts)
        );
    }
    for side in [24, 32, 40, 48, 56, 64] {
        for tape in [Tape::Video, Tape::Film(2)] {
            let square = shot(Scene::Patch(side), tape, QUIET);
            let reel = after_pan(SIZE, cut, &[square]);
            let (busy, kept) = (most_busy(SIZE, square), kept(&listed(&reel, true)?, cut));
            if busy < MOVING {
                expect("frames kept", &reel, kept, kept_in_quiet(cut))?;
            }
            println!(
                "to Patch({side}), {}, at step 0: at most {busy} busy blocks in a field, kept {kept}",
                name(tape)
            );
        }
    }
    Ok(())
}

/// A lamp that goes on, or off, every ten frames moves where that is expected,
/// and twelve stills in a row never come.
fn lamp() -> Result<(), String> {
    const FRAMES: usize = 100;
    // The film is two steps off.
    for (tape, cut) in [(Tape::Video, 15), (Tape::Film(0), 18)] {
        let reel = after_pan(SIZE, cut, &[shot(Scene::Lamp, tape, FRAMES)]);
        let all = listed(&reel, true)?;
        expect("frames kept", &reel, kept(&all, cut), FRAMES)?;
        let mixed = mixed(&all, cut..cut + FRAMES);
        // Of five frames one is dropped, and each of the others mixes two.
        expect("frames that mix", &reel, mixed, FRAMES / 5 * 4)?;
        println!(
            "to Lamp, {}, at step {}: kept for all {FRAMES} frames, mixing {mixed}",
            name(tape),
            cut % 5
        );
    }
    Ok(())
}

// ---- Grain, drawings, a wrong field order

/// Film alone.
fn alone(scene: Scene, grain: Grain, top_first: bool) -> Reel {
    let film = Shot {
        grain,
        ..shot(scene, Tape::Film(0), 40)
    };
    Reel {
        size: SIZE,
        top_first,
        shots: vec![film],
    }
}

/// Whether a reel is locked from where clean film is to its end; or else never.
fn found(reel: &Reel, said_top_first: bool) -> Result<bool, String> {
    let all = listed(reel, said_top_first)?;
    let locked: Vec<usize> = (0..all.len()).filter(|at| all[*at].locked).collect();
    if locked.is_empty() {
        return Ok(false);
    }
    expect(
        "locked frames",
        reel,
        locked,
        (FIRST_LOCK..all.len()).collect(),
    )?;
    Ok(true)
}

/// Noise on the tape of so many levels each way leaves a repeated field within 8
/// of the other, so that none of its blocks is busy.
const HARMLESS: u8 = 4;

/// From so many levels on, the original does not find the pan. Between the two
/// it does.
const HIDES: u8 = 7;

/// So much that every block is busy in a field that does not repeat it.
const STRONG: u8 = 12;

fn grain() -> Result<(), String> {
    for levels in HARMLESS..=STRONG {
        let reel = alone(Scene::Pan, Grain::OnTape(levels), true);
        let wanted = levels < HIDES;
        expect("whether it is found", &reel, found(&reel, true)?, wanted)?;
    }
    println!(
        "a pan on film, noise of the tape: found below {HIDES} levels each way, not from there to {STRONG}"
    );
    let reel = alone(Scene::Pan, Grain::OnFilm(STRONG), true);
    expect("whether it is found", &reel, found(&reel, true)?, true)?;
    println!("a pan on film, grain of the film, {STRONG} levels each way: found");

    let film = Tape::Film(2);
    for grain in [Grain::OnFilm(STRONG), Grain::OnTape(STRONG)] {
        let (mut kepts, mut mixes, mut lefts, mut backs) = (vec![], vec![], vec![], vec![]);
        for cut in CUTS {
            let noisy = Shot {
                grain,
                ..shot(Scene::Patch(24), film, QUIET)
            };
            let reel = after_pan(SIZE, cut, &[noisy]);
            let all = listed(&reel, true)?;
            let lost = cut + kept(&all, cut);
            let back = (lost..all.len()).find(|n| all[*n].locked);
            // The film's grain moves with its pictures; the tape's moves every
            // field, as in video, so that no step can be found.
            let (film, video) = (recovery(cut, 2), kept_in_motion(cut, Tape::Video));
            let wanted = match grain {
                Grain::OnTape(_) => (video.map(|kept| cut + kept), None),
                _ => (film.map(|film| film.lost), film.map(|film| film.back)),
            };
            expect("lost, found again", &reel, (Some(lost), back), wanted)?;
            kepts.push(lost - cut);
            mixes.push(mixed(&all, cut..lost));
            lefts.push(left_out(&all));
            backs.push(back.map_or("never".to_owned(), |back| (back - lost).to_string()));
        }
        println!(
            "to Patch(24), {}, {grain:?}, at step 0 1 2 3 4: kept {}, mixing {}, left out {}; found again after {}",
            name(film),
            spaced(kepts),
            spaced(mixes),
            spaced(lefts),
            spaced(backs)
        );
    }
    Ok(())
}

fn never() -> Result<(), String> {
    let reel = alone(Scene::Twos, Grain::None, true);
    expect("whether it is found", &reel, found(&reel, true)?, false)?;
    println!("drawings, each for two film pictures: not found");
    let reel = alone(Scene::Pan, Grain::None, false);
    for said_top_first in [false, true] {
        let found = found(&reel, said_top_first)?;
        expect("whether it is found", &reel, found, !said_top_first)?;
    }
    println!("film whose bottom field comes first: found if that is said, else not");
    Ok(())
}

/// All of them, with a line for each kind.
pub fn all() -> Result<(), String> {
    println!("a pan on film, 720 by 480, cut to another shot: how many frames go by the old step");
    for scene in [Scene::Patch(24), Scene::Stars] {
        for said in &SAID {
            quiet(SIZE, scene, said)?;
        }
    }
    println!("the same, 719 by 485");
    quiet(ODD, Scene::Patch(24), &SAID[0])?;
    println!("the same, 720 by 480");
    amounts()?;
    lamp()?;
    grain()?;
    never()
}

#[cfg(test)]
mod tests {
    use super::{
        BECOMES, CUTS, Cadence, FIRST_LOCK, Listed, QUIET, Recovery, SAID, Said, Tape,
        back_after_quiet, kept_in_motion, kept_in_quiet, left_out, mixed, recovery,
    };

    #[test]
    fn a_quiet_cut_is_seen_at_once_or_after_twelve_frames() {
        let kept: Vec<usize> = CUTS.map(kept_in_quiet).collect();
        assert_eq!(kept, [12, 12, 0, 12, 0]);
        assert_eq!([0, 1, 2, 3, 4].map(back_after_quiet), [10, 9, 18, 12, 16]);
    }

    #[test]
    fn a_cut_to_motion_is_seen_after_two_frames_at_most() {
        for cut in CUTS {
            let kept = kept_in_motion(cut, Tape::Video);
            assert_eq!(kept, Some([2, 1, 0, 1, 0][cut % 5]), "{cut}");
            for step in 0..5 {
                let kept = kept_in_motion(cut, Tape::Film(step));
                let goes_on = step == cut % 5 && ![2, 4].contains(&step);
                assert_eq!(kept.is_none(), goes_on, "{cut}, {step}");
                assert!(kept.unwrap_or(0) <= 2, "{cut}, {step}");
            }
        }
    }

    #[test]
    fn a_splice_is_lost_where_the_patterns_part() {
        // The same step goes on, where a moved frame is expected.
        assert_eq!(recovery(30, 0), None);
        assert_eq!(recovery(31, 1), None);
        // It goes on, but its first frame was to repeat a field.
        assert_eq!(recovery(32, 2), Some(Recovery { lost: 32, back: 45 }));
        // The new film repeats a field at once, the old one a frame later.
        assert_eq!(recovery(30, 1), Some(Recovery { lost: 31, back: 44 }));
    }

    /// What is said follows from the two tables of steps, without a picture.
    #[test]
    fn what_is_said_follows_from_the_steps() {
        for said in &SAID {
            let Said {
                tape,
                mixed: mixes,
                left_out: left,
            } = *said;
            for cut in CUTS {
                let ends = cut + kept_in_quiet(cut);
                let frame = |n: usize| {
                    let held = (FIRST_LOCK..ends).contains(&n);
                    let (shot, tape, start) = if n < cut {
                        (0, Tape::Film(0), 0)
                    } else {
                        (1, tape, cut)
                    };
                    let picture = |later| (shot, tape.picture(2 * (n - start) + later));
                    Listed {
                        cadence: if held { BECOMES[n % 5] } else { Cadence::None },
                        locked: held,
                        shows: [0, 1].map(picture),
                    }
                };
                let all: Vec<Listed> = (0..cut + QUIET).map(frame).collect();
                let found = (mixed(&all, cut..ends), left_out(&all));
                assert_eq!(found, (mixes[cut % 5], left[cut % 5]), "{tape:?}, {cut}");
            }
        }
    }
}
