//! Block counts and the detector: pictures, and measured entries. The desk
//! keeps a detector in bytes that the caller lends, and reads and writes them
//! at every call; the Rust's is a value in memory.

use std::hint::black_box;
use std::rc::Rc;

use desk::STATE_BYTES;
use desk::calls::{GridNumbers, PlaneNumbers};
use differ::random::Random;
use differ::runs::cadences::{self, Entry};
use oracle::mediadecoder::es::Format;
use oracle::mediadecoder::video::{Frame, Plane};

use crate::video::field::{Cadence, Parity};
use crate::video::telecine::Detector;

use super::{Contest, Side, Sides, Size, again, plane_of, side, taken};

pub fn fresh_state() -> [u8; STATE_BYTES] {
    let mut state = [0; STATE_BYTES];
    taken(desk::calls::detector_new(&mut state));
    state
}

fn frame_of(luma: Plane, size: Size, depth: u32) -> Frame {
    Frame {
        format: Format {
            width: size.width,
            height: size.height,
            depth: depth as u8,
            ..Format::default()
        },
        planes: [luma, Plane::default(), Plane::default()],
        top_field_first: true,
        ..Frame::default()
    }
}

/// A detector that gets these frames in turn.
fn pushes(frames: Rc<[Frame]>) -> Side {
    let mut detector = oracle::video::telecine::Detector::new();
    side(move || {
        for frame in &frames[..] {
            black_box(detector.push(black_box(frame)));
        }
    })
}

/// A planar shape as the calls take it.
pub fn grid_of(shape: PlaneNumbers) -> GridNumbers {
    GridNumbers {
        width: shape.width,
        height: shape.height,
        depth: shape.depth,
        stride: shape.stride,
    }
}

/// Both fields of a picture of noise, against another that is kept.
pub fn busy(size: Size, depth: u32) -> Contest {
    let input = format!("{size}, {depth} bits, both");
    let sides = move || {
        let (plane, shape) = plane_of(1, size, (depth, 0));
        let grid = grid_of(shape);
        let store = Random::new(2).bytes(size.pixels() as usize);
        let frames = [1, 2].map(|seed| frame_of(plane_of(seed, size, (depth, 0)).0, size, depth));
        let mut two = pushes(frames.into());
        Sides {
            rattle: side(move || {
                let (plane, store) = (black_box(&plane.data[..]), black_box(&store[..]));
                for parity in 0..2 {
                    let (mut busy, mut total) = (0, 0);
                    taken(desk::calls::busy(
                        plane, grid, store, parity, &mut busy, &mut total,
                    ));
                    black_box((busy, total));
                }
            }),
            rust: Some(Box::new(move || two() / 2)),
            inlined: None,
        }
    };
    Contest::new("busy", input, (size.pixels(), "pixel"), sides)
        .beside("the Rust: Detector::push, which counts both and keeps the picture")
}

/// Two pictures of noise in turn, led by the top field, all blocks busy.
pub fn push(size: Size, depth: u32) -> Contest {
    let input = format!("{size}, {depth} bits, two");
    let sides = move || {
        let two = [1, 2].map(|seed| plane_of(seed, size, (depth, 0)));
        let grid = grid_of(two[0].1);
        let frames = two.clone().map(|(luma, _)| frame_of(luma, size, depth));
        let mut state = fresh_state();
        let mut store = vec![0; size.pixels() as usize];
        Sides {
            rattle: side(move || {
                let mut cadence = 0;
                for (plane, _) in &two {
                    let plane = black_box(&plane.data[..]);
                    taken(desk::calls::detector_push(
                        &mut state,
                        0,
                        plane,
                        grid,
                        &mut store,
                        &mut cadence,
                    ));
                    black_box(cadence);
                }
            }),
            rust: Some(pushes(frames.into())),
            inlined: None,
        }
    };
    Contest::new("detector_push", input, (2 * size.pixels(), "pixel"), sides).of_frames(2)
}

/// A film that keeps to the pattern, but for one frame in fifty.
pub fn film(frames: u64) -> Vec<Entry> {
    let mut random = Random::new(1);
    let busy = [(40, 40), (40, 40), (0, 40), (40, 40), (40, 0)];
    let entry = |at: u64| {
        let step = if random.one_in(50) {
            random.below(5)
        } else {
            at % 5
        };
        let (leading, trailing) = busy[step as usize];
        Entry {
            parity: 0,
            present: 1,
            numbers: [leading, 1350, trailing, 1350],
        }
    };
    (0..frames).map(entry).collect()
}

/// The desk reads the entries from their bytes. The Rust has them as numbers
/// already, or `reads` them from the bytes too.
pub fn cadences(entries: u64, reads: bool) -> Contest {
    let input = format!("{entries} measured entries");
    let sides = move || {
        let film = film(entries);
        let mut bytes = Vec::new();
        for entry in &film {
            entry.write(&mut bytes);
        }
        let mut out = vec![0; film.len()];
        let read = bytes.clone();
        Sides {
            rattle: side(move || {
                taken(desk::calls::cadences(black_box(&bytes), &mut out));
                black_box(&mut out);
            }),
            rust: Some(if reads {
                side(move || {
                    black_box(cadences_in(black_box(&read)));
                })
            } else {
                side(move || {
                    black_box(cadences::by_rust(black_box(&film)));
                })
            }),
            inlined: None,
        }
    };
    let beside = if reads {
        "the Rust: reads them from the bytes too"
    } else {
        "the Rust: has them as numbers"
    };
    Contest::new("cadences", input, (entries, "entry"), sides).beside(beside)
}

/// The cadences of a reel's entries, read as they are pushed.
fn cadences_in(bytes: &[u8]) -> Vec<u8> {
    let mut detector = oracle::video::telecine::Detector::new();
    let cadence = |entry: &[u8]| {
        let number = |at: usize| usize::from(u16::from_le_bytes([entry[at], entry[at + 1]]));
        let measured = (number(2) == 1).then(|| ((number(4), number(6)), (number(8), number(10))));
        let first = if number(0) == 0 {
            oracle::video::field::Parity::Top
        } else {
            oracle::video::field::Parity::Bottom
        };
        detector.push_measured(first, measured) as u8
    };
    bytes.chunks_exact(desk::ENTRY_BYTES).map(cadence).collect()
}

/// Counts of a frame as the Rust takes them.
type Measured = Option<((usize, usize), (usize, usize))>;

fn measured(entry: &Entry) -> Measured {
    let [busy, total, other_busy, other_total] = entry.numbers.map(usize::from);
    Some(((busy, total), (other_busy, other_total)))
}

pub fn push_entry(state: &mut [u8], entry: &Entry) -> u8 {
    let [busy, total, other_busy, other_total] = entry.numbers.map(u64::from);
    let mut cadence = 0;
    taken(desk::calls::detector_push_measured(
        state,
        0,
        1,
        busy,
        total,
        other_busy,
        other_total,
        &mut cadence,
    ));
    cadence
}

/// From a fresh detector in each round.
pub fn push_measured(frames: u64) -> Contest {
    let input = format!("{frames} frames");
    Contest::new(
        "detector_push_measured",
        input,
        (frames, "call"),
        move || {
            let film: Rc<[Entry]> = film(frames).into();
            let all: Rc<[Measured]> = film.iter().map(measured).collect();
            let inlined = all.clone();
            Sides {
                rattle: side(move || {
                    let mut state = fresh_state();
                    for entry in black_box(&film[..]) {
                        black_box(push_entry(&mut state, entry));
                    }
                }),
                rust: Some(side(move || {
                    let mut detector = Detector::new();
                    for measured in black_box(&all[..]) {
                        black_box(called::push_measured(&mut detector, Parity::Top, *measured));
                    }
                })),
                inlined: Some(side(move || {
                    let mut detector = Detector::new();
                    for measured in black_box(&inlined[..]) {
                        black_box(detector.push_measured(Parity::Top, *measured));
                    }
                })),
            }
        },
    )
}

/// Both sides after so many frames of the film in pattern, so that they are
/// locked if that is enough of them.
pub fn after(frames: u64) -> ([u8; STATE_BYTES], Detector) {
    let (mut state, mut detector) = (fresh_state(), Detector::new());
    for entry in film(frames) {
        push_entry(&mut state, &entry);
        detector.push_measured(Parity::Top, measured(&entry));
    }
    (state, detector)
}

pub fn fresh(calls: u64) -> Contest {
    let input = format!("{calls} calls");
    Contest::new("detector_new", input, (calls, "call"), move || {
        let mut state = [0; STATE_BYTES];
        Sides {
            rattle: again(calls, move || {
                taken(desk::calls::detector_new(black_box(&mut state)));
            }),
            rust: Some(again(calls, || {
                black_box(&mut called::new());
            })),
            inlined: Some(again(calls, || {
                black_box(&mut Detector::new());
            })),
        }
    })
}

/// Of a detector that was locked before the first of them.
pub fn reset(calls: u64) -> Contest {
    let input = format!("{calls} calls");
    Contest::new("detector_reset", input, (calls, "call"), move || {
        let (mut state, mut detector) = after(20);
        let (_, mut inlined) = after(20);
        Sides {
            rattle: again(calls, move || {
                taken(desk::calls::detector_reset(black_box(&mut state)));
            }),
            rust: Some(again(calls, move || {
                called::reset(black_box(&mut detector));
            })),
            inlined: Some(again(calls, move || black_box(&mut inlined).reset())),
        }
    })
}

pub fn locked(frames: u64, calls: u64) -> Contest {
    let input = format!("{calls} calls");
    Contest::new("detector_locked", input, (calls, "call"), move || {
        let (state, detector) = after(frames);
        let (_, inlined) = after(frames);
        Sides {
            rattle: again(calls, move || {
                let mut locked = 0;
                taken(desk::calls::detector_locked(black_box(&state), &mut locked));
                black_box(locked);
            }),
            rust: Some(again(calls, move || {
                black_box(called::locked(black_box(&detector)));
            })),
            inlined: Some(again(calls, move || {
                black_box(black_box(&inlined).locked());
            })),
        }
    })
}

/// Of a locked detector.
pub fn predict(ahead: u64, calls: u64) -> Contest {
    let input = format!("{calls} calls, {ahead} ahead");
    Contest::new("detector_predict", input, (calls, "call"), move || {
        let (state, detector) = after(20);
        let (_, inlined) = after(20);
        assert!(detector.locked(), "twenty frames of the pattern lock");
        Sides {
            rattle: again(calls, move || {
                let mut cadence = 0;
                taken(desk::calls::detector_predict(
                    black_box(&state),
                    black_box(ahead),
                    &mut cadence,
                ));
                black_box(cadence);
            }),
            rust: Some(again(calls, move || {
                black_box(called::predict(black_box(&detector), black_box(ahead)));
            })),
            inlined: Some(again(calls, move || {
                black_box(black_box(&inlined).predict(black_box(ahead)));
            })),
        }
    })
}

/// The Rust as calls.
mod called {
    use super::*;

    #[inline(never)]
    pub fn new() -> Detector {
        Detector::new()
    }

    #[inline(never)]
    pub fn reset(detector: &mut Detector) {
        detector.reset();
    }

    #[inline(never)]
    pub fn locked(detector: &Detector) -> bool {
        detector.locked()
    }

    #[inline(never)]
    pub fn predict(detector: &Detector, ahead: u64) -> Cadence {
        detector.predict(ahead)
    }

    #[inline(never)]
    pub fn push_measured(detector: &mut Detector, first: Parity, measured: Measured) -> Cadence {
        detector.push_measured(first, measured)
    }
}
