//! Shots of luma, 8 bits, as they come to tape, made here. Film is spread over
//! fields by 2:3 pulldown, and video has a picture for each field; of every
//! field it is known which picture it shows. Nothing here knows of a detector.

use crate::random::Random;

#[derive(Debug, Clone, Copy, PartialEq, Eq)]
pub struct Size {
    pub width: usize,
    pub height: usize,
}

/// How the pictures of a shot come to tape.
#[derive(Debug, Clone, Copy, PartialEq, Eq)]
pub enum Tape {
    /// Film, whose first frame is at this step of the pattern.
    Film(usize),
    Video,
}

impl Tape {
    /// The picture that a field of the shot shows.
    pub fn picture(self, field: usize) -> usize {
        // The ten fields of the five steps: A A, B B, B C, C D, D D.
        const SPREAD: [usize; 10] = [0, 0, 1, 1, 1, 2, 2, 3, 3, 3];
        match self {
            Self::Film(step) => {
                let at = 2 * step + field;
                at / 10 * 4 + SPREAD[at % 10]
            }
            Self::Video => field,
        }
    }

    /// When a picture was taken, in halves of a field's time: a film picture
    /// lasts two fields and a half.
    fn time(self, picture: usize) -> usize {
        match self {
            Self::Film(_) => 5 * picture,
            Self::Video => 2 * picture,
        }
    }
}

/// Of ten frames, in the same measure.
const TEN_FRAMES: usize = 40;

#[derive(Debug, Clone, Copy, PartialEq, Eq)]
pub enum Scene {
    /// The camera pans over a picture full of contrast.
    Pan,
    /// The same, drawn: every second picture is the one before it.
    Twos,
    /// A square of this side crosses a picture at rest.
    Patch(usize),
    /// A picture at rest, but for so many blocks (16 columns, 8 rows of a
    /// field) in which every picture is another.
    Blocks(usize),
    /// Small bright stars drift over black, all of them alike.
    Stars,
    /// A square of side 24 as above; and a lamp that goes on, or off, every ten
    /// frames.
    Lamp,
}

/// Noise up to so many levels each way.
#[derive(Debug, Clone, Copy, PartialEq, Eq)]
pub enum Grain {
    None,
    /// Of the film: a repeated field repeats it.
    OnFilm(u8),
    /// Of the tape: it is another in every field.
    OnTape(u8),
}

#[derive(Debug, Clone, Copy, PartialEq, Eq)]
pub struct Shot {
    pub scene: Scene,
    pub tape: Tape,
    pub grain: Grain,
    pub frames: usize,
}

/// A picture of a reel: the number of its shot, and its own in the shot.
pub type Picture = (usize, usize);

/// One frame of tape, and the pictures that its earlier and its later field show.
pub struct Taped {
    pub luma: Vec<u8>,
    pub shows: [Picture; 2],
}

/// Shots cut together. Of each frame the field of rows 0, 2, 4.. comes first, or
/// that of rows 1, 3, 5...
#[derive(Debug, Clone)]
pub struct Reel {
    pub size: Size,
    pub top_first: bool,
    pub shots: Vec<Shot>,
}

impl Reel {
    pub fn frames(&self) -> impl Iterator<Item = Taped> + '_ {
        let cells = Cells::new();
        let shots = self.shots.iter().enumerate();
        let places = shots.flat_map(|(at, shot)| (0..shot.frames).map(move |frame| (at, frame)));
        places.map(move |(at, frame)| self.frame(&cells, at, frame))
    }

    fn frame(&self, cells: &Cells, at: usize, frame: usize) -> Taped {
        let Size { width, height } = self.size;
        let Shot {
            scene, tape, grain, ..
        } = self.shots[at];
        let mut luma = vec![0; width * height];
        let pictures = [0, 1].map(|later| tape.picture(2 * frame + later));
        for (later, picture) in pictures.into_iter().enumerate() {
            let first_row = usize::from(self.top_first == (later == 1));
            let (levels, seed) = match grain {
                Grain::None => (0, 0),
                Grain::OnFilm(levels) => (levels, picture),
                Grain::OnTape(levels) => (levels, 2 * frame + later),
            };
            let mut noise = Random::for_run(seed as u64, "grain");
            for y in (0..height).skip(first_row).step_by(2) {
                let row = &mut luma[y * width..][..width];
                cells.draw(scene, tape.time(picture), y, row);
                if levels > 0 {
                    lay_over(row, levels, &noise.bytes(width));
                }
            }
        }
        Taped {
            luma,
            shows: pictures.map(|picture| (at, picture)),
        }
    }
}

fn lay_over(row: &mut [u8], levels: u8, noise: &[u8]) {
    let steps = 2 * u16::from(levels) + 1;
    for (sample, noise) in row.iter_mut().zip(noise) {
        let up = ((u16::from(*noise) * steps) >> 8) as u8;
        *sample = sample.saturating_add(up).saturating_sub(levels);
    }
}

/// What all scenes are painted with: cells of arbitrary levels that leave room
/// for grain, so many in a row, row by row.
struct Cells(Vec<u8>);

const CELLS: usize = 256;

impl Cells {
    fn new() -> Self {
        let levels = Random::for_run(0, "cells").bytes(CELLS * CELLS);
        Self(levels.into_iter().map(|level| 32 + level / 4 * 3).collect())
    }

    fn at(&self, x: usize, y: usize) -> u8 {
        self.0[y % CELLS * CELLS + x % CELLS]
    }

    /// One row of a scene as it was at a time.
    fn draw(&self, scene: Scene, time: usize, y: usize, row: &mut [u8]) {
        let pan = |by: usize, row: &mut [u8]| {
            for (x, sample) in row.iter_mut().enumerate() {
                *sample = self.at((x + by) / 8, y / 8);
            }
        };
        match scene {
            Scene::Pan => pan(time, row),
            Scene::Twos => pan(time / 10 * 10, row),
            Scene::Patch(side) => {
                pan(0, row);
                self.patch(side, time, y, row);
            }
            Scene::Blocks(count) => {
                pan(0, row);
                if y < 16 {
                    for (x, sample) in row[..16 * count].iter_mut().enumerate() {
                        *sample = self.at(x + 7 * time, y + 3 * time);
                    }
                }
            }
            Scene::Stars => {
                // One of two by two samples in each square of 32.
                for (x, sample) in row.iter_mut().enumerate() {
                    let (x, across, down) = (x + time, (x + time) / 32, y / 32);
                    let place = usize::from(self.at(across, down) - 32) % 30;
                    let star = (x % 32).wrapping_sub(place) < 2 && (y % 32).wrapping_sub(place) < 2;
                    *sample = if star { 235 } else { 16 };
                }
            }
            Scene::Lamp => {
                pan(0, row);
                self.patch(24, time, y, row);
                if (320..384).contains(&y) && time / TEN_FRAMES % 2 == 1 {
                    row[320..384].fill(235);
                }
            }
        }
    }

    /// A square full of contrast, from the left to the right.
    fn patch(&self, side: usize, time: usize, y: usize, row: &mut [u8]) {
        const ABOVE: usize = 100;
        if (ABOVE..ABOVE + side).contains(&y) {
            let left = 40 + time % (row.len() - side - 40);
            for (x, sample) in row[left..left + side].iter_mut().enumerate() {
                *sample = self.at(x, y - ABOVE);
            }
        }
    }
}

#[cfg(test)]
mod tests {
    use super::{Grain, Reel, Scene, Shot, Size, Tape};

    const SIZE: Size = Size {
        width: 720,
        height: 481,
    };

    fn reel(scene: Scene, tape: Tape, grain: Grain, top_first: bool) -> Reel {
        let shot = Shot {
            scene,
            tape,
            grain,
            frames: 5,
        };
        Reel {
            size: SIZE,
            top_first,
            shots: vec![shot],
        }
    }

    #[test]
    fn film_pictures_last_two_and_three_fields() {
        let fields: Vec<usize> = (0..12).map(|field| Tape::Film(0).picture(field)).collect();
        assert_eq!(fields, [0, 0, 1, 1, 1, 2, 2, 3, 3, 3, 4, 4]);
        let fields: Vec<usize> = (0..6).map(|field| Tape::Film(3).picture(field)).collect();
        assert_eq!(fields, [2, 3, 3, 3, 4, 4]);
    }

    /// Rows of a frame that are those of another, by field: top, then bottom.
    fn alike(one: &[u8], other: &[u8]) -> [usize; 2] {
        let mut rows = [0; 2];
        let both = one.chunks(SIZE.width).zip(other.chunks(SIZE.width));
        for (y, (one, other)) in both.enumerate() {
            rows[y % 2] += usize::from(one == other);
        }
        rows
    }

    #[test]
    fn fields_of_one_picture_are_alike_but_for_the_tapes_grain() {
        for (grain, top_first, repeated) in [
            (Grain::None, true, [[241, 0], [0, 240]]),
            (Grain::None, false, [[0, 240], [241, 0]]),
            (Grain::OnFilm(5), true, [[241, 0], [0, 240]]),
            (Grain::OnTape(5), true, [[0, 0], [0, 0]]),
        ] {
            let reel = reel(Scene::Pan, Tape::Film(0), grain, top_first);
            let frames: Vec<_> = reel.frames().map(|frame| frame.luma).collect();
            let against = |at: usize| alike(&frames[at], &frames[at - 1]);
            assert_eq!([against(2), against(4)], repeated, "{grain:?}");
            assert_eq!([against(1), against(3)], [[0, 0]; 2], "{grain:?}");
        }
    }

    /// Of video no field repeats another, and of a quiet shot few rows change.
    #[test]
    fn quiet_scenes_change_little() {
        for (scene, changed) in [
            (Scene::Patch(24), 12),
            (Scene::Blocks(9), 8),
            (Scene::Lamp, 12),
        ] {
            let reel = reel(scene, Tape::Video, Grain::None, true);
            let frames: Vec<_> = reel.frames().map(|frame| frame.luma).collect();
            let rows = alike(&frames[1], &frames[0]);
            assert_eq!(rows, [241 - changed, 240 - changed], "{scene:?}");
        }
    }
}
