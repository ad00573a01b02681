//! Whole pictures of three frames, of the first field as it is shown: the frame
//! before serves as earlier, the current one as later.

use std::hint::black_box;
use std::rc::Rc;

use desk::calls::{Conversion, FrameNumbers, OutputNumbers, PlaneNumbers};
use differ::runs::picture::{by_rust, output_named};
use oracle::mediadecoder::video::Plane;
use oracle::video::filter::{Planes, Samples};
use oracle::video::{Deinterlace, Settings, colour};

use super::{Contest, Sides, Size, plane_of, side, taken};

/// A frame of noise: three planes, or luma and a plane that chroma shares.
pub struct Frame {
    planes: Vec<Plane>,
    pub shapes: FrameNumbers,
}

impl Frame {
    pub fn new(seed: u64, size: Size, depth: u32, biplanar: bool) -> Self {
        let Size { width, height } = size;
        let layout = u32::from(biplanar);
        let own = |seed, width, height| plane_of(seed, Size { width, height }, (depth, layout));
        let (luma, shape) = own(seed, width, height);
        if !biplanar {
            let (cb, half) = own(seed + 10, width / 2, height / 2);
            let (cr, _) = own(seed + 20, width / 2, height / 2);
            return Self {
                planes: vec![luma, cb, cr],
                shapes: FrameNumbers {
                    luma: shape,
                    cb: half,
                    cr: half,
                },
            };
        }
        // Its rows hold twice the width, which is the luma's.
        let (shared, both) = own(seed + 10, width, height / 2);
        let half = |layout| PlaneNumbers {
            width: width / 2,
            layout,
            ..both
        };
        Self {
            planes: vec![luma, shared],
            shapes: FrameNumbers {
                luma: shape,
                cb: half(2),
                cr: half(3),
            },
        }
    }

    pub fn lent(&self) -> [&[u8]; 3] {
        let last = self.planes.len() - 1;
        [0, 1, last].map(|at| black_box(&self.planes[at].data[..]))
    }

    fn for_rust(&self, depth: u32) -> Planes<'_> {
        let depth = depth as u8;
        match &self.planes[..] {
            [luma, shared] => Planes::biplanar(luma, shared, depth),
            planes => Planes {
                y: Samples::new(&planes[0], depth),
                cb: Samples::new(&planes[1], depth),
                cr: Samples::new(&planes[2], depth),
            },
        }
    }
}

const SETTINGS: Settings = Settings {
    deinterlace: Deinterlace::Weave,
    matrix: colour::Matrix::Bt709,
    limited: true,
};

/// The Rust makes its output anew.
pub fn picture(size: Size, quality: u8, depth: u32, biplanar: bool) -> Contest {
    let (name, deinterlace) = match quality {
        0 => ("Weave", Deinterlace::Weave),
        1 => ("Bob", Deinterlace::Bob),
        2 => ("Yadif", Deinterlace::Yadif),
        _ => ("Bwdif", Deinterlace::Bwdif),
    };
    let settings = Settings {
        deinterlace,
        ..SETTINGS
    };
    let layout = if biplanar { ", bipl." } else { "" };
    let input = format!("{size}, {depth} bits{layout}, {name}");
    Contest::new("picture", input, (size.pixels(), "pixel"), move || {
        sides(size, quality, settings, depth, biplanar)
    })
}

/// The conversion of every picture of this depth.
pub fn conversion(depth: u32) -> Conversion {
    let made = colour::Conversion::new(SETTINGS.matrix, depth as u8, SETTINGS.limited);
    Conversion {
        luma_offset: made.luma_offset,
        luma_gain: made.luma_gain,
        chroma_offset: made.chroma_offset,
        chroma_gain: made.chroma_gain,
        kr: made.kr,
        kb: made.kb,
        luma_lift: made.luma_lift,
        chroma_cos: made.chroma_cos,
        chroma_sin: made.chroma_sin,
    }
}

fn sides(size: Size, quality: u8, settings: Settings, depth: u32, biplanar: bool) -> Sides {
    let conversion = conversion(depth);
    let output = OutputNumbers {
        field: 0,
        weave: 2,
        earlier: 0,
        later: 1,
    };
    let frames = Rc::new([1, 2, 3].map(|seed| Frame::new(seed, size, depth, biplanar)));
    let lent = frames.clone();
    let mut out = vec![0; 4 * size.pixels() as usize];
    Sides {
        rattle: side(move || {
            let [previous, current, following] = &*lent;
            let [previous_luma, previous_cb, previous_cr] = previous.lent();
            let [current_luma, current_cb, current_cr] = current.lent();
            let [following_luma, following_cb, following_cr] = following.lent();
            taken(desk::calls::picture(
                quality,
                output,
                conversion,
                previous.shapes,
                previous_luma,
                previous_cb,
                previous_cr,
                current.shapes,
                current_luma,
                current_cb,
                current_cr,
                following.shapes,
                following_luma,
                following_cb,
                following_cr,
                &mut out,
            ));
            black_box(&mut out);
        }),
        rust: Some(side(move || {
            let planes = frames.each_ref().map(|frame| frame.for_rust(depth));
            let output = output_named(output);
            black_box(by_rust(&black_box(planes), depth as u8, &output, settings));
        })),
        inlined: None,
    }
}
