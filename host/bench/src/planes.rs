//! Whole planes: their combs, and the rows that a field lacks.

use std::hint::black_box;
use std::rc::Rc;

use differ::random::Random;
use differ::runs;
use oracle::mediadecoder::video::Plane;
use oracle::video::Deinterlace;
use oracle::video::filter::{Planes, Samples};

use super::{Contest, Sides, Size, named, plane_of, side, taken};

pub fn comb(size: Size, depth: u32) -> Contest {
    let input = format!("{size}, {depth} bits");
    let sides = move || {
        let (plane, shape) = plane_of(1, size, (depth, 0));
        let plane = Rc::new(plane);
        let lent = plane.clone();
        Sides {
            rattle: side(move || {
                let lent = black_box(&lent.data[..]);
                let mut total = 0;
                let Size { width, height } = size;
                taken(desk::calls::comb(
                    lent,
                    width,
                    height,
                    depth,
                    shape.stride,
                    &mut total,
                ));
                black_box(total);
            }),
            rust: Some(side(move || {
                black_box(runs::comb::by_rust(black_box(&plane), depth as u8));
            })),
            inlined: None,
        }
    };
    Contest::new("comb", input, (size.pixels(), "pixel"), sides)
}

pub fn comb_rgba(size: Size) -> Contest {
    let sides = move || {
        let Size { width, height } = size;
        let picture: Rc<[u8]> = Random::new(1).bytes(4 * size.pixels() as usize).into();
        let lent = picture.clone();
        Sides {
            rattle: side(move || {
                let mut total = 0;
                taken(desk::calls::comb_rgba(
                    black_box(&lent),
                    width,
                    height,
                    &mut total,
                ));
                black_box(total);
            }),
            rust: Some(side(move || {
                let picture = black_box(&picture[..]);
                let (width, height) = (width as usize, height as usize);
                black_box(runs::comb_rgba::by_rust(picture, width, height));
            })),
            inlined: None,
        }
    };
    let pixels = (size.pixels(), "pixel");
    Contest::new("comb_rgba", size.to_string(), pixels, sides)
}

/// The Rust's view of a plane, planar or the luma of a biplanar frame.
fn samples(plane: &Plane, (depth, layout): (u32, u32)) -> Samples<'_> {
    let depth = depth as u8;
    match layout {
        0 => Samples::new(plane, depth),
        _ => Planes::biplanar(plane, plane, depth).y,
    }
}

/// All of three planes, of the first field. The Rust makes its output anew.
pub fn whole(size: Size, quality: u8, of: (u32, u32)) -> Contest {
    let (name, rust_quality) = match quality {
        1 => ("Bob", Deinterlace::Bob),
        2 => ("Yadif", Deinterlace::Yadif),
        _ => ("Bwdif", Deinterlace::Bwdif),
    };
    let input = format!("{size}, {}, {name}", named(of));
    let sides = move || {
        let three = [1, 2, 3].map(|seed| plane_of(seed, size, of));
        let shape = three[0].1;
        let planes = Rc::new(three.map(|(plane, _)| plane));
        let lent = planes.clone();
        let mut out = vec![0.0; size.pixels() as usize];
        Sides {
            rattle: side(move || {
                let [before, cur, after] = lent.each_ref().map(|plane| black_box(&plane.data[..]));
                taken(desk::calls::plane(
                    quality, 0, before, shape, cur, shape, after, shape, &mut out,
                ));
                black_box(&mut out);
            }),
            rust: Some(side(move || {
                let three = planes.each_ref().map(|plane| samples(plane, of));
                black_box(runs::plane::by_rust(rust_quality, &black_box(three), 0));
            })),
            inlined: None,
        }
    };
    Contest::new("plane", input, (size.pixels(), "pixel"), sides)
}
