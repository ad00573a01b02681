//! The number of a picture.

use desk::calls::{Conversion, OutputNumbers, PlaneNumbers};

use super::{Lent, floats, in_bounds, lowest, needed, nine_within};

/// Bytes of a picture of this plane's size: four a pixel. Of any numbers.
pub fn pixels(shape: PlaneNumbers) -> u64 {
    floats(shape).saturating_mul(4)
}

/// The frames before, now and after, each of luma and the two of chroma. They
/// agree in width, height and depth, and chroma has half the luma's size, rounded
/// up; else 5.
pub fn picture(
    quality: u8,
    output: OutputNumbers,
    conversion: Conversion,
    frames: [[Lent; 3]; 3],
    out: usize,
) -> u8 {
    let OutputNumbers {
        field,
        weave,
        earlier,
        later,
    } = output;
    let [_, [(current, _), ..], _] = frames;
    let size = |shape: PlaneNumbers| (shape.width, shape.height, shape.depth);
    let halves = (
        current.width.div_ceil(2),
        current.height.div_ceil(2),
        current.depth,
    );
    let agree = frames.iter().all(|[luma, cb, cr]| {
        size(luma.0) == size(current) && size(cb.0) == halves && size(cr.0) == halves
    });
    let all = || frames.iter().flatten();
    let short = |(shape, length): &Lent| (*length as u64) < needed(*shape);
    lowest(&[
        (3, quality > 3),
        (
            3,
            [field, weave, earlier, later].iter().any(|code| *code > 2),
        ),
        (3, all().any(|(shape, _)| shape.layout > 3)),
        (4, !all().all(|(shape, _)| in_bounds(*shape))),
        (5, !agree),
        (6, all().any(short)),
        (7, (out as u64) < pixels(current)),
        (8, !nine_within(conversion)),
    ])
}

#[cfg(test)]
mod tests {
    use super::{Lent, picture};
    use desk::calls::{Conversion, OutputNumbers, PlaneNumbers};

    const USUAL: Conversion = Conversion {
        luma_offset: 0.0,
        luma_gain: 1.0,
        chroma_offset: 0.5,
        chroma_gain: 1.0,
        kr: 0.25,
        kb: 0.125,
        luma_lift: 0.0,
        chroma_cos: 1.0,
        chroma_sin: 0.0,
    };

    fn plane(width: u32, height: u32, layout: u32) -> Lent {
        let shape = PlaneNumbers {
            width,
            height,
            depth: 8,
            stride: 9,
            layout,
        };
        (shape, 40)
    }

    #[test]
    fn of_nine_planes_the_lowest_number_is_given() {
        let planar = [plane(5, 3, 0), plane(3, 2, 0), plane(3, 2, 0)];
        let biplanar = [plane(5, 3, 1), plane(3, 2, 2), plane(3, 2, 3)];
        let right = [planar, biplanar, planar];
        let asked = |frames, field, out, kr| {
            let output = OutputNumbers {
                field,
                weave: 2,
                earlier: 0,
                later: 2,
            };
            picture(3, output, Conversion { kr, ..USUAL }, frames, out)
        };
        assert_eq!(asked(right, 2, 60, 0.25), 0);
        assert_eq!(asked(right, 2, 60, 0.5), 8);
        assert_eq!(asked(right, 2, 59, 0.5), 7);
        let mut frames = right;
        frames[0][2].1 = 11;
        assert_eq!(asked(frames, 2, 59, 0.5), 6);
        frames[2][1].0.width = 2;
        assert_eq!(asked(frames, 2, 59, 0.5), 5);
        frames[1][0].0.stride = 4;
        assert_eq!(asked(frames, 2, 59, 0.5), 4);
        assert_eq!(asked(frames, 3, 59, 0.5), 3);
        frames[2][2].0.layout = 4;
        assert_eq!(asked(frames, 2, 59, 0.5), 3);
        // Each of them differs from the others of its kind alone.
        for (frame, at) in [(0, 0), (1, 1), (2, 2)] {
            let mut frames = right;
            frames[frame][at].0.height += 1;
            assert_eq!(asked(frames, 0, 60, 0.25), 5, "{frame} {at}");
        }
    }
}
