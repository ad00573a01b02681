//! Which number a call is to give. The Rust has no refusals: its types leave
//! some of these inputs out, and it reads zeros or panics at others. So
//! docs/RULES.md is the judge here ("Planes", "What the desk gets back"), written
//! out once more, apart from the proved code and its statements.

use desk::calls::{Conversion, PlaneNumbers};

pub mod films;
pub mod pictures;
pub mod weaves;

/// The lowest number whose condition holds; 0 where none does.
fn lowest(conditions: &[(u8, bool)]) -> u8 {
    conditions
        .iter()
        .filter(|(_, holds)| *holds)
        .map(|(number, _)| *number)
        .min()
        .unwrap_or(0)
}

/// How many components stand in a row of a plane of this layout.
pub fn components(layout: u32) -> u64 {
    if layout >= 2 { 2 } else { 1 }
}

/// Bytes of a row without its padding. Of any numbers, so that inputs outside
/// the bounds can be made too.
pub fn row(shape: PlaneNumbers) -> u64 {
    let bytes_a_sample = if shape.depth > 8 { 2 } else { 1 };
    u64::from(shape.width) * components(shape.layout) * bytes_a_sample
}

/// A stride for every row but the last, and for that one its bytes. Of any
/// numbers too; what is too large for the answer is as large as can be.
pub fn needed(shape: PlaneNumbers) -> u64 {
    let rows_before = u64::from(shape.height).saturating_sub(1);
    (rows_before * u64::from(shape.stride)).saturating_add(row(shape))
}

/// 1 to 8,192 samples wide, 1 to 4,352 rows high, 8 to 16 bits deep, and a
/// stride from a row's bytes to 65,536.
pub fn in_bounds(shape: PlaneNumbers) -> bool {
    (1..=8192).contains(&shape.width)
        && (1..=4352).contains(&shape.height)
        && (8..=16).contains(&shape.depth)
        && shape.stride <= 65_536
        && row(shape) <= u64::from(shape.stride)
}

/// The number of a read, but for its coordinates.
fn read(shape: PlaneNumbers, length: usize, coordinate_outside: bool) -> u8 {
    lowest(&[
        (3, shape.layout > 3),
        (3, coordinate_outside),
        (4, !in_bounds(shape)),
        (6, (length as u64) < needed(shape)),
    ])
}

/// It clamps, and takes coordinates from -65,536 to 65,536.
pub fn at(shape: PlaneNumbers, length: usize, x: i32, y: i32) -> u8 {
    let taken = -65_536..=65_536;
    read(shape, length, !taken.contains(&x) || !taken.contains(&y))
}

/// It takes a place inside the plane, as large as that is said to be.
pub fn code(shape: PlaneNumbers, length: usize, x: i32, y: i32) -> u8 {
    let inside = |coordinate: i32, size: u32| (0..i64::from(size)).contains(&i64::from(coordinate));
    let outside = !inside(x, shape.width) || !inside(y, shape.height);
    read(shape, length, outside)
}

/// As of `at`: a place of a missing row may be outside the plane too.
pub fn edge(shape: PlaneNumbers, length: usize, x: i32, y: i32) -> u8 {
    at(shape, length, x, y)
}

/// A shape and the bytes that are lent for it.
pub type Lent = (PlaneNumbers, usize);

/// What holds of the planes before, now and after: they agree in width, height
/// and depth.
fn three(planes: [Lent; 3]) -> [(u8, bool); 4] {
    let size = |(shape, _): Lent| (shape.width, shape.height, shape.depth);
    [
        (3, planes.iter().any(|(shape, _)| shape.layout > 3)),
        (4, !planes.iter().all(|(shape, _)| in_bounds(*shape))),
        (
            5,
            planes.iter().any(|plane| size(*plane) != size(planes[0])),
        ),
        (
            6,
            planes
                .iter()
                .any(|(shape, length)| (*length as u64) < needed(*shape)),
        ),
    ]
}

/// There are four qualities; `first` is 0 or 1, and `mate` 0, 1, or 2 for none.
pub fn sample(quality: u8, planes: [Lent; 3], first: u32, mate: u32, x: i32, y: i32) -> u8 {
    let taken = -65_536..=65_536;
    let [code, shape, size, length] = three(planes);
    lowest(&[
        (3, quality > 3 || first > 1 || mate > 2),
        (3, !taken.contains(&x) || !taken.contains(&y)),
        code,
        shape,
        size,
        length,
    ])
}

/// Floats that a plane of this shape has; of any numbers.
pub fn floats(shape: PlaneNumbers) -> u64 {
    u64::from(shape.width) * u64::from(shape.height)
}

/// As of `sample`, without a mate; and the output may be too short for what is
/// written.
pub fn plane(quality: u8, first: u8, planes: [Lent; 3], out: usize) -> u8 {
    let [code, shape, size, length] = three(planes);
    lowest(&[
        (3, quality > 3 || first > 1),
        code,
        shape,
        size,
        length,
        (7, (out as u64) < floats(planes[1].0)),
    ])
}

/// All nine lie in -16..16, and `kr` and `kb` in 0..0.4375. No NaN lies
/// anywhere; -0.0 is 0.
fn nine_within(conversion: Conversion) -> bool {
    let Conversion {
        luma_offset,
        luma_gain,
        chroma_offset,
        chroma_gain,
        kr,
        kb,
        luma_lift,
        chroma_cos,
        chroma_sin,
    } = conversion;
    let nine = [
        luma_offset,
        luma_gain,
        chroma_offset,
        chroma_gain,
        kr,
        kb,
        luma_lift,
        chroma_cos,
        chroma_sin,
    ];
    nine.iter().all(|number| (-16.0..=16.0).contains(number))
        && [kr, kb].iter().all(|k| (0.0..=0.4375).contains(k))
}

/// The nine numbers, and three samples in 0..256.
pub fn to_rgb(conversion: Conversion, samples: [f32; 3]) -> u8 {
    let within =
        nine_within(conversion) && samples.iter().all(|sample| (0.0..=256.0).contains(sample));
    lowest(&[(8, !within)])
}

/// Comb takes the numbers of a planar shape.
pub fn comb(shape: PlaneNumbers, length: usize) -> u8 {
    lowest(&[(4, !in_bounds(shape)), (6, (length as u64) < needed(shape))])
}

/// Four bytes a pixel, no padding.
pub fn comb_rgba(width: u32, height: u32, length: usize) -> u8 {
    let needed = u128::from(width) * u128::from(height) * 4;
    lowest(&[
        (4, !(1..=8192).contains(&width)),
        (4, !(1..=4352).contains(&height)),
        (6, (length as u128) < needed),
    ])
}

#[cfg(test)]
mod tests {
    use super::{at, code, comb, comb_rgba, edge, needed, plane, sample, to_rgb};
    use desk::calls::{Conversion, PlaneNumbers};

    const GOOD: PlaneNumbers = PlaneNumbers {
        width: 3,
        height: 2,
        depth: 10,
        stride: 13,
        layout: 3,
    };

    #[test]
    fn the_lowest_number_is_given() {
        assert_eq!(needed(GOOD), 13 + 12);
        assert_eq!(
            (at(GOOD, 25, -65_536, 65_536), code(GOOD, 25, 2, 1)),
            (0, 0)
        );
        assert_eq!((at(GOOD, 24, 0, 0), code(GOOD, 24, 0, 0)), (6, 6));
        let shallow = PlaneNumbers { depth: 7, ..GOOD };
        assert_eq!((at(shallow, 0, 0, 0), code(shallow, 0, 0, 0)), (4, 4));
        assert_eq!((at(shallow, 0, 0, 65_537), code(shallow, 0, 3, 0)), (3, 3));
        let unnamed = PlaneNumbers {
            layout: 4,
            ..shallow
        };
        assert_eq!((at(unnamed, 0, 0, 0), code(unnamed, 0, 0, 0)), (3, 3));
        let empty = PlaneNumbers { width: 0, ..GOOD };
        assert_eq!((at(empty, 99, 0, 0), code(empty, 99, 0, 0)), (4, 3));
        let wide = PlaneNumbers {
            width: 65_537,
            ..GOOD
        };
        assert_eq!(
            (code(wide, 99, 65_536, 0), code(wide, 99, 65_537, 0)),
            (4, 3)
        );
        let high = PlaneNumbers {
            height: u32::MAX,
            ..GOOD
        };
        assert_eq!((code(high, 99, 0, i32::MAX), code(high, 99, 0, -1)), (4, 3));
    }

    #[test]
    fn of_three_planes_the_lowest_number_is_given() {
        let planar = PlaneNumbers { layout: 0, ..GOOD };
        let asked = |planes, first, mate, x| sample(2, planes, first, mate, x, -3);
        let lent = [(GOOD, 25), (planar, 25), (GOOD, 99)];
        assert_eq!(asked(lent, 1, 2, 65_536), 0);
        assert_eq!(asked(lent, 2, 2, 0), 3);
        assert_eq!(asked(lent, 1, 3, 0), 3);
        assert_eq!(asked(lent, 1, 2, 65_537), 3);
        assert_eq!(sample(4, lent, 1, 2, 0, 0), 3);
        assert_eq!((plane(3, 1, lent, 6), plane(3, 1, lent, 5)), (0, 7));
        assert_eq!((plane(4, 1, lent, 5), plane(3, 2, lent, 5)), (3, 3));
        let mut short = lent;
        short[2].1 = 24;
        assert_eq!(plane(3, 1, short, 5), 6);
        assert_eq!(asked(short, 1, 2, 0), 6);
        // A planar row is shorter.
        short = lent;
        short[1].1 = 19;
        assert_eq!(asked(short, 1, 2, 0), 0);
        short[1].1 = 18;
        assert_eq!(asked(short, 1, 2, 0), 6);
        short[0].0.width = 2;
        assert_eq!(asked(short, 1, 2, 0), 5);
        short[1].0.stride = 5;
        assert_eq!(asked(short, 1, 2, 0), 4);
        short[2].0.layout = 4;
        assert_eq!(asked(short, 1, 2, 0), 3);
        assert_eq!((edge(GOOD, 25, 9, 9), edge(GOOD, 24, 9, 9)), (0, 6));
    }

    #[test]
    fn each_colour_number_is_judged_on_both_sides() {
        let ends = Conversion {
            luma_offset: 16.0,
            luma_gain: -16.0,
            chroma_offset: 0.0,
            chroma_gain: 1.0,
            kr: 0.4375,
            kb: -0.0,
            luma_lift: 16.0,
            chroma_cos: -16.0,
            chroma_sin: -0.0,
        };
        assert_eq!(to_rgb(ends, [0.0, -0.0, 256.0]), 0);
        for outside in [-f32::MIN_POSITIVE, 256.0_f32.next_up(), f32::NAN] {
            assert_eq!(to_rgb(ends, [1.0, outside, 1.0]), 8);
        }
        for kr in [-f32::MIN_POSITIVE, 0.4375_f32.next_up(), f32::NAN] {
            assert_eq!(to_rgb(Conversion { kr, ..ends }, [1.0; 3]), 8);
        }
        for luma_lift in [16.0_f32.next_up(), f32::NEG_INFINITY, f32::NAN] {
            assert_eq!(to_rgb(Conversion { luma_lift, ..ends }, [1.0; 3]), 8);
        }
    }

    #[test]
    fn each_bound_is_judged_on_both_sides() {
        let planar = PlaneNumbers {
            width: 8192,
            height: 4352,
            depth: 16,
            stride: 65_536,
            layout: 0,
        };
        let all = 4351 * 65_536 + 16_384;
        assert_eq!(comb(planar, all), 0);
        assert_eq!(comb(planar, all - 1), 6);
        for outside in [
            PlaneNumbers {
                width: 8193,
                ..planar
            },
            PlaneNumbers {
                height: 4353,
                ..planar
            },
            PlaneNumbers {
                depth: 17,
                ..planar
            },
            PlaneNumbers {
                stride: 65_537,
                ..planar
            },
            PlaneNumbers {
                stride: 16_383,
                ..planar
            },
        ] {
            assert_eq!(comb(outside, usize::MAX), 4, "{outside:?}");
        }
        assert_eq!(comb_rgba(8192, 4352, 8192 * 4352 * 4), 0);
        assert_eq!(comb_rgba(8192, 4352, 8192 * 4352 * 4 - 1), 6);
        assert_eq!(comb_rgba(8193, 1, usize::MAX), 4);
        assert_eq!(comb_rgba(1, 4353, 0), 4);
        assert_eq!(comb_rgba(0, 1, 0), 4);
    }
}
