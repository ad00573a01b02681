//! The rows a field lacks: crates/desk/src/filters.rt.

use crate::{Parity, Plane, Refusal, calls};

/// How the rows that a field lacks are made. The numbers are the desk's.
#[derive(Debug, Clone, Copy, PartialEq, Eq)]
pub enum Quality {
    /// They are not made: both fields are shown.
    Weave = 0,
    /// From the rows above and below.
    Bob = 1,
    /// Along edges, and held to what moved between the frames before and after.
    Yadif = 2,
    /// Likewise, from three rows above and three below.
    Bwdif = 3,
}

/// Which rows are taken from where.
#[derive(Debug, Clone, Copy, PartialEq, Eq)]
pub struct Rows {
    /// The field that is shown; the other's rows are made. Weave does not ask for it.
    pub first: Parity,
    /// The field whose rows Weave takes from the frame before. The others do not ask for it.
    pub mate: Option<Parity>,
}

/// How an edge runs through a place of a missing row: from -2, over 0 for upright, to 2. Refused as
/// [`value`](crate::value) is.
pub fn slant(plane: Plane<'_>, x: i32, y: i32) -> Result<i32, Refusal> {
    let mut slant = 0;
    let number = calls::edge(plane.bytes, plane.numbers(), x, y, &mut slant);
    Refusal::check(number)?;
    Ok(slant)
}

/// The value at a place of the plane in the middle, of one before it and one after it. Refused with
/// 3 where a coordinate is not within -65,536 to 65,536, with 4, with 5 where the three differ in
/// width, height or depth, and with 6.
pub fn sample(
    quality: Quality,
    [before, cur, after]: [Plane<'_>; 3],
    rows: Rows,
    x: i32,
    y: i32,
) -> Result<f32, Refusal> {
    let mut value = 0.0;
    let number = calls::sample(
        quality as u8,
        before.bytes,
        before.numbers(),
        cur.bytes,
        cur.numbers(),
        after.bytes,
        after.numbers(),
        rows.first as u32,
        Parity::number_or_none(rows.mate),
        x,
        y,
        &mut value,
    );
    Refusal::check(number)?;
    Ok(value)
}

/// All values of the plane in the middle, row by row, of which the field `first` is shown and the
/// other is made. Refused with 4, with 5 where the three differ in width, height or depth, and
/// with 6.
pub fn fill_plane(
    quality: Quality,
    first: Parity,
    [before, cur, after]: [Plane<'_>; 3],
) -> Result<Vec<f32>, Refusal> {
    let mut values = vec![0.0; cur.samples()];
    let number = calls::plane(
        quality as u8,
        first as u8,
        before.bytes,
        before.numbers(),
        cur.bytes,
        cur.numbers(),
        after.bytes,
        after.numbers(),
        &mut values,
    );
    Refusal::check(number)?;
    Ok(values)
}

#[cfg(test)]
mod tests {
    use super::Parity::{Bottom, Top};
    use super::{Plane, Quality, Rows, calls, fill_plane, sample, slant};
    use crate::Refusal;

    fn plane(bytes: &[u8]) -> Plane<'_> {
        Plane::packed(bytes, 5, 3, 8)
    }

    #[test]
    fn slants_by_hand() {
        // Bright from column 3 on above, and from column 1 on below.
        let (above, below) = ([0, 0, 0, 255, 255], [0, 255, 255, 255, 255]);
        let step = |above: [u8; 5], below: [u8; 5]| [above, [9; 5], below].concat();
        let bytes = step(above, below);
        let picture = plane(&bytes);
        assert_eq!(slant(picture, 2, 1), Ok(1));
        assert_eq!(slant(plane(&step(below, above)), 2, 1), Ok(-1));
        // A bright spot on each side, which -1 passes by and 1 joins: a tie.
        let spots = step([0, 0, 0, 255, 0], [0, 255, 0, 0, 0]);
        assert_eq!(slant(plane(&spots), 2, 1), Ok(-1));

        let refused = |plane, x| slant(plane, x, 1).map_err(Refusal::number);
        assert_eq!(refused(picture, 65_537), Err(3));
        assert_eq!(refused(plane(&bytes[1..]), 2), Err(6));
        let flat = Plane {
            height: 0,
            ..picture
        };
        assert_eq!(refused(flat, 2), Err(4));
    }

    #[test]
    fn each_plane_and_field_comes_to_its_own_place() {
        let bytes = [51, 102, 255].map(|code| [code; 15]);
        let planes = bytes.each_ref().map(|bytes| plane(bytes));
        let of = |quality, mate| sample(quality, planes, Rows { first: Top, mate }, 2, 1);
        // Weave takes the rows of `mate` from the plane before.
        assert_eq!(of(Quality::Weave, Some(Bottom)), Ok(51.0 / 255.0));
        assert_eq!(of(Quality::Weave, Some(Top)), Ok(102.0 / 255.0));
        // Bob makes the row of the plane in the middle alone, and Yadif holds it
        // to the average of 51 and 255, more or less by half of the change.
        assert_eq!(of(Quality::Bob, None), Ok(102.0 / 255.0));
        assert_eq!(of(Quality::Yadif, None), Ok(102.0 / 255.0));
        assert_eq!(of(Quality::Bwdif, None), Ok(102.0 / 255.0));
        // The field that is shown is the middle plane's own.
        let far = Rows {
            first: Bottom,
            mate: None,
        };
        let shown = sample(Quality::Yadif, planes, far, 2, 1);
        assert_eq!(shown, Ok(102.0 / 255.0));
        let far = sample(Quality::Bob, planes, far, 2, -65_537);
        assert_eq!(far.map_err(Refusal::number), Err(3));
    }

    #[test]
    fn codes_that_name_nothing_leave_what_is_lent() {
        let shape = plane(&[]).numbers();
        let [before, cur, after] = [51, 102, 255].map(|code| [code; 15]);
        for (quality, first, mate) in [(4, 0, 2), (2, 2, 2), (2, 0, 3)] {
            let mut value = -1.0;
            let number = calls::sample(
                quality, &before, shape, &cur, shape, &after, shape, first, mate, 2, 1, &mut value,
            );
            assert_eq!((number, value), (3, -1.0));
        }
    }

    #[test]
    fn planes_that_differ_are_refused() {
        let bytes = [0; 15];
        let whole = plane(&bytes);
        let rows = Rows {
            first: Top,
            mate: None,
        };
        let refused = |planes| {
            let number = sample(Quality::Bob, planes, rows, 0, 0).map_err(Refusal::number);
            let filled = fill_plane(Quality::Bob, Top, planes).map_err(Refusal::number);
            assert_eq!(filled.err(), number.err());
            number
        };
        let narrow = Plane { width: 4, ..whole };
        assert_eq!(refused([whole, whole, narrow]), Err(5));
        assert_eq!(refused([plane(&bytes[1..]), whole, whole]), Err(6));
        let vast = Plane::packed(&bytes, u32::MAX, u32::MAX, 16);
        assert_eq!(refused([vast; 3]), Err(4));
    }

    /// Words of ten bits, some of them past 1,023, and the codes that they count as.
    #[test]
    fn stray_bits_make_no_other_value() {
        let bytes = |words: [u16; 15]| words.map(u16::to_le_bytes).concat();
        let word = |at: u16| [300 * at, 0x0400, 0xFFFF - at, 70 * at][usize::from(at % 4)];
        let words: [u16; 15] = std::array::from_fn(|at| word(at as u16));
        let (stray, cut) = (bytes(words), bytes(words.map(|word| word.min(1023))));
        assert_ne!(stray, cut);
        let planes = |bytes| [Plane::packed(bytes, 5, 3, 10); 3];
        for quality in [Quality::Weave, Quality::Bob, Quality::Yadif, Quality::Bwdif] {
            let of = |bytes| fill_plane(quality, Top, planes(bytes)).expect("all agree");
            assert_eq!(of(&stray), of(&cut), "{quality:?}");
            let rows = Rows {
                first: Bottom,
                mate: None,
            };
            for x in 0..5 {
                let of = |bytes| sample(quality, planes(bytes), rows, x, 0);
                assert_eq!(of(&stray), of(&cut), "{quality:?}, {x}");
                let of = |bytes| slant(planes(bytes)[0], x, 1);
                assert_eq!(of(&stray), of(&cut), "{x}");
            }
        }
    }

    #[test]
    fn a_whole_plane_is_made_row_by_row() {
        let plane = |bytes| Plane::packed(bytes, 2, 3, 8);
        let other = plane(&[255; 6]);
        let cur = plane(&[0, 51, 7, 7, 102, 153]);
        // Bob's row is half of those above and below it.
        let rows = [0.0, 0.2, 0.2, 0.4, 0.4, 0.6];
        let near = |(found, wanted): (&f32, f32)| (found - wanted).abs() < 1e-6;
        let found = fill_plane(Quality::Bob, Top, [other, cur, other]).expect("all agree");
        assert_eq!(found.len(), rows.len());
        assert!(found.iter().zip(rows).all(near), "{found:?}");

        // What is lent beyond the plane stays, and all of it where it is too short.
        let (shape, other) = (cur.numbers(), other.bytes);
        let fill =
            |out: &mut [f32]| calls::plane(1, 0, other, shape, cur.bytes, shape, other, shape, out);
        let mut out = [9.0; 7];
        assert_eq!(fill(&mut out), 0);
        assert_eq!((&out[..6], out[6]), (&found[..], 9.0));
        out = [9.0; 7];
        assert_eq!((fill(&mut out[..5]), out), (7, [9.0; 7]));
    }
}
