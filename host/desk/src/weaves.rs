//! Weaving fields into frames: crates/weavedesk/src/lib.rt.

use crate::calls::{FieldNumbers, FormatNumbers};
use crate::planes::row_bytes;
use crate::{Lines, Parity, Refusal, calls};

/// Bytes in which a weaver is kept between calls.
pub const WEAVER_BYTES: usize = 56;

/// The three planes of a field that is lent. Chroma has half the luma's width and height, rounded
/// up.
#[derive(Debug, Clone, Copy, PartialEq, Eq)]
pub struct Field<'a> {
    pub luma: Lines<'a>,
    pub cb: Lines<'a>,
    pub cr: Lines<'a>,
}

impl<'a> Field<'a> {
    /// Of luma, cb and cr without padding; `height` is the lines of the field, at most 2,176. For
    /// padded lines set each plane's `stride`.
    pub fn packed([luma, cb, cr]: [&'a [u8]; 3], width: u32, height: u32, depth: u32) -> Self {
        let chroma = |bytes| Lines::packed(bytes, width.div_ceil(2), height.div_ceil(2), depth);
        Self {
            luma: Lines::packed(luma, width, height, depth),
            cb: chroma(cb),
            cr: chroma(cr),
        }
    }

    fn numbers(self) -> FieldNumbers {
        FieldNumbers {
            luma: self.luma.numbers(),
            cb: self.cb.numbers(),
            cr: self.cr.numbers(),
        }
    }

    /// Bytes of each plane without padding.
    fn packed_bytes(self) -> [usize; 3] {
        [self.luma, self.cb, self.cr].map(Lines::packed_bytes)
    }

    /// Room for the planes of a frame that it is woven into.
    fn woven_room(self) -> [Vec<u8>; 3] {
        self.packed_bytes().map(|bytes| vec![0; 2 * bytes])
    }
}

/// The planes luma, cb and cr of the frame whose lines are the top field's and the bottom field's
/// in turn, without padding. Refused with 4, with 5 where the fields differ in width, height or
/// depth, and with 6.
pub fn weave(top: Field<'_>, bottom: Field<'_>) -> Result<[Vec<u8>; 3], Refusal> {
    let mut woven = top.woven_room();
    let [luma, cb, cr] = &mut woven;
    let number = calls::weave(
        top.numbers(),
        top.luma.bytes,
        top.cb.bytes,
        top.cr.bytes,
        bottom.numbers(),
        bottom.luma.bytes,
        bottom.cb.bytes,
        bottom.cr.bytes,
        luma,
        cb,
        cr,
    );
    Refusal::check(number)?;
    Ok(woven)
}

/// Line `y` of the plane that two planes of fields are woven into. Refused with 3 where there is
/// no such line, with 4, with 5 where the two differ in width, height or depth, and with 6.
/// [`calls::line_number`] tells the refusal from the lengths alone, without the bytes.
pub fn woven_line(top: Lines<'_>, bottom: Lines<'_>, y: u32) -> Result<Vec<u8>, Refusal> {
    // A good line is no longer than what is lent; for another the call needs no room.
    let bytes = row_bytes(top.width, top.depth) as usize;
    let room = if bytes <= top.bytes.len() { bytes } else { 0 };
    let mut line = vec![0; room];
    let number = calls::woven_line(
        top.bytes,
        top.numbers(),
        bottom.bytes,
        bottom.numbers(),
        y,
        &mut line,
    );
    Refusal::check(number)?;
    Ok(line)
}

/// Two fields woven into one frame.
#[derive(Debug, Clone, PartialEq, Eq)]
pub struct WovenPicture {
    /// Luma, cb and cr without padding.
    pub planes: [Vec<u8>; 3],
    /// The earlier field's time, if it has one.
    pub time: Option<i64>,
}

/// Pairs fields in the order in which they come. Owns its state, and a store for the field that
/// waits, as large as the largest field so far.
#[derive(Debug, Clone, PartialEq, Eq)]
pub struct Weaver {
    state: [u8; WEAVER_BYTES],
    store: Vec<u8>,
}

impl Default for Weaver {
    fn default() -> Self {
        Self::new()
    }
}

impl Weaver {
    pub fn new() -> Self {
        let mut state = [0; WEAVER_BYTES];
        let number = calls::weaver_new(&mut state);
        assert_eq!(number, 0, "desk_weaver_new needs no more than the state");
        Self {
            state,
            store: Vec::new(),
        }
    }

    /// Throws away the field that waits.
    pub fn clear(&mut self) {
        let number = calls::weaver_clear(&mut self.state);
        assert_eq!(number, 0, "desk_weaver_clear refuses no whole state");
    }

    /// Takes a field. If it fits the one that waits, which is of the other parity and of the same
    /// size and depth, the picture is given; else the new one waits. Refused with 4, with 5 where
    /// chroma does not fit luma, and with 6.
    pub fn push(
        &mut self,
        parity: Parity,
        time: Option<i64>,
        field: Field<'_>,
    ) -> Result<Option<WovenPicture>, Refusal> {
        let had = self.store.len();
        let needed = field.packed_bytes().iter().sum();
        self.store.resize(had.max(needed), 0);
        let mut woven = field.woven_room();
        let [luma, cb, cr] = &mut woven;
        let (mut picture, mut earlier_timed, mut earlier_time) = (0, 0, 0);
        let number = calls::weaver_push(
            &mut self.state,
            parity as u8,
            time.is_some().into(),
            time.unwrap_or(0),
            field.numbers(),
            field.luma.bytes,
            field.cb.bytes,
            field.cr.bytes,
            &mut self.store,
            luma,
            cb,
            cr,
            &mut picture,
            &mut earlier_timed,
            &mut earlier_time,
        );
        if number != 0 {
            self.store.truncate(had);
        }
        Refusal::check(number)?;
        Ok((picture == 1).then_some(WovenPicture {
            planes: woven,
            time: (earlier_timed == 1).then_some(earlier_time),
        }))
    }
}

/// What is said of a stream's pictures.
#[derive(Debug, Clone, Copy, PartialEq, Eq)]
pub struct Format {
    pub width: u32,
    pub height: u32,
    pub depth: u32,
    /// Pictures in `rate_denominator` seconds.
    pub rate_numerator: u32,
    pub rate_denominator: u32,
    /// Each picture is a single field.
    pub field_pictures: bool,
    pub progressive: bool,
    /// The pictures were woven of fields.
    pub woven: bool,
}

/// The format of the frames that fields of a format are woven into: twice the height and half the
/// rate. Nothing is refused; a number that would be above 4,294,967,295 stays there.
pub fn woven_format(fields: Format) -> Format {
    let frames = calls::woven(FormatNumbers {
        width: fields.width,
        height: fields.height,
        depth: fields.depth,
        rate_numerator: fields.rate_numerator,
        rate_denominator: fields.rate_denominator,
        field_pictures: fields.field_pictures.into(),
        progressive: fields.progressive.into(),
        woven: fields.woven.into(),
    });
    Format {
        width: frames.width,
        height: frames.height,
        depth: frames.depth,
        rate_numerator: frames.rate_numerator,
        rate_denominator: frames.rate_denominator,
        field_pictures: frames.field_pictures == 1,
        progressive: frames.progressive == 1,
        woven: frames.woven == 1,
    }
}

#[cfg(test)]
mod tests {
    use super::Parity::{Bottom, Top};
    use super::{Field, Format, Lines, Refusal, Weaver, calls, weave, woven_format, woven_line};

    /// Three samples in two lines with a byte of padding, chroma of two in one.
    fn field<'a>(bytes: [&'a [u8]; 3]) -> Field<'a> {
        let mut field = Field::packed(bytes, 3, 2, 8);
        (field.luma.stride, field.cr.stride) = (4, 3);
        field
    }

    fn top() -> Field<'static> {
        field([&[1, 2, 3, 99, 4, 5, 6], &[20, 21], &[30, 31]])
    }

    fn bottom() -> Field<'static> {
        field([&[7, 8, 9, 98, 10, 11, 12], &[22, 23], &[32, 33]])
    }

    fn both() -> [Vec<u8>; 3] {
        [
            vec![1, 2, 3, 7, 8, 9, 4, 5, 6, 10, 11, 12],
            vec![20, 21, 22, 23],
            vec![30, 31, 32, 33],
        ]
    }

    #[test]
    fn each_plane_comes_to_its_own_place() {
        assert_eq!(weave(top(), bottom()), Ok(both()));
        let refused = |change: &dyn Fn(&mut Field<'_>, &mut Field<'_>)| {
            let (mut top, mut bottom) = (top(), bottom());
            change(&mut top, &mut bottom);
            weave(top, bottom).map_err(Refusal::number)
        };
        assert_eq!(refused(&|top, _| top.luma.stride = 2), Err(4));
        assert_eq!(refused(&|top, _| top.luma.height = 2177), Err(4));
        assert_eq!(refused(&|top, _| top.luma.width = u32::MAX), Err(4));
        assert_eq!(refused(&|_, bottom| bottom.luma.width = 4), Err(5));
        assert_eq!(refused(&|top, _| top.cr.bytes = &[30]), Err(6));
        assert_eq!(refused(&|top, _| top.luma.bytes = &[]), Err(6));
    }

    #[test]
    fn a_short_output_is_left() {
        let (top, bottom) = (top(), bottom());
        let (mut luma, mut cb, mut cr) = ([7; 12], [7; 4], [7; 3]);
        let number = calls::weave(
            top.numbers(),
            top.luma.bytes,
            top.cb.bytes,
            top.cr.bytes,
            bottom.numbers(),
            bottom.luma.bytes,
            bottom.cb.bytes,
            bottom.cr.bytes,
            &mut luma,
            &mut cb,
            &mut cr,
        );
        assert_eq!((number, luma, cb, cr), (7, [7; 12], [7; 4], [7; 3]));
    }

    #[test]
    fn a_single_line_is_that_of_the_woven_plane() {
        let (top, bottom) = (top().luma, bottom().luma);
        let number = |bottom_bytes, y| {
            calls::line_number(top.numbers(), 7, bottom.numbers(), bottom_bytes, y)
        };
        for (y, line) in both()[0].chunks(3).enumerate() {
            let found = woven_line(top, bottom, y as u32);
            assert_eq!(found.as_deref(), Ok(line));
            assert_eq!(number(7, y as u32), 0);
        }
        let refused = |top, bottom, y| woven_line(top, bottom, y).map_err(Refusal::number);
        assert_eq!((refused(top, bottom, 4), number(7, 4)), (Err(3), 3));
        let short = Lines {
            bytes: &bottom.bytes[1..],
            ..bottom
        };
        assert_eq!((refused(top, short, 3), number(6, 3)), (Err(6), 6));
        let vast = Lines::packed(top.bytes, u32::MAX, 2, 8);
        assert_eq!(refused(vast, vast, 0), Err(4));
        let mut room = [0; 2];
        let number = calls::woven_line(
            top.bytes,
            top.numbers(),
            bottom.bytes,
            bottom.numbers(),
            0,
            &mut room,
        );
        assert_eq!((number, room), (7, [0; 2]));
    }

    #[test]
    fn the_format_is_doubled_where_it_must_be() {
        let fields = Format {
            width: 1920,
            height: 540,
            depth: 10,
            rate_numerator: 60_000,
            rate_denominator: 1_001,
            field_pictures: true,
            progressive: true,
            woven: false,
        };
        let frames = Format {
            height: 1080,
            rate_denominator: 2_002,
            field_pictures: false,
            progressive: false,
            woven: true,
            ..fields
        };
        assert_eq!(woven_format(fields), frames);
        let tall = Format {
            height: u32::MAX,
            ..fields
        };
        assert_eq!(woven_format(tall).height, u32::MAX);
    }

    #[test]
    fn a_weaver_pairs_fields_and_gives_the_earlier_time() {
        let mut weaver = Weaver::default();
        assert_eq!(weaver.push(Bottom, None, top()), Ok(None));
        assert_eq!(weaver.push(Bottom, Some(-5), bottom()), Ok(None));
        let was = weaver.clone();
        let mut short = top();
        short.cb.bytes = &[20];
        let refused = weaver.push(Top, Some(6), short);
        assert_eq!(refused.map_err(Refusal::number), Err(6));
        assert_eq!(weaver, was);
        let picture = weaver.push(Top, Some(7), top()).expect("taken");
        let picture = picture.expect("a pair");
        assert_eq!((picture.planes, picture.time), (both(), Some(-5)));
        assert_eq!(weaver.push(Bottom, None, bottom()), Ok(None));
        weaver.clear();
        assert_eq!(weaver.push(Top, None, top()), Ok(None));
        let picture = weaver.push(Bottom, Some(8), bottom()).expect("taken");
        assert_eq!(picture.map(|picture| picture.time), Some(None));
    }
}
