//! The numbers of weaving and readback: docs/RULES.md, "Planes" and "Fields and
//! readback". Three planes are luma, cb and cr, all planar.

use desk::WEAVER_BYTES;
use desk::calls::{PlaneNumbers, ReadbackNumbers};

use super::{Lent, in_bounds, lowest, needed, row};

/// Of chroma, which has half the luma's size, rounded up.
pub fn half(size: u32) -> u32 {
    size.div_ceil(2)
}

/// Bytes of all rows without padding; of any numbers.
pub fn packed(shape: PlaneNumbers) -> u64 {
    row(shape).saturating_mul(shape.height.into())
}

/// Bytes that a woven plane has; of any numbers.
pub fn woven(shape: PlaneNumbers) -> u64 {
    packed(shape).saturating_mul(2)
}

/// Bytes that a store needs for a field; of any numbers.
pub fn stored(field: [Lent; 3]) -> u64 {
    field
        .iter()
        .fold(0, |sum: u64, (shape, _)| sum.saturating_add(packed(*shape)))
}

/// No plane of a field that is woven has more than 2,176 rows.
fn lines_in_bounds((shape, _): &Lent) -> bool {
    in_bounds(*shape) && shape.height <= 2176
}

fn size((shape, _): Lent) -> (u32, u32, u32) {
    (shape.width, shape.height, shape.depth)
}

fn chroma_fits([luma, cb, cr]: [Lent; 3]) -> bool {
    let (width, height, depth) = size(luma);
    [cb, cr]
        .into_iter()
        .all(|plane| size(plane) == (half(width), half(height), depth))
}

fn short(&(shape, length): &Lent) -> bool {
    (length as u64) < needed(shape)
}

/// Whether an output is too short for its woven plane.
fn cramped(field: [Lent; 3], outs: [usize; 3]) -> bool {
    field
        .iter()
        .zip(outs)
        .any(|((shape, _), out)| (out as u64) < woven(*shape))
}

/// The two fields agree in width, height and depth.
pub fn weave(top: [Lent; 3], bottom: [Lent; 3], outs: [usize; 3]) -> u8 {
    lowest(&[
        (4, !top.iter().chain(&bottom).all(lines_in_bounds)),
        (5, size(top[0]) != size(bottom[0])),
        (5, !chroma_fits(top) || !chroma_fits(bottom)),
        (6, top.iter().chain(&bottom).any(short)),
        (7, cramped(top, outs)),
    ])
}

/// The number of a single line, which is outside from twice the top's height
/// on.
pub fn line(top: PlaneNumbers, bottom: PlaneNumbers, lengths: [u64; 2], y: u32) -> u8 {
    let lines = u64::from(top.height) * 2;
    let [top_bytes, bottom_bytes] = lengths;
    lowest(&[
        (3, u64::from(y) >= lines),
        (
            4,
            !lines_in_bounds(&(top, 0)) || !lines_in_bounds(&(bottom, 0)),
        ),
        (5, size((top, 0)) != size((bottom, 0))),
        (6, top_bytes < needed(top) || bottom_bytes < needed(bottom)),
    ])
}

/// As of `line`; and the output has room for the line.
pub fn woven_line(top: Lent, bottom: Lent, y: u32, out: usize) -> u8 {
    let lengths = [top.1 as u64, bottom.1 as u64];
    match line(top.0, bottom.0, lengths, y) {
        0 if (out as u64) < row(top.0) => 7,
        number => number,
    }
}

/// The shapes of a frame's planes as they were read back, each with the plane
/// that it is read from: two planes share their chroma.
pub fn read_from(about: ReadbackNumbers) -> [(PlaneNumbers, usize); 3] {
    let chroma = |stride, layout| PlaneNumbers {
        width: half(about.width),
        height: half(about.height),
        depth: about.depth,
        stride,
        layout,
    };
    let luma = PlaneNumbers {
        width: about.width,
        height: about.height,
        depth: about.depth,
        stride: about.luma_pitch,
        layout: 1,
    };
    if about.planes == 2 {
        [
            (luma, 0),
            (chroma(about.second_pitch, 2), 1),
            (chroma(about.second_pitch, 3), 1),
        ]
    } else {
        [
            (luma, 0),
            (chroma(about.second_pitch, 1), 1),
            (chroma(about.third_pitch, 1), 2),
        ]
    }
}

/// Bytes of one component of a plane without padding; of any numbers.
pub fn component(shape: PlaneNumbers) -> u64 {
    packed(PlaneNumbers { layout: 0, ..shape })
}

/// 1 for no plane or more than three, 2 for luma alone. A plane beyond the
/// count is not there.
pub fn readback_sizes(about: ReadbackNumbers, lengths: [usize; 3]) -> u8 {
    let planes = read_from(about);
    let in_bounds = planes.iter().all(|(shape, _)| in_bounds(*shape));
    let short = planes
        .iter()
        .any(|(shape, from)| (lengths[*from] as u64) < needed(*shape));
    lowest(&[
        (1, about.planes == 0 || about.planes > 3),
        (2, about.planes == 1),
        (4, !in_bounds),
        (6, short),
    ])
}

/// By the same rules; and each output has room for its component.
pub fn readback_copy(about: ReadbackNumbers, lengths: [usize; 3], outs: [usize; 3]) -> u8 {
    let planes = read_from(about);
    let cramped = planes
        .iter()
        .zip(outs)
        .any(|((shape, _), out)| (out as u64) < component(*shape));
    match readback_sizes(about, lengths) {
        0 if cramped => 7,
        number => number,
    }
}

/// The field that a weaver keeps.
#[derive(Debug, Clone, Copy, PartialEq, Eq)]
pub struct Kept {
    /// Width, height and depth.
    pub size: (u32, u32, u32),
    /// 0 top, 1 bottom.
    pub parity: u8,
    /// Bytes of it in the store.
    pub stored: u64,
}

impl Kept {
    pub fn of(field: [Lent; 3], parity: u8) -> Self {
        Self {
            size: size(field[0]),
            parity,
            stored: stored(field),
        }
    }

    /// A field of the other parity and of the same width, height and depth gives
    /// the picture; any other takes this one's place.
    pub fn fits(&self, field: [Lent; 3], parity: u8) -> bool {
        self.parity != parity && self.size == size(field[0])
    }
}

/// What a push is lent beside the field: bytes of the state, of the store and
/// of the outputs.
#[derive(Debug, Clone, Copy, PartialEq, Eq)]
pub struct Room {
    pub state: usize,
    pub store: usize,
    pub outs: [usize; 3],
}

/// 6 also for a store that is too short for what it keeps; 7 is of what the call
/// writes: the outputs where there is a picture, else the store.
pub fn push(kept: Option<Kept>, parity: u8, timed: u8, field: [Lent; 3], room: Room) -> u8 {
    let store = room.store as u64;
    let picture = kept.is_some_and(|kept| kept.fits(field, parity));
    lowest(&[
        (3, parity > 1 || timed > 1),
        (4, !field.iter().all(lines_in_bounds)),
        (5, !chroma_fits(field)),
        (6, room.state < WEAVER_BYTES),
        (6, field.iter().any(short)),
        (6, kept.is_some_and(|kept| store < kept.stored)),
        (7, picture && cramped(field, room.outs)),
        (7, !picture && store < stored(field)),
    ])
}

#[cfg(test)]
mod tests {
    use super::woven_line;
    use super::{Kept, Lent, Room, half, line, push, readback_copy, readback_sizes, weave};
    use desk::calls::{PlaneNumbers, ReadbackNumbers};

    fn lines(width: u32, height: u32, depth: u32, stride: u32) -> PlaneNumbers {
        PlaneNumbers {
            width,
            height,
            depth,
            stride,
            layout: 0,
        }
    }

    /// Three samples in three lines, ten bits deep; a byte of padding in luma.
    fn field() -> [Lent; 3] {
        let chroma = lines(2, 2, 10, 4);
        [(lines(3, 3, 10, 7), 20), (chroma, 8), (chroma, 8)]
    }

    #[test]
    fn of_two_fields_the_lowest_number_is_given() {
        let outs = [36, 16, 16];
        assert_eq!(weave(field(), field(), outs), 0);
        assert_eq!(weave(field(), field(), [36, 16, 15]), 7);
        let mut other = field();
        other[0].1 = 19;
        assert_eq!(weave(field(), other, [0; 3]), 6);
        other[2].0.height = 1;
        assert_eq!(weave(other, field(), outs), 5);
        other[1].0.stride = 3;
        assert_eq!(weave(other, field(), outs), 4);
        let high = |height| {
            let chroma = (lines(1, half(height), 8, 1), 1 << 20);
            [(lines(1, height, 8, 1), 1 << 20), chroma, chroma]
        };
        assert_eq!(weave(high(2176), high(2176), [4352, 2176, 2176]), 0);
        assert_eq!(weave(high(2177), high(2177), [1 << 20; 3]), 4);
    }

    #[test]
    fn a_line_is_outside_from_twice_the_height_on() {
        let (luma, other) = (lines(3, 3, 10, 7), lines(3, 3, 10, 6));
        assert_eq!(line(luma, other, [20, 18], 5), 0);
        assert_eq!(line(luma, other, [20, 18], 6), 3);
        assert_eq!(line(luma, other, [19, 18], 0), 6);
        assert_eq!(line(luma, other, [20, 17], 0), 6);
        assert_eq!(woven_line((luma, 20), (other, 18), 5, 6), 0);
        assert_eq!(woven_line((luma, 20), (other, 18), 5, 5), 7);
        assert_eq!(woven_line((luma, 20), (other, 17), 5, 5), 6);
        // However high the field is said to be.
        let high = lines(1, 70_000, 8, 1);
        assert_eq!(line(high, high, [70_000; 2], 139_999), 4);
        assert_eq!(line(high, high, [70_000; 2], 140_000), 3);
        let highest = lines(1, u32::MAX, 8, 1);
        assert_eq!(line(highest, highest, [0; 2], u32::MAX), 4);
    }

    #[test]
    fn a_readback_has_two_planes_or_three() {
        let about = ReadbackNumbers {
            planes: 2,
            width: 3,
            height: 3,
            depth: 9,
            luma_pitch: 6,
            second_pitch: 8,
            third_pitch: 0,
        };
        assert_eq!(readback_sizes(about, [18, 16, 0]), 0);
        assert_eq!(readback_sizes(about, [18, 15, 0]), 6);
        assert_eq!(readback_copy(about, [18, 16, 0], [18, 8, 8]), 0);
        assert_eq!(readback_copy(about, [18, 16, 0], [18, 8, 7]), 7);
        assert_eq!(readback_copy(about, [18, 15, 0], [18, 8, 7]), 6);
        let of = |planes| ReadbackNumbers { planes, ..about };
        assert_eq!(readback_sizes(of(3), [18, 16, 16]), 4);
        assert_eq!(readback_sizes(of(1), [0; 3]), 2);
        assert_eq!(readback_sizes(of(0), [0; 3]), 1);
        assert_eq!(readback_sizes(of(4), [0; 3]), 1);
        let three = ReadbackNumbers {
            third_pitch: 5,
            ..of(3)
        };
        assert_eq!(readback_sizes(three, [18, 12, 9]), 0);
        assert_eq!(readback_sizes(three, [18, 12, 8]), 6);
    }

    #[test]
    fn a_push_needs_room_only_for_what_it_writes() {
        let room = Room {
            state: 56,
            store: 34,
            outs: [0; 3],
        };
        assert_eq!(push(None, 0, 1, field(), room), 0);
        let store = |store| Room { store, ..room };
        assert_eq!(push(None, 0, 1, field(), store(33)), 7);
        let kept = Some(Kept::of(field(), 0));
        assert_eq!(push(kept, 0, 0, field(), room), 0);
        assert_eq!(push(kept, 0, 0, field(), store(33)), 6);
        assert_eq!(push(kept, 1, 0, field(), room), 7);
        let outs = Room {
            outs: [36, 16, 16],
            ..room
        };
        assert_eq!(push(kept, 1, 0, field(), outs), 0);
        assert_eq!(push(kept, 2, 0, field(), outs), 3);
        assert_eq!(push(kept, 1, 2, field(), outs), 3);
        assert_eq!(push(kept, 1, 1, field(), Room { state: 55, ..outs }), 6);
    }
}
