//! Frames read back from elsewhere: crates/weavedesk/src/lib.rt.

use crate::calls::ReadbackNumbers;
use crate::{Refusal, calls};

/// A frame that was read back, with padding, and with codes deeper than 8 bits in the high bits of
/// their two bytes.
#[derive(Debug, Clone, Copy, PartialEq, Eq)]
pub struct Readback<'a> {
    /// Of the luma, 1 to 8,192. Chroma has half of it, rounded up.
    pub width: u32,
    /// Of the luma, 1 to 4,352. Chroma has half of it, rounded up.
    pub height: u32,
    /// Bits of a sample, 8 to 16.
    pub depth: u32,
    pub planes: ReadPlanes<'a>,
}

/// The planes of a frame that was read back.
#[derive(Debug, Clone, Copy, PartialEq, Eq)]
pub enum ReadPlanes<'a> {
    /// Luma, and cb and cr sample by sample.
    Biplanar {
        luma: Padded<'a>,
        chroma: Padded<'a>,
    },
    Planar {
        luma: Padded<'a>,
        cb: Padded<'a>,
        cr: Padded<'a>,
    },
}

/// Rows of which only the padding is known.
#[derive(Debug, Clone, Copy, PartialEq, Eq)]
pub struct Padded<'a> {
    pub bytes: &'a [u8],
    /// Bytes from one row to the next: at least a row, and at most 65,536.
    pub stride: u32,
}

/// Luma, cb and cr in this order, without padding and without shift, which every other call takes as
/// planar. It asks for their sizes, makes the three buffers and copies. Refused with 4 and with 6; never
/// with 7, since buffers of the sizes that were told are long enough (theorem `AskThenCopy`,
/// crates/weavedesk/specs/Claims.antt).
pub fn readback(frame: Readback<'_>) -> Result<[Vec<u8>; 3], Refusal> {
    let mut planes = readback_sizes(frame)?.map(|size| vec![0; size]);
    readback_copy(frame, planes.each_mut().map(Vec::as_mut_slice))?;
    Ok(planes)
}

/// How many bytes luma, cb and cr take without padding: for a host that makes its buffers once for a
/// tape, and copies each frame into them by [`readback_copy`]. No byte of the planes is read, only how
/// many there are. Refused with 4 and with 6. The call gives 1 and 2 for other numbers of planes, of
/// which [`ReadPlanes`] has none.
pub fn readback_sizes(frame: Readback<'_>) -> Result<[usize; 3], Refusal> {
    let (about, [luma, second, third]) = frame.lent();
    let (mut luma_bytes, mut cb_bytes, mut cr_bytes) = (0, 0, 0);
    Refusal::check(calls::readback_sizes(
        about,
        luma,
        second,
        third,
        &mut luma_bytes,
        &mut cb_bytes,
        &mut cr_bytes,
    ))?;
    Ok([luma_bytes, cb_bytes, cr_bytes].map(|size| size as usize))
}

/// Luma, cb and cr, each to the start of its buffer; what a buffer has beyond its plane stays.
/// Refused with 4, with 6, and with 7 where one is shorter than [`readback_sizes`] says of this frame,
/// whatever it said of another.
pub fn readback_copy(frame: Readback<'_>, buffers: [&mut [u8]; 3]) -> Result<(), Refusal> {
    let (about, [luma, second, third]) = frame.lent();
    let [out_luma, out_cb, out_cr] = buffers;
    Refusal::check(calls::readback_copy(
        about, luma, second, third, out_luma, out_cb, out_cr,
    ))
}

impl<'a> Readback<'a> {
    /// As both calls take it. The third of two planes is not looked at.
    fn lent(self) -> (ReadbackNumbers, [&'a [u8]; 3]) {
        let nothing = Padded {
            bytes: &[],
            stride: 0,
        };
        let (planes, luma, second, third) = match self.planes {
            ReadPlanes::Biplanar { luma, chroma } => (2, luma, chroma, nothing),
            ReadPlanes::Planar { luma, cb, cr } => (3, luma, cb, cr),
        };
        let about = ReadbackNumbers {
            planes,
            width: self.width,
            height: self.height,
            depth: self.depth,
            luma_pitch: luma.stride,
            second_pitch: second.stride,
            third_pitch: third.stride,
        };
        (about, [luma.bytes, second.bytes, third.bytes])
    }
}

#[cfg(test)]
mod tests {
    use super::{Padded, ReadPlanes, Readback, ReadbackNumbers, calls};
    use super::{readback, readback_copy, readback_sizes};
    use crate::Refusal;

    const LUMA: Padded<'static> = Padded {
        bytes: &[0xC0, 0xFF, 7],
        stride: 3,
    };
    const SHARED: &[u8] = &[0x40, 0x00, 0x80, 0x00];

    fn frame(planes: ReadPlanes<'_>) -> Readback<'_> {
        Readback {
            width: 1,
            height: 1,
            depth: 10,
            planes,
        }
    }

    fn biplanar(bytes: &[u8]) -> Readback<'_> {
        let (luma, chroma) = (LUMA, Padded { bytes, stride: 4 });
        frame(ReadPlanes::Biplanar { luma, chroma })
    }

    #[test]
    fn a_readback_loses_padding_and_shift() {
        let done = || Ok([vec![0xFF, 3], vec![1, 0], vec![2, 0]]);
        assert_eq!(readback(biplanar(SHARED)), done());
        let plane = |bytes| Padded { bytes, stride: 2 };
        let planar = frame(ReadPlanes::Planar {
            luma: LUMA,
            cb: plane(&SHARED[..2]),
            cr: plane(&SHARED[2..]),
        });
        assert_eq!(readback(planar), done());

        let refused = |frame| readback(frame).map_err(Refusal::number);
        assert_eq!(refused(biplanar(&SHARED[1..])), Err(6));
        let large = Readback {
            width: u32::MAX,
            height: u32::MAX,
            ..planar
        };
        assert_eq!(refused(large), Err(4));
        let unpitched = frame(ReadPlanes::Planar {
            luma: LUMA,
            cb: plane(SHARED),
            cr: Padded {
                bytes: SHARED,
                stride: 0,
            },
        });
        assert_eq!(refused(unpitched), Err(4));
    }

    #[test]
    fn chroma_is_half_the_luma_rounded_up() {
        let luma = Padded {
            bytes: &[1, 2, 3, 99, 4, 5, 6, 99, 7, 8, 9],
            stride: 4,
        };
        let chroma = Padded {
            bytes: &[10, 20, 11, 21, 98, 12, 22, 13, 23],
            stride: 5,
        };
        let frame = Readback {
            width: 3,
            height: 3,
            depth: 8,
            planes: ReadPlanes::Biplanar { luma, chroma },
        };
        let wanted = [
            (1..=9).collect(),
            vec![10, 11, 12, 13],
            vec![20, 21, 22, 23],
        ];
        assert_eq!(readback(frame), Ok(wanted));
    }

    #[test]
    fn a_refused_call_leaves_what_is_lent() {
        let about = ReadbackNumbers {
            planes: 2,
            width: 1,
            height: 1,
            depth: 10,
            luma_pitch: 3,
            second_pitch: 4,
            third_pitch: 0,
        };
        let of = |planes| ReadbackNumbers { planes, ..about };
        let cases = [
            (of(0), SHARED, 2, 1),
            (of(1), SHARED, 2, 2),
            (of(4), SHARED, 2, 1),
            (of(3), SHARED, 2, 4),
            (about, &SHARED[1..], 2, 6),
            (about, SHARED, 1, 7),
        ];
        for (about, shared, room, number) in cases {
            let (mut y, mut cb, mut cr) = ([5; 2], [5; 2], [5; 2]);
            let given = calls::readback_copy(
                about,
                LUMA.bytes,
                shared,
                &[],
                &mut y,
                &mut cb,
                &mut cr[..room],
            );
            assert_eq!((given, [y, cb, cr]), (number, [[5; 2]; 3]));

            let [mut luma_bytes, mut cb_bytes, mut cr_bytes] = [9; 3];
            let given = calls::readback_sizes(
                about,
                LUMA.bytes,
                shared,
                &[],
                &mut luma_bytes,
                &mut cb_bytes,
                &mut cr_bytes,
            );
            let (number, said) = if number == 7 { (0, 2) } else { (number, 9) };
            assert_eq!(
                (given, [luma_bytes, cb_bytes, cr_bytes]),
                (number, [said; 3])
            );
        }
    }

    #[test]
    fn buffers_are_made_once_and_judged_each_time() {
        let (luma, chroma) = ([7; 6], [8; 4]);
        let of = |width, height| {
            let plane = |bytes, stride| Padded { bytes, stride };
            let (luma, chroma) = (plane(&luma, width), plane(&chroma, 2 * width.div_ceil(2)));
            Readback {
                width,
                height,
                depth: 8,
                planes: ReadPlanes::Biplanar { luma, chroma },
            }
        };
        assert_eq!(readback_sizes(of(2, 2)), Ok([4, 1, 1]));
        let (mut y, mut cb, mut cr) = ([0; 4], [0; 1], [0; 2]);
        let copied = readback_copy(of(2, 2), [&mut y, &mut cb, &mut cr]);
        assert_eq!((copied, y, cb, cr), (Ok(()), [7; 4], [8], [8, 0]));

        // A frame of another size is held to its own, and what was copied stays.
        assert_eq!(readback_sizes(of(2, 3)), Ok([6, 2, 2]));
        let copied = readback_copy(of(2, 3), [&mut y, &mut cb, &mut cr]);
        assert_eq!(copied.map_err(Refusal::number), Err(7));
        assert_eq!((y, cb, cr), ([7; 4], [8], [8, 0]));
    }
}
