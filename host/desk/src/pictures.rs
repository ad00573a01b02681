//! Pictures: crates/picturedesk/src/lib.rt.

use crate::calls::{Conversion, FrameNumbers, OutputNumbers};
use crate::planes::row_bytes;
use crate::{Layout, Parity, Plane, Quality, Refusal, calls};

/// The three planes of a frame that is lent. Chroma has half the luma's width and height, rounded
/// up. Where cb and cr share a plane, each lends the same bytes.
#[derive(Debug, Clone, Copy, PartialEq, Eq)]
pub struct Frame<'a> {
    pub luma: Plane<'a>,
    pub cb: Plane<'a>,
    pub cr: Plane<'a>,
}

impl<'a> Frame<'a> {
    /// Of luma, cb and cr without padding. For padded rows set each plane's `stride`.
    pub fn planar([luma, cb, cr]: [&'a [u8]; 3], width: u32, height: u32, depth: u32) -> Self {
        let chroma = |bytes| Plane::packed(bytes, width.div_ceil(2), height.div_ceil(2), depth);
        Self {
            luma: Plane::packed(luma, width, height, depth),
            cb: chroma(cb),
            cr: chroma(cr),
        }
    }

    /// Of luma, and cb and cr sample by sample, without padding. For padded rows set each plane's
    /// `stride`.
    pub fn biplanar([luma, both]: [&'a [u8]; 2], width: u32, height: u32, depth: u32) -> Self {
        let mut frame = Self::planar([luma, both, both], width, height, depth);
        let stride = row_bytes(frame.cb.width, depth).saturating_mul(2);
        (frame.cb.stride, frame.cr.stride) = (stride, stride);
        frame.luma.layout = Layout::BiplanarLuma;
        frame.cb.layout = Layout::FirstOfTwo;
        frame.cr.layout = Layout::SecondOfTwo;
        frame
    }

    fn numbers(self) -> FrameNumbers {
        FrameNumbers {
            luma: self.luma.numbers(),
            cb: self.cb.numbers(),
            cr: self.cr.numbers(),
        }
    }
}

/// One of the three frames that a picture is made of. The numbers are the desk's.
#[derive(Debug, Clone, Copy, PartialEq, Eq)]
pub enum Source {
    Previous = 0,
    Current = 1,
    Next = 2,
}

/// What is shown of three frames.
#[derive(Debug, Clone, Copy, PartialEq, Eq)]
pub struct Output {
    /// The field of the current frame that is shown. Without one both are, whatever the quality.
    pub field: Option<Parity>,
    /// The field whose rows Weave takes from the earlier frame, where film is put together again.
    pub weave: Option<Parity>,
    /// The frame that serves as earlier.
    pub earlier: Source,
    /// The frame that serves as later.
    pub later: Source,
}

impl Output {
    /// The current frame as it is, both fields woven.
    pub const WHOLE: Self = Self {
        field: None,
        weave: None,
        earlier: Source::Previous,
        later: Source::Next,
    };

    /// A field of the current frame, and the rows that it lacks made.
    pub fn field(field: Parity) -> Self {
        Self {
            field: Some(field),
            ..Self::WHOLE
        }
    }

    fn numbers(self) -> OutputNumbers {
        OutputNumbers {
            field: Parity::number_or_none(self.field),
            weave: Parity::number_or_none(self.weave),
            earlier: self.earlier as u32,
            later: self.later as u32,
        }
    }
}

/// A picture of the frame in the middle: four bytes a pixel, red, green, blue and 255, row by row.
/// All three frames have to be good, also one that the output does not ask for: refused with 4,
/// with 5 where sizes or depths differ, with 6, and with 8 where one of the nine numbers is out of
/// its range.
pub fn picture(
    quality: Quality,
    output: Output,
    conversion: Conversion,
    [previous, current, following]: [Frame<'_>; 3],
) -> Result<Vec<u8>, Refusal> {
    let mut rgba = vec![0; 4 * current.luma.samples()];
    let number = calls::picture(
        quality as u8,
        output.numbers(),
        conversion,
        previous.numbers(),
        previous.luma.bytes,
        previous.cb.bytes,
        previous.cr.bytes,
        current.numbers(),
        current.luma.bytes,
        current.cb.bytes,
        current.cr.bytes,
        following.numbers(),
        following.luma.bytes,
        following.cb.bytes,
        following.cr.bytes,
        &mut rgba,
    );
    Refusal::check(number)?;
    Ok(rgba)
}

#[cfg(test)]
mod tests {
    use super::Parity::{Bottom, Top};
    use super::{Conversion, Frame, Output, OutputNumbers, Quality, Source, calls, picture};
    use crate::Refusal;

    /// Without colour, and luma as it is.
    const GREY: Conversion = Conversion {
        luma_offset: 0.0,
        luma_gain: 1.0,
        chroma_offset: 0.5,
        chroma_gain: 0.0,
        kr: 0.25,
        kb: 0.125,
        luma_lift: 0.0,
        chroma_cos: 1.0,
        chroma_sin: 0.0,
    };

    fn frame(luma: &[u8; 3]) -> Frame<'_> {
        Frame::planar([luma, &[128; 2], &[128; 2]], 1, 3, 8)
    }

    fn greys(rgba: &[u8]) -> [u8; 3] {
        let pixels = rgba.chunks_exact(4).map(|pixel| {
            assert_eq!(pixel, [pixel[0], pixel[0], pixel[0], 255]);
            pixel[0]
        });
        let greys: Vec<u8> = pixels.collect();
        greys.try_into().expect("three pixels")
    }

    #[test]
    fn each_frame_and_field_comes_to_its_own_place() {
        let frames = [[10, 20, 30], [40, 50, 60], [70, 80, 90]];
        let frames = frames.each_ref().map(frame);
        let of = |quality, output| {
            let rgba = picture(quality, output, GREY, frames);
            greys(&rgba.expect("all agree"))
        };
        // No field: woven of the current frame, or a field of it of another.
        let yadif = |output| of(Quality::Yadif, output);
        let current = Output {
            later: Source::Current,
            ..Output::WHOLE
        };
        assert_eq!(yadif(current), [40, 50, 60]);
        let film = |weave, earlier| Output {
            weave: Some(weave),
            earlier,
            ..current
        };
        assert_eq!(yadif(film(Bottom, Source::Previous)), [40, 20, 60]);
        assert_eq!(yadif(film(Top, Source::Next)), [70, 50, 90]);
        // Bob: half of the rows above and below; at an end the row itself is one
        // of the two.
        assert_eq!(of(Quality::Bob, Output::field(Top)), [40, 50, 60]);
        assert_eq!(of(Quality::Bob, Output::field(Bottom)), [45, 50, 55]);
    }

    #[test]
    fn a_biplanar_frame_gives_the_planar_ones_picture() {
        // Ten bits; a biplanar code stands six bits higher.
        let words = |codes: &[u16], shift: u32| -> Vec<u8> {
            let words = codes.iter().map(|code| code << shift);
            words.flat_map(u16::to_le_bytes).collect()
        };
        let (luma, cb, cr) = ([100, 400, 1000], [512, 300], [700, 512]);
        let planes = [words(&luma, 0), words(&cb, 0), words(&cr, 0)];
        let shared = [words(&luma, 6), words(&[512, 700, 300, 512], 6)];
        let planar = Frame::planar(planes.each_ref().map(Vec::as_slice), 1, 3, 10);
        let biplanar = Frame::biplanar(shared.each_ref().map(Vec::as_slice), 1, 3, 10);
        let colours = Conversion {
            chroma_gain: 1.0,
            ..GREY
        };
        let of = |frame| picture(Quality::Bob, Output::field(Top), colours, [frame; 3]);
        assert_eq!(of(biplanar), of(planar));
        let rgba = of(planar).expect("all agree");
        assert_ne!((rgba[0], rgba[1]), (rgba[1], rgba[2]));
    }

    /// Of ten bits: above planar codes, which are the largest then, and below
    /// biplanar ones.
    #[test]
    fn stray_bits_make_no_other_picture() {
        let words = |words: &[u16]| -> Vec<u8> {
            let bytes = words.iter().copied().flat_map(u16::to_le_bytes);
            bytes.collect()
        };
        fn of(frame: Frame<'_>) -> Vec<u8> {
            let made = picture(Quality::Bob, Output::field(Top), GREY, [frame; 3]);
            made.expect("all agree")
        }
        let planar = |luma: [u16; 3]| {
            let (luma, grey) = (words(&luma), words(&[512; 2]));
            of(Frame::planar([&luma, &grey, &grey], 1, 3, 10))
        };
        // Bob's row is half of those above and below it.
        let clean = planar([1023, 100, 0]);
        assert_eq!(greys(&clean), [255, 128, 0]);
        for stray in [0x07FF, 0x0400, 0xFFFF] {
            assert_eq!(planar([stray, 0x8064, 0]), clean, "{stray:04x}");
        }
        let biplanar = |luma: [u16; 3]| {
            let (luma, grey) = (words(&luma), words(&[512 << 6; 4]));
            of(Frame::biplanar([&luma, &grey], 1, 3, 10))
        };
        for stray in [0xFFC0, 0xFFC1, 0xFFFF] {
            assert_eq!(biplanar([stray, 100 << 6, 0x003F]), clean, "{stray:04x}");
        }
    }

    #[test]
    fn bad_frames_are_refused() {
        let bytes = [1, 2, 3];
        let refused = |change: &dyn Fn(&mut [Frame<'_>; 3])| {
            let mut frames = [frame(&bytes); 3];
            change(&mut frames);
            let done = picture(Quality::Bwdif, Output::field(Top), GREY, frames);
            done.expect_err("refused").number()
        };
        assert_eq!(refused(&|frames| frames[0].cb.depth = 7), 4);
        assert_eq!(refused(&|frames| frames[1].luma.width = u32::MAX), 4);
        assert_eq!(refused(&|frames| frames[1].cb.height = 1), 5);
        assert_eq!(refused(&|frames| frames[0].luma.bytes = &[1, 2]), 6);
        assert_eq!(refused(&|frames| frames[1].luma.bytes = &[]), 6);
        let steep = Conversion { kr: 0.5, ..GREY };
        let frames = [frame(&bytes); 3];
        let done = picture(Quality::Bob, Output::WHOLE, steep, frames);
        assert_eq!(done.map_err(Refusal::number), Err(8));
    }

    /// The call as it is, of one frame three times.
    fn raw(quality: u8, output: OutputNumbers, layout: u32, kr: f32, out: &mut [u8]) -> u8 {
        let Frame { luma, cb, cr } = frame(&[1, 2, 3]);
        let shapes = frame(&[1, 2, 3]).numbers();
        let mut last = shapes;
        last.cr.layout = layout;
        let (y, cb, cr) = (luma.bytes, cb.bytes, cr.bytes);
        let conversion = Conversion { kr, ..GREY };
        calls::picture(
            quality, output, conversion, shapes, y, cb, cr, shapes, y, cb, cr, last, y, cb, cr, out,
        )
    }

    #[test]
    fn a_refused_call_leaves_what_is_lent() {
        let good = Output::field(Top).numbers();
        let with = |change: &dyn Fn(&mut OutputNumbers)| {
            let mut output = good;
            change(&mut output);
            output
        };
        let cases = [
            (4, good, 0, 0.25, 12, 3),
            (0, with(&|output| output.field = 3), 0, 0.25, 12, 3),
            (0, with(&|output| output.weave = 3), 0, 0.25, 12, 3),
            (0, with(&|output| output.earlier = 3), 0, 0.25, 12, 3),
            (0, with(&|output| output.later = 3), 0, 0.25, 12, 3),
            (3, good, 4, 0.25, 12, 3),
            (1, good, 0, 0.25, 11, 7),
            (1, good, 0, 0.5, 12, 8),
        ];
        for (quality, output, layout, kr, room, number) in cases {
            let mut out = [7; 13];
            let given = raw(quality, output, layout, kr, &mut out[..room]);
            assert_eq!((given, out), (number, [7; 13]));
        }
        let mut out = [7; 13];
        assert_eq!((raw(1, good, 0, 0.25, &mut out), out[12]), (0, 7));
        assert_eq!(greys(&out[..12]), [1, 2, 3]);
    }
}
