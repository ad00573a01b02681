//! Signs of life: the examples of docs/RULES.md, put to the oracle. They judge the
//! stand-ins, since the original itself is not ours to test.

use mediadecoder::es::{Format, Structure};
use mediadecoder::video::{Frame, Plane};

use crate::decode::weave::{frame_of_readback, weave, woven};
use crate::decode::{About, Readback};
use crate::video::colour::{Matrix, Primaries, quantise};
use crate::video::field::{Cadence, Output, Parity, Source, first_field};
use crate::video::filter::{Planes, Rows, Samples, comb, comb_rgba, picture_of, sample};
use crate::video::telecine::Detector;
use crate::video::{Deinterlace, Settings};

fn plane(data: &[u8], stride: usize, width: usize, height: usize) -> Plane {
    Plane {
        data: data.to_vec(),
        stride,
        width,
        height,
    }
}

/// A frame of one colour, eight bits deep.
fn flat(width: u32, height: u32, luma: u8) -> Frame {
    let (across, down) = (width as usize, height as usize);
    let (half_across, half_down) = (across.div_ceil(2), down.div_ceil(2));
    let chroma = plane(
        &vec![128; half_across * half_down],
        half_across,
        half_across,
        half_down,
    );
    Frame {
        format: Format {
            width,
            height,
            depth: 8,
            rate: (30_000, 1_001),
            ..Format::default()
        },
        planes: [
            plane(&vec![luma; across * down], across, across, down),
            chroma.clone(),
            chroma,
        ],
        ..Frame::default()
    }
}

#[test]
fn the_thirteen_entries_of_the_reel_example() {
    let mut detector = Detector::new();
    let found: Vec<_> = (0..13)
        .map(|entry| {
            let busy = match entry {
                0 => None,
                1 | 6 | 11 | 12 => Some((0, 40)),
                3 | 8 => Some((40, 0)),
                _ => Some((40, 40)),
            };
            let measured = busy.map(|(leading, trailing)| ((leading, 1350), (trailing, 1350)));
            let cadence = detector.push_measured(Parity::Top, measured);
            if entry == 9 {
                // The bench cards on `predict`: after entry 9, ahead 0, 4 and 6.
                assert_eq!(detector.predict(0), Cadence::None);
                assert_eq!(detector.predict(4), Cadence::Whole);
                assert_eq!(detector.predict(6), Cadence::Drop);
            }
            (cadence, detector.locked())
        })
        .collect();
    let mut expected = vec![(Cadence::None, false); 9];
    expected.extend([
        (Cadence::Whole, true),
        (Cadence::Whole, true),
        (Cadence::Drop, true),
        (Cadence::None, false),
    ]);
    assert_eq!(found, expected);
}

#[test]
fn samples_of_ten_bits() {
    let low = plane(&[0xFF, 0x03], 2, 1, 1);
    assert_eq!(Samples::new(&low, 10).at(0, 0), 1.0);
    let high = plane(&[0xC0, 0xFF], 2, 1, 1);
    assert_eq!(Samples::component(&high, 10, 0, 1, 6).code(0, 0), 1023);
}

#[test]
fn comb_of_one_column() {
    assert_eq!(comb(&plane(&[10, 20, 10], 1, 1, 3), 8), 20);
    // The same through padding, and as the green of an RGBA picture.
    assert_eq!(comb(&plane(&[10, 99, 20, 7, 10], 2, 1, 3), 8), 20);
    assert_eq!(
        comb_rgba(&[1, 10, 2, 3, 4, 20, 5, 6, 7, 10, 8, 9], 1, 3),
        20
    );
}

#[test]
fn quantise_rounds_and_holds_its_ends() {
    assert_eq!(quantise(0.5), 128);
    assert_eq!(quantise(1.0), 255);
    assert_eq!(quantise(-3.0), 0);
    assert_eq!(quantise(f32::NAN), 0);
    assert_eq!(Primaries::Bt709.luma().len(), 3);
}

#[test]
fn first_field_of_every_structure() {
    let of = |structure, top_field_first| {
        first_field(&About {
            structure,
            top_field_first,
            ..About::default()
        })
    };
    assert_eq!(of(Structure::Frame, true), Parity::Top);
    assert_eq!(of(Structure::Frame, false), Parity::Bottom);
    assert_eq!(of(Structure::Top, false), Parity::Top);
    assert_eq!(of(Structure::Bottom, true), Parity::Bottom);
}

#[test]
fn bob_makes_a_missing_row_of_its_neighbours() {
    let column = plane(&[0, 9, 255], 1, 1, 3);
    let samples = Samples::new(&column, 8);
    let bob = |y| {
        sample(
            Deinterlace::Bob,
            &samples,
            &samples,
            &samples,
            Rows::field(0),
            0,
            y,
        )
    };
    assert_eq!(bob(1), 0.5);
    assert_eq!(bob(2), 1.0);
    // Row -1 is odd, so it is made as well; both its neighbours clamp to row 0.
    assert_eq!(bob(-1), 0.0);
}

#[test]
fn a_grey_picture_stays_grey() {
    let frame = flat(3, 3, 255);
    let planes = Planes::planar(&frame);
    let output = Output {
        field: None,
        weave: None,
        before: Source::Previous,
        after: Source::Current,
        at: 0,
        of: 1,
        matched: false,
    };
    let settings = Settings {
        matrix: Matrix::Bt709,
        ..Settings::default()
    };
    let picture = picture_of(&planes, &planes, &planes, 8, &output, settings);
    assert_eq!(picture, [255; 3 * 3 * 4]);
}

#[test]
fn two_fields_are_woven_line_by_line() {
    let (top, bottom) = (flat(2, 2, 1), flat(2, 2, 2));
    let frame = weave(&top, &bottom, true).expect("two fields of one shape");
    assert_eq!(frame.planes[0].data, [1, 1, 2, 2, 1, 1, 2, 2]);
    assert_eq!(frame.planes[0].height, 4);
    assert_eq!(frame.format.rate, (30_000, 2_002));
    let most = Format {
        height: u32::MAX,
        rate: (1, u32::MAX),
        ..Format::default()
    };
    assert_eq!(woven(most).height, u32::MAX);
    assert_eq!(woven(most).rate, (1, u32::MAX));
}

#[test]
fn a_readback_loses_padding_and_shift() {
    let about = About {
        format: Format {
            width: 1,
            height: 1,
            depth: 10,
            ..Format::default()
        },
        ..About::default()
    };
    let luma = (vec![0xC0, 0xFF, 7], 3, 1);
    let shared = (vec![0x40, 0x00, 0x80, 0x00], 4, 1);
    let read = Readback {
        about,
        planes: vec![luma.clone(), shared],
    };
    let frame = frame_of_readback(&read).expect("two planes that suffice");
    assert_eq!(frame.planes[0].data, [0xFF, 0x03]);
    assert_eq!(frame.planes[1].data, [1, 0]);
    assert_eq!(frame.planes[2].data, [2, 0]);
    let only_luma = Readback {
        about,
        planes: vec![luma],
    };
    assert!(frame_of_readback(&only_luma).is_err());
}

/// The frame of the claim `OneFrame`, crates/weavedesk/specs/Claims.antt.
#[test]
fn the_frame_that_a_claim_writes_out_is_read_back_so() {
    let luma = vec![64, 0, 128, 0, 192, 0, 99, 99, 0, 1, 64, 1, 192, 255];
    let shared = vec![128, 1, 192, 1, 0, 2, 64, 2];
    let read = Readback {
        about: About {
            format: Format {
                width: 3,
                height: 2,
                depth: 10,
                ..Format::default()
            },
            ..About::default()
        },
        planes: vec![(luma, 8, 2), (shared, 8, 1)],
    };
    let [luma, cb, cr] = frame_of_readback(&read)
        .expect("two planes that suffice")
        .planes;
    assert_eq!(luma.data, [1, 0, 2, 0, 3, 0, 4, 0, 5, 0, 255, 3]);
    assert_eq!(cb.data, [6, 0, 8, 0]);
    assert_eq!(cr.data, [7, 0, 9, 0]);
}
