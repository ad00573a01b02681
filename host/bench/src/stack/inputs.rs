//! What the calls are given when their stack is measured, as a host would give it: noise in
//! every plane.

use std::hint::black_box;

use desk::calls::{self, OutputNumbers, PlaneNumbers};
use desk::{STATE_BYTES, WEAVER_BYTES};

use super::{Gauge, Notes, Place, Size, taken};
use crate::{PLAIN, films, pictures, plane_of, values, weaves};

/// Each call takes those that it has a parameter for.
pub struct Input {
    depth: u32,
    /// 0 planar, 1 to 3 of a biplanar frame.
    layout: u32,
    quality: u8,
    /// Of the field that is shown, leads, is counted or waits.
    parity: u8,
}

/// Depth, layout, quality, parity. The first goes deepest; the first four have every layout,
/// quality and parity, and all together every quality at every depth.
const INPUTS: [(u32, u32, u8, u8); 12] = [
    (8, 0, 2, 0),
    (10, 1, 3, 1),
    (16, 2, 0, 0),
    (8, 3, 1, 1),
    (10, 1, 2, 1),
    (16, 2, 3, 0),
    (8, 3, 0, 1),
    (10, 0, 1, 0),
    (16, 2, 2, 0),
    (8, 3, 3, 1),
    (10, 0, 0, 0),
    (16, 1, 1, 1),
];

pub fn first(count: usize) -> impl Iterator<Item = Input> {
    let input = |(depth, layout, quality, parity)| Input {
        depth,
        layout,
        quality,
        parity,
    };
    INPUTS.into_iter().take(count).map(input)
}

/// Makes a call, and notes where it was made. A macro, so that all is in one frame; and
/// nothing is called after it there, which would write over its return address.
macro_rules! noted {
    ($notes:expr, $call:expr) => {{
        $notes.before.set(Place::here());
        let number = $call;
        $notes.behind.set(Place::here());
        $notes.number.set(number);
    }};
}

/// Measures a call to which something is lent by a name.
macro_rules! measured {
    ($gauge:expr, $lent:expr => $name:pat, $call:expr) => {
        $gauge.call($lent, |notes, $name| noted!(notes, $call))
    };
}

/// All that `weaver_push` writes to, but for the times.
#[derive(Clone)]
struct Weaver {
    state: [u8; WEAVER_BYTES],
    store: Vec<u8>,
    outs: [Vec<u8>; 3],
    picture: u8,
}

pub fn measure(gauge: &mut Gauge, call: &str, size: Size, input: Input) {
    let (depth, layout, quality, parity) = (input.depth, input.layout, input.quality, input.parity);
    let Size { width, height } = size;
    let pixels = size.pixels() as usize;
    let planes = if layout > 0 { 2 } else { 3 };
    let first = u32::from(parity);
    // Of film, Weave takes the other field's rows from the frame before.
    let mate = if quality == 0 { 1 - first } else { 2 };
    // A place in a row that the field lacks, inside a chroma plane too.
    let (x, y) = (
        width as i32 / 4,
        height as i32 / 8 * 2 + 1 - i32::from(parity),
    );
    let colours = pictures::conversion(depth);
    let planar = |seed| {
        let (plane, shape) = plane_of(seed, size, (depth, 0));
        (plane.data, films::grid_of(shape))
    };
    let shaped = |seed| {
        // Two components share the rows of a plane, which are half as many.
        let parts = if layout < 2 { 1 } else { 2 };
        let (plane, shape) = plane_of(seed, Size::new(width, height / parts), (depth, layout));
        let width = width / parts;
        (plane.data, PlaneNumbers { width, ..shape })
    };
    match call {
        "to_rgb" => measured!(gauge, [0.0; 3] => [red, green, blue],
            calls::to_rgb(colours, 0.5, 0.2, 0.8, red, green, blue)),
        "quantise" => measured!(gauge, f32::from(quality) / 2.0 => value, {
            black_box(calls::quantise(*value));
            0
        }),
        "luma" => measured!(gauge, [0.0; 3] => [red, green, blue],
            calls::luma(parity, red, green, blue)),
        "comb" => {
            let (plane, grid) = planar(1);
            measured!(gauge, 0 => total,
                calls::comb(&plane, width, height, depth, grid.stride, total));
        }
        "comb_rgba" => {
            let (rgba, _) = plane_of(1, Size::new(4 * width, height), PLAIN);
            measured!(gauge, 0 => total, calls::comb_rgba(&rgba.data, width, height, total));
        }
        "first_field" => measured!(gauge, 0 => first,
            calls::first_field(quality % 3, parity, first)),
        "edge" => {
            let (plane, shape) = shaped(1);
            measured!(gauge, 0 => slant, calls::edge(&plane, shape, x, y, slant));
        }
        "sample" | "plane" => {
            let three = [1, 2, 3].map(shaped);
            let [a, b, c] = three.each_ref().map(|(plane, _)| &plane[..]);
            let s = three[0].1;
            if call == "sample" {
                measured!(gauge, 0.0 => value,
                    calls::sample(quality, a, s, b, s, c, s, first, mate, x, y, value));
            } else {
                measured!(gauge, vec![0.0; pixels] => out,
                    calls::plane(quality, parity, a, s, b, s, c, s, out));
            }
        }
        "code" => {
            let (plane, shape) = shaped(1);
            measured!(gauge, 0 => code, calls::code(&plane, shape, x, y, code));
        }
        "at" => {
            let (plane, shape) = shaped(1);
            measured!(gauge, 0.0 => value, calls::at(&plane, shape, x, y, value));
        }
        "busy" => {
            let ((plane, grid), (kept, _)) = (planar(1), plane_of(2, size, PLAIN));
            measured!(gauge, (0, 0) => (busy, total),
                calls::busy(&plane, grid, &kept.data, parity, busy, total));
        }
        "cadences" => {
            let (film, mut bytes) = (films::film(4_000), Vec::new());
            film.iter().for_each(|entry| entry.write(&mut bytes));
            measured!(gauge, vec![0; film.len()] => out, calls::cadences(&bytes, out));
        }
        "detector_new" => measured!(gauge, [0; STATE_BYTES] => state, calls::detector_new(state)),
        "detector_reset" => measured!(gauge, films::after(20).0 => state,
            calls::detector_reset(state)),
        "detector_locked" => measured!(gauge, (films::after(20).0, 0) => (state, locked),
            calls::detector_locked(state, locked)),
        "detector_predict" => measured!(gauge, (films::after(20).0, 0) => (state, cadence),
            calls::detector_predict(state, 1_000, cadence)),
        // On the way to a lock, and when it is locked.
        "detector_push_measured" => (0..).zip(films::film(15)).for_each(|(frames, entry)| {
            let [a, b, c, d] = entry.numbers.map(u64::from);
            measured!(gauge, (films::after(frames).0, 0) => (state, cadence),
                calls::detector_push_measured(state, parity, 1, a, b, c, d, cadence));
        }),
        // A frame is kept, and film came after it as counts.
        "detector_push" => {
            let [(kept, grid), (plane, _)] = [1, 2].map(planar);
            let mut lent = (films::fresh_state(), vec![0; pixels], 0);
            let (state, store, cadence) = &mut lent;
            taken(calls::detector_push(
                state, parity, &kept, grid, store, cadence,
            ));
            for entry in films::film(20) {
                films::push_entry(state, &entry);
            }
            measured!(gauge, lent => (state, store, cadence),
                calls::detector_push(state, parity, &plane, grid, store, cadence));
        }
        "picture" => {
            let frame = |seed| pictures::Frame::new(seed, size, depth, planes == 2);
            let three = [1, 2, 3].map(frame);
            let [[a, b, c], [d, e, f], [g, h, i]] = three.each_ref().map(|frame| frame.lent());
            let s = three[0].shapes;
            let output = OutputNumbers {
                field: first,
                weave: mate,
                earlier: 0,
                later: 1,
            };
            measured!(gauge, vec![0; 4 * pixels] => out,
                calls::picture(quality, output, colours, s, a, b, c, s, d, e, f, s, g, h, i, out));
        }
        "weave" => {
            let (shape, two) = weaves::two_fields(size, depth);
            let [[a, b, c], [d, e, f]] = two.each_ref().map(weaves::lent);
            measured!(gauge, weaves::room(&two[0]) => [luma, cb, cr],
                calls::weave(shape, a, b, c, shape, d, e, f, luma, cb, cr));
        }
        "line_number" => {
            let lines = weaves::lines(width, height / 2, depth);
            let bytes = u64::from(lines.stride) * u64::from(lines.height);
            measured!(gauge, first => y, calls::line_number(lines, bytes, lines, bytes, *y));
        }
        "woven_line" => {
            let (shape, two) = weaves::two_fields(size, depth);
            let [top, bottom] = two.each_ref().map(|field| weaves::lent(field)[0]);
            let lines = shape.luma;
            measured!(gauge, vec![0; lines.stride as usize] => out,
                calls::woven_line(top, lines, bottom, lines, first, out));
        }
        "woven" => measured!(gauge, values::format_of(first) => format, {
            black_box(calls::woven(*format));
            0
        }),
        "readback_sizes" | "readback_copy" => {
            let (about, read) = weaves::read_back(size, depth, planes);
            let [a, b, c] = weaves::planes_of(&read);
            let sizes = weaves::asked(about, [a, b, c]);
            if call == "readback_sizes" {
                measured!(gauge, sizes => [luma, cb, cr],
                    calls::readback_sizes(about, a, b, c, luma, cb, cr));
            } else {
                measured!(gauge, sizes.map(|bytes| vec![0; bytes as usize]) => [luma, cb, cr],
                    calls::readback_copy(about, a, b, c, luma, cb, cr));
            }
        }
        "weaver_new" => measured!(gauge, [0; WEAVER_BYTES] => state, calls::weaver_new(state)),
        "weaver_clear" | "weaver_push" => {
            let (shape, two) = weaves::two_fields(size, depth);
            let fields = two.each_ref().map(weaves::lent);
            let push = |notes: &Notes, weaver: &mut Weaver, parity: u8| {
                let [a, b, c] = fields[usize::from(parity)];
                let (state, store, picture) =
                    (&mut weaver.state, &mut weaver.store, &mut weaver.picture);
                let [luma, cb, cr] = &mut weaver.outs;
                let (timed, time) = (&mut 0, &mut 0);
                noted!(
                    notes,
                    calls::weaver_push(
                        state, parity, 1, 7, shape, a, b, c, store, luma, cb, cr, picture, timed,
                        time,
                    )
                );
            };
            let mut weaver = Weaver {
                state: [0; WEAVER_BYTES],
                store: fields[0].concat(),
                outs: weaves::room(&two[0]),
                picture: 0,
            };
            taken(calls::weaver_new(&mut weaver.state));
            push(&Notes::default(), &mut weaver, parity);
            if call == "weaver_clear" {
                return measured!(gauge, weaver.state => state, calls::weaver_clear(state));
            }
            let mut woven = weaver.clone();
            push(&Notes::default(), &mut woven, 1 - parity);
            assert_eq!(woven.picture, 1, "two fields make a frame");
            gauge.call(weaver, |notes, weaver| push(notes, weaver, 1 - parity));
        }
        _ => panic!("{call} has no input; expected one in host/bench/src/stack/inputs.rs"),
    }
}
