//! Fields into frames, by `weave`, a line and the weaver; and frames read back. The
//! Rust makes its output anew.

use std::hint::black_box;
use std::rc::Rc;

use desk::WEAVER_BYTES;
use desk::calls::{FieldNumbers, GridNumbers, ReadbackNumbers};
use differ::random::Random;
use differ::runs;
use oracle::decode::Readback;
use oracle::decode::weave::Weaver;
use oracle::mediadecoder::es::Format;
use oracle::mediadecoder::video::{Frame, Plane};

use super::{Contest, Sides, Size, again, side, taken, timed};

fn bytes_a_sample(depth: u32) -> u32 {
    if depth > 8 { 2 } else { 1 }
}

/// Lines without padding.
pub fn lines(width: u32, height: u32, depth: u32) -> GridNumbers {
    GridNumbers {
        width,
        height,
        depth,
        stride: width * bytes_a_sample(depth),
    }
}

fn plane(seed: u64, lines: GridNumbers) -> Plane {
    Plane {
        data: Random::new(seed).bytes((lines.stride * lines.height) as usize),
        stride: lines.stride as usize,
        width: lines.width as usize,
        height: lines.height as usize,
    }
}

/// The shape of a field of a frame of this size, and two fields of noise.
pub fn two_fields(size: Size, depth: u32) -> (FieldNumbers, [Frame; 2]) {
    let luma = lines(size.width, size.height / 2, depth);
    let chroma = lines(luma.width.div_ceil(2), luma.height.div_ceil(2), depth);
    let shape = FieldNumbers {
        luma,
        cb: chroma,
        cr: chroma,
    };
    let fields = [1, 4].map(|seed| Frame {
        format: Format {
            width: luma.width,
            height: luma.height,
            depth: depth as u8,
            ..Format::default()
        },
        planes: [
            plane(seed, luma),
            plane(seed + 1, chroma),
            plane(seed + 2, chroma),
        ],
        ..Frame::default()
    });
    (shape, fields)
}

pub fn lent(field: &Frame) -> [&[u8]; 3] {
    field.planes.each_ref().map(|plane| &plane.data[..])
}

/// Room for the planes of the frame that two such fields make.
pub fn room(field: &Frame) -> [Vec<u8>; 3] {
    let planes = field.planes.each_ref();
    planes.map(|plane| vec![0; 2 * plane.data.len()])
}

pub fn weave(size: Size, depth: u32) -> Contest {
    let input = format!("{size}, {depth} bits");
    let sides = move || {
        let (shape, fields) = two_fields(size, depth);
        let mut outs = room(&fields[0]);
        let fields = Rc::new(fields);
        let for_rattle = fields.clone();
        Sides {
            rattle: side(move || {
                let [top, bottom] = black_box(&*for_rattle).each_ref().map(lent);
                let ([top_luma, top_cb, top_cr], [luma, cb, cr]) = (top, bottom);
                let [out_luma, out_cb, out_cr] = &mut outs;
                taken(desk::calls::weave(
                    shape, top_luma, top_cb, top_cr, shape, luma, cb, cr, out_luma, out_cb, out_cr,
                ));
            }),
            rust: Some(side(move || {
                let [top, bottom] = black_box(&*fields);
                black_box(runs::weave::by_rust(top, bottom));
            })),
            inlined: None,
        }
    };
    Contest::new("weave", input, (size.pixels(), "pixel"), sides)
}

/// Asked for the lines of a woven plane in turn.
pub fn line_number(size: Size, calls: u64) -> Contest {
    let input = format!("{size}, {calls} calls");
    let sides = move || {
        let lines = lines(size.width, size.height / 2, 8);
        let bytes = u64::from(lines.stride) * u64::from(lines.height);
        Sides {
            rattle: side(move || {
                for y in (0..2 * lines.height).cycle().take(calls as usize) {
                    let lines = black_box(lines);
                    let number = desk::calls::line_number(lines, bytes, lines, bytes, black_box(y));
                    taken(number);
                }
            }),
            rust: None,
            inlined: None,
        }
    };
    Contest::new("line_number", input, (calls, "call"), sides).beside("not in the original")
}

/// Every line of a plane, a call each. The Rust weaves whole frames alone; its
/// chroma planes are one sample each.
pub fn woven_line(size: Size, depth: u32) -> Contest {
    let input = format!("{size}, {depth} bits");
    let sides = move || {
        let lines = lines(size.width, size.height / 2, depth);
        let one = Plane {
            data: vec![0; 2],
            stride: 2,
            width: 1,
            height: 1,
        };
        let fields = two_fields(size, depth).1.map(|field| {
            let [luma, _, _] = field.planes;
            Frame {
                planes: [luma, one.clone(), one.clone()],
                ..field
            }
        });
        let fields = Rc::new(fields);
        let for_rattle = fields.clone();
        let row = lines.stride as usize;
        let mut out = vec![0; 2 * row * lines.height as usize];
        Sides {
            rattle: side(move || {
                let [top, bottom] = black_box(&*for_rattle)
                    .each_ref()
                    .map(|field| &field.planes[0].data[..]);
                for (y, line) in (0..).zip(out.chunks_exact_mut(row)) {
                    taken(desk::calls::woven_line(top, lines, bottom, lines, y, line));
                }
                black_box(&mut out);
            }),
            rust: Some(side(move || {
                let [top, bottom] = black_box(&*fields);
                let woven = runs::weave::by_rust(top, bottom);
                black_box(woven.expect("an input of the benchmark is taken"));
            })),
            inlined: None,
        }
    };
    Contest::new("woven_line", input, (size.pixels(), "pixel"), sides)
        .beside("the Rust: weave of the plane at once")
}

/// A frame of two planes (biplanar) or three, each row with 64 bytes of padding.
pub fn read_back(size: Size, depth: u32, planes: u32) -> (ReadbackNumbers, Readback) {
    let Size { width, height } = size;
    let row = width * bytes_a_sample(depth);
    let chroma = if planes == 2 { row } else { row / 2 };
    let (luma_pitch, chroma_pitch) = (row + 64, chroma + 64);
    let about = ReadbackNumbers {
        planes,
        width,
        height,
        depth,
        luma_pitch,
        second_pitch: chroma_pitch,
        third_pitch: chroma_pitch,
    };
    let sizes = [
        (luma_pitch, height),
        (chroma_pitch, height / 2),
        (chroma_pitch, height / 2),
    ];
    let all = sizes.into_iter().zip(1..).take(planes as usize);
    let read = Readback {
        about: runs::readback::about(about),
        planes: all
            .map(|((pitch, height), seed)| {
                let bytes = Random::new(seed).bytes((pitch * height) as usize);
                (bytes, pitch as usize, 0)
            })
            .collect(),
    };
    (about, read)
}

pub fn planes_of(read: &Readback) -> [&[u8]; 3] {
    let mut planes: [&[u8]; 3] = [&[]; 3];
    for (plane, (bytes, _, _)) in planes.iter_mut().zip(&read.planes) {
        *plane = bytes;
    }
    planes
}

/// How long the outputs have to be.
pub fn asked(about: ReadbackNumbers, [luma, second, third]: [&[u8]; 3]) -> [u64; 3] {
    let [mut luma_bytes, mut cb_bytes, mut cr_bytes] = [0; 3];
    taken(desk::calls::readback_sizes(
        about,
        luma,
        second,
        third,
        &mut luma_bytes,
        &mut cb_bytes,
        &mut cr_bytes,
    ));
    [luma_bytes, cb_bytes, cr_bytes]
}

/// The sizes alone.
pub fn readback_sizes(size: Size, calls: u64) -> Contest {
    let input = format!("{size}, {calls} calls");
    let sides = move || {
        let (about, read) = read_back(size, 8, 2);
        Sides {
            rattle: again(calls, move || {
                black_box(asked(black_box(about), planes_of(black_box(&read))));
            }),
            rust: None,
            inlined: None,
        }
    };
    Contest::new("readback_sizes", input, (calls, "call"), sides).beside("not in the original")
}

/// The sizes are asked for, and then the frame is copied, beside the Rust's one call.
pub fn readback_copy(size: Size, depth: u32, planes: u32) -> Contest {
    let input = format!("{size}, {depth} bits, {planes} planes");
    let sides = move || {
        let (about, read) = read_back(size, depth, planes);
        let mut outs = asked(about, planes_of(&read)).map(|size| vec![0; size as usize]);
        let read = Rc::new(read);
        let for_rattle = read.clone();
        Sides {
            rattle: side(move || {
                let planes = planes_of(black_box(&*for_rattle));
                black_box(asked(black_box(about), planes));
                let ([luma, second, third], [out_luma, out_cb, out_cr]) = (planes, &mut outs);
                taken(desk::calls::readback_copy(
                    about, luma, second, third, out_luma, out_cb, out_cr,
                ));
            }),
            rust: Some(side(move || {
                let frame = runs::readback::by_rust(black_box(&read));
                black_box(frame.expect("an input of the benchmark is taken"));
            })),
            inlined: None,
        }
    };
    Contest::new("readback_copy", input, (size.pixels(), "pixel"), sides)
        .beside("the Rust: one call, which makes its planes")
}

pub fn weaver_new(calls: u64) -> Contest {
    let input = format!("{calls} calls");
    Contest::new("weaver_new", input, (calls, "call"), move || {
        let mut state = [0; WEAVER_BYTES];
        Sides {
            rattle: again(calls, move || {
                taken(desk::calls::weaver_new(black_box(&mut state)));
            }),
            rust: Some(again(calls, || {
                black_box(&mut called::new());
            })),
            inlined: Some(again(calls, || {
                black_box(&mut crate::decode::weave::Weaver::default());
            })),
        }
    })
}

/// Of a weaver with no field: there the Rust has nothing to free.
pub fn weaver_clear(calls: u64) -> Contest {
    let input = format!("{calls} calls, no field");
    Contest::new("weaver_clear", input, (calls, "call"), move || {
        let mut state = [0; WEAVER_BYTES];
        taken(desk::calls::weaver_new(&mut state));
        let [mut rust, mut inlined] = [0; 2].map(|_| called::new());
        Sides {
            rattle: again(calls, move || {
                taken(desk::calls::weaver_clear(black_box(&mut state)));
            }),
            rust: Some(again(calls, move || called::clear(black_box(&mut rust)))),
            inlined: Some(again(calls, move || black_box(&mut inlined).clear())),
        }
    })
}

/// Two fields that make a frame. The desk keeps the first one's bytes in what
/// the caller lends; the Rust is given whole frames to own. Where they are
/// `copied`, that is done within its time, as a caller must who keeps them.
pub fn weaver_push(size: Size, depth: u32, copied: bool) -> Contest {
    let input = format!("{size}, {depth} bits");
    let sides = move || {
        let (shape, fields) = two_fields(size, depth);
        let mut outs = room(&fields[0]);
        let mut state = [0; WEAVER_BYTES];
        taken(desk::calls::weaver_new(&mut state));
        let bytes: usize = lent(&fields[0]).iter().map(|plane| plane.len()).sum();
        let mut store = vec![0; bytes];
        let fields = Rc::new(fields);
        let for_rattle = fields.clone();
        let mut weaver = Weaver::default();
        Sides {
            rattle: side(move || {
                let (mut picture, mut timed, mut time) = (0, 0, 0);
                for (parity, field) in (0..).zip(black_box(&*for_rattle)) {
                    let ([luma, cb, cr], [out_luma, out_cb, out_cr]) = (lent(field), &mut outs);
                    taken(desk::calls::weaver_push(
                        &mut state,
                        parity,
                        1,
                        7,
                        shape,
                        luma,
                        cb,
                        cr,
                        &mut store,
                        out_luma,
                        out_cb,
                        out_cr,
                        &mut picture,
                        &mut timed,
                        &mut time,
                    ));
                }
                assert_eq!(picture, 1, "two fields make a frame");
            }),
            rust: Some(Box::new(move || {
                let mut push = |[top, bottom]: [Frame; 2]| {
                    assert!(weaver.push(top, true, Some(7)).is_none());
                    let woven = weaver.push(bottom, false, Some(7));
                    black_box(woven.expect("two fields make a frame"));
                };
                if copied {
                    timed(|| push((*fields).clone()))
                } else {
                    let owned = (*fields).clone();
                    timed(|| push(owned))
                }
            })),
            inlined: None,
        }
    };
    let beside = if copied {
        "the Rust: with a copy of each field, which it takes away"
    } else {
        "the Rust: fields that it takes away"
    };
    Contest::new("weaver_push", input, (size.pixels(), "pixel"), sides).beside(beside)
}

/// The Rust as calls.
mod called {
    use crate::decode::weave::Weaver;

    #[inline(never)]
    pub fn new() -> Weaver {
        Weaver::default()
    }

    #[inline(never)]
    pub fn clear(weaver: &mut Weaver) {
        weaver.clear();
    }
}
