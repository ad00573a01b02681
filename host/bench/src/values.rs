//! Calls on one value, and small records. An export is a call that nothing can
//! inline, and it judges its inputs at every call; the original judges nothing.
//! So the Rust is timed twice: as a call that takes and gives what the export
//! does, and where the compiler may inline it into the loop.

use std::hint::black_box;
use std::rc::Rc;

use desk::calls::{FormatNumbers, PlaneNumbers};
use differ::random::Random;
use mediadecoder::es::{Format, Structure};
use mediadecoder::video::Plane;

use crate::decode::{About, weave};
use crate::video::Deinterlace;
use crate::video::colour::{self, Conversion, Primaries};
use crate::video::field::{self, Parity};
use crate::video::filter::{self, Planes, Rows, Samples};

use super::{Contest, Side, Sides, Size, named, plane_of, side, taken};

/// A call for each input. What it gives must go through `black_box`, or the
/// work could be left out.
fn every<T: 'static>(inputs: &Rc<[T]>, call: impl Fn(&T) + 'static) -> Side {
    let inputs = inputs.clone();
    side(move || black_box(&inputs[..]).iter().for_each(&call))
}

fn contest(
    call: &'static str,
    calls: u64,
    what: &str,
    sides: impl FnOnce() -> Sides + 'static,
) -> Contest {
    Contest::new(call, format!("{calls} {what}"), (calls, "call"), sides)
}

/// The pairs of codes that are not refused, again and again.
pub fn first_field(calls: u64) -> Contest {
    contest("first_field", calls, "pairs", move || {
        let pairs = (0..calls).map(|at| ((at % 3) as u8, (at / 3 % 2) as u8));
        let pairs: Rc<[(u8, u8)]> = pairs.collect();
        let abouts = pairs.iter().map(|(structure, top_field_first)| About {
            structure: structure_named(*structure).expect("a code from 0 to 2"),
            top_field_first: *top_field_first == 1,
            ..About::default()
        });
        let abouts: Rc<[About]> = abouts.collect();
        Sides {
            rattle: every(&pairs, |(structure, top_field_first)| {
                let mut parity = 0;
                taken(desk::calls::first_field(
                    *structure,
                    *top_field_first,
                    &mut parity,
                ));
                black_box(parity);
            }),
            rust: Some(every(&pairs, |(structure, top_field_first)| {
                let mut parity = 0;
                taken(called::first_field(
                    *structure,
                    *top_field_first,
                    &mut parity,
                ));
                black_box(parity);
            })),
            inlined: Some(every(&abouts, |about| {
                black_box(field::first_field(about));
            })),
        }
    })
}

fn structure_named(code: u8) -> Option<Structure> {
    match code {
        0 => Some(Structure::Frame),
        1 => Some(Structure::Top),
        2 => Some(Structure::Bottom),
        _ => None,
    }
}

/// The Rust's view of a plane, planar or the luma of a biplanar frame.
fn samples(plane: &Plane, (depth, layout): (u32, u32)) -> Samples<'_> {
    let depth = depth as u8;
    match layout {
        0 => Samples::new(plane, depth),
        _ => Planes::biplanar(plane, plane, depth).y,
    }
}

/// So many places of a plane, from the first, row by row.
fn places(size: Size, reads: u64) -> Rc<[(i32, i32)]> {
    let width = u64::from(size.width);
    let place = |at| ((at % width) as i32, (at / width) as i32);
    (0..reads).map(place).collect()
}

/// Reads of one plane. The desk judges its shape at each call; the Rust's
/// `Samples` is made once.
fn read<T: Default + 'static, U: 'static>(
    call: &'static str,
    (size, reads, of): (Size, u64, (u32, u32)),
    export: impl Fn(&[u8], PlaneNumbers, i32, i32, &mut T) -> u8 + 'static,
    called: impl Fn(&Samples<'_>, i32, i32, &mut T) -> u8 + 'static,
    inlined: impl Fn(&Samples<'_>, i32, i32) -> U + 'static,
) -> Contest {
    let input = format!("{size}, {}", named(of));
    Contest::new(call, input, (reads, "call"), move || {
        let (plane, shape) = plane_of(1, size, of);
        let plane = Rc::new(plane);
        let places = places(size, reads);
        let for_rattle = (plane.clone(), places.clone());
        let for_rust = (plane.clone(), places.clone());
        Sides {
            rattle: side(move || {
                let (plane, places) = &for_rattle;
                let lent = black_box(&plane.data[..]);
                for (x, y) in black_box(&places[..]) {
                    let mut value = T::default();
                    taken(export(lent, shape, *x, *y, &mut value));
                    black_box(value);
                }
            }),
            rust: Some(side(move || {
                let (plane, places) = &for_rust;
                let samples = black_box(samples(plane, of));
                for (x, y) in black_box(&places[..]) {
                    let mut value = T::default();
                    taken(called(&samples, *x, *y, &mut value));
                    black_box(value);
                }
            })),
            inlined: Some(side(move || {
                let samples = black_box(samples(&plane, of));
                for (x, y) in black_box(&places[..]) {
                    black_box(inlined(&samples, *x, *y));
                }
            })),
        }
    })
}

pub fn code(size: Size, reads: u64, of: (u32, u32)) -> Contest {
    let inlined = |samples: &Samples<'_>, x, y| samples.code(x as usize, y as usize);
    read(
        "code",
        (size, reads, of),
        desk::calls::code,
        |samples, x, y, value| called::code(samples, x, y, value),
        inlined,
    )
}

pub fn at(size: Size, reads: u64, of: (u32, u32)) -> Contest {
    read(
        "at",
        (size, reads, of),
        desk::calls::at,
        |samples, x, y, value| called::at(samples, x, y, value),
        |samples, x, y| samples.at(x, y),
    )
}

pub fn edge(size: Size, reads: u64, of: (u32, u32)) -> Contest {
    read(
        "edge",
        (size, reads, of),
        desk::calls::edge,
        |samples, x, y, slant| called::edge(samples, x, y, slant),
        filter::edge,
    )
}

/// Of three planes, by Yadif, of the first field. As for the other reads, the
/// desk judges the shapes at each call.
pub fn sample(size: Size, reads: u64, of: (u32, u32)) -> Contest {
    let input = format!("{size}, {}, Yadif", named(of));
    Contest::new("sample", input, (reads, "call"), move || {
        let three = [1, 2, 3].map(|seed| plane_of(seed, size, of));
        let shape = three[0].1;
        let planes = Rc::new(three.map(|(plane, _)| plane));
        let places = places(size, reads);
        let for_rattle = (planes.clone(), places.clone());
        let for_rust = (planes.clone(), places.clone());
        Sides {
            rattle: side(move || {
                let (planes, places) = &for_rattle;
                let [before, cur, after] =
                    planes.each_ref().map(|plane| black_box(&plane.data[..]));
                for (x, y) in black_box(&places[..]) {
                    let mut value = 0.0;
                    taken(desk::calls::sample(
                        2, before, shape, cur, shape, after, shape, 0, 2, *x, *y, &mut value,
                    ));
                    black_box(value);
                }
            }),
            rust: Some(side(move || {
                let (planes, places) = &for_rust;
                let three = black_box(planes.each_ref().map(|plane| samples(plane, of)));
                for (x, y) in black_box(&places[..]) {
                    let mut value = 0.0;
                    taken(called::sample(2, &three, 0, 2, *x, *y, &mut value));
                    black_box(value);
                }
            })),
            inlined: Some(side(move || {
                let [before, cur, after] =
                    &black_box(planes.each_ref().map(|plane| samples(plane, of)));
                for (x, y) in black_box(&places[..]) {
                    let yadif = black_box(Deinterlace::Yadif);
                    let rows = Rows::field(0);
                    black_box(filter::sample(yadif, before, cur, after, rows, *x, *y));
                }
            })),
        }
    })
}

pub fn to_rgb(calls: u64) -> Contest {
    contest("to_rgb", calls, "triples", move || {
        let made = Conversion::new(colour::Matrix::Bt709, 10, true);
        let conversion = desk::calls::Conversion {
            luma_offset: made.luma_offset,
            luma_gain: made.luma_gain,
            chroma_offset: made.chroma_offset,
            chroma_gain: made.chroma_gain,
            kr: made.kr,
            kb: made.kb,
            luma_lift: made.luma_lift,
            chroma_cos: made.chroma_cos,
            chroma_sin: made.chroma_sin,
        };
        let mut random = Random::new(1);
        let mut sample = || random.below(1024) as f32 / 1023.0;
        let triples = (0..calls).map(|_| [sample(), sample(), sample()]);
        let triples: Rc<[[f32; 3]]> = triples.collect();
        Sides {
            rattle: every(&triples, move |[y, cb, cr]| {
                let (mut red, mut green, mut blue) = (0.0, 0.0, 0.0);
                let conversion = black_box(conversion);
                let places = (&mut red, &mut green, &mut blue);
                taken(desk::calls::to_rgb(
                    conversion, *y, *cb, *cr, places.0, places.1, places.2,
                ));
                black_box([red, green, blue]);
            }),
            rust: Some(every(&triples, move |[y, cb, cr]| {
                let (mut red, mut green, mut blue) = (0.0, 0.0, 0.0);
                let conversion = black_box(conversion);
                let places = (&mut red, &mut green, &mut blue);
                taken(called::to_rgb(
                    conversion, *y, *cb, *cr, places.0, places.1, places.2,
                ));
                black_box([red, green, blue]);
            })),
            inlined: Some(every(&triples, move |[y, cb, cr]| {
                black_box(black_box(&made).to_rgb(*y, *cb, *cr));
            })),
        }
    })
}

/// From a little below 0 to a little above 1, as colours come out.
pub fn quantise(calls: u64) -> Contest {
    contest("quantise", calls, "floats", move || {
        let mut random = Random::new(1);
        let floats = (0..calls).map(|_| random.below(1_200_001) as f32 / 1_000_000.0 - 0.1);
        let floats: Rc<[f32]> = floats.collect();
        Sides {
            rattle: every(&floats, |value| {
                black_box(desk::calls::quantise(*value));
            }),
            rust: Some(every(&floats, |value| {
                black_box(called::quantise(*value));
            })),
            inlined: Some(every(&floats, |value| {
                black_box(colour::quantise(*value));
            })),
        }
    })
}

pub fn luma(calls: u64) -> Contest {
    contest("luma", calls, "codes", move || {
        let codes: Rc<[u8]> = (0..calls).map(|at| (at % 2) as u8).collect();
        let named = codes.iter().map(|code| match code {
            0 => Primaries::Bt709,
            _ => Primaries::Bt2020,
        });
        let named: Rc<[Primaries]> = named.collect();
        Sides {
            rattle: every(&codes, |code| {
                let (mut red, mut green, mut blue) = (0.0, 0.0, 0.0);
                taken(desk::calls::luma(*code, &mut red, &mut green, &mut blue));
                black_box([red, green, blue]);
            }),
            rust: Some(every(&codes, |code| {
                let (mut red, mut green, mut blue) = (0.0, 0.0, 0.0);
                taken(called::luma(*code, &mut red, &mut green, &mut blue));
                black_box([red, green, blue]);
            })),
            inlined: Some(every(&named, |primaries| {
                black_box(primaries.luma());
            })),
        }
    })
}

/// One of several formats of fields.
pub fn format_of(at: u32) -> FormatNumbers {
    FormatNumbers {
        width: 1920,
        height: 540 + at % 4,
        depth: 10,
        rate_numerator: 60_000,
        rate_denominator: 1_001,
        field_pictures: 1,
        progressive: at % 2,
        woven: 0,
    }
}

/// The formats of fields. The Rust's is its own record, not the desk's numbers.
pub fn woven(calls: u64) -> Contest {
    contest("woven", calls, "formats", move || {
        let numbers: Rc<[FormatNumbers]> = (0..calls as u32).map(format_of).collect();
        let formats = numbers.iter().map(|numbers| Format {
            width: numbers.width,
            height: numbers.height,
            depth: numbers.depth as u8,
            rate: (numbers.rate_numerator, numbers.rate_denominator),
            field_pictures: true,
            progressive: numbers.progressive == 1,
            ..Format::default()
        });
        let formats: Rc<[Format]> = formats.collect();
        Sides {
            rattle: every(&numbers, |field| {
                black_box(desk::calls::woven(*field));
            }),
            rust: Some(every(&formats, |field| {
                black_box(called::woven(*field));
            })),
            inlined: Some(every(&formats, |field| {
                black_box(weave::woven(*field));
            })),
        }
    })
}

/// The Rust as calls. They take and give what the exports do, but a plane as
/// the Rust has it, and judge no more than it takes to name a code.
mod called {
    use super::*;

    #[inline(never)]
    pub extern "C" fn first_field(structure: u8, top_field_first: u8, parity: &mut u8) -> u8 {
        let Some(structure) = structure_named(structure) else {
            return 3;
        };
        let about = About {
            structure,
            top_field_first: top_field_first == 1,
            ..About::default()
        };
        *parity = match field::first_field(&about) {
            Parity::Top => 0,
            Parity::Bottom => 1,
        };
        0
    }

    #[inline(never)]
    pub extern "C" fn code(samples: &Samples<'_>, x: i32, y: i32, code: &mut u16) -> u8 {
        *code = samples.code(x as usize, y as usize) as u16;
        0
    }

    #[inline(never)]
    pub extern "C" fn at(samples: &Samples<'_>, x: i32, y: i32, value: &mut f32) -> u8 {
        *value = samples.at(x, y);
        0
    }

    #[inline(never)]
    pub extern "C" fn edge(samples: &Samples<'_>, x: i32, y: i32, slant: &mut i32) -> u8 {
        *slant = filter::edge(samples, x, y);
        0
    }

    #[inline(never)]
    pub extern "C" fn sample(
        quality: u8,
        [before, cur, after]: &[Samples<'_>; 3],
        first: u32,
        mate: u32,
        x: i32,
        y: i32,
        value: &mut f32,
    ) -> u8 {
        let quality = match quality {
            0 => Deinterlace::Weave,
            1 => Deinterlace::Bob,
            2 => Deinterlace::Yadif,
            3 => Deinterlace::Bwdif,
            _ => return 3,
        };
        *value = filter::sample(quality, before, cur, after, Rows { first, mate }, x, y);
        0
    }

    #[inline(never)]
    pub extern "C" fn to_rgb(
        conversion: desk::calls::Conversion,
        y: f32,
        cb: f32,
        cr: f32,
        red: &mut f32,
        green: &mut f32,
        blue: &mut f32,
    ) -> u8 {
        let conversion = Conversion {
            luma_offset: conversion.luma_offset,
            luma_gain: conversion.luma_gain,
            chroma_offset: conversion.chroma_offset,
            chroma_gain: conversion.chroma_gain,
            kr: conversion.kr,
            kb: conversion.kb,
            luma_lift: conversion.luma_lift,
            chroma_cos: conversion.chroma_cos,
            chroma_sin: conversion.chroma_sin,
        };
        [*red, *green, *blue] = conversion.to_rgb(y, cb, cr);
        0
    }

    #[inline(never)]
    pub extern "C" fn quantise(value: f32) -> u8 {
        colour::quantise(value)
    }

    #[inline(never)]
    pub extern "C" fn luma(primaries: u8, red: &mut f32, green: &mut f32, blue: &mut f32) -> u8 {
        let primaries = match primaries {
            0 => Primaries::Bt709,
            1 => Primaries::Bt2020,
            _ => return 3,
        };
        [*red, *green, *blue] = primaries.luma();
        0
    }

    #[inline(never)]
    pub fn woven(field: Format) -> Format {
        weave::woven(field)
    }
}
