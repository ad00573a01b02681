//! What a capture desk does with the proved code: weaves fields, measures comb
//! and what changed, reads a frame back, makes a picture, and finds film in the
//! counts of a reel.
//!
//!     host/cargo run -p desk --example desk

use std::error::Error;

use desk::Parity::{Bottom, Top};
use desk::{Conversion, Counts, Detector, Entry, Field, Frame, KeptFrame, Lines, Output, Padded};
use desk::{Quality, ReadPlanes, Readback};
use desk::{busy_blocks, cadences, comb, comb_rgba, picture, readback, weave};

/// Columns, and rows of a frame: a field has half as many rows.
const WIDTH: u32 = 64;
const HEIGHT: u32 = 48;

/// Bytes from one row to the next in a device's memory.
const PITCH: u32 = 80;

/// What the nine numbers are for BT.709 in 8 bits, black at 16 and white at 235.
const BT709: Conversion = Conversion {
    luma_offset: 16.0 / 255.0,
    luma_gain: 255.0 / 219.0,
    chroma_offset: 128.0 / 255.0,
    chroma_gain: 255.0 / 224.0,
    kr: 0.2126,
    kb: 0.0722,
    luma_lift: 0.0,
    chroma_cos: 1.0,
    chroma_sin: 0.0,
};

/// The luma of a field: a bright bar on dark ground, its left edge at `left`.
fn bar(left: u32) -> Vec<u8> {
    let bright = |x| (left..left + 8).contains(&x);
    let row = (0..WIDTH).map(|x| if bright(x) { 200 } else { 20 });
    row.collect::<Vec<u8>>().repeat(HEIGHT as usize / 2)
}

/// A field without colour: its chroma has half the columns and half the rows.
fn field(luma: &[u8]) -> Field<'_> {
    const GREY: &[u8] = &[128; (WIDTH / 2 * HEIGHT / 4) as usize];
    Field::packed([luma, GREY, GREY], WIDTH, HEIGHT / 2, 8)
}

/// The woven luma of a frame; what is woven has no padding.
fn lines(luma: &[u8]) -> Lines<'_> {
    Lines::packed(luma, WIDTH, HEIGHT, 8)
}

/// Rows of `WIDTH` bytes as a device holds them, each padded to `PITCH`.
fn padded(rows: &[u8]) -> Vec<u8> {
    let rows = rows.chunks(WIDTH as usize);
    rows.flat_map(|row| [row, &[0; (PITCH - WIDTH) as usize]].concat())
        .collect()
}

/// The reel of docs/RULES.md: busy blocks of the leading field and of the trailing.
/// The first frame has none, since there was nothing to compare it with.
fn measured(frame: usize) -> Option<[Counts; 2]> {
    let busy = match frame {
        0 => return None,
        1 | 6 | 11 | 12 => [0, 40],
        3 | 8 => [40, 0],
        _ => [40, 40],
    };
    Some(busy.map(|busy| Counts { busy, total: 1350 }))
}

fn main() -> Result<(), Box<dyn Error>> {
    // The top field comes first whichever was captured first; a `desk::Weaver`
    // takes fields in the order of capture and pairs them.
    let (still, moved) = (bar(10), bar(16));
    let [calm, ..] = weave(field(&still), field(&still))?;
    let [combed, cb, cr] = weave(field(&still), field(&moved))?;
    let (before, after) = (comb(lines(&calm))?, comb(lines(&combed))?);
    println!("comb: {before} where nothing moved, {after} where the bar went on 6 columns");

    // A refused call has written nothing; it may be made again with better bytes.
    if let Err(refusal) = weave(field(&still[1..]), field(&still)) {
        println!("a top field that lacks a byte: {refusal}");
    }

    let kept = KeptFrame::of(lines(&calm))?;
    for parity in [Top, Bottom] {
        let Counts { busy, total } = busy_blocks(lines(&combed), &kept, parity)?;
        println!("{parity:?} field: {busy} of {total} blocks changed");
    }

    // A device hands the frame over with padding, and cb and cr in turn in one plane.
    // `readback` asks how long the three planes are, makes room for them and copies.
    let both: Vec<u8> = cb.iter().zip(&cr).flat_map(|(b, r)| [*b, *r]).collect();
    let (luma, chroma) = (padded(&combed), padded(&both));
    let plane = |bytes| Padded {
        bytes,
        stride: PITCH,
    };
    let [combed, cb, cr] = readback(Readback {
        width: WIDTH,
        height: HEIGHT,
        depth: 8,
        planes: ReadPlanes::Biplanar {
            luma: plane(&luma),
            chroma: plane(&chroma),
        },
    })?;
    println!(
        "read back: {} and {} bytes, without padding {}, {} and {}",
        luma.len(),
        chroma.len(),
        combed.len(),
        cb.len(),
        cr.len()
    );

    // The top field alone, its missing rows made; here no other frame is at hand.
    let frame = Frame::planar([&combed, &cb, &cr], WIDTH, HEIGHT, 8);
    let rgba = picture(Quality::Bwdif, Output::field(Top), BT709, [frame; 3])?;
    let left = comb_rgba(&rgba, WIDTH, HEIGHT)?;
    println!(
        "its top field as a picture: {} bytes, comb {left}",
        rgba.len()
    );

    // Frame by frame, as they are captured; and all at once, as a reel has them.
    let mut detector = Detector::new();
    let mut entries = Vec::new();
    for frame in 0..13 {
        let cadence = detector.push_measured(Top, measured(frame))?;
        let lock = if detector.locked() { ", locked" } else { "" };
        println!("frame {frame}: {cadence:?}{lock}");
        entries.push(Entry::new(Top, measured(frame))?);
    }
    println!("all at once: {:?}", cadences(&entries)?);
    Ok(())
}
