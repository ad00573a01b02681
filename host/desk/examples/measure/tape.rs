//! The frames of a YUV4MPEG2 stream, measured by the desk's calls, as a reel file
//! (docs/RULES.md, "Reel file and listing"): for each frame the busy blocks of its
//! leading and of its trailing field against the frame before it. Luma alone is
//! looked at.

use std::io::{self, BufRead, Read};

use desk::{Counts, Entry, KeptFrame, Lines, Parity, Refusal, busy_blocks};

/// What a reel can say: its numbers have 16 bits.
const MOST_FRAMES: u16 = u16::MAX;
const MOST_BLOCKS: u32 = u16::MAX as u32;

/// The bounds of a picture, docs/RULES.md, "Planes".
const MOST_WIDTH: u32 = 8192;
const MOST_HEIGHT: u32 = 4352;

/// No line of a stream is longer: one that is belongs to something else.
const MOST_LINE: u64 = 4096;

/// So many bytes of something else are shown.
const MOST_SHOWN: usize = 12;

// ---- Header

/// How much chroma stands behind the luma of a picture, in two planes.
#[derive(Clone, Copy)]
enum Chroma {
    None,
    /// 4:2:2.
    HalfWidth,
    /// 4:2:0.
    HalfBoth,
}

/// The formats that are taken: the name behind a header's C, the bits of a sample.
const FORMATS: [(&str, u32, Chroma); 8] = [
    ("420jpeg", 8, Chroma::HalfBoth),
    ("420mpeg2", 8, Chroma::HalfBoth),
    ("420paldv", 8, Chroma::HalfBoth),
    ("420", 8, Chroma::HalfBoth),
    ("420p10", 10, Chroma::HalfBoth),
    ("422", 8, Chroma::HalfWidth),
    ("422p10", 10, Chroma::HalfWidth),
    ("mono", 8, Chroma::None),
];

/// What the first line of a stream says.
#[derive(Debug, Clone, PartialEq, Eq)]
pub struct Header {
    /// Of the luma, which stands first in a picture, its rows without padding.
    pub width: u32,
    pub height: u32,
    /// Bits of a sample.
    pub depth: u32,
    pub luma_bytes: usize,
    pub chroma_bytes: usize,
    /// What stands behind the I: t or b, or what names no field as the first.
    pub order: Option<String>,
}

impl Header {
    pub fn read(input: &mut impl BufRead) -> Result<Self, String> {
        let written = "expected YUV4MPEG2, as `ffmpeg ... -f yuv4mpegpipe -` writes it";
        match line(input, "YUV4MPEG2", "the input")? {
            Line::Rest(rest) => Self::of(&rest),
            Line::End => Err(format!("the input is empty; {written}")),
            Line::Other(found) => Err(format!("the input starts with {found}; {written}")),
        }
    }

    /// From the words of the line; the rate, the shape of a sample and remarks
    /// (F, A, X) change nothing here.
    fn of(words: &str) -> Result<Self, String> {
        let width = size(words, 'W', "width", MOST_WIDTH)?;
        let height = size(words, 'H', "height", MOST_HEIGHT)?;
        let blocks = blocks(width, height);
        if blocks > MOST_BLOCKS {
            return Err(format!(
                "at {width} by {height} a field has {blocks} blocks; expected at most \
                 {MOST_BLOCKS}, the largest number in a reel. Make the pictures narrower, \
                 with all their rows: ffmpeg ... -vf scale=iw/4:ih"
            ));
        }
        // Where there is no C, the stream's definition says 4:2:0 and 8 bits.
        let name = said(words, 'C').unwrap_or("420jpeg");
        let Some((_, depth, chroma)) = FORMATS.iter().find(|format| format.0 == name) else {
            let names = FORMATS.map(|(name, ..)| format!("C{name}")).join(", ");
            return Err(format!(
                "the format is C{name}; expected one of {names}, as FFmpeg writes them by \
                 -pix_fmt yuv422p10le -strict -1, or by -pix_fmt yuv420p"
            ));
        };
        let bytes = if *depth > 8 { 2 } else { 1 };
        let chroma_samples = match chroma {
            Chroma::None => 0,
            Chroma::HalfWidth => 2 * width.div_ceil(2) * height,
            Chroma::HalfBoth => 2 * width.div_ceil(2) * height.div_ceil(2),
        };
        Ok(Self {
            width,
            height,
            depth: *depth,
            luma_bytes: (width * height * bytes) as usize,
            chroma_bytes: (chroma_samples * bytes) as usize,
            order: said(words, 'I').map(str::to_owned),
        })
    }
}

/// The blocks of the top field, which has as many rows as the bottom field or one
/// more. A block is 16 columns by 8 rows of a field, smaller at the edges.
fn blocks(width: u32, height: u32) -> u32 {
    width.div_ceil(16) * height.div_ceil(2).div_ceil(8)
}

/// What stands behind a letter, among words with a letter each.
fn said(words: &str, letter: char) -> Option<&str> {
    words.split(' ').find_map(|word| word.strip_prefix(letter))
}

fn size(words: &str, letter: char, name: &str, most: u32) -> Result<u32, String> {
    let Some(text) = said(words, letter) else {
        return Err(format!(
            "the header has no {name}; expected {letter} and a number from 1 to {most}"
        ));
    };
    match text.parse() {
        Ok(size) if (1..=most).contains(&size) => Ok(size),
        _ => Err(format!(
            "the {name} is {text}; expected a number from 1 to {most}"
        )),
    }
}

// ---- Lines and pictures

enum Line {
    /// What stands behind the word that starts the line.
    Rest(String),
    /// The input is at its end.
    End,
    /// The first bytes of something else.
    Other(String),
}

/// Reads the line that should start with a word.
fn line(input: &mut impl BufRead, start: &str, whose: &str) -> Result<Line, String> {
    let mut bytes = Vec::new();
    let mut limited = input.take(MOST_LINE);
    limited.read_until(b'\n', &mut bytes).map_err(unreadable)?;
    if bytes.is_empty() {
        return Ok(Line::End);
    }
    let rest = match bytes.strip_prefix(start.as_bytes()) {
        Some(rest) if rest.is_empty() || b" \n".contains(&rest[0]) => rest,
        _ => {
            let shown = &bytes[..bytes.len().min(MOST_SHOWN)];
            return Ok(Line::Other(format!("'{}'", shown.escape_ascii())));
        }
    };
    match rest.strip_suffix(b"\n") {
        Some(words) => Ok(Line::Rest(String::from_utf8_lossy(words).into_owned())),
        None => Err(format!(
            "{whose} ends inside the line that starts with {start}, or that line is too long; \
             expected at most {MOST_LINE} bytes and the end of the line"
        )),
    }
}

/// Fills the buffer, or as much of it as there is input.
fn fill(input: &mut impl Read, buffer: &mut [u8]) -> Result<usize, String> {
    let mut filled = 0;
    while filled < buffer.len() {
        match input.read(&mut buffer[filled..]) {
            Ok(0) => break,
            Ok(count) => filled += count,
            Err(error) if error.kind() == io::ErrorKind::Interrupted => {}
            Err(error) => return Err(unreadable(error)),
        }
    }
    Ok(filled)
}

fn unreadable(error: io::Error) -> String {
    format!("the input cannot be read: {error}")
}

// ---- Field order

/// The field that an I names as the first. A header has one letter, a frame three.
/// By T and B a player also repeats that field, which stands in the stream once.
fn first_named(order: &str) -> Option<Parity> {
    match order.as_bytes() {
        [b't'] | [b't' | b'T', _, _] => Some(Parity::Top),
        [b'b'] | [b'b' | b'B', _, _] => Some(Parity::Bottom),
        _ => None,
    }
}

/// The field that comes first in a frame: as the caller says, else as the frame
/// itself does, else as the header does.
fn first_of(
    caller: Option<Parity>,
    own: Option<&str>,
    header: Option<&str>,
    frame: u16,
) -> Result<Parity, String> {
    let named = own.or(header).and_then(first_named);
    caller.or(named).ok_or_else(|| {
        let found = match (own, header) {
            (Some(own), _) => {
                format!("frame {frame} says I{own}, which names no field as the first")
            }
            (None, Some(order)) => {
                format!("the header says I{order}, which names no field as the first")
            }
            (None, None) => "the header has no I to name the field that comes first".to_owned(),
        };
        format!(
            "{found}; expected It or Ib, or the word top or bottom on the command line, as in \
             --example measure -- top"
        )
    })
}

// ---- Measuring

/// The reel of a stream, with an entry for each frame. `first` is the field that
/// comes first, where the caller knows better than the stream.
pub fn reel_of(input: &mut impl BufRead, first: Option<Parity>) -> Result<Vec<u8>, String> {
    let header = Header::read(input)?;
    let mut picture = vec![0; header.luma_bytes + header.chroma_bytes];
    let mut before: Option<KeptFrame> = None;
    let mut frames = 0;
    let mut entries = Vec::new();
    loop {
        let words = match line(input, "FRAME", "the stream")? {
            Line::Rest(words) => words,
            Line::End => break,
            Line::Other(found) => {
                return Err(format!(
                    "where frame {frames} should start, the stream has {found}; expected FRAME"
                ));
            }
        };
        if frames == MOST_FRAMES {
            return Err(format!(
                "the stream has more than {MOST_FRAMES} frames; expected at most so many, the \
                 largest number in a reel. Measure the tape in parts, each with a reel of its \
                 own: ffmpeg -ss 0 -t 1800 ..., ffmpeg -ss 1799 -t 1800 ..."
            ));
        }
        let first = first_of(first, said(&words, 'I'), header.order.as_deref(), frames)?;
        let filled = fill(input, &mut picture)?;
        if filled < picture.len() {
            return Err(format!(
                "the stream ends inside frame {frames}, after {filled} bytes of its picture; \
                 expected {}",
                picture.len()
            ));
        }
        let luma = &picture[..header.luma_bytes];
        let luma = Lines::packed(luma, header.width, header.height, header.depth);
        let told = |refusal: Refusal| refusal.to_string();
        let counts = measured(luma, before.as_ref(), first).map_err(told)?;
        let entry = Entry::new(first, counts).map_err(|fault| fault.to_string())?;
        entries.extend(entry.to_bytes());
        before = Some(KeptFrame::of(luma).map_err(told)?);
        frames += 1;
    }
    if frames == 0 {
        return Err("the stream has no frame; expected at least one".to_owned());
    }
    // Each section after its count: no shape, the entries, no pictures.
    let counts = [0, frames, 0].map(u16::to_le_bytes);
    Ok([&counts[0][..], &counts[1], &entries, &counts[2]].concat())
}

/// The counts of the leading field, then of the trailing. None where the frame
/// cannot be compared: it is the first, or it has one row, and so one field. That
/// another field leads than in the frame before, a detector sees by itself.
fn measured(
    luma: Lines<'_>,
    before: Option<&KeptFrame>,
    first: Parity,
) -> Result<Option<[Counts; 2]>, Refusal> {
    let Some(before) = before.filter(|_| luma.height > 1) else {
        return Ok(None);
    };
    let counts = |field| busy_blocks(luma, before, field);
    Ok(Some([counts(first)?, counts(first.other())?]))
}
