//! Headers, field orders, what is measured of pictures, and every refusal.

use desk::Parity::{self, Bottom, Top};

use super::tape::{Header, reel_of};
use super::{Call, call};

/// A stream of frames, each with what stands behind its FRAME.
fn stream(header: &str, frames: &[(&str, &[u8])]) -> Vec<u8> {
    let mut bytes = format!("YUV4MPEG2{header}\n").into_bytes();
    for (words, picture) in frames {
        bytes.extend(format!("FRAME{words}\n").bytes());
        bytes.extend(*picture);
    }
    bytes
}

/// The entries of the reel of a stream, each in its six numbers.
fn entries(stream: &[u8], first: Option<Parity>) -> Result<Vec<[u16; 6]>, String> {
    let reel = reel_of(&mut &stream[..], first)?;
    let numbers = reel
        .chunks(2)
        .map(|pair| u16::from_le_bytes([pair[0], pair[1]]));
    let numbers: Vec<u16> = numbers.collect();
    let (entries, rest) = numbers[2..].as_chunks::<6>();
    assert_eq!(numbers[..2], [0, entries.len() as u16], "no shape, a count");
    assert_eq!(rest, [0], "no pictures");
    Ok(entries.to_vec())
}

fn header(words: &str) -> Result<Header, String> {
    Header::read(&mut format!("YUV4MPEG2{words}\n").as_bytes())
}

#[test]
fn each_format_has_its_depth_and_its_bytes() {
    let formats = [
        (" C420jpeg", 8, 15, 12),
        (" C420mpeg2", 8, 15, 12),
        (" C420paldv", 8, 15, 12),
        (" C420", 8, 15, 12),
        (" C420p10 XYSCSS=420P10", 10, 30, 24),
        (" C422", 8, 15, 18),
        (" C422p10 XYSCSS=422P10", 10, 30, 36),
        (" Cmono", 8, 15, 0),
        ("", 8, 15, 12),
    ];
    for (format, depth, luma_bytes, chroma_bytes) in formats {
        let found = header(&format!(" W5 H3{format}")).expect(format);
        let expected = Header {
            width: 5,
            height: 3,
            depth,
            luma_bytes,
            chroma_bytes,
            order: None,
        };
        assert_eq!(found, expected, "{format}");
    }
}

/// As FFmpeg writes it; the order of the words is free.
#[test]
fn a_header_has_other_words_too() {
    let found =
        header(" W720 H486 F30000:1001 Ib A10:11 C422p10 XYSCSS=422P10 XCOLORRANGE=LIMITED");
    let found = found.expect("all are known");
    assert_eq!((found.width, found.height, found.depth), (720, 486, 10));
    assert_eq!(found.luma_bytes, 2 * 720 * 486);
    assert_eq!(found.order.as_deref(), Some("b"));
    let turned = header(" XW9 C422p10 A10:11 Ib H486 F30000:1001 W720");
    assert_eq!(turned.as_ref(), Ok(&found));
}

/// 64 by 16, so that a field has four blocks; every row of a field is one level.
fn picture(format: &str, top: u16, bottom: u16, chroma: u8) -> Vec<u8> {
    let found = header(&format!(" W64 H16 C{format}")).expect(format);
    let wide = found.depth > 8;
    let mut bytes = Vec::new();
    for row in 0..16 {
        let code = if row % 2 == 0 { top } else { bottom };
        for _ in 0..64 {
            bytes.extend(&code.to_le_bytes()[..if wide { 2 } else { 1 }]);
        }
    }
    assert_eq!(bytes.len(), found.luma_bytes);
    bytes.resize(bytes.len() + found.chroma_bytes, chroma);
    bytes
}

/// The levels of five frames, and the busy blocks of the top and the bottom field.
const LEVELS: [[u16; 2]; 5] = [[10, 20], [90, 20], [90, 220], [30, 50], [30, 50]];
const BUSY: [[u16; 2]; 5] = [[0, 0], [4, 0], [0, 4], [4, 4], [0, 0]];

#[test]
fn busy_blocks_are_counted_field_by_field() {
    for format in ["420jpeg", "420paldv", "422", "mono", "420p10", "422p10"] {
        let pictures: Vec<Vec<u8>> = (0..5u8)
            .map(|at| {
                let mut levels = LEVELS[usize::from(at)];
                if format.ends_with("p10") {
                    // The two low bits are not looked at.
                    levels = levels.map(|level| 4 * level + u16::from(at % 4));
                }
                // Nor is chroma.
                picture(format, levels[0], levels[1], 50 * at)
            })
            .collect();
        let frames: Vec<(&str, &[u8])> = pictures.iter().map(|all| ("", &all[..])).collect();
        for (order, parity) in [("t", 0), ("b", 1)] {
            let stream = stream(&format!(" W64 H16 F25:1 I{order} C{format}"), &frames);
            let found = entries(&stream, None).expect(format);
            let expected: Vec<[u16; 6]> = (0..5)
                .map(|at| {
                    let [top, bottom] = BUSY[at];
                    match (at, parity) {
                        (0, _) => [parity, 0, 0, 0, 0, 0],
                        (_, 0) => [0, 1, top, 4, bottom, 4],
                        _ => [1, 1, bottom, 4, top, 4],
                    }
                })
                .collect();
            assert_eq!(found, expected, "{format} {order}");
        }
    }
}

/// A level of 8 bits is four codes of 10: a difference of 8 levels is no change.
#[test]
fn ten_bits_are_compared_by_their_upper_eight() {
    let of = |code| {
        let pictures = [
            picture("422p10", 400, 400, 1),
            picture("422p10", code, 400, 1),
        ];
        let frames = pictures.each_ref().map(|all| ("", &all[..]));
        entries(&stream(" W64 H16 It C422p10", &frames), None).expect("two frames")[1]
    };
    assert_eq!(of(435), [0, 1, 0, 4, 0, 4]);
    assert_eq!(of(436), [0, 1, 4, 4, 0, 4]);
}

/// 17 rows are 9 and 8; 17 columns are a block, and one of a single column.
#[test]
fn blocks_at_the_edges_are_smaller() {
    for (format, chroma) in [("mono", 0), ("420jpeg", 2 * 9 * 9), ("422", 2 * 9 * 17)] {
        let pictures = [10, 200].map(|level| [vec![level; 17 * 17], vec![0; chroma]].concat());
        let frames = pictures.each_ref().map(|all| ("", &all[..]));
        let of = |order| {
            let stream = stream(&format!(" W17 H17 I{order} C{format}"), &frames);
            entries(&stream, None).expect(format)[1]
        };
        assert_eq!(of("t"), [0, 1, 4, 4, 2, 2], "{format}");
        assert_eq!(of("b"), [1, 1, 2, 2, 4, 4], "{format}");
    }
}

#[test]
fn a_frame_of_one_row_is_not_compared() {
    let stream = stream(
        " W3 H1 It Cmono",
        &[("", &[1, 2, 3]), ("", &[200, 201, 202])],
    );
    assert_eq!(entries(&stream, None), Ok(vec![[0; 6]; 2]));
}

/// The first fields of four frames of one picture, as numbers.
fn firsts(order: &str, frames: [&str; 4], word: Option<Parity>) -> Result<[u16; 4], String> {
    let frames = frames.map(|words| (words, &[7; 4][..]));
    let found = entries(&stream(&format!(" W2 H2{order} Cmono"), &frames), word)?;
    Ok([0, 1, 2, 3].map(|at| found[at][0]))
}

#[test]
fn the_word_comes_before_the_frame_and_the_frame_before_the_header() {
    let mixed = [" Itip", " XW9 Ibip", " IBpp Xremark", " ITi?"];
    assert_eq!(firsts(" It", [""; 4], None), Ok([0; 4]));
    assert_eq!(firsts(" Ib", [""; 4], None), Ok([1; 4]));
    assert_eq!(firsts(" Im", mixed, None), Ok([0, 1, 1, 0]));
    assert_eq!(
        firsts(" It", ["", " Ibip", "", " Itip"], None),
        Ok([0, 1, 0, 0])
    );
    assert_eq!(firsts("", mixed, None), Ok([0, 1, 1, 0]));
    for order in [" It", " Ib", " Ip", " I?", " Im", ""] {
        assert_eq!(firsts(order, mixed, Some(Top)), Ok([0; 4]), "{order}");
        assert_eq!(
            firsts(order, [" I1pp"; 4], Some(Bottom)),
            Ok([1; 4]),
            "{order}"
        );
    }
}

#[test]
fn without_a_field_order_a_word_is_expected() {
    let expected = "; expected It or Ib, or the word top or bottom on the command line, as in \
                    --example measure -- top";
    let names_none = "which names no field as the first";
    for order in ["p", "?", "m", "x", ""] {
        let found = firsts(&format!(" I{order}"), [""; 4], None);
        let wanted = format!("the header says I{order}, {names_none}{expected}");
        assert_eq!(found, Err(wanted));
    }
    let wanted = format!("the header has no I to name the field that comes first{expected}");
    assert_eq!(firsts("", [""; 4], None), Err(wanted));
    for order in [" It", " Im"] {
        let frames = [" Itip", " Itip", " I1pp", ""];
        let wanted = format!("frame 2 says I1pp, {names_none}{expected}");
        assert_eq!(firsts(order, frames, None), Err(wanted));
    }
}

#[test]
fn a_header_says_what_it_must() {
    let refused = |words: &str, wanted: &str| {
        assert_eq!(header(words), Err(wanted.to_owned()), "{words}");
    };
    let width = "expected W and a number from 1 to 8192";
    refused("", &format!("the header has no width; {width}"));
    refused(" H486", &format!("the header has no width; {width}"));
    let height = "expected H and a number from 1 to 4352";
    refused(" W720", &format!("the header has no height; {height}"));
    for size in ["0", "8193", "-1", "72x", "", "4294967297"] {
        let wanted = format!("the width is {size}; expected a number from 1 to 8192");
        refused(&format!(" W{size} H2"), &wanted);
    }
    for size in ["0", "4353", "2.5"] {
        let wanted = format!("the height is {size}; expected a number from 1 to 4352");
        refused(&format!(" W2 H{size}"), &wanted);
    }
    for format in ["444", "411", "420p12", "mono10", "422P10", ""] {
        let wanted = format!(
            "the format is C{format}; expected one of C420jpeg, C420mpeg2, C420paldv, C420, \
             C420p10, C422, C422p10, Cmono, as FFmpeg writes them by -pix_fmt yuv422p10le \
             -strict -1, or by -pix_fmt yuv420p"
        );
        refused(&format!(" W2 H2 C{format}"), &wanted);
    }
}

#[test]
fn a_field_has_no_more_blocks_than_a_reel_can_say() {
    for (width, height) in [
        (8192, 2032),
        (8176, 2048),
        (7680, 2176),
        // 65,535 of them.
        (4080, 4112),
        (3840, 4352),
    ] {
        let found = header(&format!(" W{width} H{height}"));
        assert!(found.is_ok(), "{width} by {height}: {found:?}");
    }
    for (width, height, blocks) in [
        (8192, 2033, 65_536),
        (8177, 2048, 65_536),
        (7680, 4320, 129_600),
        (8192, 4352, 139_264),
    ] {
        let wanted = format!(
            "at {width} by {height} a field has {blocks} blocks; expected at most 65535, the \
             largest number in a reel. Make the pictures narrower, with all their rows: ffmpeg \
             ... -vf scale=iw/4:ih"
        );
        assert_eq!(header(&format!(" W{width} H{height}")), Err(wanted));
    }
    // So narrow, none is too large.
    assert!(header(" W2048 H4352").is_ok());
}

#[test]
fn something_else_is_no_stream() {
    let refused = |input: &[u8], wanted: &str| {
        let found = reel_of(&mut &input[..], Some(Top));
        assert_eq!(found, Err(wanted.to_owned()), "{}", input.escape_ascii());
    };
    let written = "expected YUV4MPEG2, as `ffmpeg ... -f yuv4mpegpipe -` writes it";
    refused(b"", &format!("the input is empty; {written}"));
    let film = b"\x00\x00\x00\x14ftypqt  \x00\x00\x02\x00";
    let starts = "the input starts with";
    refused(
        film,
        &format!(r"{starts} '\x00\x00\x00\x14ftypqt  '; {written}"),
    );
    refused(b"YUV4\n", &format!(r"{starts} 'YUV4\n'; {written}"));
    refused(
        b"YUV4MPEG W2",
        &format!("{starts} 'YUV4MPEG W2'; {written}"),
    );
    refused(
        b"YUV4MPEG22 W2 H2\n",
        &format!("{starts} 'YUV4MPEG22 W'; {written}"),
    );
    let endless = |whose: &str, start: &str| {
        format!(
            "{whose} ends inside the line that starts with {start}, or that line is too long; \
             expected at most 4096 bytes and the end of the line"
        )
    };
    refused(b"YUV4MPEG2 W2 H2", &endless("the input", "YUV4MPEG2"));
    let long = [b"YUV4MPEG2 X".to_vec(), vec![b'x'; 5000]].concat();
    refused(&long, &endless("the input", "YUV4MPEG2"));
    refused(
        b"YUV4MPEG2 W2 H2\n",
        "the stream has no frame; expected at least one",
    );
    refused(b"YUV4MPEG2 W2 H2\nFRAME", &endless("the stream", "FRAME"));
    let other = r"where frame 0 should start, the stream has 'FRAMF\n'; expected FRAME";
    refused(b"YUV4MPEG2 W2 H2\nFRAMF\n", other);
    let long = r"where frame 1 should start, the stream has '\x01FRAME\n'; expected FRAME";
    refused(b"YUV4MPEG2 W1 H1 Cmono\nFRAME\n\x01\x01FRAME\n\x01", long);
}

/// A stream is whole behind each of its pictures, and nowhere else.
#[test]
fn a_cut_inside_a_frame_is_told() {
    let picture = [9; 12];
    let bytes = stream(" W4 H2 It", &[("", &picture), (" Xremark", &picture)]);
    let ends = [
        bytes.len() - picture.len() - "FRAME Xremark\n".len(),
        bytes.len(),
    ];
    for cut in 0..=bytes.len() {
        let found = entries(&bytes[..cut], None);
        let frames = ends.iter().position(|end| *end == cut).map(|at| at + 1);
        assert_eq!(found.as_ref().map(Vec::len).ok(), frames, "cut after {cut}");
    }
    let cut = entries(&bytes[..bytes.len() - 1], None);
    let wanted = "the stream ends inside frame 1, after 11 bytes of its picture; expected 12";
    assert_eq!(cut, Err(wanted.to_owned()));
}

/// Every frame that a reel can count is taken: of the input nothing but the picture
/// of the next one is left.
#[test]
fn a_reel_has_no_more_frames_than_it_can_count() {
    let frames = usize::from(u16::MAX) + 1;
    let bytes = stream(" W1 H1 It Cmono", &vec![("", &[1][..]); frames]);
    let mut input = &bytes[..];
    let wanted = "the stream has more than 65535 frames; expected at most so many, the largest \
                  number in a reel. Measure the tape in parts, each with a reel of its own: \
                  ffmpeg -ss 0 -t 1800 ..., ffmpeg -ss 1799 -t 1800 ...";
    assert_eq!(reel_of(&mut input, None), Err(wanted.to_owned()));
    assert_eq!(input, [1]);
}

/// An input that delivers a byte at a time, and is interrupted before each.
struct Slow<'a>(&'a [u8], bool);

impl std::io::Read for Slow<'_> {
    fn read(&mut self, buffer: &mut [u8]) -> std::io::Result<usize> {
        self.1 = !self.1;
        if self.1 {
            return Err(std::io::ErrorKind::Interrupted.into());
        }
        self.0.read(&mut buffer[..1])
    }
}

/// An input that fails.
struct Broken;

impl std::io::Read for Broken {
    fn read(&mut self, _: &mut [u8]) -> std::io::Result<usize> {
        Err(std::io::Error::other("the disk is gone"))
    }
}

#[test]
fn how_the_input_arrives_changes_nothing() {
    use std::io::{BufReader, Read};
    let pictures = [picture("422", 1, 2, 3), picture("422", 90, 2, 3)];
    let frames = pictures.each_ref().map(|all| ("", &all[..]));
    let bytes = stream(" W64 H16 Ib C422", &frames);
    let slow = reel_of(&mut BufReader::with_capacity(1, Slow(&bytes, false)), None);
    assert_eq!(slow, reel_of(&mut &bytes[..], None));
    let broken = bytes[..200].chain(Broken);
    let found = reel_of(&mut BufReader::new(broken), None);
    let wanted = "the input cannot be read: the disk is gone";
    assert_eq!(found, Err(wanted.to_owned()));
}

#[test]
fn the_words_of_a_call() {
    let words = |text: &str| {
        text.split_whitespace()
            .map(str::to_owned)
            .collect::<Vec<_>>()
    };
    let of = |text: &str| call(&words(text));
    assert_eq!(of(""), Ok(Call::Measure(None)));
    assert_eq!(of("top"), Ok(Call::Measure(Some(Top))));
    assert_eq!(of("bottom"), Ok(Call::Measure(Some(Bottom))));
    assert_eq!(of("--help"), Ok(Call::Help));
    assert_eq!(of("-h"), Ok(Call::Help));
    for text in ["Top", "top bottom", "tape.y4m", "--top"] {
        let wanted = format!("the words are '{text}'; expected top, bottom, --help or none");
        assert_eq!(of(text), Err(wanted));
    }
}
