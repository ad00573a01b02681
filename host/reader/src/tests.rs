//! The example of docs/RULES.md, and each fault at its place.

use std::fs;
use std::path::Path;

use crate::listing;
use crate::reel::{Entry, Reel};

const EXAMPLE: &str = "\
0 none 0
1 none 0
2 none 0
3 none 0
4 none 0
5 none 0
6 none 0
7 none 0
8 none 0
9 whole 1
10 whole 1
11 drop 1
12 none 0
whole 2 drop 1 spanning 0 none 10
";

#[test]
fn the_example_comes_out_byte_for_byte() {
    let bytes = Reel::example().bytes();
    assert_eq!(bytes.len(), 2 + 2 + 13 * 12 + 2);
    assert_eq!(bytes[..4], [0, 0, 13, 0]);
    assert_eq!(bytes[4..16], [0, 0, 0, 0, 40, 0, 70, 5, 40, 0, 70, 5]);
    assert_eq!(bytes[16..28], [0, 0, 1, 0, 0, 0, 70, 5, 40, 0, 70, 5]);
    assert_eq!(listing(&bytes), EXAMPLE);
}

/// The file with which `cadence` is run by the gate, whose listing is this
/// reader's.
#[test]
fn the_long_reel_is_this() {
    let top = Path::new(env!("CARGO_MANIFEST_DIR")).join("../..");
    let shipped = |path: &str| fs::read(top.join(path)).expect(path);
    let long = Reel::long().bytes();
    assert!(65_536 < long.len());
    assert!(shipped("crates/cadence/stdin") == long);
    let text = listing(&long);
    assert!(65_536 < text.len());
    for word in ["whole 1", "drop 1", "spanning 1", "none 0"] {
        assert!(text.contains(word), "no frame is '{word}'");
    }
    assert!(shipped("crates/cadence/stdout") == text.as_bytes());
}

/// Film of 64 by 16, of ten bits: the fields are 0 or full in turn. A full one has
/// 1,023 everywhere, or in its place the other words, in turn.
fn ten_bits(full: &[u16]) -> Reel {
    let mut levels = [true; 2];
    let picture = |at: usize| {
        // By the pattern, step 2 repeats the leading field, and step 4 the other:
        // here a full one.
        levels[0] ^= at % 5 != 2;
        levels[1] ^= at % 5 != 4;
        let word = |sample: usize| match levels[sample / 64 % 2] {
            true => full[(sample + at) % full.len()],
            false => 0,
        };
        let words = (0..64 * 16).map(word);
        words.flat_map(u16::to_le_bytes).collect()
    };
    Reel {
        shape: vec![64, 16, 10, 128, 0],
        entries: Vec::new(),
        pictures: (0..20).map(picture).collect(),
    }
}

/// Read as it stands, 0400 would be kept as 0, and no field of it would ever move.
#[test]
fn codes_past_the_largest_count_as_the_largest() {
    let clean = listing(&ten_bits(&[1023]).bytes());
    assert!(clean.contains("\n10 whole 1\n"), "{clean}");
    assert!(
        clean.ends_with("\nwhole 4 drop 2 spanning 4 none 10\n"),
        "{clean}"
    );
    for stray in [&[0x07FF][..], &[0x0400], &[0x0401, 0xFFFF, 0x0C00, 1023]] {
        assert_eq!(listing(&ten_bits(stray).bytes()), clean, "{stray:x?}");
    }
    // At 11 bits these two are a code each, and no field repeats another.
    let mut deeper = ten_bits(&[0x07FF, 0x0400]);
    deeper.shape[2] = 11;
    assert_ne!(listing(&deeper.bytes()), clean);
}

/// One entry, and two pictures of two rows of three bytes, the last padding.
fn small() -> Reel {
    Reel {
        shape: vec![2, 2, 8, 3, 1],
        entries: vec![Entry {
            parity: 1,
            present: 1,
            counts: [1, 2, 3, 4],
        }],
        pictures: vec![vec![1, 2, 3, 4, 5, 6], vec![7, 8, 9, 10, 11, 12]],
    }
}

const TOTALS: &str = "whole 0 drop 0 spanning 0 none 3\n";
const LINES: [&str; 3] = ["0 none 0\n", "1 none 0\n", "2 none 0\n"];

#[test]
fn a_cut_file_keeps_the_lines_before_the_cut() {
    let bytes = small().bytes();
    assert_eq!(bytes.len(), 12 + 2 + 12 + 2 + 12);
    assert_eq!(listing(&bytes), LINES.concat() + TOTALS);
    for cut in 0..bytes.len() {
        let whole = [26, 34, 40].iter().filter(|end| cut >= **end).count();
        let expected = LINES[..whole].concat() + "refused 6\n";
        assert_eq!(listing(&bytes[..cut]), expected, "cut after {cut}");
    }
    let mut more = bytes;
    more.push(0);
    assert_eq!(listing(&more), LINES.concat() + "refused 3\n");
}

/// The listing of the small reel after a change, with so many lines kept.
fn refused(lines: usize, number: u8, change: impl Fn(&mut Reel)) {
    let mut reel = small();
    change(&mut reel);
    let expected = format!("{}refused {number}\n", LINES[..lines].concat());
    assert_eq!(listing(&reel.bytes()), expected, "{reel:?}");
}

#[test]
fn each_fault_has_its_number_and_its_place() {
    refused(0, 3, |reel| reel.shape.truncate(4));
    refused(0, 3, |reel| reel.shape.push(0));
    refused(0, 3, |reel| reel.shape[4] = 2);
    refused(0, 4, |reel| reel.shape[0] = 0);
    refused(0, 4, |reel| reel.shape[0] = 8193);
    refused(0, 4, |reel| reel.shape[1] = 0);
    refused(0, 4, |reel| reel.shape[1] = 4353);
    refused(0, 4, |reel| reel.shape[2] = 7);
    refused(0, 4, |reel| reel.shape[2] = 17);
    refused(0, 4, |reel| reel.shape[2] = 9);
    refused(0, 4, |reel| reel.shape[3] = 1);
    // Two faults of one unit: the lowest.
    refused(0, 3, |reel| {
        reel.shape[0] = 0;
        reel.shape[4] = 2;
    });
    refused(0, 3, |reel| reel.entries[0].parity = 2);
    refused(0, 3, |reel| reel.entries[0].present = 2);
    refused(1, 3, |reel| reel.shape.clear());
    // Too large by a byte's row; not too large without pictures.
    refused(1, 7, |reel| reel.shape = vec![2, 4097, 8, 4, 0]);
    refused(1, 6, |reel| reel.shape = vec![2, 4096, 8, 4, 0]);
    let mut none = small();
    none.shape[3] = 65_535;
    none.pictures.clear();
    let expected = "0 none 0\nwhole 0 drop 0 spanning 0 none 1\n";
    assert_eq!(listing(&none.bytes()), expected);
    // An entry is judged before the picture count is read.
    refused(0, 3, |reel| {
        reel.shape.clear();
        reel.entries[0].present = 300;
    });
    // What an absent entry counts is ignored, its parity is not.
    refused(0, 3, |reel| {
        reel.entries[0].present = 0;
        reel.entries[0].parity = 2;
    });
}

#[test]
fn nothing_but_counts_is_a_file() {
    assert_eq!(listing(&[]), "refused 6\n");
    assert_eq!(
        listing(&[0; 6]),
        "whole 0 drop 0 spanning 0 none 0\n".to_owned()
    );
    assert_eq!(listing(&[0; 7]), "refused 3\n");
}
