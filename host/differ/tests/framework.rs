//! The frame of the runs is itself able to fail: wrong code is caught and made
//! small, a write too far is caught, and a run that compares nothing fails, or one
//! that has too few stray bits.

use std::collections::BTreeMap;
use std::hint::black_box;

use desk::calls::PlaneNumbers;
use differ::case::{Case, Difference, Failure, Least, Tally, same, smaller_numbers};
use differ::given::{self, Contents, Given, Kind, LAYOUTS};
use differ::lent::{Between, Guarded, one_place, three_places};
use differ::plane::{Layout, cut, flipped, plane};
use differ::random::{Random, read_seed};
use differ::runs::Run;
use differ::stray::Strays;

/// Both sides double a number below 1000 and refuse another with 3; one of
/// them goes wrong from 300 on.
#[derive(Debug, Clone)]
struct Doubled {
    number: u64,
    wrong_from: u64,
}

impl Case for Doubled {
    fn compare(&self) -> Result<u8, Difference> {
        if self.number >= 1000 {
            return Ok(3);
        }
        let wrong = u64::from(self.number >= self.wrong_from);
        same("the double", self.number * 2 + wrong, self.number * 2)?;
        Ok(0)
    }

    fn smaller(&self) -> Vec<Self> {
        let with = |number| Self {
            number,
            ..self.clone()
        };
        smaller_numbers(self.number).into_iter().map(with).collect()
    }
}

fn doubled(wrong_from: u64, numbers: std::ops::Range<u64>, least: Least) -> Result<Tally, Failure> {
    let cases = numbers.map(|number| Doubled { number, wrong_from });
    Tally::of("doubled", least, cases)
}

const LEAST: Least = Least {
    accepted: 1,
    refused: 1,
};

#[test]
fn right_code_passes_and_is_counted() {
    let tally = doubled(u64::MAX, 990..1003, LEAST).expect("no difference");
    assert_eq!(
        (tally.compared(), tally.accepted(), tally.refused()),
        (13, 10, 3)
    );
    assert_eq!(tally.gave(3), 3);
    assert_eq!(
        tally.to_string(),
        "doubled: 13 compared, 10 accepted, 3 refused (3 with 3), none different"
    );
}

#[test]
fn wrong_code_is_caught_and_made_small() {
    let failure = doubled(300, 900..1003, LEAST).expect_err("900 is doubled wrongly");
    let Failure::Differs {
        case, difference, ..
    } = &failure
    else {
        panic!("expected a difference, found {failure}");
    };
    assert!(case.contains("number: 300,"), "{case}");
    assert_eq!(*difference, Difference::new("the double", 601, 600));
    let text = failure.to_string();
    assert!(text.contains("smallest input: Doubled"), "{text}");
    assert!(text.contains("Rattle: 601"), "{text}");
    assert!(text.contains("Rust:   600"), "{text}");
}

#[test]
fn smaller_numbers_close_in_on_a_number() {
    assert_eq!(smaller_numbers(0), []);
    assert_eq!(smaller_numbers(1), [0]);
    assert_eq!(smaller_numbers(2), [0, 1]);
    assert_eq!(smaller_numbers(100), [0, 1, 50, 75, 88, 94, 97, 99]);
    let of_most = smaller_numbers(u64::MAX);
    assert_eq!(of_most.last(), Some(&(u64::MAX - 1)));
    assert_eq!(of_most.len(), 65);
}

#[test]
fn a_run_of_refusals_alone_fails() {
    let failure = doubled(0, 1000..2000, LEAST).expect_err("nothing was accepted");
    assert!(matches!(failure, Failure::TooFew { .. }), "{failure}");
    assert!(failure.to_string().contains("expected at least 1 accepted"));
    let failure = doubled(u64::MAX, 0..9, LEAST).expect_err("nothing was refused");
    assert!(matches!(failure, Failure::TooFew { .. }), "{failure}");
    let failure = doubled(u64::MAX, 0..0, LEAST).expect_err("nothing was compared");
    assert!(matches!(failure, Failure::TooFew { .. }), "{failure}");
}

/// The oracle panics on what it cannot take.
#[derive(Debug, Clone)]
struct Panicking(u64);

impl Case for Panicking {
    fn compare(&self) -> Result<u8, Difference> {
        assert!(self.0 < 40, "{} is too large", self.0);
        Ok(0)
    }

    fn smaller(&self) -> Vec<Self> {
        smaller_numbers(self.0).into_iter().map(Self).collect()
    }
}

#[test]
fn a_panic_is_a_difference_with_its_input() {
    let failure = Tally::of("panicking", LEAST, [Panicking(99)]).expect_err("99 is too large");
    let text = failure.to_string();
    assert!(text.contains("smallest input: Panicking(40)"), "{text}");
    assert!(text.contains("Rust:   40 is too large"), "{text}");
}

/// Shrinking ends, whatever a case calls smaller.
#[derive(Debug, Clone)]
struct Circular;

impl Case for Circular {
    fn compare(&self) -> Result<u8, Difference> {
        same("the answer", 1, 2)?;
        Ok(0)
    }

    fn smaller(&self) -> Vec<Self> {
        vec![Self]
    }
}

#[test]
fn shrinking_ends() {
    assert!(Tally::of("circular", LEAST, [Circular]).is_err());
}

/// Copies, and writes `too_far` values past the end of what it copies.
unsafe extern "C" fn copy_too_far(out: *mut u8, from: *const u8, count: usize, too_far: usize) {
    for at in 0..count + too_far {
        unsafe { *out.add(at) = if at < count { *from.add(at) } else { 0 } };
    }
}

#[test]
fn a_write_past_the_end_is_caught() {
    let from = Random::new(2).bytes(10);
    // (lent, written past the ten, what the difference says)
    let trials = [
        (10, 0, None),
        (13, 0, None),
        (13, 1, Some("value 10 of the lent output, which was not")),
        (10, 1, Some("value 10 of the lent 10, outside of it")),
    ];
    for (lent, too_far, says) in trials {
        let mut out = Guarded::<u8>::noise(1, lent);
        let pointer = black_box(out.lend().as_mut_ptr());
        // SAFETY: the guards of the buffer are longer than `too_far`.
        unsafe { copy_too_far(pointer, from.as_ptr(), from.len(), too_far) };
        let found = black_box(&out).written(&from);
        assert_eq!(found.is_err(), says.is_some(), "{found:?}");
        if let (Err(difference), Some(says)) = (found, says) {
            assert!(difference.what.contains(says), "{difference:?}");
        }
    }
}

#[test]
fn a_write_before_the_start_or_after_a_refusal_is_caught() {
    let mut out = Guarded::<u64>::noise(1, 4);
    out.lend()[0] ^= 1;
    let touched = out.written(&[]).expect_err("value 0 was written");
    assert!(touched.what.contains("value 0 of the lent output"));

    let mut out = Guarded::<u16>::holding(1, &[5, 6]);
    assert_eq!(out.written(&[]), Ok(()));
    assert_eq!(out.written(&[5]), Ok(()));
    out.lend()[1] = 7;
    assert_eq!(out.written(&[5, 7]), Ok(()));
    assert!(out.written(&[5]).is_err());
    assert!(out.written(&[5, 7, 8]).is_err());
    let before = black_box(out.lend().as_mut_ptr());
    // SAFETY: the guard before the lent part.
    unsafe { *before.sub(1) ^= 1 };
    let touched = black_box(&out).written(&[5, 7]).expect_err("a guard");
    assert!(touched.what.contains("value -1"), "{touched:?}");
}

#[test]
fn floats_are_compared_by_their_bits() {
    let out = Guarded::<f32>::holding(1, &[0.0, f32::NAN]);
    assert_eq!(out.written(&[0.0, f32::NAN]), Ok(()));
    assert!(out.written(&[-0.0, f32::NAN]).is_err());
}

/// Answers with `number` after it wrote `written` `offset` places off its own.
fn writing(number: u8, written: f32, offset: isize) -> impl Fn(&mut f32) -> u8 {
    move |place| {
        let place = black_box(std::ptr::from_mut(place));
        // SAFETY: none by the rules of references, which is the point; the
        // places beside the lent one are there, and are looked at afterwards.
        unsafe { *place.offset(offset) = written };
        number
    }
}

#[test]
fn one_lent_place_is_compared_with_those_beside_it() {
    assert_eq!(one_place(writing(0, 0.5, 0), Ok(0.5)), Ok(0));
    assert_eq!(one_place(|_: &mut f32| 4, Err(4)), Ok(4));
    let pattern = f32::from_bits(0x5555_5555);
    let trials = [
        (writing(0, 0.5, 0), Ok(0.25), "the answer"),
        (writing(0, -0.0, 0), Ok(0.0), "the answer"),
        (writing(3, 0.5, 0), Ok(0.5), "the number"),
        (writing(0, 0.5, 0), Err(3), "the number"),
        (writing(4, 0.5, 0), Err(4), "the lent place, which was not"),
        // What is written is what one of the patterns has there already.
        (
            writing(4, pattern, 0),
            Err(4),
            "the lent place, which was not",
        ),
        (writing(4, 0.5, -1), Err(4), "the place before"),
        (writing(4, 0.5, 1), Err(4), "the place after"),
    ];
    for (call, wanted, says) in trials {
        let difference = one_place(call, wanted).expect_err(says);
        assert!(difference.what.contains(says), "{difference:?}");
    }
}

/// Answers with `number` after it wrote each of the three, in the order of
/// `places`.
fn writing_three(number: u8, places: [usize; 3]) -> impl Fn(&mut i32, &mut i32, &mut i32) -> u8 {
    move |first, second, third| {
        let lent = [first, second, third];
        for (at, place) in places.into_iter().enumerate() {
            *lent[place] = at as i32 - 1;
        }
        number
    }
}

#[test]
fn three_lent_places_are_told_apart() {
    let answers = Ok([-1, 0, 1]);
    assert_eq!(three_places(writing_three(0, [0, 1, 2]), answers), Ok(0));
    assert_eq!(three_places(|_, _, _: &mut i32| 8, Err(8)), Ok(8));
    let trials = [
        (writing_three(0, [1, 0, 2]), answers, "the answer 0"),
        (writing_three(0, [0, 2, 1]), answers, "the answer 1"),
        (writing_three(0, [0, 1, 1]), answers, "the answer 1"),
        (writing_three(8, [0, 1, 2]), answers, "the number"),
        (
            writing_three(8, [0, 0, 0]),
            Err(8),
            "the lent place 0, which",
        ),
        (
            writing_three(8, [2, 2, 2]),
            Err(8),
            "the lent place 2, which",
        ),
    ];
    for (call, wanted, says) in trials {
        let difference = three_places(call, wanted).expect_err(says);
        assert!(difference.what.contains(says), "{difference:?}");
    }
}

#[test]
fn what_is_lent_for_reading_stands_between_noise() {
    for length in [0, 1, 15, 16, 1000] {
        let bytes = Random::new(5).bytes(length);
        assert_eq!(Between::noise(&bytes).lent(), bytes);
    }
}

/// Goes wrong at a depth above 8, in a layout that is not planar, with a byte
/// above 99 anywhere but among the first four.
#[derive(Debug, Clone)]
struct Misread(Given);

impl Case for Misread {
    fn compare(&self) -> Result<u8, Difference> {
        let (plane, shape) = (self.0.plane(), self.0.shape);
        assert_eq!(self.0.lent(), plane.data);
        let high = plane.data.iter().skip(4).any(|byte| *byte > 99);
        let wrong = high && shape.depth > 8 && shape.layout > 0;
        same("the reading", wrong, false)?;
        Ok(0)
    }

    fn smaller(&self) -> Vec<Self> {
        self.0.smaller().into_iter().map(Self).collect()
    }
}

#[test]
fn a_misread_plane_is_made_small() {
    let mut random = Random::new(6);
    let mut found = 0;
    for _ in 0..15 {
        let case = Misread(given::random(&mut random, 10, 4, LAYOUTS));
        let Err(difference) = case.compare() else {
            continue;
        };
        found += 1;
        let (Misread(least), _) = differ::case::smallest(case, difference);
        let text = format!("{least:?}");
        let shape = least.shape;
        let numbers = (shape.width, shape.height, shape.depth, shape.layout);
        assert_eq!(numbers, (0, 0, 9, 1), "{text}");
        // Noise may be low at first; then a few more bytes stay.
        assert!((5..20).contains(&least.length), "{text}");
        let mut bytes = vec![0; least.length];
        bytes[least.length - 1] = 100;
        assert_eq!(least.contents, Contents::Listed(bytes), "{text}");
    }
    assert!(found > 2, "only {found} were misread");
}

#[test]
fn contents_have_the_length_asked_for() {
    let all = |contents: Contents| contents.bytes(7, 3, 10);
    assert_eq!(all(Contents::Stripes), [0, 0, 0, 255, 255, 255, 0]);
    assert_eq!(all(Contents::Listed(vec![9])), [9, 0, 0, 0, 0, 0, 0]);
    assert_eq!(all(Contents::Noise(1)).len(), 7);
    assert!(
        all(Contents::Ends(1))
            .iter()
            .all(|byte| [0, 255].contains(byte))
    );
    let within = Contents::Within(1).bytes(3000, 3, 10);
    assert!(within.chunks(3).all(|row| row[1] < 4));
    assert!(within.iter().any(|byte| *byte > 3));
    // At 16 bits every code is within the depth, and at 8 every byte.
    let noise = Contents::Noise(1).bytes(50, 3, 16);
    assert_eq!(Contents::Within(1).bytes(50, 3, 16), noise);
    assert_eq!(Contents::Within(1).bytes(50, 3, 8), noise);
}

const KINDS: [Kind; 6] = [
    Kind::Flat,
    Kind::Ramp,
    Kind::Slant,
    Kind::Few,
    Kind::Calm,
    Kind::Bars,
];

#[test]
fn pictures_keep_to_their_depth_and_stand_where_they_are_read() {
    for kind in KINDS {
        let mut different = 0;
        for seed in 0..20 {
            let of = |up| Contents::Picture {
                kind,
                seed,
                up,
                stray: false,
            };
            // Three samples of two bytes in each row, and one byte of padding.
            let low = of(0).bytes(70, 7, 10);
            let high = of(6).bytes(70, 7, 10);
            let codes = |bytes: &[u8]| -> Vec<u16> {
                let rows = bytes.chunks(7).map(|row| &row[..6]);
                let samples = rows.flat_map(|row| row.chunks(2));
                samples
                    .map(|sample| u16::from_le_bytes([sample[0], sample[1]]))
                    .collect()
            };
            let (low, high) = (codes(&low), codes(&high));
            assert!(low.iter().all(|code| *code < 1024), "{kind:?} {seed}");
            assert!(high.iter().zip(&low).all(|(high, low)| high >> 6 == *low));
            different += u32::from(low.iter().any(|code| *code != low[0]));
            assert_eq!(of(0).bytes(9, 4, 8).len(), 9);
        }
        assert_eq!(different > 10, kind != Kind::Flat, "{kind:?}: {different}");
    }
}

// ---- Stray bits

fn words(bytes: &[u8]) -> Vec<u16> {
    let words = bytes.chunks_exact(2);
    words.map(|w| u16::from_le_bytes([w[0], w[1]])).collect()
}

/// Two hundred samples in a row, and three rows; the stride has no padding.
fn shape(depth: u32, layout: u32) -> PlaneNumbers {
    let components = if layout > 1 { 2 } else { 1 };
    PlaneNumbers {
        width: 200,
        height: 3,
        depth,
        stride: 400 * components,
        layout,
    }
}

fn given(depth: u32, layout: u32, contents: Contents) -> Given {
    let shape = shape(depth, layout);
    Given::new(shape, (shape.height * shape.stride) as usize, contents)
}

/// Words just at and just around the largest code are among them, the largest
/// word too, and more than half have stray bits; without any, none has.
#[test]
fn codes_have_stray_bits_where_they_are_asked_for() {
    for depth in 9..16 {
        let full = u16::MAX >> (16 - depth);
        let of = |layout, stray| {
            let up = if layout > 0 { 16 - depth } else { 0 };
            let seed = 7;
            given(depth, layout, Contents::Codes { seed, up, stray })
        };
        let found = words(of(0, true).lent());
        for around in [full - 1, full, full + 1, full + 2, u16::MAX] {
            assert!(found.contains(&around), "{depth} bits: no {around}");
        }
        for layout in 0..4 {
            let Strays {
                samples,
                stray,
                cut,
            } = of(layout, true).strays();
            assert_eq!(samples, 600);
            assert!((300..500).contains(&stray), "{depth} bits: {stray}");
            assert_eq!(cut, if layout == 0 { stray } else { 0 });
            let clean = of(layout, false);
            assert_eq!((clean.strays().stray, clean.strays().samples), (0, 600));
            assert_eq!(clean.fed(), clean.plane());
        }
    }
}

/// As the Rust is fed a picture it is one of the depth, and the words that were cut
/// are those past it. A biplanar one has noise below its codes.
#[test]
fn pictures_go_on_past_the_depth() {
    for kind in KINDS {
        let (mut stray, mut clean) = (0, 0);
        for seed in 0..40 {
            let of = |layout, up, stray| {
                let contents = Contents::Picture {
                    kind,
                    seed,
                    up,
                    stray,
                };
                given(12, layout, contents)
            };
            let planar = of(0, 0, true);
            let fed = words(&planar.fed().data);
            let pairs = words(planar.lent()).into_iter().zip(&fed);
            assert!(pairs.into_iter().all(|(word, fed)| *fed == word.min(4095)));
            stray += planar.strays().stray;
            clean += planar.strays().samples - planar.strays().stray;

            let high = words(of(1, 4, true).lent());
            let low = words(of(0, 0, false).lent());
            assert!(high.iter().zip(&low).all(|(high, low)| high >> 4 == *low));
            assert!(high.iter().any(|word| word & 15 != 0));
        }
        assert!(stray > 5000 && clean > 5000, "{kind:?}: {stray}, {clean}");
    }
}

/// The desk is lent every bit, and the Rust is fed what is not above the largest
/// code, byte for byte; of biplanar planes and of 8 and 16 bits all.
#[test]
fn the_rust_is_fed_what_is_cut_and_nothing_else_changes() {
    let mut random = Random::new(8);
    let (mut cut, mut same) = (0, 0);
    for _ in 0..600 {
        let given = given::random(&mut random, 12, 6, LAYOUTS);
        let PlaneNumbers {
            width,
            height,
            depth,
            stride,
            layout,
        } = given.shape;
        let readable = given.strays().samples > 0;
        let (lent, fed) = (given.lent(), &given.fed().data[..]);
        assert_eq!(lent, given.plane().data);
        assert_eq!(lent.len(), fed.len());
        if !readable {
            // No side is asked to read it.
            continue;
        }
        if layout > 0 || depth == 8 || depth == 16 {
            assert!(lent == fed, "{given:?}");
            same += 1;
            continue;
        }
        let full = (1u16 << depth) - 1;
        let mut expected = lent.to_vec();
        for y in 0..height {
            for x in 0..width {
                let at = (y * stride + 2 * x) as usize;
                let word = u16::from_le_bytes([lent[at], lent[at + 1]]);
                if word > full {
                    expected[at..at + 2].copy_from_slice(&full.to_le_bytes());
                }
            }
        }
        assert!(fed == expected, "{given:?}");
        let size = (given.fed().width, given.fed().height, given.fed().stride);
        assert_eq!(size, (width as usize, height as usize, stride as usize));
        cut += u32::from(fed != lent);
        same += u32::from(fed == lent);
    }
    assert!(cut > 60 && same > 100, "{cut} cut, {same} the same");
}

/// What is read is as many samples with stray bits, and as many that are cut.
#[derive(Debug, Clone)]
struct Read(u64, u64, u8);

impl Case for Read {
    fn compare(&self) -> Result<u8, Difference> {
        Ok(self.2)
    }

    fn smaller(&self) -> Vec<Self> {
        Vec::new()
    }

    fn strays(&self) -> Strays {
        Strays {
            samples: 100,
            stray: self.0,
            cut: self.1,
        }
    }
}

const NOTHING: Least = Least {
    accepted: 0,
    refused: 0,
};

#[test]
fn a_run_with_too_few_stray_bits_fails() {
    let run = |cases: &[Read]| Tally::of("read", NOTHING, cases.to_vec()).expect("none differs");
    // What is refused is not read.
    let tally = run(&[Read(40, 10, 0), Read(27, 10, 0), Read(0, 0, 6)]);
    let tally = tally.with_strays().expect("a third");
    let Strays { samples, .. } = tally.strays();
    assert_eq!(samples, 200);
    let text = "read: 3 compared, 2 accepted, 1 refused (1 with 6), 33 % of the samples with stray \
                bits, 10 % cut, none different";
    assert_eq!(tally.to_string(), text);
    for wrong in [
        Read(33, 20, 0),
        Read(50, 9, 0),
        Read(76, 20, 0),
        Read(50, 20, 4),
    ] {
        let failure = run(std::slice::from_ref(&wrong)).with_strays();
        let failure = failure.expect_err("too few of a kind");
        assert!(matches!(failure, Failure::TooFewStrays { .. }), "{wrong:?}");
        let text = failure.to_string();
        assert!(text.contains("expected at least a third with"), "{text}");
    }
}

/// The runs are held to it where their calls read codes.
#[test]
fn a_run_that_reads_is_held_to_its_stray_bits() {
    let run = |reads, run| Run {
        name: "read",
        calls: &[],
        about: "",
        reads,
        run,
        answers: |_, _| Vec::new(),
    };
    let clean = |_: &mut Random| Tally::of("read", NOTHING, [Read(0, 0, 0)]);
    let stray = |_: &mut Random| Tally::of("read", NOTHING, [Read(50, 50, 0)]);
    let tally = |run: Run| run.tally(&mut Random::new(1));
    let failure = tally(run(true, clean)).expect_err("no stray bits");
    assert!(matches!(failure, Failure::TooFewStrays { .. }), "{failure}");
    tally(run(true, stray)).expect("half of them have stray bits");
    tally(run(false, clean)).expect("nothing is read");
}

/// A stretch of inputs counts as many, and a wrong one in it is found.
#[derive(Debug, Clone)]
struct Stretch(u64, u64);

impl Case for Stretch {
    fn compare(&self) -> Result<u8, Difference> {
        same("whether 77 is in it", (self.0..self.1).contains(&77), false)?;
        Ok(0)
    }

    fn smaller(&self) -> Vec<Self> {
        let middle = (self.0 + self.1) / 2;
        let halves = [Self(self.0, middle), Self(middle, self.1)];
        let smaller = |half: &Self| half.inputs() < self.inputs();
        halves.into_iter().filter(smaller).collect()
    }

    fn inputs(&self) -> u64 {
        self.1 - self.0
    }
}

#[test]
fn a_stretch_counts_each_of_its_inputs() {
    let least = Least {
        accepted: 70,
        refused: 0,
    };
    let cases = [Stretch(0, 40), Stretch(40, 70)];
    let tally = Tally::of("stretch", least, cases).expect("no difference");
    assert_eq!(tally.compared(), 70);
    let failure = Tally::of("stretch", least, [Stretch(0, 200)]).expect_err("77");
    assert!(failure.to_string().contains("Stretch(77, 78)"), "{failure}");
}

/// Three inputs at once, of which the last is refused.
#[derive(Debug, Clone)]
struct Mixed;

impl Case for Mixed {
    fn compare(&self) -> Result<u8, Difference> {
        Ok(0)
    }

    fn smaller(&self) -> Vec<Self> {
        Vec::new()
    }

    fn count(&self, number: u8, numbers: &mut BTreeMap<u8, u64>) {
        *numbers.entry(number).or_default() += 2;
        *numbers.entry(3).or_default() += 1;
    }
}

#[test]
fn inputs_with_numbers_of_their_own_are_counted_apart() {
    let least = Least {
        accepted: 4,
        refused: 2,
    };
    let tally = Tally::of("mixed", least, [Mixed, Mixed]).expect("no difference");
    assert_eq!((tally.accepted(), tally.gave(3)), (4, 2));
    let least = Least {
        refused: 3,
        ..least
    };
    Tally::of("mixed", least, [Mixed, Mixed]).expect_err("too few are refused");
}

#[test]
fn planes_have_the_bytes_they_need() {
    let mut random = Random::new(3);
    let (mut odd, mut padded) = (0, 0);
    for round in 0..400 {
        let layout = Layout::random(&mut random, 40, 12, 1 + round % 2);
        let bytes = plane(&mut random, &layout);
        assert_eq!(bytes.len(), layout.needed());
        assert!(layout.stride >= layout.row());
        odd += layout.stride % 2;
        padded += usize::from(layout.stride > layout.row());
        for smaller in layout.smaller() {
            assert!(smaller.needed() < layout.needed() || smaller.stride < layout.stride);
            assert!(smaller.stride >= smaller.row());
        }

        let other = flipped(&mut random, &bytes).expect("a plane is not empty");
        let changed = bytes.iter().zip(&other).filter(|(a, b)| a != b).count();
        assert_eq!((other.len(), changed), (bytes.len(), 1));
        let short = cut(&bytes).expect("a plane is not empty");
        assert_eq!(short, bytes[..bytes.len() - 1]);
    }
    assert!(odd > 50 && padded > 50, "{odd} odd, {padded} padded");
    assert_eq!((flipped(&mut random, &[]), cut(&[])), (None, None));
}

#[test]
fn the_generator_is_splitmix64_and_keeps_its_bounds() {
    // The first numbers of the published algorithm from seed 0.
    let mut random = Random::new(0);
    assert_eq!(random.next(), 0xE220_A839_7B1D_CDAF);
    assert_eq!(random.next(), 0x6E78_9E6A_A1B9_65F4);
    for _ in 0..2000 {
        assert!(random.below(3) < 3);
        assert!((5..=9).contains(&random.between(5, 9)));
        let near = random.near(&[0, 4352, u64::MAX]);
        assert!(near <= 2 || (4350..=4354).contains(&near) || near >= u64::MAX - 2);
        let float = random.near_float(&[0.4375]);
        assert!((float - 0.4375).abs() < 1e-6);
    }
    let one = Random::for_run(7, "comb").next();
    assert_eq!(one, Random::for_run(7, "comb").next());
    assert_ne!(one, Random::for_run(7, "weave").next());
    assert_ne!(one, Random::for_run(8, "comb").next());
}

#[test]
fn a_wrong_seed_is_refused_with_a_reason() {
    assert_eq!(read_seed("17"), Ok(17));
    assert_eq!(read_seed("0xFFFFFFFFFFFFFFFF"), Ok(u64::MAX));
    for wrong in ["", "seven", "-1", "0x", "18446744073709551616"] {
        let complaint = read_seed(wrong).expect_err(wrong);
        assert!(
            complaint.contains("expected a number from 0"),
            "{complaint}"
        );
    }
}
