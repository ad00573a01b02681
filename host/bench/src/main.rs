//! Times each exported call beside the original: the same inputs, both sides
//! in this one process, the best of several rounds. No part of the gate.
//!
//!     bench                   every call
//!     bench sample            these calls
//!     bench --grow            every call at four sizes
//!     bench --grow sample     these calls at four sizes
//!     bench --shop            what a shop does to a frame, at two sizes of tape
//!     bench --stack           how deep every call goes into the stack, at two sizes
//!     bench --stack sample    these calls
//!
//! A new call is one more [`Contest`] in `contests`, four in `growth`, and inputs in
//! `stack`.

use std::env;
use std::fmt;
use std::time::{Duration, Instant};

use desk::calls::{CALLS, PlaneNumbers};
use differ::random::Random;
use oracle::mediadecoder::video::Plane;

mod films;
mod pictures;
mod planes;
#[cfg(target_arch = "x86_64")]
mod stack;
mod values;
mod weaves;

// The original once more, in this crate: only here can the compiler inline it
// into a loop that is timed. The crate `oracle` is the same text.
#[allow(dead_code)]
#[path = "../../oracle/src/decode.rs"]
mod decode;
#[allow(dead_code)]
#[path = "../../oracle/src/video.rs"]
mod video;

/// How long a contest goes on.
struct Patience {
    /// Rounds of each side, in turn, so that a busy machine hinders both.
    rounds: usize,
    /// After so long there is no further round, but at least `fewest`; after so
    /// much longer, not even those.
    enough: Duration,
    fewest: usize,
    too_long: Duration,
}

const TABLE: Patience = Patience {
    rounds: 40,
    enough: Duration::from_secs(4),
    fewest: 5,
    too_long: Duration::from_secs(12),
};

const GROWTH: Patience = Patience {
    rounds: 20,
    enough: Duration::from_secs(1),
    fewest: 3,
    too_long: Duration::from_secs(3),
};

/// Does the work of a contest once, and says how long it took.
type Side = Box<dyn FnMut() -> Duration>;

fn side(mut work: impl FnMut() + 'static) -> Side {
    Box::new(move || timed(&mut work))
}

/// The same call so many times.
fn again(calls: u64, mut call: impl FnMut() + 'static) -> Side {
    side(move || (0..calls).for_each(|_| call()))
}

fn timed(work: impl FnOnce()) -> Duration {
    let start = clock();
    work();
    clock() - start
}

/// The processor time of this thread. What other programs do meanwhile does not
/// count, which would otherwise be more the longer a round takes, and look like
/// growth.
fn clock() -> Duration {
    #[repr(C)]
    struct Time {
        seconds: u64,
        nanoseconds: u64,
    }
    unsafe extern "C" {
        fn clock_gettime(clock: i32, time: *mut Time) -> i32;
    }
    /// CLOCK_THREAD_CPUTIME_ID of Linux, for which host/ is built.
    const OF_THIS_THREAD: i32 = 3;

    let mut time = Time {
        seconds: 0,
        nanoseconds: 0,
    };
    // SAFETY: the call writes one such record, two numbers of 64 bits, and the
    // reference is ours alone.
    let number = unsafe { clock_gettime(OF_THIS_THREAD, &mut time) };
    assert_eq!(number, 0, "Linux has this clock");
    Duration::from_secs(time.seconds) + Duration::from_nanos(time.nanoseconds)
}

struct Sides {
    rattle: Side,
    /// None where the original does nothing like it.
    rust: Option<Side>,
    /// The Rust where the compiler may inline it, for calls on one value.
    inlined: Option<Side>,
}

struct Contest {
    call: &'static str,
    input: String,
    /// What the original does in its place, where it has no such call.
    beside: &'static str,
    /// What the work of a side is counted in, and how much that is.
    unit: &'static str,
    units: u64,
    /// How many frames a round has, where it is of frames.
    frames: u32,
    /// Made when its turn comes, so that one contest's memory is not another's
    /// burden.
    sides: Box<dyn FnOnce() -> Sides>,
}

impl Contest {
    fn new(
        call: &'static str,
        input: String,
        (units, unit): (u64, &'static str),
        sides: impl FnOnce() -> Sides + 'static,
    ) -> Self {
        Self {
            call,
            input,
            beside: "",
            unit,
            units,
            frames: 1,
            sides: Box::new(sides),
        }
    }

    fn beside(self, beside: &'static str) -> Self {
        Self { beside, ..self }
    }

    fn of_frames(self, frames: u32) -> Self {
        Self { frames, ..self }
    }

    /// The size alone, where sizes are all that differs.
    fn at_size(self, size: impl fmt::Display) -> Self {
        let input = size.to_string();
        Self { input, ..self }
    }

    fn best(self, patience: &Patience) -> Best {
        let Sides {
            mut rattle,
            mut rust,
            mut inlined,
        } = (self.sides)();
        let mut best = Best {
            rattle: Duration::MAX,
            rust: rust.as_ref().map(|_| Duration::MAX),
            inlined: inlined.as_ref().map(|_| Duration::MAX),
        };
        let round = |side: &mut Option<Side>, best: &mut Option<Duration>| {
            if let (Some(side), Some(best)) = (side, best) {
                *best = side().min(*best);
            }
        };
        let start = Instant::now();
        for at in 0..patience.rounds {
            let long = start.elapsed();
            let enough = at >= patience.fewest && long > patience.enough;
            if enough || at >= 1 && long > patience.too_long {
                break;
            }
            best.rattle = rattle().min(best.rattle);
            round(&mut rust, &mut best.rust);
            round(&mut inlined, &mut best.inlined);
        }
        best
    }
}

/// The best round of each side.
struct Best {
    rattle: Duration,
    rust: Option<Duration>,
    inlined: Option<Duration>,
}

impl Best {
    fn ratio(&self, other: Option<Duration>) -> String {
        let ratio = |other: Duration| self.rattle.as_secs_f64() / other.as_secs_f64();
        other.map_or("-".into(), |other| format!("{:.3}", ratio(other)))
    }
}

fn shown(time: Option<Duration>) -> String {
    time.map_or("-".into(), |time| format!("{time:.1?}"))
}

/// Nanoseconds a unit.
fn each(time: Option<Duration>, units: u64) -> String {
    let each = |time: Duration| time.as_secs_f64() * 1e9 / units as f64;
    time.map_or("-".into(), |time| format!("{:.2}", each(time)))
}

/// The size of a picture, or of the one plane that is looked at.
#[derive(Debug, Clone, Copy)]
struct Size {
    width: u32,
    height: u32,
}

impl Size {
    const fn new(width: u32, height: u32) -> Self {
        Self { width, height }
    }

    fn pixels(self) -> u64 {
        u64::from(self.width) * u64::from(self.height)
    }
}

impl fmt::Display for Size {
    fn fmt(&self, f: &mut fmt::Formatter<'_>) -> fmt::Result {
        write!(f, "{}x{}", self.width, self.height)
    }
}

const FULL: Size = Size::new(1920, 1080);
const STANDARD: Size = Size::new(720, 486);

/// How the samples of a plane lie: 8 bits, the luma of a biplanar frame of 10
/// bits; and planar, 10 bits, of which a code is cut where it is past the largest,
/// and 16 bits, of which none is.
const PLAIN: (u32, u32) = (8, 0);
const SHIFTED: (u32, u32) = (10, 1);
const CUT: (u32, u32) = (10, 0);
const DEEPEST: (u32, u32) = (16, 0);

fn contests() -> Vec<Contest> {
    let at = Size::new(320, 240);
    let sample = Size::new(160, 120);
    let (bob, yadif, bwdif) = (1, 2, 3);
    let mut all = vec![values::first_field(60_000)];
    // How many bends fit a column of `comb` depends on the depth.
    all.extend([8, 10, 12, 13, 14, 15, 16].map(|depth| planes::comb(FULL, depth)));
    all.extend([planes::comb(STANDARD, 10), planes::comb_rgba(FULL)]);
    let each = [PLAIN, SHIFTED, CUT, DEEPEST];
    all.extend(each.map(|samples| values::code(at, at.pixels(), samples)));
    all.extend(each.map(|samples| values::at(at, at.pixels(), samples)));
    all.extend(each.map(|samples| values::edge(sample, sample.pixels(), samples)));
    all.extend(each.map(|samples| values::sample(sample, sample.pixels(), samples)));
    all.extend([
        planes::whole(FULL, bob, (8, 0)),
        planes::whole(FULL, bob, (8, 1)),
        planes::whole(FULL, bob, (10, 0)),
        planes::whole(FULL, bob, (10, 1)),
        planes::whole(FULL, bob, DEEPEST),
        planes::whole(FULL, yadif, PLAIN),
        planes::whole(FULL, yadif, SHIFTED),
        planes::whole(FULL, yadif, CUT),
        planes::whole(FULL, yadif, DEEPEST),
        planes::whole(FULL, bwdif, PLAIN),
        planes::whole(FULL, bwdif, SHIFTED),
        planes::whole(FULL, bwdif, CUT),
        planes::whole(FULL, bwdif, DEEPEST),
        values::to_rgb(100_000),
        values::quantise(1_000_000),
        values::luma(100_000),
    ]);
    for quality in 0..4 {
        all.push(pictures::picture(FULL, quality, 8, false));
        all.push(pictures::picture(FULL, quality, 10, true));
        all.push(pictures::picture(FULL, quality, 10, false));
        all.push(pictures::picture(FULL, quality, 16, false));
    }
    all.extend([
        films::busy(FULL, 8),
        films::busy(FULL, 10),
        films::busy(FULL, 16),
        films::push(FULL, 8),
        films::push(FULL, 10),
        films::push(FULL, 16),
        films::fresh(100_000),
        films::reset(100_000),
        films::locked(1_000, 100_000),
        films::predict(1_000, 100_000),
        films::push_measured(100_000),
        films::cadences(1_000_000, false),
        films::cadences(1_000_000, true),
        weaves::weave(FULL, 8),
        weaves::weave(FULL, 10),
        weaves::line_number(FULL, 100_000),
        weaves::woven_line(FULL, 8),
        weaves::woven_line(FULL, 10),
        values::woven(100_000),
        weaves::readback_sizes(FULL, 100_000),
        weaves::readback_copy(FULL, 8, 3),
        weaves::readback_copy(FULL, 8, 2),
        weaves::readback_copy(FULL, 10, 3),
        weaves::readback_copy(FULL, 10, 2),
        weaves::weaver_new(100_000),
        weaves::weaver_clear(100_000),
        weaves::weaver_push(FULL, 8, false),
        weaves::weaver_push(FULL, 8, true),
        weaves::weaver_push(FULL, 10, false),
        weaves::weaver_push(FULL, 10, true),
    ]);
    all
}

const SIZES: [Size; 4] = [
    Size::new(160, 120),
    Size::new(320, 240),
    Size::new(640, 480),
    Size::new(1280, 720),
];

/// Each call at four sizes: of the picture or the plane; for calls that have
/// none, of the history, of a number that is asked for, or of the number of
/// calls.
fn growth() -> Vec<Contest> {
    let mut all = Vec::new();
    let mut sizes = |of: &dyn Fn(Size) -> Contest| {
        all.extend(SIZES.map(|size| of(size).at_size(size)));
    };
    // As many reads as the smallest plane has samples, of each plane.
    let reads = SIZES[0].pixels();
    sizes(&|size| planes::comb(size, 8));
    sizes(&|size| planes::comb_rgba(size));
    sizes(&|size| values::code(size, reads, PLAIN));
    sizes(&|size| values::at(size, reads, PLAIN));
    sizes(&|size| values::edge(size, reads, PLAIN));
    sizes(&|size| values::sample(size, reads, PLAIN));
    sizes(&|size| planes::whole(size, 2, PLAIN));
    sizes(&|size| pictures::picture(size, 2, 8, false));
    sizes(&|size| films::busy(size, 8));
    sizes(&|size| films::push(size, 8));
    sizes(&|size| weaves::weave(size, 8));
    sizes(&|size| weaves::line_number(size, 10_000));
    sizes(&|size| weaves::woven_line(size, 8));
    sizes(&|size| weaves::readback_sizes(size, 10_000));
    sizes(&|size| weaves::readback_copy(size, 8, 2));
    sizes(&|size| weaves::weaver_push(size, 8, false));

    let mut counts = |counts: [u64; 4], what: &str, of: &dyn Fn(u64) -> Contest| {
        all.extend(counts.map(|count| of(count).at_size(format!("{count} {what}"))));
    };
    let calls = [1_000, 4_000, 16_000, 64_000];
    counts(calls, "calls", &values::first_field);
    counts(calls, "calls", &values::to_rgb);
    counts(calls, "calls", &values::quantise);
    counts(calls, "calls", &values::luma);
    counts(calls, "calls", &values::woven);
    counts(calls, "calls", &films::fresh);
    counts(calls, "calls", &films::reset);
    counts([10, 100, 1_000, 10_000], "frames before", &|frames| {
        films::locked(frames, 10_000)
    });
    counts([10, 1_000, 100_000, 1_000_000], "ahead", &|ahead| {
        films::predict(ahead, 10_000)
    });
    counts(calls, "frames", &films::push_measured);
    let entries = [1_000, 10_000, 100_000, 1_000_000];
    counts(entries, "entries", &|entries| {
        films::cadences(entries, false)
    });
    counts(calls, "calls", &weaves::weaver_new);
    counts(calls, "calls", &weaves::weaver_clear);
    all
}

/// What a shop does to a frame of 8 bits, at two sizes of tape.
fn shop() -> Vec<Contest> {
    let of = |size| {
        [
            weaves::weave(size, 8),
            weaves::readback_copy(size, 8, 2),
            planes::comb(size, 8),
            films::busy(size, 8),
            films::push(size, 8).at_size(format!("{size}, 8 bits")),
            planes::whole(size, 1, PLAIN),
            planes::whole(size, 2, PLAIN),
            planes::whole(size, 3, PLAIN),
            pictures::picture(size, 0, 8, false),
            pictures::picture(size, 2, 8, false),
            pictures::picture(size, 3, 8, false),
        ]
    };
    [STANDARD, FULL].into_iter().flat_map(of).collect()
}

/// A plane of noise without padding, and its shape by numbers. It has no stray
/// bits, so that a code is the same for both sides.
fn plane_of(seed: u64, size: Size, (depth, layout): (u32, u32)) -> (Plane, PlaneNumbers) {
    let Size { width, height } = size;
    let stride = if depth > 8 { 2 * width } else { width };
    let mut bytes = Random::new(seed).bytes((stride * height) as usize);
    if let 9..16 = depth {
        let up = if layout > 0 { 16 - depth } else { 0 };
        for word in bytes.chunks_exact_mut(2) {
            let noise = u16::from_le_bytes([word[0], word[1]]);
            let code = noise >> (16 - depth);
            word.copy_from_slice(&(code << up).to_le_bytes());
        }
    }
    let plane = Plane {
        data: bytes,
        stride: stride as usize,
        width: width as usize,
        height: height as usize,
    };
    let shape = PlaneNumbers {
        width,
        height,
        depth,
        stride,
        layout,
    };
    (plane, shape)
}

fn named((depth, layout): (u32, u32)) -> String {
    let luma = if layout == 1 { ", luma" } else { "" };
    format!("{depth} bits{luma}")
}

/// What a call of the desk gives for an input that it must take.
fn taken(number: u8) {
    assert_eq!(number, 0, "an input of the benchmark is refused");
}

fn print_table(contests: Vec<Contest>) {
    println!(
        "{:<22} {:<32} {:>9} {:>9} {:>7} {:>9} {:>7}",
        "call", "input", "Rattle", "Rust", "ratio", "inlined", "ratio"
    );
    for contest in contests {
        let (call, beside) = (contest.call, contest.beside);
        let input = contest.input.clone();
        let best = contest.best(&TABLE);
        let line = format!(
            "{call:<22} {input:<32} {:>9} {:>9} {:>7} {:>9} {:>7}  {beside}",
            shown(Some(best.rattle)),
            shown(best.rust),
            best.ratio(best.rust),
            shown(best.inlined),
            best.ratio(best.inlined),
        );
        println!("{}", line.trim_end());
    }
}

/// Of a frame, also where a round has more.
fn print_shop(contests: Vec<Contest>) {
    println!(
        "{:<13} {:<27} {:>9} {:>9} {:>7}",
        "call", "a frame of", "Rattle", "Rust", "ratio"
    );
    for contest in contests {
        let (call, frames) = (contest.call, contest.frames);
        let input = contest.input.clone();
        let best = contest.best(&TABLE);
        println!(
            "{call:<13} {input:<27} {:>9} {:>9} {:>7}",
            shown(Some(best.rattle / frames)),
            shown(best.rust.map(|rust| rust / frames)),
            best.ratio(best.rust),
        );
    }
}

fn print_growth(contests: Vec<Contest>) {
    println!(
        "{:<22} {:<20} {:>9} {:>9} {:>7} {:>10} {:>10}",
        "call", "size", "Rattle", "Rust", "ratio", "Rattle, ns", "Rust, ns"
    );
    for contest in contests {
        let (call, unit, units) = (contest.call, contest.unit, contest.units);
        let input = contest.input.clone();
        let best = contest.best(&GROWTH);
        println!(
            "{call:<22} {input:<20} {:>9} {:>9} {:>7} {:>10} {:>10}  per {unit}",
            shown(Some(best.rattle)),
            shown(best.rust),
            best.ratio(best.rust),
            each(Some(best.rattle), units),
            each(best.rust, units),
        );
    }
}

fn main() {
    if cfg!(debug_assertions) {
        println!("A debug build: its numbers mean nothing. Expected --release.");
    }
    let (flags, calls): (Vec<String>, Vec<String>) =
        env::args().skip(1).partition(|word| word.starts_with('-'));
    if flags == ["--stack"] {
        refuse_others(&calls, &CALLS.map(|call| call.name));
        return print_stack(&calls);
    }
    if emulated() {
        println!(
            "Under an emulator: only the ratio counts, and even that only roughly, \
             since the emulator costs the two sides different amounts."
        );
    }
    let (mut contests, print): (_, fn(Vec<Contest>)) = match &flags[..] {
        [] => (contests(), print_table),
        [flag] if flag == "--grow" => (growth(), print_growth),
        [flag] if flag == "--shop" => (shop(), print_shop),
        _ => {
            eprintln!("bench: {flags:?}: expected no flag, --grow, --shop or --stack");
            std::process::exit(2);
        }
    };
    let known: Vec<_> = contests.iter().map(|contest| contest.call).collect();
    refuse_others(&calls, &known);
    contests.retain(|contest| calls.is_empty() || calls.iter().any(|call| call == contest.call));
    print(contests);
}

#[cfg(target_arch = "x86_64")]
fn print_stack(calls: &[String]) {
    stack::print(calls);
}

#[cfg(not(target_arch = "x86_64"))]
fn print_stack(_: &[String]) {
    eprintln!("bench: --stack measures x86-64 code; expected host/cargo run -p bench -- --stack");
    std::process::exit(2);
}

/// Ends the program where a call is named that is none of these.
fn refuse_others(named: &[String], these: &[&str]) {
    if let Some(call) = named.iter().find(|call| !these.contains(&call.as_str())) {
        eprintln!("bench: there is no call {call}");
        std::process::exit(2);
    }
}

/// Whether this program runs under an emulator. Qemu says so itself, also for
/// programs of another machine (its files below /proc are those of the machine
/// underneath, and say nothing); for any other emulator, host/cargo sets the
/// variable on Arm.
fn emulated() -> bool {
    env::var_os("HOST_EMULATED").is_some() || is_qemu()
}

#[cfg(target_arch = "x86_64")]
fn is_qemu() -> bool {
    use std::arch::x86_64::__cpuid;
    const UNDER_A_HYPERVISOR: u32 = 1 << 31;

    // Unsafe in some versions of the compiler.
    #[allow(unused_unsafe)]
    // SAFETY: every x86-64 processor has this instruction.
    let cpuid = |leaf| unsafe { __cpuid(leaf) };
    // The leaf of a hypervisor's name exists where this bit is set. Other names
    // (a virtual machine on a real processor) are no emulators.
    if cpuid(1).ecx & UNDER_A_HYPERVISOR == 0 {
        return false;
    }
    let name = cpuid(0x4000_0000);
    [name.ebx, name.ecx, name.edx].map(u32::to_le_bytes) == [*b"TCGT", *b"CGTC", *b"GTCG"]
}

#[cfg(not(target_arch = "x86_64"))]
fn is_qemu() -> bool {
    false
}

#[cfg(test)]
mod tests {
    use std::collections::BTreeMap;

    use super::{CALLS, Contest, Size, contests, growth, plane_of};
    use differ::stray::Strays;

    fn exports() -> Vec<&'static str> {
        let mut found: Vec<_> = CALLS.iter().map(|call| call.name).collect();
        found.sort();
        found
    }

    fn timed(contests: Vec<Contest>) -> BTreeMap<&'static str, usize> {
        let mut found = BTreeMap::new();
        for contest in contests {
            *found.entry(contest.call).or_default() += 1;
        }
        found
    }

    #[test]
    fn every_export_is_timed_and_at_four_sizes() {
        let exports = exports();
        let once = timed(contests());
        assert!(once.keys().eq(&exports), "{once:?}");
        let grown = timed(growth());
        assert!(grown.keys().eq(&exports), "{grown:?}");
        assert!(grown.values().all(|sizes| *sizes == 4), "{grown:?}");
    }

    #[test]
    fn calls_that_read_codes_are_timed_at_three_depths() {
        let all = contests();
        for run in differ::runs::RUNS.iter().filter(|run| run.reads) {
            // Of the detector's calls this one is given pictures.
            let call = match run.calls {
                [call] => call,
                _ => "detector_push",
            };
            for depth in [" 8 bits", " 10 bits", " 16 bits"] {
                let mut inputs = all.iter().filter(|contest| contest.call == call);
                let timed = inputs.any(|contest| contest.input.contains(depth));
                assert!(timed, "{call} at{depth}");
            }
        }
    }

    #[test]
    fn what_is_timed_has_no_stray_bits() {
        for depth in 8..=16 {
            for layout in 0..2 {
                let (plane, shape) = plane_of(1, Size::new(64, 48), (depth, layout));
                let Strays { samples, stray, .. } = Strays::of_plane(&plane.data, shape);
                assert_eq!((samples, stray), (64 * 48, 0), "{shape:?}");
            }
        }
    }
}
