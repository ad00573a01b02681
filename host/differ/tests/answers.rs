//! The lists of the programs `replay_..` are those that their maker makes, they
//! have what is asked of them, and the programs are able to find a difference.

use std::fs;
use std::path::{Path, PathBuf};

use desk::calls::CALLS;
use differ::answers::{self, Answer, Counts, Kinds};
use differ::program::Program;
use differ::runs::RUNS;

fn path(archive: &str, name: &str) -> PathBuf {
    let root = Path::new(env!("CARGO_MANIFEST_DIR")).join("../..");
    root.join(format!("crates/replay_{archive}")).join(name)
}

fn file(archive: &str) -> Vec<u8> {
    fs::read(path(archive, "stdin")).expect("the list of a program replay_..")
}

#[test]
fn every_file_is_its_list_and_what_is_to_be_printed_of_it() {
    for archive in answers::archives().into_keys() {
        let list = answers::list(archive);
        answers::check(&list, &file(archive)).expect("the list that `answers` writes");
        let stdout = fs::read_to_string(path(archive, "stdout")).expect("what is printed");
        assert_eq!(stdout, answers::printed(&list));
    }
}

#[test]
fn a_file_that_is_another_is_found() {
    let list = answers::list("desk");
    let record = list[0].bytes().len();
    let mut other = file("desk");
    other[record + 40] ^= 1;
    let fault = answers::check(&list, &other).expect_err("a byte is another");
    assert!(fault.starts_with("record 2 "), "{fault}");
    let last = format!("record {} ", list.len());
    let cut = &file("desk")[..file("desk").len() - 1];
    let fault = answers::check(&list, cut).expect_err("a byte is cut off");
    assert!(fault.starts_with(&last), "{fault}");
    let longer = [file("desk"), vec![0]].concat();
    let fault = answers::check(&list, &longer).expect_err("a byte is added");
    assert!(fault.starts_with("1 bytes follow"), "{fault}");
}

#[test]
fn every_call_is_there_with_every_number() {
    for (archive, calls) in answers::archives() {
        let counts = Counts::of(&answers::list(archive));
        for name in calls {
            // How many there are is the run's to say; of `luma` there are two in all.
            assert!(counts.gave(name, 0) >= 2, "{name}: {counts}");
            for number in answers::refusals(name) {
                assert!(counts.gave(name, number) > 0, "{name}, {number}: {counts}");
            }
            let listed: usize = answers::refusals(name).map(|n| counts.gave(name, n)).sum();
            let all = counts.of_call(name);
            assert_eq!(all, counts.gave(name, 0) + listed, "{name}: {counts}");
        }
    }
}

/// Planes with stray bits, planes of which codes are cut, and planes without any.
#[test]
fn calls_that_read_codes_get_them_with_and_without_stray_bits() {
    let mut found = 0;
    for (archive, calls) in answers::archives() {
        let counts = Counts::of(&answers::list(archive));
        for name in calls {
            let Kinds { stray, cut, clean } = counts.kinds(name);
            let reads = RUNS
                .iter()
                .any(|run| run.reads && run.calls.contains(&name));
            if !reads || stray + clean == 0 {
                assert_eq!((stray, cut, clean), (0, 0, 0), "{name}");
                continue;
            }
            found += 1;
            let all = stray + clean;
            assert_eq!(all, counts.gave(name, 0), "{name}");
            assert!(3 * stray >= all, "{name}: {stray} of {all} stray");
            assert!(8 * cut >= all, "{name}: {cut} of {all} cut");
            assert!(8 * clean >= all, "{name}: {clean} of {all} clean");
        }
    }
    // Of the detector's calls only one is given pictures.
    let reading = RUNS.iter().filter(|run| run.reads).count();
    assert_eq!(found, reading);
}

#[test]
fn every_call_is_compared_by_one_run() {
    for call in CALLS {
        let runs = RUNS.iter().filter(|run| run.calls.contains(&call.name));
        assert_eq!(runs.count(), 1, "{}", call.name);
    }
    for run in RUNS {
        let archive = answers::call(run.calls[0]).archive;
        let of = |name: &&str| answers::call(name).archive == archive;
        assert!(run.calls.iter().all(of), "{} is of two archives", run.name);
    }
}

/// Of a detector's answers many are a cadence, and each of the three is there.
#[test]
fn locks_come_and_go() {
    let list = answers::list("filmdesk");
    let frames = ["detector_push_measured", "detector_push"];
    for call in frames {
        let gave = |cadence: u64| {
            let of = |answer: &&Answer| answer.call == call && answer.gives == 0;
            let found = list.iter().filter(of);
            found
                .filter(|answer| answer.last() == Some(cadence))
                .count()
        };
        let [none, whole, drop, spanning] = [0, 1, 2, 3].map(gave);
        let least = (none + whole + drop + spanning) / 4;
        assert!(whole + drop + spanning >= least, "{call:?}: {none} none");
        for (cadence, count) in [whole, drop, spanning].into_iter().enumerate() {
            assert!(count >= 10, "{call:?}: {count} of cadence {}", cadence + 1);
        }
    }
}

/// Where a number of eight bytes of a record stands in the file of a list.
fn place(list: &[Answer], record: usize, number: usize) -> usize {
    let before: usize = list[..record].iter().map(|a| a.bytes().len()).sum();
    before + 8 * (4 + number)
}

/// Of each program: an expected number that is another, a number fewer than the
/// call has, a list that is cut, a call that there is not, and no list.
#[test]
fn the_programs_find_what_differs_and_what_is_cut() {
    for (archive, calls) in answers::archives() {
        let list = answers::list(archive);
        let replay = Program::built(&format!("replay_{archive}")).expect("the program");
        let printed = |file: &[u8]| replay.printed(file).expect("what it prints");
        let last = |text: &str| text.lines().last().unwrap_or_default().to_owned();
        let (all, first) = (list.len(), list[0].call);

        let mut other = file(archive);
        let numbers = other[place(&list, 0, 0) - 16];
        other[place(&list, 0, numbers as usize - 1)] ^= 1;
        let text = printed(&other);
        let line = format!("differs: {first}, record 1\n");
        assert!(text.contains(&line), "{text}");
        assert_eq!(last(&text), format!("{all} compared, 1 differ"));

        let mut other = file(archive);
        other[place(&list, 0, 0) - 16] -= 1;
        assert!(printed(&other).contains(&line));

        let text = printed(&file(archive)[..file(archive).len() - 1]);
        let size = list[all - 1].bytes().len();
        let came = size - 1;
        let line =
            format!("the list ends inside record {all}; expected {size} bytes, {came} came\n");
        assert!(text.contains(&line), "{text}");
        let broken = |record: usize| format!("not passed: the list is broken at record {record}");
        assert_eq!(last(&text), broken(all));

        let mut other = file(archive);
        let calls = calls.len();
        other[8] = calls as u8;
        let text = printed(&other);
        let line = format!("record 1 names call {calls}; expected one below {calls}\n");
        assert!(text.contains(&line), "{text}");
        assert_eq!(last(&text), broken(1));

        let empty = "not passed: the list is empty; expected a record for each of the";
        assert_eq!(last(&printed(&[])), format!("{empty} {calls} calls"));
    }
}

/// The last byte of a picture, which is left as it was or is an alpha.
#[test]
fn a_byte_of_an_output_that_is_another_is_found() {
    let list = answers::list("picturedesk");
    let picture = list.iter().position(|answer| answer.gives == 0);
    let picture = picture.expect("a picture");
    let mut other = file("picturedesk");
    other[place(&list, picture + 1, 0) - 33] ^= 1;
    let replay = Program::built("replay_picturedesk").expect("the program");
    let text = replay.printed(&other).expect("what it prints");
    let line = format!("differs: picture, record {}\n", picture + 1);
    assert!(text.contains(&line), "{text}");
}
