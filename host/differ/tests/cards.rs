//! The program `cards` is able to find a card that differs from what the list
//! says of it, and a list that is none.

use std::fs;
use std::path::Path;

use differ::program::Program;

fn file(name: &str) -> String {
    let root = Path::new(env!("CARGO_MANIFEST_DIR")).join("../..");
    let path = root.join("crates/cards").join(name);
    fs::read_to_string(path).expect("a file of crates/cards")
}

/// What the program prints of a list: a line for each card, and the last.
fn told(list: &str) -> (Vec<String>, String) {
    let cards = Program::built("cards").expect("the program");
    let text = cards.printed(list.as_bytes()).expect("what it prints");
    let mut lines: Vec<String> = text.lines().map(str::to_owned).collect();
    let last = lines.pop().expect("a last line");
    (lines, last)
}

#[test]
fn every_line_that_says_something_else_is_told() {
    let list = file("stdin");
    let (good, last) = told(&list);
    let all = list.lines().count();
    assert_eq!(last, format!("{all} cards, 0 differ"));
    assert_eq!(format!("{}\n{last}\n", good.join("\n")), file("stdout"));
    for (at, line) in list.lines().enumerate() {
        let (name, answer) = line.rsplit_once(": ").expect("a name and an answer");
        // Another digit or letter at the end, and one more.
        let shorter = &answer[..answer.len() - 1];
        let end = if answer.ends_with('1') { "2" } else { "1" };
        for other in [format!("{shorter}{end}"), format!("{answer}{end}")] {
            let changed = format!("{name}: {other}");
            let mut lines: Vec<&str> = list.lines().collect();
            lines[at] = &changed;
            let (found, last) = told(&format!("{}\n", lines.join("\n")));
            let mut expected = good.clone();
            expected[at] = format!("{name}: {answer}, expected '{changed}'");
            assert_eq!(found, expected);
            assert_eq!(last, format!("{all} cards, 1 differ"));
        }
    }
}

#[test]
fn a_list_of_another_length_is_told() {
    let list = file("stdin");
    let all = list.lines().count();
    let (_, last) = told("");
    assert_eq!(last, format!("{all} cards, {all} differ"));
    let (_, last) = told(&list[..list.len() - 2]);
    assert_eq!(last, format!("{all} cards, 1 differ"));
    let (lines, last) = told(&format!("{list}{list}"));
    assert_eq!(lines[all], "the list goes on after the last card");
    assert_eq!(last, format!("{all} cards, 0 differ"));
}
