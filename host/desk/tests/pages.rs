//! Holds the pages to the repository, README.md and those of docs/:
//!
//! - a link leads to a file, a folder or a heading that is there;
//! - a name in the label of a link to a Rattle file is declared in that file;
//! - no page pins a line's number, since pages pin names;
//! - the page of rules has its sections, in their order, each with links, and
//!   every claim of the crates is linked in it;
//! - what a comment cites of that page is the title of one of its sections.

use std::collections::{BTreeMap, BTreeSet};
use std::fs;
use std::path::{Path, PathBuf};

/// The sections of the page of rules that comments may cite, in their order.
const SECTIONS: [&str; 14] = [
    "Port order",
    "Planes",
    "What the desk gets back",
    "Rows a field lacks",
    "Colour and comb",
    "Blocks and symbols",
    "Runs, phases, cadence",
    "Fields and readback",
    "Reel file and listing",
    "Bench cards",
    "Slips a porter makes",
    "How tight the statements are",
    "Forms by place in the code",
    "Forms that must change",
];

/// The page of rules, as comments cite it.
const RULES: &str = "docs/RULES.md";

#[test]
fn every_link_and_name_is_there() {
    let mut faults = Vec::new();
    let mut declared = Declared::default();
    let pages = pages();
    assert!(pages.len() > 5, "README.md and the pages of docs/ are read");
    for page in &pages {
        faults.extend(page_faults(page, &read(page), &mut declared));
    }
    assert!(faults.is_empty(), "{}", faults.join("\n"));
}

#[test]
fn the_rules_have_their_sections_and_every_claim() {
    let faults = rules_faults(&read(RULES), &claims());
    assert!(faults.is_empty(), "{RULES}:\n{}", faults.join("\n"));
}

#[test]
fn every_cited_section_is_there() {
    let mut faults = Vec::new();
    let mut cited = 0;
    for folder in ["crates", "host", "tools"] {
        for file in files_under(&root().join(folder)) {
            // A file that is no text cites nothing.
            let source = fs::read_to_string(&file).unwrap_or_default();
            if source.contains(RULES) {
                let titles = cited_in(&source);
                cited += titles.len();
                let wrong = titles.iter().filter(|title| !is_section(title));
                let file = file.display();
                faults.extend(wrong.map(|title| format!("{file} cites \"{title}\" of {RULES}")));
            }
        }
    }
    assert!(cited > 50, "only {cited} sections are cited");
    assert!(faults.is_empty(), "{}", faults.join("\n"));
}

// ---- The repository

fn root() -> PathBuf {
    Path::new(env!("CARGO_MANIFEST_DIR")).join("../..")
}

/// A file's text, by its place from the root.
fn read(place: &str) -> String {
    fs::read_to_string(root().join(place)).unwrap_or_else(|_| panic!("{place} can be read"))
}

/// The places of the pages from the root.
fn pages() -> Vec<String> {
    let docs = fs::read_dir(root().join("docs")).expect("docs/ can be read");
    let names = docs.map(|entry| entry.expect("an entry of docs/").file_name());
    let mut found: Vec<String> = names
        .map(|name| format!("docs/{}", name.to_string_lossy()))
        .filter(|page| page.ends_with(".md"))
        .collect();
    found.push("README.md".to_owned());
    found.sort();
    found
}

/// All files of a folder and of those in it, but for what was built.
fn files_under(folder: &Path) -> Vec<PathBuf> {
    let mut found = Vec::new();
    for entry in fs::read_dir(folder).expect("a folder can be read") {
        let path = entry.expect("an entry of a folder").path();
        if path.is_dir() {
            if !["target", "out"].iter().any(|built| path.ends_with(built)) {
                found.extend(files_under(&path));
            }
        } else {
            found.push(path);
        }
    }
    found
}

/// A claim: the file that states it, from the root, and its name.
type Claim = (String, String);

/// The claims of all crates, each a type of its own in specs/Claims.antt.
fn claims() -> BTreeSet<Claim> {
    let mut found = BTreeSet::new();
    for entry in fs::read_dir(root().join("crates")).expect("crates/ can be read") {
        let of = entry.expect("an entry of crates/").file_name();
        let place = format!("crates/{}/specs/Claims.antt", of.to_string_lossy());
        // Not every crate claims something.
        let text = fs::read_to_string(root().join(&place)).unwrap_or_default();
        let stated = text.lines().filter_map(|line| {
            let (name, kind) = line.strip_prefix("abbrev pub ")?.split_once(" : ")?;
            ["Type 0", "Type 1"].contains(&kind).then_some(name)
        });
        found.extend(stated.map(|name| (place.clone(), name.to_owned())));
    }
    assert!(!found.is_empty(), "no claim was found in crates/");
    found
}

// ---- A page

struct Link {
    label: String,
    target: String,
}

impl Link {
    /// What stands in backquotes in the label.
    fn names(&self) -> Vec<&str> {
        self.label.split('`').skip(1).step_by(2).collect()
    }

    /// The file that it leads to from a page, by its place from the root.
    fn file(&self, page: &str) -> String {
        let target = self.target.split('#').next().unwrap_or("");
        if target.is_empty() {
            return page.to_owned();
        }
        let folder = page.rsplit_once('/').map_or("", |(folder, _)| folder);
        let mut parts: Vec<&str> = folder.split('/').filter(|part| !part.is_empty()).collect();
        for part in target.split('/') {
            match part {
                ".." => drop(parts.pop()),
                "" | "." => {}
                name => parts.push(name),
            }
        }
        parts.join("/")
    }
}

/// The links of a text, pictures among them, that lead into the repository.
fn links(text: &str) -> Vec<Link> {
    let text = without_blocks(text);
    let mut found = Vec::new();
    let mut parts = text.split("](");
    let mut before = parts.next().unwrap_or("");
    for part in parts {
        let label = before.rsplit('[').next().unwrap_or("").to_owned();
        let target = part.split(')').next().unwrap_or("").to_owned();
        if !target.contains("://") {
            found.push(Link { label, target });
        }
        before = part;
    }
    found
}

/// The text without its fenced blocks.
fn without_blocks(text: &str) -> String {
    let parts = text.split("\n```").step_by(2);
    parts.collect::<Vec<_>>().join("\n")
}

/// All that is wrong with a page, by its place from the root.
fn page_faults(page: &str, text: &str, declared: &mut Declared) -> Vec<String> {
    let mut faults = Vec::new();
    for link in links(text) {
        let target = &link.target;
        let file = link.file(page);
        let place = root().join(&file);
        if file != page && !place.exists() {
            faults.push(format!("{page} links {target}, which is not there"));
            continue;
        }
        if let Some((_, anchor)) = target.split_once('#') {
            let headed = if file == page {
                has_anchor(text, anchor)
            } else {
                file.ends_with(".md") && has_anchor(&read(&file), anchor)
            };
            if !headed {
                faults.push(format!("{page} links {target}, which is no heading there"));
            }
        }
        let Some(declared) = declared.by(&file) else {
            continue;
        };
        for name in link.names() {
            // `Lock::push` is declared by its type and its own name.
            let types = name
                .split("::")
                .filter(|part| part.starts_with(char::is_uppercase));
            let own = name.rsplit("::").next();
            if !types.chain(own).all(|part| declared.contains(part)) {
                faults.push(format!(
                    "{page} names `{name}`, which {file} does not declare"
                ));
            }
        }
    }
    faults.extend(pins(text).map(|pin| format!("{page} pins the line {pin}")));
    faults
}

/// The headings of a page from the second level on.
fn headings(text: &str) -> Vec<String> {
    let text = without_blocks(text);
    let marked = text.lines().filter(|line| line.starts_with("##"));
    let titles = marked.filter_map(|line| line.trim_start_matches('#').strip_prefix(' '));
    titles.map(str::to_owned).collect()
}

/// Whether a heading of the page is led to by that anchor: in small letters,
/// with no sign but the hyphen, which also stands for a space.
fn has_anchor(text: &str, anchor: &str) -> bool {
    headings(text).iter().any(|title| {
        let kept = title
            .chars()
            .filter(|c| c.is_alphanumeric() || " -_".contains(*c));
        let small: String = kept.flat_map(char::to_lowercase).collect();
        small.replace(' ', "-") == anchor
    })
}

/// Those places in a text that name a file and a line of it.
fn pins(text: &str) -> impl Iterator<Item = &str> {
    let ends = |c: char| c.is_whitespace() || "`()[]|,;\"".contains(c);
    text.split(ends).filter(|word| {
        let Some((file, line)) = word.split_once(':') else {
            return false;
        };
        let end = file.rsplit_once('.').map_or("", |(_, end)| end);
        line.starts_with(|c: char| c.is_ascii_digit())
            && !end.is_empty()
            && end.chars().all(|c| c.is_ascii_alphabetic())
    })
}

// ---- What Rattle files declare

/// The names that files declare, by their places from the root. Each is read once.
#[derive(Default)]
struct Declared(BTreeMap<String, BTreeSet<String>>);

impl Declared {
    /// None of a file that is not Rattle's.
    fn by(&mut self, file: &str) -> Option<&BTreeSet<String>> {
        let declared: fn(&str) -> BTreeSet<String> = match file.rsplit_once('.')?.1 {
            "antt" => declared_in_logic,
            "rt" => declared_in_code,
            _ => return None,
        };
        let known = self.0.entry(file.to_owned());
        Some(known.or_insert_with(|| declared(&read(file))))
    }
}

/// Definitions, records, their fields, claims and constructors.
fn declared_in_logic(text: &str) -> BTreeSet<String> {
    const KINDS: [&str; 5] = ["abbrev", "unfoldable", "pub", "record", "data"];
    let mut found = BTreeSet::new();
    let mut in_data = false;
    for line in text.lines().filter(|line| !is_remark(line)) {
        let mut words = line.split_whitespace().peekable();
        let inner = line.starts_with(' ');
        if !inner {
            in_data = line.split_whitespace().any(|word| word == "data");
        }
        let mut kinds = 0;
        while words.next_if(|word| KINDS.contains(word)).is_some() {
            kinds += 1;
        }
        let Some(name) = words.next() else { continue };
        // A constructor or a lemma has no word before its name.
        let bare = words.next() == Some(":") && (in_data || !inner);
        if kinds > 0 || bare {
            found.insert(name.to_owned());
        }
    }
    found
}

/// Functions, structs, enums and constants.
fn declared_in_code(text: &str) -> BTreeSet<String> {
    const KINDS: [&str; 4] = ["fn", "struct", "enum", "const"];
    let mut found = BTreeSet::new();
    for line in text.lines().filter(|line| !is_remark(line)) {
        let mut words = line.split_whitespace();
        let kind = words.find(|word| !["pub", "pub(crate)", "extern", "\"C\""].contains(word));
        if kind.is_some_and(|kind| KINDS.contains(&kind)) {
            let rest = words.next().unwrap_or("");
            let name = rest.split(|c: char| !(c.is_alphanumeric() || c == '_'));
            found.extend(name.take(1).map(str::to_owned));
        }
    }
    found
}

fn is_remark(line: &str) -> bool {
    let line = line.trim_start();
    line.starts_with("--") || line.starts_with("//")
}

// ---- The page of rules

/// All that is wrong with its sections, and the claims that it leaves out.
fn rules_faults(text: &str, claims: &BTreeSet<Claim>) -> Vec<String> {
    let mut faults = Vec::new();
    let headed = headings(text);
    let known: Vec<&String> = headed.iter().filter(|title| is_section(title)).collect();
    if known != SECTIONS {
        faults.push(format!("has the sections {known:?}; expected {SECTIONS:?}"));
    }
    for section in text.split("\n## ").skip(1) {
        let title = section.lines().next().unwrap_or("");
        if links(section).is_empty() {
            faults.push(format!("has no link under \"{title}\""));
        }
    }
    let mut linked = BTreeSet::new();
    for link in links(text) {
        let names = link.names();
        linked.extend(
            names
                .iter()
                .map(|name| (link.file(RULES), name.to_string())),
        );
    }
    for (file, name) in claims.difference(&linked) {
        faults.push(format!("does not link the claim `{name}` of {file}"));
    }
    faults
}

fn is_section(title: &str) -> bool {
    SECTIONS.contains(&title)
}

// ---- What comments cite

/// The titles that comments put behind the page's name, in one sentence with
/// it. A title may be broken where a comment's line ends.
fn cited_in(source: &str) -> Vec<String> {
    let mut found = Vec::new();
    let mut comment = String::new();
    for line in source.lines().chain([""]) {
        if let Some(words) = words_of_comment(line) {
            comment.push_str(words);
            comment.push(' ');
            continue;
        }
        for after in comment.split(RULES).skip(1) {
            let sentence = after.split(". ").next().unwrap_or("");
            let quoted = sentence.split('"').skip(1).step_by(2);
            found.extend(quoted.map(str::to_owned));
        }
        comment.clear();
    }
    found
}

/// What stands behind the mark of a comment in Rattle, Rust or a script.
fn words_of_comment(line: &str) -> Option<&str> {
    let marks = ["///", "//!", "//", "--", "#", "\"\"\""];
    let line = line.trim();
    let words = marks.iter().find_map(|mark| line.strip_prefix(mark));
    words.map(str::trim)
}

// ---- False pages

/// A page with one fault each, so that the first test is seen to fail.
#[test]
fn a_false_page_is_found() {
    const GOOD: &str = "# Page\n\n## A place, named\n\n\
        A claim [`WovenAlternates`](../crates/weave/specs/Claims.antt), a definition and a constructor\n\
        [`taken`, `picture`](../crates/telecine/specs/History.antt), a function\n\
        [`Lock::push`](../crates/pulldown/src/lib.rt), a [folder](src), a [page](DIFFERENCES.md#what-was-compared),\n\
        a [place](#a-place-named) and at 12:30 a ![picture](pulldown.svg).\n";
    let mut declared = Declared::default();
    let mut faults = |page: &str| page_faults("docs/PAGE.md", page, &mut declared);
    assert_eq!(faults(GOOD), Vec::<String>::new());
    let changes = [
        ("(src)", "(source)", "is not there"),
        ("pulldown.svg", "pulldowns.svg", "is not there"),
        ("specs/Claims", "specs/Claim", "is not there"),
        (
            "DIFFERENCES.md#what-was",
            "DIFFERENCES.md#what-is",
            "is no heading",
        ),
        ("## A place, named", "## A place", "is no heading"),
        ("`WovenAlternates`", "`WovenAlternate`", "does not declare"),
        // A word of the file, which is none of its declarations.
        ("`taken`", "`refused`", "does not declare"),
        (
            "weave/specs/Claims",
            "plane/specs/Claims",
            "does not declare",
        ),
        ("`Lock::push`", "`Lock::pull`", "does not declare"),
        ("`Lock::push`", "`Block::push`", "does not declare"),
        (
            "a [folder]",
            "in `lib.rt:12` a [folder]",
            "pins the line lib.rt:12",
        ),
    ];
    for (right, wrong, wanted) in changes {
        let page = GOOD.replacen(right, wrong, 1);
        assert_ne!(page, GOOD, "{right}");
        let found = faults(&page);
        assert!(
            found.iter().any(|fault| fault.contains(wanted)),
            "`{right}` became `{wrong}`, and no fault says `{wanted}`: {found:?}"
        );
    }
}

/// Rules with one fault each, so that the second test is seen to fail.
#[test]
fn false_rules_are_found() {
    let page = read(RULES);
    let claims = claims();
    let changes = [
        ("\n## Bench cards\n", "\n## Cards\n", "has the sections"),
        ("\n## Planes\n", "\n## Bench cards\n", "has the sections"),
        (
            "\n## Planes\n",
            "\n## Nothing\n\n## Planes\n",
            "no link under \"Nothing\"",
        ),
        (
            "`LowestSays`",
            "`Lowest`",
            "claim `LowestSays` of crates/laws",
        ),
        (
            "crates/laws/specs/Claims",
            "crates/plane/specs/Claims",
            "claim `LowestSays`",
        ),
    ];
    for (right, wrong, wanted) in changes {
        let changed = page.replace(right, wrong);
        assert_ne!(changed, page, "{right}");
        let found = rules_faults(&changed, &claims);
        assert!(
            found.iter().any(|fault| fault.contains(wanted)),
            "`{right}` became `{wrong}`, and no fault says `{wanted}`: {found:?}"
        );
    }
}

/// Citations as they stand in comments, so that the third test is seen to read them.
#[test]
fn a_cited_title_is_read() {
    let cases: [(&str, &[&str]); 7] = [
        (
            "-- Planes (docs/RULES.md, \"Planes\"). Not \"this\".",
            &["Planes"],
        ),
        (
            "// docs/RULES.md, \"Runs, phases, cadence\", \"Bench\n// cards\", 9.",
            &["Runs, phases, cadence", "Bench cards"],
        ),
        (
            "/// (docs/RULES.md, \"Planes\" and\n/// \"Cards\": the ring).\nfn f",
            &["Planes", "Cards"],
        ),
        (
            "    //! docs/RULES.md is the judge here (\"Planes\")",
            &["Planes"],
        ),
        (
            "\"\"\"A reel (docs/RULES.md, \"Reel file and listing\").",
            &["Reel file and listing"],
        ),
        ("-- docs/RULES.md says so\nnot \"this\"", &[]),
        ("say(\"docs/RULES.md\", \"Cards\")", &[]),
    ];
    for (source, titles) in cases {
        assert_eq!(cited_in(source), titles, "{source}");
    }
    assert!(is_section("Bench cards") && !is_section("Cards"));
}
