//! What docs/MIRROR-AND-NEST.md says of its examples: their bytes are those of the files,
//! and the listings before and after request #105 those that the two sets of rules give.

use std::collections::BTreeSet;
use std::fs;
use std::path::{Path, PathBuf};

use reference::limits::{MAX_ROUTINES, ROW_BYTES};
use reference::{hex, listing_by, Rules};

/// How the names of the page's example files begin.
const PREFIX: &str = "mirror-nest-";

fn top() -> PathBuf {
    Path::new(env!("CARGO_MANIFEST_DIR")).join("..")
}

/// What the page has of one example.
#[derive(Default)]
struct Example {
    file: String,
    bytes: String,
    before: String,
    now: String,
}

/// The examples of the page. Each begins with a line that names its file, and has a line
/// for its bytes and one for each listing, with bars between the listing's lines.
fn examples(page: &str) -> Vec<Example> {
    let mut examples: Vec<Example> = Vec::new();
    for line in page.lines() {
        if let Some(name) = line.strip_prefix("`examples/") {
            let file = name.split('`').next().unwrap().to_string();
            examples.push(Example {
                file,
                ..Example::default()
            });
        } else if let Some(example) = examples.last_mut() {
            for (word, field) in [
                ("    bytes   ", &mut example.bytes),
                ("    before  ", &mut example.before),
                ("    now     ", &mut example.now),
            ] {
                if let Some(text) = line.strip_prefix(word) {
                    assert!(field.is_empty(), "{}: two lines {word}", example.file);
                    *field = text.to_string();
                }
            }
        }
    }
    examples
}

/// A listing as the page has it.
fn in_one_line(rules: Rules, table: &[u8]) -> String {
    let text = listing_by(rules, table, ROW_BYTES * MAX_ROUTINES);
    let text = String::from_utf8(text).expect("ASCII");
    text.lines().collect::<Vec<_>>().join(" | ")
}

#[test]
fn the_page_says_what_the_rules_give() {
    let page = fs::read_to_string(top().join("docs/MIRROR-AND-NEST.md")).expect("the page");
    let mut told = BTreeSet::new();
    for example in examples(&page) {
        let file = &example.file;
        let text = fs::read_to_string(top().join("examples").join(file)).expect(file);
        let table = hex::parse(&text).expect("hexadecimal");
        assert_eq!(hex::parse(&example.bytes).expect(file), table, "{file}");
        assert_eq!(example.now, in_one_line(Rules::InForce, &table), "{file}");
        let before = in_one_line(Rules::Before105, &table);
        assert_eq!(example.before, before, "{file}");
        assert!(told.insert(file.clone()), "{file} is there twice");
    }
    // It has every example of its own, and no other.
    let folder = fs::read_dir(top().join("examples")).expect("the folder of examples");
    let files = folder.map(|entry| entry.expect("an example").file_name());
    let own = files
        .map(|name| name.into_string().expect("a plain name"))
        .filter(|name| name.starts_with(PREFIX));
    assert_eq!(own.collect::<BTreeSet<_>>(), told);
}
