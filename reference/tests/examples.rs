//! The example tables give the pairs, the verdicts, the shares and the rounds their comments name.

use std::fs;
use std::path::Path;

use reference::cases::worked;
use reference::limits::{MAX_ROUTINES, ROUNDS_BASE, ROW_BYTES};
use reference::{hex, listing, rounds_number};

/// The number of rounds of a table that is accepted.
fn rounds(table: &[u8]) -> Option<u32> {
    let mut model = [0; ROW_BYTES * MAX_ROUTINES];
    rounds_number(table, &mut model).checked_sub(ROUNDS_BASE)
}

/// The listing as the comment lines have it: the pairs, the verdict and the share; and then the
/// number of rounds.
fn comments(table: &[u8]) -> Vec<String> {
    let text = String::from_utf8(listing(table)).expect("ASCII");
    let pairs = text.lines().filter(|line| line.starts_with("pair "));
    let verdict = text.lines().last().expect("a verdict");
    let share = text.lines().find_map(|line| line.strip_prefix("share "));
    pairs
        .map(|pair| format!("# {pair}"))
        .chain([format!("# verdict: {verdict}")])
        .chain(share.map(|share| format!("# share: {share}")))
        .chain(rounds(table).map(|rounds| format!("# rounds: {rounds}")))
        .collect()
}

/// The comment lines from the first that names a pair, a verdict, a share or rounds to the last one.
fn named(text: &str) -> Vec<&str> {
    let lines: Vec<&str> = text.lines().collect();
    let begins = ["# pair ", "# verdict:", "# share:", "# rounds:"];
    let names = |line: &&str| begins.iter().any(|begin| line.starts_with(begin));
    match (lines.iter().position(names), lines.iter().rposition(names)) {
        (Some(first), Some(last)) => lines[first..=last].to_vec(),
        _ => vec![],
    }
}

#[test]
fn examples_get_what_is_in_their_comments() {
    let folder = Path::new(env!("CARGO_MANIFEST_DIR")).join("../examples");
    let mut seen = Vec::new();
    for entry in fs::read_dir(folder).expect("the folder of examples") {
        let path = entry.expect("an example").path();
        if path.extension().is_none_or(|extension| extension != "hex") {
            continue;
        }
        let stem = path.file_stem().unwrap().to_string_lossy().into_owned();
        let text = fs::read_to_string(&path).expect("an example's text");
        let table = hex::parse(&text).expect("hexadecimal");
        assert_eq!(named(&text), comments(&table), "{stem}");
        seen.push((stem, table));
    }
    // Every worked case has its example, with the same bytes.
    for case in worked() {
        let example = seen.iter().find(|(stem, _)| stem == case.name);
        let (_, table) = example.expect(case.name);
        assert_eq!(*table, case.table, "{}", case.name);
    }
}
