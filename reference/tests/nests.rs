//! What nests change, by requests #101 and #105: they take pairs and rings away, and add
//! none.

mod common;

use std::collections::BTreeSet;

use reference::generate::Kind;
use reference::model::{least_model, verdict};
use reference::table::Table;
use reference::{Rules, Verdict};

fn tables() -> Vec<Table> {
    common::accepted(5, &[Kind::Nested], 1_000)
}

#[test]
fn rows_and_rings_are_among_those_before() {
    let (mut fewer_pairs, mut fewer_rings) = (0, 0);
    for table in tables() {
        let now = least_model(Rules::InForce, &table);
        let before = least_model(Rules::Before101, &table);
        for (now, before) in now.iter().zip(&before) {
            assert!(now.row.is_subset(&before.row), "{table:?}");
            assert!(now.rings.is_subset(&before.rings), "{table:?}");
        }
        fewer_pairs += usize::from(now.iter().zip(&before).any(|(a, b)| a.row != b.row));
        fewer_rings += usize::from(now.iter().zip(&before).any(|(a, b)| a.rings != b.rings));
    }
    // Not by chance: many tables are changed.
    assert!(fewer_pairs >= 500, "{fewer_pairs}");
    assert!(fewer_rings >= 100, "{fewer_rings}");
}

#[test]
fn no_clear_table_becomes_a_ring() {
    let mut seen = BTreeSet::new();
    for table in tables() {
        let is_clear = |rules| verdict(&table, &least_model(rules, &table)) == Verdict::Clear;
        let (now, before) = (is_clear(Rules::InForce), is_clear(Rules::Before101));
        assert!(now || !before, "{table:?}");
        seen.insert((now, before));
    }
    // Clear now as before, clear now alone, and never.
    assert_eq!(seen.len(), 3);
}
