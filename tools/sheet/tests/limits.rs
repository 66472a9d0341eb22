//! The tool's own limits are those of docs/RULES.md.

use sheet::{HEADER_BYTES, PICTURES_MAX, RATES_MAX};

fn written(constant: &str) -> usize {
    let text = include_str!("../../../docs/RULES.md");
    let name = format!("`{constant}`");
    let mut rows = text
        .lines()
        .map(|row| row.split('|').map(str::trim).collect::<Vec<_>>());
    let row = rows.find(|cells| cells.get(2) == Some(&name.as_str()));
    row.unwrap()[3].parse().unwrap()
}

#[test]
fn every_limit() {
    assert_eq!(PICTURES_MAX, written("SHEET_PICTURES_MAX"));
    assert_eq!(RATES_MAX, written("ROWS_MAX"));
    assert_eq!(HEADER_BYTES, written("HEADER_BYTES"));
}
