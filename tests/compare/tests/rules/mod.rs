//! What docs/RULES.md says, for the tests that hold something against it.

/// The constants of its table of limits and their values.
pub fn limits() -> Vec<(&'static str, u64)> {
    let text = include_str!("../../../../docs/RULES.md");
    let (_, section) = text.split_once("\n## Limits\n").unwrap();
    let (section, _) = section.split_once("\n## ").unwrap();
    let rows = section.lines().filter(|line| line.starts_with("| `"));
    rows.map(|row| {
        let cells: Vec<&str> = row.split('|').map(str::trim).collect();
        (cells[2].trim_matches('`'), cells[3].parse().unwrap())
    })
    .collect()
}
