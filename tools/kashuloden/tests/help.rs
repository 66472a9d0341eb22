//! What the program says of itself: every command has its help, every example in it works as written,
//! every refusal is explained, and every operation has a command.

mod common;

use common::{call, root, run, say};
use std::collections::BTreeSet;
use std::fs;
use std::process::Command;

/// The commands that the list of commands has.
fn commands() -> Vec<String> {
    let text = run(&["--help"], b"").answer();
    let (_, list) = text.split_once("usage: kashuloden COMMAND ..\n").unwrap();
    let lines = list.lines().map_while(|line| line.strip_prefix("  "));
    let names = lines.map(|line| line.split("  ").next().unwrap().to_string());
    names.filter(|name| !name.starts_with("--")).collect()
}

#[test]
fn every_command_has_help_and_an_example() {
    assert_eq!(commands().len(), 15);
    let bin = env!("CARGO_BIN_EXE_kashuloden");
    for command in commands() {
        let help = call(&format!("{command} --help"), "").answer();
        assert!(
            help.starts_with(&format!("usage: kashuloden {command} ")),
            "{help}"
        );
        assert!(help.contains("Status: 0 answered; 1 refused; 2 a wrong command line; 3 "));
        assert_eq!(call(&format!("{command} -h"), "").answer(), help);
        let longest = help.lines().map(|line| line.chars().count()).max();
        assert!(longest <= Some(110), "{help}");

        let (_, example) = help.split_once("\nExample:\n  ").unwrap();
        let example = example.lines().next().unwrap();
        assert!(
            example.contains(&format!("kashuloden {command} ")),
            "{example}"
        );
        let mut shell = Command::new("sh");
        shell.args(["-c", &example.replace("kashuloden ", &format!("{bin} "))]);
        let said = say(shell.current_dir(root()), b"");
        assert_eq!(said.status, 0, "{example}: {}", said.err);
    }
}

#[test]
fn the_list_of_commands() {
    let help = run(&["--help"], b"").answer();
    assert_eq!(run(&["-h"], b"").answer(), help);
    assert_eq!(run(&[], b"").err, format!("{help}\n"));
}

#[test]
fn every_refusal_is_explained() {
    for number in 1..=13u8 {
        let text = call(&format!("--explain {number}"), "").answer();
        let meaning = planner::refusals::meaning(number).unwrap();
        let (first, more) = text.split_once('\n').unwrap();
        assert_eq!(first, format!("refusal {number}: {meaning}"));
        assert!(more.len() > 40 && more.ends_with(".\n"), "{text}");
    }
    for wrong in ["0", "14", "five", "-1", "5 6"] {
        let words = "--explain takes the number of a refusal, from 1 on";
        call(&format!("--explain {wrong}"), "").fails(2, words);
    }
    call("--explain", "").fails(2, "--explain takes the number of a refusal, from 1 on");
}

/// A limit in an explanation is the library's.
#[test]
fn explanations_have_the_limits() {
    use planner::limits::*;
    for (number, limits) in [
        (1, vec![PICTURES_MAX as u64]),
        (3, vec![TS_MAX, NU_MAX, SPAN_MAX]),
        (4, vec![SIZE_MAX]),
        (5, vec![SPAN_MAX]),
        (6, vec![RATE_MAX, ROWS_MAX as u64]),
        (7, vec![BUCKET_MAX]),
    ] {
        let text = call(&format!("--explain {number}"), "").answer();
        let said = |limit: &u64| text.contains(&format!("1 to {limit}"));
        let other = |limit: &u64| text.contains(&format!(" {limit} "));
        assert!(
            limits.iter().all(|limit| said(limit) || other(limit)),
            "{text}"
        );
    }
}

#[test]
fn the_version() {
    let version = planner::VERSION;
    let parts = [version / 10_000, version / 100 % 100, version % 100];
    let written = parts.map(|part| part.to_string()).join(".");
    assert_eq!(
        run(&["--version"], b"").answer(),
        format!("kashuloden {written}\n")
    );
}

/// The table of commands in docs/STATEMENTS.md has every export but the version, and every command.
#[test]
fn every_operation_has_a_command() {
    let text = fs::read_to_string(root().join("docs/STATEMENTS.md")).unwrap();
    let (_, section) = text.split_once("\n## Commands\n").unwrap();
    let section = section.split("\n## ").next().unwrap();
    let (mut operations, mut named) = (BTreeSet::new(), BTreeSet::new());
    for row in section.lines().filter(|line| line.starts_with("| `")) {
        let cells: Vec<&str> = row.split('|').collect();
        let words = |cell: &str| -> Vec<String> {
            cell.split('`')
                .skip(1)
                .step_by(2)
                .map(String::from)
                .collect()
        };
        named.extend(words(cells[1]));
        operations.extend(words(cells[2]));
    }
    assert_eq!(named, commands().into_iter().collect());

    let header = fs::read_to_string(root().join("include/planner.h")).unwrap();
    let exports = header.lines().filter_map(|line| {
        let (before, _) = line.split_once('(')?;
        let name = before.rsplit(' ').next()?;
        (line.starts_with("Planner") && name.starts_with("planner_")).then(|| name.to_string())
    });
    assert_eq!(operations, exports.collect());
}
