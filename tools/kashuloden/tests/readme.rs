//! The commands of README.md, as they are written there: those with their output beside them print
//! it, and the pictures are those of their commands.

mod common;

use common::{folder, root, say, Said};
use std::fs;
use std::process::Command;

/// Each line that begins with `$ `, and the lines of its block that follow.
fn written() -> Vec<(String, String)> {
    let text = fs::read_to_string(root().join("README.md")).unwrap();
    let mut written: Vec<(String, String)> = Vec::new();
    let mut open = false;
    for line in text.lines() {
        let Some(line) = line.strip_prefix("    ") else {
            open = false;
            continue;
        };
        if let Some(command) = line.strip_prefix("$ ") {
            written.push((command.to_string(), String::new()));
            open = true;
        } else if open {
            let (_, output) = written.last_mut().unwrap();
            *output += &format!("{line}\n");
        }
    }
    written
}

/// Runs a line with the program that the tests have built.
fn run(line: &str) -> Said {
    let bin = env!("CARGO_BIN_EXE_kashuloden");
    let mut shell = Command::new("sh");
    shell.args(["-c", &line.replace("build/kashuloden", bin)]);
    say(shell.env("KASHULODEN", bin).current_dir(root()), b"")
}

#[test]
fn commands_print_what_is_written() {
    let commands = written()
        .into_iter()
        .filter(|(line, _)| !line.contains("scripts/plot"));
    let mut count = 0;
    for (line, output) in commands {
        let said = run(&line);
        let printed = match said.status {
            0 => String::from_utf8(said.out).unwrap(),
            _ => said.err,
        };
        assert_eq!(printed, output, "{line}");
        count += 1;
    }
    assert_eq!(count, 3);
}

/// The words in an SVG: axes, units, legend.
fn words(svg: &str) -> Vec<&str> {
    let texts = svg
        .split("</tspan>")
        .filter_map(|part| part.rsplit('>').next());
    texts.collect()
}

#[test]
fn pictures_are_those_of_their_commands() {
    let folder = folder("readme");
    let drawn = written()
        .into_iter()
        .filter(|(line, _)| line.contains("scripts/plot"));
    let mut count = 0;
    for (line, _) in drawn {
        let (_, shown) = line.split_once(" --out ").unwrap();
        let new = folder.join("new.svg");
        let said = run(&line.replace(shown, new.to_str().unwrap()));
        assert_eq!(said.status, 0, "{line}: {}", said.err);
        let new = fs::read_to_string(new).unwrap();
        let kept = fs::read_to_string(root().join(shown)).unwrap();
        assert!(words(&new).len() > 10);
        assert_eq!(words(&new), words(&kept), "{line}");
        let readme = fs::read_to_string(root().join("README.md")).unwrap();
        assert!(readme.contains(&format!("]({shown})")));
        count += 1;
    }
    assert_eq!(count, 2);
}

/// The other lines of the sheets' section, in a folder of their own.
#[test]
fn sheets_as_written() {
    let text = fs::read_to_string(root().join("README.md")).unwrap();
    let (_, section) = text.split_once("\n## Sheets\n").unwrap();
    let lines: Vec<&str> = section
        .lines()
        .filter_map(|line| line.strip_prefix("    build/kashuloden "))
        .map(|line| line.split("  #").next().unwrap())
        .collect();
    assert_eq!(lines.len(), 2);
    let sheet = folder("readme_sheets").join("d.sheet");
    for line in lines {
        let line = line.replace("d.sheet", sheet.to_str().unwrap());
        let said = run(&format!("build/kashuloden {line}"));
        assert_eq!(said.status, 0, "{line}: {}", said.err);
    }
    let example = fs::read(root().join("examples/recording_d.sheet")).unwrap();
    assert_eq!(fs::read(sheet).unwrap(), example);
}
