//! The pictures that scripts/plot draws.

mod common;

use common::{folder, root, say, Outside, Said};
use std::fs;
use std::os::unix::fs::symlink;
use std::path::Path;
use std::process::Command;

const TEST25: &str = "tests/data/recordings/a01_test25.txt";

fn plot(line: &str, out: &Path) -> Said {
    let mut command = Command::new(root().join("scripts/plot"));
    command.env("KASHULODEN", env!("CARGO_BIN_EXE_kashuloden"));
    command.args(line.split(' ')).arg("--out").arg(out);
    say(command.current_dir(root()), b"")
}

/// The words in an SVG, after a look at its being whole.
fn words(svg: &Path) -> Vec<String> {
    let text = fs::read_to_string(svg).unwrap();
    let whole = text.starts_with("<?xml ") && text.contains("<svg ");
    assert!(whole && text.trim_end().ends_with("</svg>"), "{text}");
    let spans = text.split("<text>").skip(1);
    let bare = spans.map(|span| {
        let inner = span.split("</text>").next().unwrap();
        let parts = inner
            .split('<')
            .flat_map(|part| part.split_once('>').or(Some(("", part))));
        parts.map(|(_, text)| text).collect::<String>()
    });
    bare.map(|text| text.trim().to_string()).collect()
}

/// How many points the lines of an SVG have in all.
fn points(svg: &Path) -> usize {
    let text = fs::read_to_string(svg).unwrap();
    let paths = text.split(" d='").skip(1);
    paths
        .map(|path| path.split('\'').next().unwrap().matches(',').count())
        .sum()
}

#[test]
fn a_curve_with_the_chords_of_a_table() {
    let folder = folder("curve");
    let plain = folder.join("plain.svg");
    let line = format!("curve {TEST25} --from 200000 --to 400000");
    assert_eq!(plot(&line, &plain).status, 0);
    let said = words(&plain);
    assert!(
        [
            "rate (bit/s)",
            "bits",
            "least buffer",
            "least start",
            "200 k",
            "400 k"
        ]
        .iter()
        .all(|word| said.iter().any(|one| one == word)),
        "{said:?}"
    );
    assert!(
        !said.iter().any(|word| word.contains("looked up")),
        "{said:?}"
    );
    assert!(points(&plain) > 2 * 101);

    let chords = folder.join("chords.svg");
    assert_eq!(
        plot(&format!("{line} --rates 200000,300000,400000"), &chords).status,
        0
    );
    let said = words(&chords);
    for word in [
        "buffer looked up in the table",
        "start looked up in the table",
        "rows of the table",
    ] {
        assert!(said.iter().any(|one| one == word), "{said:?}");
    }
    assert!(points(&chords) > 4 * 101);
    assert_eq!(fs::read_dir(&folder).unwrap().count(), 2);
}

#[test]
fn what_a_buffer_holds() {
    let folder = folder("fill");
    let svg = folder.join("fill.svg");
    let line = format!("fill {TEST25} --rate 300000 --buffer 80112 --start 31712");
    assert_eq!(plot(&line, &svg).status, 0);
    let said = words(&svg);
    for word in [
        "What the buffer holds: 300000 bit/s, holds",
        "bits in the buffer",
        "buffer, 80112 bits",
        "seconds from the first bit",
    ] {
        assert!(said.iter().any(|one| one == word), "{word}: {said:?}");
    }
    assert!(points(&svg) > 2 * 250);
    let late = folder.join("late.svg");
    assert_eq!(
        plot("fill tests/data/recordings/d01_underflow.txt", &late).status,
        0
    );
    let said = words(&late);
    assert!(
        said.iter().any(|word| word.ends_with("bit/s, late")),
        "{said:?}"
    );
}

#[test]
fn what_is_not_drawn() {
    let folder = folder("not_drawn");
    let svg = folder.join("kept.svg");
    fs::write(&svg, "kept").unwrap();
    let curve =
        |more: &str| format!("curve tests/data/recordings/e01_mkv25.txt --from 9 --to 10{more}");
    let words = "refused 5 at picture 3 (line 9): tick 84 is not above 160";
    plot(&curve(""), &svg).fails(1, words);
    assert_eq!(plot(&curve(" --rates no"), &svg).status, 2);
    plot(&curve(" --csv"), &svg).fails(2, "plot: --csv: an SVG is drawn");
    assert_eq!(plot("curve no/such.txt --from 9 --to 10", &svg).status, 3);
    assert_eq!(plot("table x", &svg).status, 2);
    let said = plot(
        &format!("curve {TEST25} --from 9 --to 10"),
        &folder.join("no/such.svg"),
    );
    assert_eq!(said.status, 3, "{}", said.err);
    assert_eq!(fs::read_to_string(&svg).unwrap(), "kept");
    assert_eq!(fs::read_dir(&folder).unwrap().count(), 1);
    let mut command = Command::new(root().join("scripts/plot"));
    let said = say(command.args(["fill", TEST25]).current_dir(root()), b"");
    said.fails(2, "plot: no --out FILE");
}

/// With a PATH that has no gnuplot: the script installs it, here from a stand-in for apt-get.
#[test]
fn gnuplot_is_installed_where_it_is_missing() {
    let outside = Outside::new("without-gnuplot");
    let folder = &outside.0;
    let bin = folder.join("bin");
    fs::create_dir(&bin).unwrap();
    for entry in fs::read_dir("/usr/bin")
        .unwrap()
        .chain(fs::read_dir("/bin").unwrap())
    {
        let path = entry.unwrap().path();
        let name = path.file_name().unwrap().to_str().unwrap();
        if !name.starts_with("gnuplot") && !name.starts_with("apt") {
            // A name comes twice where /bin is /usr/bin.
            let _ = symlink(&path, bin.join(name));
        }
    }
    let stand_in = format!(
        "printf '#!/bin/sh\\necho \"$@\" >>{0}/log\\n\
         case $1 in install) ln -s /usr/bin/gnuplot {0}/bin/gnuplot ;; esac\\n' >{0}/bin/apt-get; \
         chmod +x {0}/bin/apt-get",
        folder.display()
    );
    assert_eq!(
        say(Command::new("sh").args(["-c", &stand_in]), b"").status,
        0
    );
    let mut command = Command::new(root().join("scripts/plot"));
    command
        .env("KASHULODEN", env!("CARGO_BIN_EXE_kashuloden"))
        .env("PATH", &bin);
    command
        .args(["fill", TEST25, "--out"])
        .arg(folder.join("fill.svg"));
    let said = say(command.current_dir(root()), b"");
    assert_eq!(said.status, 0, "{}", said.err);
    assert!(words(&folder.join("fill.svg")).len() > 10);
    let log = fs::read_to_string(folder.join("log")).unwrap();
    assert_eq!(log, "update -q\ninstall -y -q gnuplot-nox\n");
}
