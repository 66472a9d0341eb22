//! One recording in every form that is read: text, CSV, sheet; from a file and from standard input.

mod common;

use common::draws::{pick, recording, Drawn};
use common::{call, folder, root, run};
use oracle::sheet::make_sheet;
use oracle::xorshift::XorShift;
use std::fs;

const CASES: usize = 60;

/// Least figures, and every size and tick, of what is read.
fn read(options: &str, input: &[u8]) -> String {
    let asked = "--rate 1000 --buffer 68719476736 --start 68719476736 --csv";
    let schedule = format!("schedule - {asked}{options}");
    let least = format!("least - --rate 1000 --csv{options}");
    call(&schedule, input).answer() + &call(&least, input).answer()
}

/// The same numbers with white space, zeros in front, comments and blank lines at will.
fn ragged(drawn: &Drawn, random: &mut XorShift) -> String {
    let mut text = pick(random, &["", "\u{feff}"]).to_string();
    for line in drawn.text().lines() {
        text += pick(
            random,
            &["", "\n", "\r\n", " \t\n", "#\n", "# 7 \u{e9}\r\n"],
        );
        if line.starts_with("clock") && pick(random, &[true, false]) {
            text += "verdict late 3 120 # said by somebody\nbucket 1 2 3 cbr\n rates 5 6\n";
        }
        for word in line.split(' ') {
            text += pick(random, &["", " ", "\t"]);
            if word != "clock" {
                text += pick(random, &["", "", "0", "00000000000000000000000"]);
            }
            text += word;
            text += pick(random, &[" ", "\t", "\t\t "]);
        }
        text += pick(random, &["\n", "\r\n", "# and a comment\n", " #\r\n"]);
    }
    text + pick(random, &["", "\n", "# the end"])
}

#[test]
fn ragged_texts() {
    let random = &mut XorShift::new(21);
    for _ in 0..CASES {
        let drawn = recording(random);
        let text = ragged(&drawn, random);
        assert_eq!(
            read("", text.as_bytes()),
            read("", drawn.text().as_bytes()),
            "{text:?}"
        );
    }
}

/// Comments may have any bytes in them.
#[test]
fn comments_in_other_encodings() {
    let text = b"# caf\xe9\nclock 50 1 # \xff\n8000 0\n";
    assert_eq!(read("", text), read("", b"clock 50 1\n8000 0"));
}

/// As CSV, with columns that are passed over.
fn columns(
    drawn: &Drawn,
    random: &mut XorShift,
    in_bytes: bool,
    times: Option<(i64, u64)>,
) -> String {
    let sign = pick(random, &[",", ";", "\t", ", "]);
    let quote = pick(random, &["", "\""]);
    let size = if in_bytes { "size_bytes" } else { "size" };
    let time = if times.is_some() {
        "decode_time"
    } else {
        "tick"
    };
    let quoted = |word: String| format!("{quote}{word}{quote}");
    let mut lines = vec![["picture", time, "kind", size].map(|name| quoted(name.to_string()))];
    for (k, (size, tick)) in drawn.sizes.iter().zip(&drawn.ticks).enumerate() {
        let size = if in_bytes { size / 8 } else { *size };
        let time = match times {
            Some((first, step)) => {
                let from_first = i128::from(tick - drawn.ticks[0]) * i128::from(step);
                (i128::from(first) + from_first).to_string()
            }
            None => tick.to_string(),
        };
        lines.push([k.to_string(), time, "P".to_string(), size.to_string()].map(quoted));
    }
    let mut text = pick(random, &["", "\u{feff}", "# a camera\n"]).to_string();
    for line in lines {
        text += &line.join(sign);
        text += pick(random, &["\n", "\r\n", "\n\n"]);
    }
    text
}

#[test]
fn columns_of_every_kind() {
    let random = &mut XorShift::new(22);
    for _ in 0..CASES {
        let drawn = recording(random);
        let expected = read("", drawn.text().as_bytes());
        let in_bytes = pick(random, &[true, false]);
        let text = columns(&drawn, random, in_bytes, None);
        let clock = format!(" --clock {},{}", drawn.ts, drawn.nu);
        assert_eq!(read(&clock, text.as_bytes()), expected, "{text:?}");
    }
}

/// Decode times in a finer unit come to the same ticks, counted from 0, and the same clock, in lowest
/// terms.
#[test]
fn decode_times() {
    let random = &mut XorShift::new(23);
    for _ in 0..CASES {
        let mut drawn = recording(random);
        let step = pick(random, &[1, 3_600, 1_001]);
        let first = pick(random, &[0, -7_200, i64::MIN, 123_456_789]);
        let text = columns(&drawn, random, false, Some((first, step)));
        let base = format!(" --time-base {}/{}", drawn.nu, drawn.ts * step);

        let before = drawn.ticks[0];
        let least_step = drawn
            .ticks
            .iter()
            .map(|tick| tick - before)
            .fold(0, common_factor);
        let unit = least_step.max(1);
        drawn
            .ticks
            .iter_mut()
            .for_each(|tick| *tick = (*tick - before) / unit);
        // One picture has no step: its unit is that of the times themselves.
        let (nu, ts) = match least_step {
            0 => (drawn.nu, drawn.ts * step),
            _ => (drawn.nu * unit, drawn.ts),
        };
        let across = common_factor(nu, ts);
        (drawn.nu, drawn.ts) = (nu / across, ts / across);
        if drawn.nu > 65_536 || drawn.ts > 131_072 {
            let said = call(&format!("judge -{base}"), &text);
            assert!(said.err.starts_with("refused 3 at 0: "), "{}", said.err);
            continue;
        }
        assert_eq!(
            read(&base, text.as_bytes()),
            read("", drawn.text().as_bytes()),
            "{text:?}"
        );
    }
}

fn common_factor(a: u64, b: u64) -> u64 {
    (1..=a.max(b))
        .rev()
        .find(|d| a % d == 0 && b % d == 0)
        .unwrap_or(0)
}

#[test]
fn sheets() {
    let random = &mut XorShift::new(24);
    for _ in 0..CASES {
        let mut drawn = recording(random);
        let before = drawn.ticks[0];
        drawn.ticks.iter_mut().for_each(|tick| *tick -= before);
        let sheet = make_sheet(&drawn.for_oracle(), &[5, 6]);
        assert_eq!(read("", &sheet), read("", drawn.text().as_bytes()));
    }
}

#[test]
fn files_and_standard_input() {
    let text = fs::read(root().join("examples/test25.txt")).unwrap();
    let by_name = call("plan examples/test25.txt --csv", "").answer();
    assert_eq!(call("plan - --csv", &text).answer(), by_name);
    assert_eq!(call("plan --csv", &text).answer(), by_name);
    assert_eq!(
        call("plan --csv examples/test25.sheet", "").answer(),
        by_name
    );
    let spaced = folder("files and standard input").join("a recording");
    fs::write(&spaced, text).unwrap();
    let words = ["plan", spaced.to_str().unwrap(), "--csv"];
    assert_eq!(run(&words, b"").answer(), by_name);
}
