//! What people get wrong, and what they get: the words, the status, and nothing printed.

mod common;

use common::{call, folder, root, run, say, Outside};
use std::fs;
use std::os::unix::fs::{symlink, PermissionsExt};
use std::process::Command;

const TEST25: &str = "tests/data/recordings/a01_test25.txt";

/// A recording with that third line, after clock and rates.
fn third(line: &str) -> String {
    format!("clock 50 1\nrates 900 1000\n{line}\n8000 9\n")
}

#[track_caller]
fn refused(line: &str, input: impl AsRef<[u8]>, words: &str) {
    call(line, input).fails(1, words);
}

/// What is said of a recording of so many pictures, so many ticks apart.
fn recording(count: usize, apart: usize) -> String {
    let pictures = (0..count).map(|k| format!("8000 {}\n", k * apart));
    format!("clock 50 1\n{}", pictures.collect::<String>())
}

#[test]
fn ticks_that_do_not_rise() {
    let text = "# five pictures\nclock 50 1\n\n8000 0\n8000 80\n8000 160\n8000 80\n8000 200\n";
    let words = "refused 5 at picture 3 (line 7): tick 80 is not above 160";
    for line in ["plan - --rates 1000", "least - --rate 1000", "judge"] {
        refused(line, text, words);
    }
    let real = "refused 5 at picture 3 (line 9): tick 84 is not above 160";
    refused("judge tests/data/recordings/e01_mkv25.txt", "", real);
    refused(
        "curve tests/data/recordings/e01_mkv25.txt --from 9 --to 10",
        "",
        real,
    );
}

#[test]
fn a_span_over_the_limit() {
    let text = "clock 50 1\n8000 10\n8000 20\n8000 70010\n";
    let words = "refused 5 at picture 2 (line 4): tick 70010 is 70000 ticks after the first, more than 65536; \
                 the first 2 fit: --first 2";
    refused("judge", text, words);
    call("judge --first 2", text).answer();
    let words = "refused 5 at picture 2 (line 4): tick 70010 is 69990 ticks after the first, more than 65536; \
                 1 from picture 1 on fit: --pictures 1";
    refused("judge --from 1", text, words);
    call("judge --from 1 --pictures 1", text).answer();
}

#[test]
fn a_count_over_the_limit() {
    let words = "refused 1 at 0: 4097 pictures, more than 4096; the first 4096 fit: --first 4096";
    refused("plan - --rates 1000", recording(4_097, 1), words);
    call("plan - --rates 1000 --first 4096", recording(4_097, 1)).answer();
    let words = "refused 1 at 0: 5000 pictures, more than 4096; the first 3277 fit: --first 3277";
    refused("judge", recording(5_000, 20), words);
    call("judge --first 3277", recording(5_000, 20)).answer();
    let words = "refused 1 at 0: 4990 pictures, more than 4096; 4096 from picture 10 on fit: --pictures 4096";
    refused("judge --from 10", recording(5_000, 1), words);
}

#[test]
fn a_part_of_a_recording() {
    let whole = "clock 50 1\n8000 0\n16000 2\n24000 4\n32000 6\n";
    let sizes = |options: &str| {
        let line = format!("schedule - --rate 400000 --buffer 80000 --start 80000 --csv{options}");
        let rows = common::read::csv(&call(&line, whole).answer());
        let shown = rows
            .iter()
            .map(|row| format!("{}:{}", row["picture"], row["size"]));
        shown.collect::<Vec<_>>().join(" ")
    };
    assert_eq!(sizes(" --first 2"), "0:8000 1:16000");
    assert_eq!(sizes(" --from 1"), "1:16000 2:24000 3:32000");
    assert_eq!(sizes(" --from 1 --pictures 2"), "1:16000 2:24000");
    assert_eq!(sizes(" --pictures 1"), "0:8000");
    let least = call("curve --from 1000 --to 1001 --from-picture 3 --csv", whole).answer();
    assert_eq!(least.lines().nth(1), Some("1000,32000,32000,32,32"));

    let wrong =
        |options: &str, words: &str| call(&format!("judge {options}"), whole).is_wrong_call(words);
    wrong(
        "--first 0",
        "0 pictures from picture 0 on: there are 4, counted from 0",
    );
    wrong(
        "--first 5",
        "5 pictures from picture 0 on: there are 4, counted from 0",
    );
    wrong(
        "--from 4",
        "1 pictures from picture 4 on: there are 4, counted from 0",
    );
    wrong(
        "--from 2 --pictures 3",
        "3 pictures from picture 2 on: there are 4, counted from 0",
    );
    wrong(
        "--first 1 --from 1",
        "--first, or --from and --pictures, not both",
    );
    wrong(
        "--first one",
        "--first: \"one\" is no number; a number of pictures is expected",
    );
    // Numbers and lines stay those of the whole.
    let late = call(
        "verdict --rate 400 --buffer 24000 --start 24000 --from 2 --csv",
        whole,
    )
    .answer();
    assert!(late.contains("\nlate,3,"), "{late}");
    let words = "refused 5 at picture 3 (line 5): tick 1 is not above 4";
    refused("judge --from 2", whole.replace("32000 6", "32000 1"), words);
}

#[test]
fn sizes_and_clocks_out_of_range() {
    let words = "refused 4 at picture 1 (line 4): size 0 is not from 1 to 16777216 bits";
    refused("judge", "clock 50 1\n\n8000 0\n0 1\n", words);
    let words = "refused 4 at picture 0 (line 2): size 16777217 is not from 1 to 16777216 bits";
    refused("judge", "clock 50 1\n16777217 0\n", words);
    for (clock, words) in [
        ("0 1", "TS 0 is not from 1 to 131072"),
        ("131073 1", "TS 131073 is not from 1 to 131072"),
        ("50 0", "NU 0 is not from 1 to 65536"),
        ("50 65537", "NU 65537 is not from 1 to 65536"),
    ] {
        refused(
            "judge",
            format!("clock {clock}\n8000 0\n"),
            &format!("refused 3 at 0: {words}"),
        );
    }
}

#[test]
fn rates_out_of_range() {
    let plan = |rates: &str| call(&format!("plan {TEST25} --rates {rates}"), "");
    plan("0").fails(
        1,
        "refused 6 at rate 0: rate 0 is not from 1 to 134217728 bits per second",
    );
    plan("500,1000,1000").fails(1, "refused 6 at rate 2: rate 1000 is not above 1000");
    let many: Vec<String> = (1..=33).map(|rate| rate.to_string()).collect();
    plan(&many.join(",")).fails(1, "refused 6 at 0: 33 rates, not 1 to 32");
    let words = "refused 6 at rate 1 (line 2): rate 900 is not above 900";
    refused("plan", "clock 50 1\nrates 900 900\n8000 0\n", words);
    refused(
        "plan",
        "clock 50 1\nrates\n8000 0\n",
        "refused 6 at 0 (line 2): 0 rates, not 1 to 32",
    );
    let words = "refused 6 at 0: rate 134217729 is not from 1 to 134217728";
    call(&format!("least {TEST25} --rate 134217729"), "").fails(1, words);
    call("seconds --rate 134217729 --buffer 1 --start 1", "").fails(1, words);
    let words = "refused 6 at 0: rate 0 is not from 1 to 134217728";
    call(&format!("curve {TEST25} --from 0 --to 10"), "").fails(1, words);
}

#[test]
fn buckets_and_limits_out_of_range() {
    let bucket = |buffer: &str, start: &str, words: &str| {
        let asked = format!("--rate 1000 --buffer {buffer} --start {start}");
        for line in [
            "seconds".to_string(),
            format!("verdict {TEST25}"),
            format!("fill {TEST25}"),
        ] {
            refused(
                &format!("{line} {asked}"),
                "",
                &format!("refused 7 at 0: {words}"),
            );
        }
    };
    bucket("0", "1", "buffer 0 is not from 1 to 68719476736");
    bucket(
        "68719476737",
        "1",
        "buffer 68719476737 is not from 1 to 68719476736",
    );
    bucket("10", "11", "start 11 is not from 1 to 10, the buffer");
    bucket("10", "0", "start 0 is not from 1 to 10, the buffer");
    for limit in ["0", "-1", "inf", "NaN"] {
        let line = format!("panel --rate 1000 --buffer 10 --start 10 --limit {limit}");
        let words = format!("refused 13 at 0: the limit {limit} is no finite number above 0");
        refused(&line, "", &words);
    }
    call("panel --rate 1000 --buffer 10 --start 10 --limit ten", "")
        .is_wrong_call("--limit \"ten\": a number of seconds is expected");
}

#[test]
fn tables_out_of_range() {
    let look_up = |rows: &str, words: &str| {
        let table = format!("rate,buffer,start,ts,nu,span\n{rows}\n");
        refused("lookup --rate 625", table, words);
    };
    look_up(
        "250,10,10,1,1,65537",
        "refused 3 at 0: the span 65537 is not from 0 to 65536",
    );
    look_up(
        "250,10,10,0,1,11",
        "refused 3 at 0: TS 0 is not from 1 to 131072",
    );
    look_up(
        "250,10,10,1,1,1\n250,9,9,1,1,1",
        "refused 6 at row 1 (line 3): rate 250 is not above 250",
    );
    look_up(
        "0,10,10,1,1,1",
        "refused 6 at row 0 (line 2): rate 0 is not from 1 to 134217728 bits per second",
    );
    look_up(
        "250,10,10,1,1,1\n300,9,10,1,1,1",
        "refused 7 at row 1 (line 3): start 10 is not from 1 to 9, the buffer",
    );
    let rows: Vec<String> = (1..=33).map(|rate| format!("{rate},9,9,1,1,1")).collect();
    look_up(&rows.join("\n"), "refused 6 at 0: 33 rates, not 1 to 32");
    let table = "rate,buffer,start,ts,nu,span\n250,10,10,1,1,1\n";
    refused(
        "lookup --rate 0",
        table,
        "refused 6 at 0: rate 0 is not from 1 to 134217728",
    );
}

#[test]
fn tables_that_are_none() {
    let look_up = |table: &str, words: &str| {
        refused(
            "lookup --rate 625",
            table,
            &format!("standard input, line {words} is expected"),
        );
    };
    let header = "a header with the columns rate, buffer and start";
    look_up("", &format!("1: the text ends; {header}"));
    look_up("250 10 10\n", &format!("1: 0 columns rate; {header}"));
    look_up(
        "rate,buffer,rate,start\n",
        &format!("1: 2 columns rate; {header}"),
    );
    look_up("{\n  \"ts\": 1\n", &format!("1: 0 columns rate; {header}"));
    look_up("rate,buffer,start\n", "2: the text ends; a row");
    look_up(
        "rate,buffer,start\n1.5,2,3\n",
        "2: \"1.5\" is no whole number; a rate in bits per second",
    );
    look_up(
        "rate,buffer,start\n1,,3\n",
        "2: \"\" is no number; a buffer in bits",
    );
    look_up(
        "rate,buffer,start,ts\n1,3,3,1\n2,3,3,2\n",
        "3: ts 2; 1 as before",
    );
    let few = "standard input, line 2: 2 columns; 3 as in the header are expected";
    refused("lookup --rate 625", "rate,buffer,start\n1,2\n", few);
    let plain = "rate buffer start\n250 10 10\n";
    call("lookup --rate 625", plain).is_wrong_call("standard input: it has no ts: --clock");
    call("lookup --rate 625 --clock 1,1", plain)
        .is_wrong_call("standard input: it has no span: --span");
    let own = "rate buffer start ts nu span\n250 10 10 1 1 1\n";
    call("lookup --rate 625 --clock 1,1", own)
        .is_wrong_call("standard input: it has its own ts: --clock");
}

#[test]
fn words_that_are_no_number() {
    let picture = "a picture's line, SIZE TICK in whole numbers,";
    let cases = [
        ("8000.5 7", "\"8000.5\" is no whole number"),
        ("8000 -7", "\"-7\" has a sign"),
        ("+8000 7", "\"+8000\" has a sign"),
        ("8e3 7", "\"8e3\" is no number"),
        ("8000,7", "\"8000,7\" is no number"),
        ("0x8 7", "\"0x8\" is no number"),
        (
            "8000 18446744073709551616",
            "\"18446744073709551616\" is past 64 bits",
        ),
        ("8000", "1 numbers"),
        ("8000 7 7", "3 numbers"),
    ];
    for (line, wrong) in cases {
        let words = format!("standard input, line 3: {wrong}; {picture} is expected");
        refused("judge", third(line), &words);
    }
    let words = "standard input, line 1: \"1.5\" is no whole number; clock TS NU, two whole numbers, is expected";
    refused("judge", "clock 50 1.5\n", words);
    let words = "standard input, line 1: 1 numbers; clock TS NU, two whole numbers, is expected";
    refused("judge", "clock 50\n", words);
    let words =
        "standard input, line 2: \"1k\" is no number; a rate in bits per second is expected";
    refused("judge", "clock 50 1\nrates 1k\n", words);
    let words = "standard input, line 2: 2 numbers; bucket R B F, three whole numbers, is expected";
    refused("judge", "clock 50 1\nbucket 1 2 cbr\n", words);
    // The largest number of 64 bits is one, and the library's to judge.
    let words =
        "refused 4 at picture 0 (line 2): size 18446744073709551615 is not from 1 to 16777216 bits";
    refused("judge", "clock 50 1\n18446744073709551615 0\n", words);
}

#[test]
fn lines_that_are_none() {
    let picture = "a picture's line, SIZE TICK in whole numbers,";
    let line = |line: &str, words: &str| {
        refused(
            "judge",
            third(line),
            &format!("standard input, line {words} is expected"),
        );
    };
    line(
        "frame 7",
        &format!("3: \"frame\"; clock, rates, bucket, verdict or {picture}"),
    );
    line("clock 50 1", &format!("3: clock a second time; {picture}"));
    line("rates 900", &format!("3: rates a second time; {picture}"));
    line(
        "8000 7\nbucket 1 2 3",
        &format!("4: bucket after a picture; {picture}"),
    );
    let words =
        "standard input, line 1: a picture before the clock; the line clock TS NU is expected";
    refused("judge", "8000 0\n", words);
    for (text, line) in [("", 1), ("\n", 2), ("# a comment", 2), ("rates 9\n\n", 3)] {
        let words =
            format!("standard input, line {line}: the text ends; the line clock TS NU is expected");
        refused("judge", text, &words);
    }
    let words = format!(
        "standard input, line 2: the text ends; {} is expected",
        picture.trim_end_matches(',')
    );
    refused("judge", "clock 50 1\n", &words);
    refused(
        "judge",
        b"clock 50 1\n8000 \xff\n",
        "standard input, line 2: bytes that are no text; UTF-8 text is expected",
    );
    refused(
        "judge",
        b"\xff\xfec\0l\0",
        "standard input, line 1: UTF-16 text; UTF-8 text is expected",
    );
}

#[test]
fn columns_that_are_none() {
    let csv = |text: &str, words: &str| {
        refused(
            "judge - --clock 50,1",
            text,
            &format!("standard input, line {words} expected"),
        );
    };
    csv(
        "size,tock\n8000,0\n",
        "1: no column tick or decode_time; one of them is",
    );
    csv(
        "tick;picture\n0;0\n",
        "1: no column size or size_bytes; one of them is",
    );
    csv(
        "size,size_bytes,tick\n8000,1000,0\n",
        "1: the columns size and size_bytes; one of size and size_bytes, once, is",
    );
    csv("size,tick\n8000\n", "2: 1 columns; 2 as in the header are");
    csv(
        "size,tick\n8000,0\n\n8000,\n",
        "4: \"\" is no number; a tick is",
    );
    csv(
        "size,tick\n8000.0,0\n",
        "2: \"8000.0\" is no whole number; a size in bits is",
    );
    csv(
        "size_bytes,tick\n-8000,0\n",
        "2: \"-8000\" has a sign; a size in bytes is",
    );
    csv(
        "size_bytes,tick\n2305843009213693952,0\n",
        "2: 2305843009213693952 bytes are past 64 bits; a size in bytes is",
    );
    csv("size,tick\n", "2: the text ends; a picture's line is");
    csv(
        "size,decode_time\n8000,0.04\n",
        "2: \"0.04\" is no whole number; a decode time in whole units of the time base is",
    );
    csv(
        "size,decode_time\n8000,9223372036854775808\n",
        "2: \"9223372036854775808\" is past 64 bits; a decode time in whole units of the time base is",
    );
    let ticks = "size,tick\n8000,0\n";
    let times = "size,decode_time\n8000,0\n";
    let wrong = |line: &str, text: &str, words: &str| call(line, text).is_wrong_call(words);
    wrong(
        "judge",
        ticks,
        "the column tick needs --clock TS,NU: a tick lasts NU/TS seconds",
    );
    wrong(
        "judge",
        times,
        "the column decode_time needs --time-base N/D: its unit is N/D seconds",
    );
    wrong(
        "judge - --clock 50,1",
        times,
        "the column decode_time has times, whose unit is --time-base and no --clock",
    );
    wrong(
        "judge - --time-base 1/50",
        ticks,
        "the column tick has ticks, whose clock is --clock and no --time-base",
    );
    wrong(
        "judge - --time-base 0/50",
        times,
        "--time-base 0/50: a unit above 0 seconds is expected",
    );
    wrong(
        "judge - --clock 50",
        ticks,
        "--clock: \"50\"; TS,NU in whole numbers is expected",
    );
    wrong(
        "judge - --clock 50,1",
        third("8 8").as_str(),
        "--clock: standard input is a text with a clock of its own",
    );
}

#[test]
fn decode_times_that_do_not_rise() {
    let text = "size,decode_time\n8000,0\n8000,3600\n8000,-3600\n";
    let words = "refused 5 at picture 2 (line 4): decode time -3600 is not above 3600";
    refused("judge - --time-base 1/90000", text, words);
    let text = "size,decode_time\n8000,0\n8000,1\n8000,70000\n";
    let words = "refused 5 at picture 2 (line 4): decode time 70000 is 70000 ticks after the first, more than 65536; \
                 the first 2 fit: --first 2";
    refused("judge - --time-base 1/1000", text, words);
    let words = "refused 3 at 0: TS 1000000 is not from 1 to 131072";
    refused(
        "judge - --time-base 1/1000000",
        "size,decode_time\n8000,0\n8000,40001\n",
        words,
    );
}

#[test]
fn units_that_cannot_be_meant() {
    let text = fs::read_to_string(root().join(TEST25)).unwrap();
    call("plan - --rates 300000", &text).notes(&[]);
    call("plan - --rates 300,400", &text).notes(&[
        "note: the mean rate, 288678 bit/s, is 722 times the highest rate asked: \
         rates are in bits per second, not kilobits",
    ]);
    call("least - --rate 100000000", &text).notes(&[
        "note: the lowest rate asked is 346 times the mean rate, 288678 bit/s: \
         are the sizes in bits, and the rates in bits per second?",
    ]);
    // The same pictures counted in bytes.
    let lines = text.lines().map(|line| match line.split_once(' ') {
        Some((size, tick)) if tick.bytes().all(|b| b.is_ascii_digit()) => {
            format!("{} {tick}\n", size.parse::<u64>().unwrap() / 8)
        }
        _ => format!("{line}\n"),
    });
    let in_bytes: String = lines.collect();
    call("least - --rate 300000", &in_bytes).notes(&[
        "note: no picture has more than 3964 bits: are the sizes in bytes? \
         A CSV with bytes names its column size_bytes",
    ]);
    call("judge", "clock 50 1\n80000 0\n72001 2\n").notes(&[
        "note: picture 1 (line 3) has 72001 bits, which are no whole bytes: are the sizes in bytes? \
         A CSV with bytes names its column size_bytes",
    ]);
    let fast = text.replace("clock 50 1", "clock 2500 1");
    call("judge", fast).notes(&[
        "note: 1250.000 pictures a second: is the clock right? A tick lasts NU/TS = 1/2500 seconds",
    ]);
    let slow = text.replace("clock 50 1", "clock 1 1");
    call("judge", slow).notes(&[
        "note: 0.500 pictures a second: is the clock right? A tick lasts NU/TS = 1/1 seconds",
    ]);
    // One picture has no rate of its own.
    call("least - --rate 1", "clock 50 1\n80000 0\n").notes(&[]);
}

#[test]
fn records_that_are_refused() {
    let folder = folder("records_that_are_refused");
    let path = |name: &str, bytes: &[u8]| {
        let path = folder.join(name);
        fs::write(&path, bytes).unwrap();
        path.to_str().unwrap().to_string()
    };
    let short = path("short", &[0x80, 0x6b, 0xde]);
    let words = "refused 9 at 0: 24 bits, which end before the record at bit 0 does";
    refused(&format!("hrd {short} --at 0"), "", words);
    let words = "refused 9 at 0: 24 bits, which end before the record at bit 24 does";
    refused(&format!("hrd {short} --at 24"), "", words);
    let zeros = path("zeros", &[0; 16]);
    let field = "a field of the record breaks its range or its rule";
    let words = format!("refused 10 at 0 (row 0, or a field outside the rows): {field}");
    refused(&format!("hrd {zeros} --at 0"), "", &words);

    let fields = fs::read_to_string(root().join("examples/params.txt")).unwrap();
    let equal = fields.replace("row 6249", "row 4687");
    refused(
        "hrd --write",
        equal,
        &format!("refused 10 at row 1: {field}"),
    );
    let line = format!("hrd --write - --into {short}");
    refused(
        &line,
        &fields,
        "refused 8 at 0: 127 bits from bit 0 on, and there are 24",
    );
    assert_eq!(fs::read(&short).unwrap(), [0x80, 0x6b, 0xde]);

    let good = path("good", &call("hrd --write", &fields).out);
    let judged = |more: &str, words: &str| {
        let line = format!("hrd {good} --at 0 --recording {TEST25} {more}");
        let said = call(&line, "");
        assert_eq!(said.err.lines().last(), Some(words), "{line}");
        assert_eq!((said.status, said.out), (1, Vec::new()));
    };
    judged(
        "--start 31712 --row 2",
        "refused 6 at 0: no row 2: the record has 2 rows, counted from 0",
    );
    judged(
        "--start 80001 --row 1",
        "refused 7 at 0: start 80001 is not from 1 to 80000, the buffer",
    );
    let constant = fields.replace("row 6249 1249 0", "row 6249 1249 1");
    path("good", &call("hrd --write", constant).out);
    judged(
        "--start 31712 --row 1",
        "refused 11 at row 1: its cbr_flag is 1",
    );
    let fast = fields.replace("bit_rate_scale 0", "bit_rate_scale 15");
    path("good", &call("hrd --write", fast).out);
    judged(
        "--start 31712 --row 0",
        "refused 6 at 0: rate 9831448576 is not from 1 to 134217728",
    );

    call(&format!("hrd {good}"), "").is_wrong_call("--at is missing: a bit, counted from 0,");
    call(&format!("hrd {good} --at 0 --start 3"), "")
        .is_wrong_call("--start goes with --recording");
    let escaped = path("escaped", &[0x80, 0x6b, 0xde, 0xf8, 0, 0, 3]);
    call(&format!("hrd {escaped} --at 0"), "").notes(&[&format!(
        "note: {escaped} has bytes 00 00 03, as a NAL unit has that is sent: take such a 03 out first"
    )]);
}

#[test]
fn fields_that_are_none() {
    let fields = fs::read_to_string(root().join("examples/params.txt")).unwrap();
    let write = |text: String, words: &str| {
        refused(
            "hrd --write",
            text,
            &format!("standard input, line {words}"),
        )
    };
    write(
        fields.replace("time_offset_length 0", ""),
        "10: the text ends; the line time_offset_length and its value is expected",
    );
    write(
        fields.replace("row ", "# "),
        "10: the text ends; a row is expected",
    );
    write(
        fields.replace("cpb_size_scale 2", "cpb_size_scale"),
        "3: a field's name and its value, or row and its three values, are expected",
    );
    write(
        fields.replace("cpb_size_scale 2", "bit_rate_scale 2"),
        "3: bit_rate_scale a second time; each field is expected once",
    );
    write(
        fields.replace("row 4687 2399 0", "row 4687 2399"),
        "4: a row; row and its three values are expected",
    );
    write(
        fields.replace("row 4687", "row -1"),
        "4: \"-1\" has a sign; a whole number, as coded, is expected",
    );
    let rows: String = (0..33).map(|rate| format!("row {rate} 9 0\n")).collect();
    write(rows, "33: a row more; at most 32 are expected");
    let said = call(
        "hrd --write",
        fields.replace("cpb_size_scale", "cpb_cnt_minus1"),
    );
    assert!(said
        .err
        .starts_with("standard input, line 3: \"cpb_cnt_minus1\"; row or one of bit_rate_scale, "));
    assert_eq!(said.status, 1);
}

#[test]
fn wrong_command_lines() {
    call("plann", "").fails(
        2,
        "\"plann\" is no command; these are: plan, least, lookup, verdict, schedule, fill, curve, seconds, \
         panel, judge, hrd, hrd --write, sheet make, sheet show, sheet text",
    );
    assert_eq!(call("sheet", "").status, 2);
    let nothing = run(&[], b"");
    assert_eq!((nothing.status, nothing.out.len()), (2, 0));
    assert!(nothing.err.contains("usage: kashuloden COMMAND"));

    let wrong = |line: &str, words: &str| call(line, "clock 50 1\n8000 0\n").is_wrong_call(words);
    wrong("least -", "--rate is missing: a rate in bits per second");
    wrong("least - --rate", "--rate takes R");
    wrong(
        "least - --rate 1.5",
        "--rate: \"1.5\" is no whole number; a rate in bits per second is expected",
    );
    wrong(
        "least - --rate -1",
        "--rate: \"-1\" has a sign; a rate in bits per second is expected",
    );
    wrong(
        "least - --rate 400k",
        "--rate: \"400k\" is no number; a rate in bits per second is expected",
    );
    wrong(
        "least - --rate=99999999999999999999",
        "--rate: \"99999999999999999999\" is past 64 bits; a rate in bits per second is expected",
    );
    wrong("least - --rate 1 --rate 2", "--rate a second time");
    wrong(
        "least a b --rate 1",
        "\"b\" after \"a\": one recording is taken",
    );
    wrong("least - -r 1", "\"-r\" is no option: options begin with --");
    wrong("seconds x --rate 1", "\"x\": no file is taken here");
    wrong("judge - --csv --json", "--csv or --json, not both");
    wrong("judge - --csv=1", "--csv takes no value");
    wrong(
        "plan -",
        "no rates: give --rates R,R,..; the recording has none of its own",
    );
    wrong(
        "plan - --rates 1,,2",
        "--rates: \"\" is no number; a rate in bits per second is expected",
    );
    wrong(
        "verdict - --rate 1 --start 1",
        "--buffer is missing: a buffer in bits",
    );
    wrong(
        "curve - --from 5 --to 5",
        "--from 5 --to 5: two rates that rise are expected",
    );
    wrong(
        "curve - --from 5 --to 6 --points 1",
        "--points 1: 2 to 10000 are expected",
    );
    let said = call("judge - --rate 1", "");
    assert!(
        said.err
            .starts_with("\"--rate\" is no option here; these are: --clock "),
        "{}",
        said.err
    );
}

#[test]
fn files_that_cannot_be_read() {
    call("judge no/such.txt", "").fails(
        3,
        "no/such.txt: No such file or directory (os error 2); a recording is expected",
    );
    call("judge docs", "").fails(
        3,
        "docs: Is a directory (os error 21); a recording is expected",
    );
    call("lookup docs --rate 1", "")
        .fails(3, "docs: Is a directory (os error 21); a table is expected");
    call("sheet show docs", "").fails(3, "docs: Is a directory (os error 21); a sheet is expected");
    let said = call("judge /proc/self/mem", "");
    assert_eq!((said.status, said.out.len()), (3, 0));
    let empty = folder("empty").join("empty.txt");
    fs::write(&empty, "").unwrap();
    let empty = empty.to_str().unwrap();
    let words = format!("{empty}, line 1: the text ends; the line clock TS NU is expected");
    refused(&format!("judge {empty}"), "", &words);
}

#[test]
fn input_without_end() {
    let words = "refused 1 at 0: /dev/zero: 0 pictures, not 1 to 4096";
    assert_eq!(
        call("sheet show /dev/zero", "").err,
        "/dev/zero: more than 67108864 bytes; a sheet is expected\n"
    );
    assert_eq!(call("sheet show - ", [0; 28]).status, 2);
    refused(
        "sheet show",
        [0; 28],
        &words.replace("/dev/zero", "standard input"),
    );
}

#[test]
fn output_to_a_file() {
    let outside = Outside::new("output");
    let folder = &outside.0;
    let files = || {
        let names = fs::read_dir(folder)
            .unwrap()
            .map(|entry| entry.unwrap().file_name());
        let mut names: Vec<String> = names.map(|name| name.into_string().unwrap()).collect();
        names.sort();
        names
    };
    let file = folder.join("table.csv");
    let line = format!(
        "plan {TEST25} --rates 300000 --csv --out {}",
        file.display()
    );
    assert_eq!(call(&line, "").answer(), "");
    let written = fs::read_to_string(&file).unwrap();
    assert_eq!(
        written,
        call(&format!("plan {TEST25} --rates 300000 --csv"), "").answer()
    );
    assert_eq!(files(), ["table.csv"]);

    // A refusal leaves what was there.
    let words = "refused 6 at rate 0: rate 0 is not from 1 to 134217728 bits per second";
    call(&line.replace("300000", "0"), "").fails(1, words);
    assert_eq!(fs::read_to_string(&file).unwrap(), written);
    assert_eq!(files(), ["table.csv"]);

    // A link keeps standing, and its file is written.
    symlink(&file, folder.join("link")).unwrap();
    let linked = line
        .replace("table.csv", "link")
        .replace("300000", "400000");
    call(&linked, "").answer();
    assert_ne!(fs::read_to_string(&file).unwrap(), written);
    assert_eq!(files(), ["link", "table.csv"]);

    let fails = |out: &str, words: &str| {
        let said = call(
            &format!("seconds --rate 1 --buffer 1 --start 1 --out {out}"),
            "",
        );
        said.fails(3, &format!("{out}: {words}"));
    };
    fails(
        folder.to_str().unwrap(),
        "not a plain file; the name of one is expected",
    );
    fails("/dev/null", "not a plain file; the name of one is expected");
    fails("no/such/file", "No such file or directory (os error 2)");
    assert_eq!(files(), ["link", "table.csv"]);
}

/// With the file system full: nothing stands in place of what was there.
#[test]
fn output_that_fails() {
    for line in [
        "seconds --rate 1 --buffer 1 --start 1",
        "--help",
        "plan --help",
        "--explain 1",
    ] {
        let mut shell = Command::new("sh");
        shell.args(["-c", &format!("\"$0\" {line} >/dev/full")]);
        let said = say(shell.arg(env!("CARGO_BIN_EXE_kashuloden")), b"");
        said.fails(3, "standard output: No space left on device (os error 28)");
    }
    let folder = folder("output_that_fails");
    let file = folder.join("kept");
    fs::write(&file, "kept").unwrap();
    fs::set_permissions(&folder, fs::Permissions::from_mode(0o755)).unwrap();
    let mut shell = Command::new("sh");
    // No file may grow past a block, as on a full disk.
    shell.args(["-c", "trap '' XFSZ; ulimit -f 1; exec \"$0\" \"$@\""]);
    shell.arg(env!("CARGO_BIN_EXE_kashuloden"));
    shell
        .args(["schedule", TEST25, "--csv", "--out"])
        .arg(&file);
    let said = say(shell.current_dir(root()), b"");
    assert_eq!(said.status, 3, "{}", said.err);
    let words = format!("{}: File too large (os error 27)", file.display());
    assert_eq!(said.err.lines().last(), Some(words.as_str()));
    assert_eq!(fs::read_to_string(&file).unwrap(), "kept");
    assert_eq!(fs::read_dir(&folder).unwrap().count(), 1);
}
