//! Every command once, to the byte: what it prints for people and for programs, and what it says on
//! standard error.

mod common;

use common::{call, folder, root, Said};
use std::fs;

const ABOUT_TEST25: &str =
    "recording: 250 pictures, 9.960 s, 25.000 pictures/s, mean rate 288678 bit/s, \
                            largest picture 31712 bits\n";
const TEST25: &str = "tests/data/recordings/a01_test25.txt";

#[track_caller]
fn prints(said: Said, out: &str, err: &str) {
    assert_eq!(String::from_utf8(said.out).unwrap(), out);
    assert_eq!((said.err.as_str(), said.status), (err, 0));
}

#[test]
fn plan() {
    let line = format!("plan {TEST25} --rates 250000,300000,400000");
    prints(
        call(&line, ""),
        "  rate  buffer   start      wait      fill
 bit/s    bits    bits         s         s
250000  445256  391184  1.564736  1.781024
300000   80112   31712  0.105707  0.267040
400000   31712   31712  0.079280  0.079280
ts 50, nu 1, span 498
",
        ABOUT_TEST25,
    );
    prints(
        call(&format!("{line} --csv"), ""),
        "rate,buffer,start,wait,fill,ts,nu,span
250000,445256,391184,1.564736,1.781024,50,1,498
300000,80112,31712,0.10570666666666667,0.26704,50,1,498
400000,31712,31712,0.07928,0.07928,50,1,498
",
        ABOUT_TEST25,
    );
    prints(
        call(&format!("{line} --json"), ""),
        "{
  \"ts\": 50,
  \"nu\": 1,
  \"span\": 498,
  \"rows\": [
    {\"rate\": 250000, \"buffer\": 445256, \"start\": 391184, \"wait\": 1.564736, \"fill\": 1.781024},
    {\"rate\": 300000, \"buffer\": 80112, \"start\": 31712, \"wait\": 0.10570666666666667, \"fill\": 0.26704},
    {\"rate\": 400000, \"buffer\": 31712, \"start\": 31712, \"wait\": 0.07928, \"fill\": 0.07928}
  ]
}
",
        ABOUT_TEST25,
    );
}

/// The rates of a text and of a sheet are planned where none are asked for.
#[test]
fn plan_at_the_recordings_own_rates() {
    let planned = call("plan examples/recording_d.txt --csv", "").answer();
    assert!(planned
        .starts_with("rate,buffer,start,wait,fill,ts,nu,span\n250,10250,10250,41,41,1,1,11\n"));
    assert_eq!(
        call("plan examples/recording_d.sheet --csv", "").answer(),
        planned
    );
}

#[test]
fn least() {
    prints(
        call(&format!("least {TEST25} --rate 300000"), ""),
        "  rate  buffer  start      wait      fill
 bit/s    bits   bits         s         s
300000   80112  31712  0.105707  0.267040
",
        ABOUT_TEST25,
    );
}

#[test]
fn lookup() {
    let table = "rate buffer start\n250 10250 10250\n1000 5000 5000\n";
    let found = " rate  buffer  start       wait       fill
bit/s    bits   bits          s          s
  625    7625   7625  12.200000  12.200000
";
    prints(
        call("lookup --rate 625 --clock 1,1 --span 11", table),
        found,
        "",
    );
    let json = "{\n  \"rate\": 2000,\n  \"buffer\": 5000,\n  \"start\": 5000,\n  \"wait\": 2.5,\n  \"fill\": 2.5\n}\n";
    prints(
        call("lookup --rate 2000 --clock 1,1 --span 11 --json", table),
        json,
        "",
    );
}

/// Below the first row an answer may pass every bucket; then it has no seconds.
#[test]
fn lookup_past_the_largest_bucket() {
    let table = "rate,buffer,start,ts,nu,span\n134217728,68719476736,1,1,65536,65536\n";
    let said = call("lookup --rate 1 --csv", table);
    said.notes(&["note: no bucket that is judged has more than 68719476736 bits"]);
    let figures = "1,576460816727932928,576460748008456193,,";
    assert_eq!(
        said.answer(),
        format!("rate,buffer,start,wait,fill\n{figures}\n")
    );
}

#[test]
fn verdict() {
    let late = call(
        "verdict examples/recording_d.txt --rate 1000 --buffer 4999 --start 4999 --csv",
        "",
    );
    assert_eq!(
        late.answer(),
        "verdict,late_picture,late_units,late,rate,buffer,start,wait,fill\n\
         late,0,1,0.001,1000,4999,4999,4.999,4.999\n"
    );
}

/// Each recording of tests/data holds, or is late or refused, as its own line says.
#[test]
fn verdict_of_the_declared_bucket() {
    for entry in fs::read_dir(root().join("tests/data/recordings")).unwrap() {
        let path = entry.unwrap().path();
        let text = fs::read_to_string(&path).unwrap();
        let mut lines = text.lines();
        let declared = lines
            .find_map(|line| line.strip_prefix("verdict "))
            .unwrap();
        let declared = declared.rsplit(": ").next().unwrap();
        let said = call("verdict - --csv", &text);
        let given = if said.status == 1 {
            let place = said.err.replace("picture ", "");
            place
                .split([' ', ':'])
                .take(4)
                .collect::<Vec<_>>()
                .join(" ")
        } else {
            let constant =
                "note: the recording's bucket has a constant rate; it is judged at a variable one";
            let is_constant = text.contains(" cbr\n");
            assert_eq!(said.err.contains(constant), is_constant, "{}", said.err);
            let out = said.answer();
            let row: Vec<&str> = out.lines().nth(1).unwrap().split(',').collect();
            row[..3].join(" ").trim_end().to_string()
        };
        assert_eq!(given, declared, "{path:?}");
    }
}

#[test]
fn schedule() {
    let line = "schedule examples/recording_d.txt --rate 1000 --buffer 10000 --start 10000";
    let text = call(line, "").answer();
    let lines: Vec<&str> = text.lines().collect();
    assert_eq!(
        [lines[0], lines[1], lines[2], lines[13], lines[14]],
        [
            "picture  size  tick  arrival_start  arrival_end    removal",
            "         bits                    s            s          s",
            "      0  5000     0       0.000000     5.000000  10.000000",
            "     11   500    11      12.500000    13.000000  21.000000",
            "verdict holds, rate 1000, buffer 10000, start 10000, wait 10.000000, fill 10.000000, ts 1",
        ]
    );
    let csv = call(&format!("{line} --csv"), "").answer();
    let last = "11,500,11,12.5,13,21,12500,13000,21000,holds,,,,1000,10000,10000,10,10,1";
    assert_eq!(csv.lines().last(), Some(last));
}

#[test]
fn fill() {
    let line = "fill examples/recording_d.txt --rate 1000 --buffer 4999 --start 4999";
    let text = call(line, "").answer();
    let lines: Vec<&str> = text.lines().collect();
    assert_eq!(
        [lines[0], lines[1], lines[2], lines[14]],
        [
            "picture  size  tick    removal  before   after",
            "         bits                s    bits    bits",
            "      0  5000     0   4.999000  4999.0    -1.0",
            "verdict late, late_picture 0, late_units 1, late 0.001000, rate 1000, buffer 4999, \
             start 4999, wait 4.999000, fill 4.999000, ts 1",
        ]
    );
}

#[test]
fn curve() {
    let line =
        "curve examples/recording_d.txt --from 250 --to 1000 --points 4 --rates 250,1000 --csv";
    assert_eq!(
        call(line, "").answer(),
        "rate,buffer,start,wait,fill,row,lookup_buffer,lookup_start
250,10250,10250,41,41,0,10250,10250
500,7500,7500,15,15,,8500,8500
750,6250,6250,8.333333333333334,8.333333333333334,,6750,6750
1000,5000,5000,5,5,1,5000,5000
"
    );
    let ends = call(
        &format!("curve {TEST25} --from 200000 --to 400000 --csv"),
        "",
    )
    .answer();
    assert_eq!(ends.lines().count(), 102);
    assert_eq!(
        ends.lines().nth(1),
        Some("200000,899112,883592,4.41796,4.49556")
    );
    assert_eq!(
        ends.lines().last(),
        Some("400000,31712,31712,0.07928,0.07928")
    );
    // No more rates than there are.
    let few = call(
        &format!("curve {TEST25} --from 300000 --to 300002 --csv"),
        "",
    )
    .answer();
    assert_eq!(few.lines().count(), 4);
}

#[test]
fn seconds_and_panel() {
    let bucket = "--rate 300000 --buffer 80112 --start 31712";
    prints(
        call(&format!("seconds {bucket} --csv"), ""),
        "rate,buffer,start,wait,fill\n300000,80112,31712,0.10570666666666667,0.26704\n",
        "",
    );
    prints(
        call(&format!("panel {bucket} --limit 0.1"), ""),
        "reading      wait     limit\n                s         s\n   over  0.105707  0.100000\n",
        "",
    );
    let within = call(
        "panel --rate 1000 --buffer 10000 --start 10000 --limit 10 --csv",
        "",
    );
    prints(within, "reading,wait,limit\nwithin,10,10\n", "");
}

#[test]
fn judge() {
    prints(
        call(&format!("judge {TEST25} --csv"), ""),
        "pictures,ts,nu,span,duration,pictures_a_second,bits,mean_rate,largest\n\
         250,50,1,498,9.96,25,2875232,288677.9116465863,31712\n",
        "",
    );
    let one = call("judge - --csv", "clock 50 1\n31712 7\n").answer();
    assert_eq!(one.lines().last(), Some("1,50,1,0,0,,31712,,31712"));
}

#[test]
fn hrd() {
    let folder = folder("hrd");
    let file = folder.join("starred.bin");
    fs::write(&file, [0x80, 0x6b, 0xde, 0xf8]).unwrap();
    let file = file.to_str().unwrap();
    let text = "# 32 bits from bit 0 on; next bit 32
bit_rate_scale 0
cpb_size_scale 0
row 0 0 0  # row 0: 64 bit/s, 16 bits, variable
initial_cpb_removal_delay_length_minus1 23
cpb_removal_delay_length_minus1 23
dpb_output_delay_length_minus1 23
time_offset_length 24
";
    prints(call(&format!("hrd {file} --at 0"), ""), text, "");
    let written = call("hrd --write", text);
    assert_eq!(written.err, "record: 32 bits from bit 0 on; next bit 32\n");
    assert_eq!(written.out, [0x80, 0x6b, 0xde, 0xf8]);

    let late = call(
        &format!("hrd {file} --at 0 --recording {TEST25} --start 16"),
        "",
    )
    .answer();
    let row = "row 0 0 0  # row 0: 64 bit/s, 16 bits, variable; late: picture 0 by 1584800 units";
    assert_eq!(late.lines().nth(3), Some(row));
    let refused = call(
        &format!("hrd {file} --at 0 --recording {TEST25} --start 17"),
        "",
    )
    .answer();
    let row = "row 0 0 0  # row 0: 64 bit/s, 16 bits, variable; \
               refused 7 at 0: buffer or start fullness out of range";
    assert_eq!(refused.lines().nth(3), Some(row));
}

/// Of the records of tests/data: the last bit of each, and its rows.
#[test]
fn hrd_of_real_streams() {
    let folder = folder("hrd_of_real_streams");
    let text = fs::read_to_string(root().join("tests/data/hrd.txt")).unwrap();
    let mut count = 0;
    for line in text.lines().filter(|line| !line.starts_with('#')) {
        let words: Vec<&str> = line.split(' ').collect();
        let bytes: Vec<u8> = (0..words[1].len() / 2)
            .map(|k| u8::from_str_radix(&words[1][2 * k..2 * k + 2], 16).unwrap())
            .collect();
        let file = folder.join("record");
        fs::write(&file, bytes).unwrap();
        let said = call(
            &format!("hrd {} --at {} --csv", file.display(), words[2]),
            "",
        );
        if words[4] == "refused" {
            assert!(said.err.starts_with(&format!("refused {} at ", words[5])));
            assert_eq!(said.status, 1);
        } else {
            let rows = common::read::csv(&said.answer());
            let found = rows.iter().map(|row| {
                let values = ["bit_rate_value_minus1", "cpb_size_value_minus1", "cbr_flag"];
                values.map(|name| row[name].as_str()).join(",")
            });
            assert_eq!(found.collect::<Vec<_>>(), words[12..], "{line}");
            assert_eq!(rows[0]["next"], words[4]);
        }
        count += 1;
    }
    assert!(count > 30);
}
