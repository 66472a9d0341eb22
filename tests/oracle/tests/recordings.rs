//! Eight recordings of video streams: the declared bucket gives the declared verdict, asked of R,
//! B and F and asked of a row.

use oracle::bits::{row_verdict, Params, Row};
use oracle::least::least;
use oracle::recording::{Clock, Recording};
use oracle::refused::refuse;
use oracle::schedule::{verdict, Verdict};
use oracle::Refused;

struct Stream {
    sizes: Vec<u64>,
    ticks: Vec<u64>,
    clock: Clock,
    bucket: [u64; 3],
    cbr_flag: u64,
    verdict: String,
}

fn parse(text: &str) -> Stream {
    let mut lines = text.lines().filter(|line| !line.starts_with('#'));
    let mut after = |name: &str| {
        lines
            .next()
            .unwrap()
            .strip_prefix(name)
            .unwrap()
            .to_string()
    };
    let clock = numbers(&after("clock "));
    let bucket_line = after("bucket ");
    let verdict = after("verdict ");
    let bucket = numbers(bucket_line.trim_end_matches(" cbr"));
    let pictures: Vec<Vec<u64>> = lines.map(numbers).collect();
    Stream {
        sizes: pictures.iter().map(|picture| picture[0]).collect(),
        ticks: pictures.iter().map(|picture| picture[1]).collect(),
        clock: Clock {
            ts: clock[0],
            nu: clock[1],
        },
        bucket: [bucket[0], bucket[1], bucket[2]],
        cbr_flag: u64::from(bucket_line.ends_with(" cbr")),
        verdict,
    }
}

fn numbers(line: &str) -> Vec<u64> {
    line.split(' ').map(|word| word.parse().unwrap()).collect()
}

fn declared(text: &str) -> Result<Verdict, Refused> {
    let words: Vec<&str> = text.split(' ').collect();
    match words[..] {
        ["holds"] => Ok(Verdict::Holds),
        ["late", picture, units] => Ok(Verdict::Late {
            picture: picture.parse().unwrap(),
            units: units.parse().unwrap(),
        }),
        ["refused", number, "at", place] => refuse(number.parse().unwrap(), place.parse().unwrap()),
        _ => panic!("{text}"),
    }
}

fn check(text: &str, pictures: usize) {
    let stream = parse(text);
    assert_eq!(stream.sizes.len(), pictures);
    let rec = Recording {
        sizes: &stream.sizes,
        ticks: &stream.ticks,
        clock: stream.clock,
    };
    let [rate, buffer, fullness] = stream.bucket;
    let by_row_refused = "refused 11 (through a row); by R, B, F: ";
    let by_bucket = declared(stream.verdict.trim_start_matches(by_row_refused));
    let by_row = if stream.cbr_flag == 1 {
        assert!(stream.verdict.starts_with(by_row_refused));
        refuse(11, 0)
    } else {
        by_bucket
    };
    assert_eq!(verdict(&rec, rate, buffer, fullness), by_bucket);

    assert_eq!((rate % 64, buffer % 16), (0, 0));
    let params = Params {
        bit_rate_scale: 0,
        cpb_size_scale: 0,
        rows: vec![Row {
            bit_rate_value_minus1: rate / 64 - 1,
            cpb_size_value_minus1: buffer / 16 - 1,
            cbr_flag: stream.cbr_flag,
        }],
        initial_cpb_removal_delay_length_minus1: 0,
        cpb_removal_delay_length_minus1: 0,
        dpb_output_delay_length_minus1: 0,
        time_offset_length: 0,
    };
    assert_eq!(row_verdict(&rec, &params, 0, fullness), by_row);

    if let Ok(verdict) = by_bucket {
        let least = least(&rec, rate).unwrap();
        let enough = least.buffer <= buffer && least.fullness <= fullness;
        assert_eq!(verdict == Verdict::Holds, enough);
    }
}

#[test]
fn the_eight_recordings() {
    check(include_str!("../../data/recordings/a01_test25.txt"), 250);
    check(include_str!("../../data/recordings/a06_cuts2398.txt"), 200);
    check(
        include_str!("../../data/recordings/b04_pulldown32.txt"),
        160,
    );
    check(include_str!("../../data/recordings/c01_cbr25.txt"), 150);
    check(include_str!("../../data/recordings/d01_underflow.txt"), 60);
    check(include_str!("../../data/recordings/e01_mkv25.txt"), 200);
    check(
        include_str!("../../data/recordings/f04_ff_rc_init.txt"),
        150,
    );
    check(
        include_str!("../../data/recordings/l01_4000_one_bp.txt"),
        4000,
    );
}
