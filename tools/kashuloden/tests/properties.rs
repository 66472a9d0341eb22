//! Every command on random input: its text, its CSV and its JSON have the library's figures.

mod common;

use common::draws::{bucket, pick, rate, rates, recording, up_to_bits, Drawn};
use common::read::{csv, json, maybe, number, people, Row};
use common::{call, folder, run};
use oracle::xorshift::XorShift;
use planner::{Bucket, Params, Reading, Table, Verdict};

const CASES: usize = 40;

/// The rows that a call prints, the same from CSV, from JSON and, as far as they are shown and to the
/// digits that are, from the text for people.
fn rows(line: &str, input: &str) -> Vec<Row> {
    let said = |more: &str| call(&format!("{line}{more}"), input).answer();
    let rows = csv(&said(" --csv"));
    assert_eq!(json(&said(" --json")), rows, "{line}");
    let shown = people(&said(""));
    assert_eq!(shown.len(), rows.len(), "{line}");
    for (shown, row) in shown.iter().zip(&rows) {
        for (name, value) in shown {
            same(value, &row[name]);
        }
    }
    rows
}

/// Two words, the first perhaps rounded.
#[track_caller]
fn same(shown: &str, exact: &str) {
    match shown.split_once('.') {
        None => assert_eq!(shown, exact),
        Some((_, digits)) => {
            let exact: f64 = exact.parse().unwrap();
            assert_eq!(shown, format!("{exact:.*}", digits.len()));
        }
    }
}

fn is_bucket(row: &Row, rate: u64, bucket: Bucket) {
    assert_eq!(number::<u64>(row, "rate"), rate);
    assert_eq!(number::<u64>(row, "buffer"), bucket.buffer);
    assert_eq!(number::<u64>(row, "start"), bucket.fullness);
    let seconds = planner::seconds(rate, bucket).ok();
    assert_eq!(maybe(row, "wait"), seconds.map(|seconds| seconds.wait));
    assert_eq!(maybe(row, "fill"), seconds.map(|seconds| seconds.fill));
}

fn is_verdict(row: &Row, verdict: Verdict) {
    let (words, picture, units) = match verdict {
        Verdict::Holds => ("holds", None, None),
        Verdict::Late { picture, units } => ("late", Some(picture), Some(units)),
    };
    assert_eq!(row["verdict"], words);
    assert_eq!(maybe(row, "late_picture"), picture);
    assert_eq!(maybe(row, "late_units"), units);
}

fn joined(numbers: &[u64]) -> String {
    let words: Vec<String> = numbers.iter().map(u64::to_string).collect();
    words.join(",")
}

/// The least buckets of some rates.
fn table_of(drawn: &Drawn, rates: &[u64]) -> Vec<Bucket> {
    let (mut buffers, mut fullnesses) = (vec![0; rates.len()], vec![0; rates.len()]);
    planner::table(&drawn.recording(), rates, 0, &mut buffers, &mut fullnesses).unwrap();
    let both = buffers.into_iter().zip(fullnesses);
    both.map(|(buffer, fullness)| Bucket { buffer, fullness })
        .collect()
}

fn span(drawn: &Drawn) -> u64 {
    drawn.ticks[drawn.ticks.len() - 1] - drawn.ticks[0]
}

#[test]
fn plan_and_lookup() {
    let random = &mut XorShift::new(1);
    let folder = folder("plan_and_lookup");
    for _ in 0..CASES {
        let drawn = recording(random);
        let count = pick(random, &[1, 2, 5, 32]);
        let asked = rates(random, count);
        let line = format!("plan - --rates {}", joined(&asked));
        let buckets = table_of(&drawn, &asked);
        let printed = rows(&line, &drawn.text());
        assert_eq!(printed.len(), asked.len());
        for ((row, &rate), &bucket) in printed.iter().zip(&asked).zip(&buckets) {
            is_bucket(row, rate, bucket);
            let facts = ["ts", "nu", "span"].map(|name| number::<u64>(row, name));
            assert_eq!(facts, [drawn.ts, drawn.nu, span(&drawn)]);
        }

        let table = Table {
            rates: &asked,
            buffers: &Vec::from_iter(buckets.iter().map(|bucket| bucket.buffer)),
            fullnesses: &Vec::from_iter(buckets.iter().map(|bucket| bucket.fullness)),
            ts: drawn.ts,
            nu: drawn.nu,
            span: span(&drawn),
        };
        let rate = rate(random);
        let found = planner::look_up(&table, rate).unwrap();
        for form in ["", " --csv"] {
            let file = folder.join("table");
            let file = file.to_str().unwrap();
            call(&format!("{line}{form} --out {file}"), drawn.text()).answer();
            let printed = rows(&format!("lookup {file} --rate {rate}"), "");
            is_bucket(&printed[0], rate, found);
        }
    }
}

#[test]
fn least() {
    let random = &mut XorShift::new(2);
    for _ in 0..CASES {
        let (drawn, rate) = (recording(random), rate(random));
        let printed = rows(&format!("least - --rate {rate}"), &drawn.text());
        let least = planner::least(&drawn.recording(), rate).unwrap();
        assert_eq!(printed.len(), 1);
        is_bucket(&printed[0], rate, least);
    }
}

#[test]
fn curve() {
    let random = &mut XorShift::new(3);
    for _ in 0..CASES / 4 {
        let drawn = recording(random);
        let (ends, of_table) = (rates(random, 2), rates(random, 3));
        let points = random.range(2, 20);
        let line = format!(
            "curve - --from {} --to {} --points {points} --rates {}",
            ends[0],
            ends[1],
            joined(&of_table)
        );
        let printed = rows(&line, &drawn.text());
        let at: Vec<u64> = printed.iter().map(|row| number(row, "rate")).collect();
        assert_eq!((at[0], at[at.len() - 1]), (ends[0], ends[1]));
        assert!(at.windows(2).all(|pair| pair[0] < pair[1]));
        let inner = of_table
            .iter()
            .filter(|rate| (ends[0]..=ends[1]).contains(rate));
        assert!(inner.clone().all(|rate| at.contains(rate)));
        assert!(at.len() <= points as usize + inner.count());
        for row in &printed {
            let rate = number(row, "rate");
            let least = planner::least(&drawn.recording(), rate).unwrap();
            is_bucket(row, rate, least);
            let place = of_table.iter().position(|one| *one == rate);
            assert_eq!(maybe(row, "row"), place);
            let chord = |name: &str| number::<u64>(row, name);
            assert!(chord("lookup_buffer") >= least.buffer);
            assert!(chord("lookup_start") >= least.fullness);
            let on_row = chord("lookup_buffer") == least.buffer;
            assert!(place.is_none() || on_row);
        }
    }
}

#[test]
fn verdict_and_schedule() {
    let random = &mut XorShift::new(4);
    let mut held = 0;
    for _ in 0..CASES {
        let (drawn, rate) = (recording(random), rate(random));
        let bucket = bucket(random, &drawn, rate);
        let Bucket { buffer, fullness } = bucket;
        let asked = format!("- --rate {rate} --buffer {buffer} --start {fullness}");
        let verdict = planner::verdict(&drawn.recording(), rate, bucket).unwrap();
        held += usize::from(verdict == Verdict::Holds);
        let printed = rows(&format!("verdict {asked}"), &drawn.text());
        is_verdict(&printed[0], verdict);
        is_bucket(&printed[0], rate, bucket);

        let count = drawn.sizes.len();
        let (mut starts, mut ends) = (vec![0; count], vec![0; count]);
        let rec = drawn.recording();
        planner::schedule(&rec, rate, bucket, 0, &mut starts, &mut ends).unwrap();
        let printed = rows(&format!("schedule {asked}"), &drawn.text());
        assert_eq!(printed.len(), count);
        for (picture, row) in printed.iter().enumerate() {
            is_verdict(row, verdict);
            let whole = |name: &str| number::<u64>(row, name);
            assert_eq!(whole("picture"), picture as u64);
            assert_eq!(whole("size"), drawn.sizes[picture]);
            assert_eq!(whole("tick"), drawn.ticks[picture]);
            assert_eq!(whole("arrival_start_units"), starts[picture]);
            assert_eq!(whole("arrival_end_units"), ends[picture]);
        }
    }
    assert!((1..CASES).contains(&held));
}

#[test]
fn seconds_and_panel() {
    let random = &mut XorShift::new(5);
    for _ in 0..CASES {
        let rate = rate(random);
        let buffer = up_to_bits(random, 36);
        let fullness = random.range(1, buffer);
        let bucket = Bucket { buffer, fullness };
        let asked = format!("--rate {rate} --buffer {buffer} --start {fullness}");
        is_bucket(&rows(&format!("seconds {asked}"), "")[0], rate, bucket);

        let wait = planner::seconds(rate, bucket).unwrap().wait;
        let limit = pick(random, &[wait, wait / 2.0, wait * 2.0]);
        let printed = rows(&format!("panel {asked} --limit {limit}"), "");
        let words = match planner::panel(rate, bucket, limit).unwrap() {
            Reading::Within(_) => "within",
            Reading::Over(_, _) => "over",
        };
        assert_eq!(printed[0]["reading"], words);
        assert_eq!(number::<f64>(&printed[0], "wait"), wait);
        assert_eq!(number::<f64>(&printed[0], "limit"), limit);
    }
}

/// A record whose rates are in a bucket's range.
fn params(random: &mut XorShift) -> Params {
    let mut params = Params {
        cpb_cnt: random.range(1, 6) as usize,
        bit_rate_scale: random.range(0, 3),
        cpb_size_scale: random.range(0, 3),
        initial_cpb_removal_delay_length_minus1: random.range(0, 31),
        cpb_removal_delay_length_minus1: random.range(0, 31),
        dpb_output_delay_length_minus1: random.range(0, 31),
        time_offset_length: random.range(0, 31),
        ..Params::default()
    };
    let rates = rates(random, params.cpb_cnt);
    for (row, rate) in rates.into_iter().enumerate() {
        params.bit_rate_value_minus1[row] = rate / 512 + row as u64;
        params.cpb_size_value_minus1[row] = (1 << (20 - row)) - 1;
        params.cbr_flag[row] = random.range(0, 1);
    }
    params
}

/// The text that `hrd --write` takes.
fn fields(params: &Params) -> String {
    let rows = (0..params.cpb_cnt).map(|row| {
        format!(
            "row {} {} {}\n",
            params.bit_rate_value_minus1[row],
            params.cpb_size_value_minus1[row],
            params.cbr_flag[row]
        )
    });
    let rows: String = rows.collect();
    format!(
        "{rows}bit_rate_scale {}\ncpb_size_scale {}\n\
         initial_cpb_removal_delay_length_minus1 {}\ncpb_removal_delay_length_minus1 {}\n\
         dpb_output_delay_length_minus1 {}\ntime_offset_length {}\n",
        params.bit_rate_scale,
        params.cpb_size_scale,
        params.initial_cpb_removal_delay_length_minus1,
        params.cpb_removal_delay_length_minus1,
        params.dpb_output_delay_length_minus1,
        params.time_offset_length
    )
}

#[test]
fn records() {
    let random = &mut XorShift::new(6);
    let folder = folder("records");
    let path = |name: &str| folder.join(name).to_str().unwrap().to_string();
    let (file, record, written) = (path("file"), path("record"), path("written"));
    let mut met = std::collections::BTreeSet::new();
    for _ in 0..CASES {
        let params = params(random);
        let at = random.range(0, 40);
        let mut bytes: Vec<u8> = (0..150).map(|_| random.draw() as u8).collect();
        std::fs::write(&file, &bytes).unwrap();
        let line = format!("hrd --write - --at {at} --into {file} --out {written}");
        call(&line, fields(&params)).answer();
        let next = planner::write_params(&params, &mut bytes, at).unwrap();
        assert_eq!(std::fs::read(&written).unwrap(), bytes);

        let drawn = recording(random);
        std::fs::write(&record, drawn.text()).unwrap();
        let fullness = up_to_bits(random, 24);
        let asked = format!("hrd {written} --at {at} --recording {record} --start {fullness}");
        let printed = csv(&call(&format!("{asked} --csv"), "").answer());
        assert_eq!(
            json(&call(&format!("{asked} --json"), "").answer()),
            printed
        );
        assert_eq!(printed.len(), params.cpb_cnt);
        for (k, row) in printed.iter().enumerate() {
            let whole = |name: &str| number::<u64>(row, name);
            assert_eq!(
                [whole("row"), whole("at"), whole("next")],
                [k as u64, at, next]
            );
            let figures = planner::params_row(&params, k).unwrap();
            assert_eq!([whole("rate"), whole("size")], [figures.rate, figures.size]);
            match planner::row_verdict(&drawn.recording(), &params, k, fullness) {
                Ok(verdict) => is_verdict(row, verdict),
                Err(refused) => {
                    assert_eq!(row["verdict"], "refused");
                    assert_eq!(number::<u8>(row, "refused"), refused.number);
                }
            }
            met.insert(row["verdict"].clone());
        }
        // The text for people is what --write takes.
        let text = call(&asked, "").answer();
        let again = run(&["hrd", "--write", "--at", "7"], text.as_bytes());
        let (read, _) = planner::read_params(&again.out, 7).unwrap();
        assert_eq!(read, params);
    }
    assert_eq!(
        met.into_iter().collect::<Vec<_>>(),
        ["holds", "late", "refused"]
    );
}
