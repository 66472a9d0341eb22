//! The built library on eight recordings of video streams: the declared bucket gives the declared
//! verdict.

use planner::{verdict, Bucket, Recording, Refused, Verdict};
use std::path::Path;

const RECORDINGS: [(&str, usize); 8] = [
    ("a01_test25", 250),
    ("a06_cuts2398", 200),
    ("b04_pulldown32", 160),
    ("c01_cbr25", 150),
    ("d01_underflow", 60),
    ("e01_mkv25", 200),
    ("f04_ff_rc_init", 150),
    ("l01_4000_one_bp", 4000),
];

fn numbers(words: &str) -> Vec<u64> {
    let words = words.split(' ').filter(|word| *word != "cbr");
    words.map(|word| word.parse().unwrap()).collect()
}

fn declared(text: &str) -> Result<Verdict, Refused> {
    let by_bucket = text.trim_start_matches("refused 11 (through a row); by R, B, F: ");
    let words: Vec<&str> = by_bucket.split(' ').collect();
    match words[..] {
        ["holds"] => Ok(Verdict::Holds),
        ["late", picture, units] => Ok(Verdict::Late {
            picture: picture.parse().unwrap(),
            units: units.parse().unwrap(),
        }),
        ["refused", number, "at", place] => Err(Refused {
            number: number.parse().unwrap(),
            place: place.parse().unwrap(),
        }),
        _ => panic!("{text}"),
    }
}

fn check(text: &str, pictures: usize) {
    let mut lines = text.lines().filter(|line| !line.starts_with('#'));
    let mut after = |word| lines.next().unwrap().strip_prefix(word).unwrap();
    let clock = numbers(after("clock "));
    let asked = numbers(after("bucket "));
    let expected = declared(after("verdict "));
    let (sizes, ticks): (Vec<u64>, Vec<u64>) = lines
        .map(numbers)
        .map(|picture| (picture[0], picture[1]))
        .unzip();
    assert_eq!(sizes.len(), pictures);
    let rec = Recording {
        sizes: &sizes,
        ticks: &ticks,
        ts: clock[0],
        nu: clock[1],
    };
    let bucket = Bucket {
        buffer: asked[1],
        fullness: asked[2],
    };
    assert_eq!(verdict(&rec, asked[0], bucket), expected);
}

#[test]
fn the_eight_recordings() {
    let folder = Path::new(env!("CARGO_MANIFEST_DIR")).join("../data/recordings");
    for (name, pictures) in RECORDINGS {
        let text = std::fs::read_to_string(folder.join(format!("{name}.txt"))).unwrap();
        check(&text, pictures);
    }
}
