//! The sheets in examples/, each beside the text it is made of.

use oracle::recording::{Clock, Recording};
use oracle::sheet::{make_sheet, open_sheet, print};
use sheet::{make, show};
use std::fs::{read, read_dir, read_to_string};
use std::path::Path;

const RECORDING_D: &[u8] = include_bytes!("../../../examples/recording_d.sheet");
const TEST25: &[u8] = include_bytes!("../../../examples/test25.sheet");

#[test]
fn every_sheet_is_made_of_the_text_beside_it() {
    let folder = Path::new(env!("CARGO_MANIFEST_DIR")).join("../../examples");
    let paths = read_dir(folder).unwrap().map(|entry| entry.unwrap().path());
    for path in paths.filter(|path| path.extension() == Some("sheet".as_ref())) {
        let sheet = read(&path).unwrap();
        let text = read_to_string(path.with_extension("txt")).unwrap();
        assert_eq!(make(text.as_bytes()), Ok(sheet.clone()), "{path:?}");

        let lines = text.split_inclusive('\n');
        let uncommented: String = lines.filter(|line| !line.starts_with('#')).collect();
        assert_eq!(show(&sheet), Ok(uncommented), "{path:?}");
    }
}

#[test]
fn recording_d() {
    let rec = Recording {
        sizes: &[
            5000, 1000, 1000, 1000, 1000, 1000, 500, 500, 500, 500, 500, 500,
        ],
        ticks: &[0, 1, 2, 3, 4, 5, 6, 7, 8, 9, 10, 11],
        clock: Clock { ts: 1, nu: 1 },
    };
    assert_eq!(RECORDING_D, make_sheet(&rec, &[250, 500, 1000]));
    assert_eq!(
        print(RECORDING_D),
        "rate buffer start\n250 10250 10250\n500 7500 7500\n1000 5000 5000\n"
    );
}

#[test]
fn test25() {
    let recording = include_str!("../../../tests/data/recordings/a01_test25.txt");
    let text = recording.replace(
        "bucket 400000 400000 359995\nverdict holds\n",
        "rates 200000 225000 250000 275000 300000 400000\n",
    );
    assert_eq!(make(text.as_bytes()), Ok(TEST25.to_vec()));
    assert!(open_sheet(TEST25).is_ok());
}
