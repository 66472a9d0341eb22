//! The built library on document 01's "Worked figures" and limits, and on the table of source
//! document 002.

use planner::{
    judge, least, look_up, panel, schedule, seconds, table, verdict, Bucket, Reading, Recording,
    Refused, Seconds, Table, Verdict,
};

const D: Recording = Recording {
    sizes: &[
        5000, 1000, 1000, 1000, 1000, 1000, 500, 500, 500, 500, 500, 500,
    ],
    ticks: &[0, 1, 2, 3, 4, 5, 6, 7, 8, 9, 10, 11],
    ts: 1,
    nu: 1,
};
const E: Recording = Recording {
    sizes: &[100, 100, 900, 100],
    ticks: &[0, 1, 2, 3],
    ts: 1,
    nu: 1,
};

const fn bucket(buffer: u64, fullness: u64) -> Bucket {
    Bucket { buffer, fullness }
}

fn late(picture: u64, units: u64) -> Result<Verdict, Refused> {
    Ok(Verdict::Late { picture, units })
}

fn refused<T>(number: u8, place: u64) -> Result<T, Refused> {
    Err(Refused { number, place })
}

/// Looks up a rate in a table whose buffers are its start fullnesses too, at one tick a second.
fn look_up_in(rates: &[u64], figures: &[u64], span: u64, rate: u64) -> Result<Bucket, Refused> {
    let rows = Table {
        rates,
        buffers: figures,
        fullnesses: figures,
        ts: 1,
        nu: 1,
        span,
    };
    look_up(&rows, rate)
}

#[test]
fn schedule_of_d() {
    let mut starts = [7; 14];
    let mut ends = [8; 15];
    let answer = schedule(&D, 1000, bucket(10000, 10000), 1, &mut starts, &mut ends);
    assert_eq!(answer, Ok(Verdict::Holds));
    assert_eq!(
        starts,
        [7, 0, 5000, 6000, 7000, 8000, 9000, 10000, 10500, 11000, 11500, 12000, 12500, 7]
    );
    assert_eq!(
        ends,
        [8, 5000, 6000, 7000, 8000, 9000, 10000, 10500, 11000, 11500, 12000, 12500, 13000, 8, 8]
    );
}

#[test]
fn least_figures_of_d() {
    for (rate, figure) in [
        (1000, 5000),
        (500, 7500),
        (250, 10250),
        (625, 6875),
        (100, 11900),
    ] {
        assert_eq!(least(&D, rate), Ok(bucket(figure, figure)));
    }
    let (mut buffers, mut fullnesses) = ([7; 5], [8; 4]);
    let answer = table(&D, &[250, 500, 1000], 1, &mut buffers, &mut fullnesses);
    assert_eq!(answer, Ok(()));
    assert_eq!(buffers, [7, 10250, 7500, 5000, 7]);
    assert_eq!(fullnesses, [8, 10250, 7500, 5000]);
}

#[test]
fn one_bit_less_than_the_first_picture_of_d() {
    assert_eq!(verdict(&D, 1000, bucket(4999, 4999)), late(0, 1));
    assert_eq!(verdict(&D, 1000, bucket(5000, 5000)), Ok(Verdict::Holds));
}

#[test]
fn lookups_of_d() {
    let between = look_up_in(&[250, 1000], &[10250, 5000], 11, 625);
    assert_eq!(between, Ok(bucket(7625, 7625)));
    let below = look_up_in(&[250], &[10250], 11, 100);
    assert_eq!(below, Ok(bucket(11900, 11900)));
    let above = look_up_in(&[1000], &[5000], 11, 2000);
    assert_eq!(above, Ok(bucket(5000, 5000)));
}

#[test]
fn recording_e() {
    assert_eq!(least(&E, 300), Ok(bucket(900, 500)));
    assert_eq!(verdict(&E, 300, bucket(900, 500)), Ok(Verdict::Holds));
    assert_eq!(verdict(&E, 300, bucket(899, 500)), late(2, 1));
    assert_eq!(verdict(&E, 300, bucket(900, 499)), late(2, 1));
}

#[test]
fn least_figures_are_rounded_up() {
    let rec = Recording {
        sizes: &[10, 10],
        ticks: &[0, 1],
        ts: 3,
        nu: 1,
    };
    assert_eq!(least(&rec, 10), Ok(bucket(17, 17)));
}

#[test]
fn buffers_of_source_document_002() {
    let rates = [50000, 100000, 150000, 200000, 250000, 300000];
    let buffers = [919317, 424338, 115992, 40211, 12691, 9656];
    let at = |rate| look_up_in(&rates, &buffers, 0, rate);
    assert_eq!(at(75000), Ok(bucket(671828, 671828)));
    assert_eq!(at(350000), Ok(bucket(9656, 9656)));
    for (rate, buffer) in rates.into_iter().zip(buffers) {
        assert_eq!(at(rate), Ok(bucket(buffer, buffer)));
    }
}

#[test]
fn counts_distances_and_fullness_at_their_limits() {
    let sizes = vec![1; 4_097];
    let ticks: Vec<u64> = (0..4_097).collect();
    let cut = |n: usize| Recording {
        sizes: &sizes[..n],
        ticks: &ticks[..n],
        ts: 1,
        nu: 1,
    };
    assert_eq!(judge(&cut(4_096)), Ok(()));
    assert_eq!(judge(&cut(4_097)), refused(1, 0));
    assert_eq!(judge(&cut(0)), refused(1, 0));
    let apart = |ticks| Recording {
        sizes: &[1, 1],
        ticks,
        ts: 1,
        nu: 1,
    };
    assert_eq!(judge(&apart(&[0, 65_536])), Ok(()));
    assert_eq!(judge(&apart(&[0, 65_537])), refused(5, 1));
    let spanning = |span| look_up_in(&[1000], &[5000], span, 1000);
    assert_eq!(spanning(65_536), Ok(bucket(5000, 5000)));
    assert_eq!(spanning(65_537), refused(3, 0));
    assert_eq!(verdict(&D, 1000, bucket(5000, 5000)), Ok(Verdict::Holds));
    assert_eq!(verdict(&D, 1000, bucket(5000, 5001)), refused(7, 0));
}

#[test]
fn a_refused_call_leaves_its_lent_lists() {
    let (mut first, mut second) = ([7; 12], [8; 11]);
    let lists = (&mut first[..], &mut second[..]);
    let ten = bucket(10000, 10000);
    assert_eq!(schedule(&D, 1000, ten, 0, lists.0, lists.1), refused(8, 0));
    let past = schedule(&D, 1000, ten, usize::MAX, lists.0, lists.1);
    assert_eq!(past, refused(8, 0));
    assert_eq!(table(&D, &[250, 250], 0, lists.0, lists.1), refused(6, 1));
    assert_eq!(first, [7; 12]);
    assert_eq!(second, [8; 11]);
}

#[test]
fn seconds_of_ten_thousand_bits() {
    let ten = bucket(10000, 10000);
    let expected = Seconds {
        wait: 10.0,
        fill: 10.0,
    };
    assert_eq!(seconds(1000, ten), Ok(expected));
    assert_eq!(panel(1000, ten, 10.0), Ok(Reading::Within(10.0)));
    let below = f64::from_bits(10.0_f64.to_bits() - 1);
    assert_eq!(panel(1000, ten, below), Ok(Reading::Over(10.0, below)));
    for no_limit in [0.0, -0.0, -1.0, f64::NAN, f64::INFINITY] {
        assert_eq!(panel(1000, ten, no_limit), refused(13, 0));
    }
}

/// Largest values that 32 bits, or 64 with a sign, could lose.
#[test]
fn largest_values() {
    let full = 1 << 36;
    let far = Recording {
        sizes: &[1, 1 << 24],
        ticks: &[u64::MAX - (1 << 16), u64::MAX],
        ts: 1 << 17,
        nu: 1 << 16,
    };
    let (mut starts, mut ends) = ([0; 2], [0; 2]);
    let answer = schedule(&far, 1 << 27, bucket(full, full), 0, &mut starts, &mut ends);
    assert_eq!(answer, Ok(Verdict::Holds));
    assert_eq!(starts, [0, 1 << 59]);
    assert_eq!(ends, [1 << 17, (1 << 59) + (1 << 41)]);

    let ticks: Vec<u64> = (0..4_096).collect();
    let heaviest = Recording {
        sizes: &[1 << 24; 4_096],
        ticks: &ticks,
        ts: 1 << 17,
        nu: 1,
    };
    assert_eq!(least(&heaviest, 1), Ok(bucket(full, full)));

    let rows = Table {
        rates: &[1, 1 << 27],
        buffers: &[full, full],
        fullnesses: &[full, 1],
        ts: 1,
        nu: 1 << 16,
        span: 1 << 16,
    };
    // 2^36 - (2^36 - 1) / (2^27 - 1), the quotient being a little above 512
    assert_eq!(look_up(&rows, 2), Ok(bucket(full, full - 512)));
    let last = Table {
        rates: &[1 << 27],
        buffers: &[full],
        fullnesses: &[full],
        ..rows
    };
    let grown = (1 << 59) + (1 << 36) - (1 << 32);
    assert_eq!(look_up(&last, 1), Ok(bucket(grown, grown)));
}
