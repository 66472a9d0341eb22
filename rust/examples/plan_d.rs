//! Plans recording D of document 01 at 250, 500 and 1000 bits per second: the table of least
//! buckets, a schedule, a lookup between two rows and the reading of the driver's panel.

use planner::{
    look_up, panel, schedule, table, Bucket, Reading, Recording, Refused, Table, Verdict,
};

fn main() -> Result<(), Refused> {
    assert_eq!(planner::version(), planner::VERSION, "another library");
    let rec = Recording {
        sizes: &[
            5000, 1000, 1000, 1000, 1000, 1000, 500, 500, 500, 500, 500, 500,
        ],
        ticks: &[0, 1, 2, 3, 4, 5, 6, 7, 8, 9, 10, 11],
        ts: 1,
        nu: 1,
    };

    let rates = [250, 500, 1000];
    let mut buffers = [0; 3];
    let mut fullnesses = [0; 3];
    table(&rec, &rates, 0, &mut buffers, &mut fullnesses)?;
    println!("rate buffer start");
    for row in 0..3 {
        println!("{} {} {}", rates[row], buffers[row], fullnesses[row]);
    }

    let bucket = Bucket {
        buffer: 10000,
        fullness: 10000,
    };
    let mut starts = [0; 12];
    let mut ends = [0; 12];
    match schedule(&rec, 1000, bucket, 0, &mut starts, &mut ends)? {
        Verdict::Holds => println!("schedule at 1000: holds, last end {}", ends[11]),
        Verdict::Late { picture, units } => {
            println!("schedule at 1000: picture {picture} late by {units}")
        }
    }

    let rows = Table {
        rates: &rates,
        buffers: &buffers,
        fullnesses: &fullnesses,
        ts: 1,
        nu: 1,
        span: 11,
    };
    let found = look_up(&rows, 625)?;
    println!("lookup at 625: {} {}", found.buffer, found.fullness);

    match panel(625, found, 10.0)? {
        Reading::Within(wait) => println!("panel at 625: within, wait {wait:.1}"),
        Reading::Over(wait, limit) => {
            println!("panel at 625: over, wait {wait:.1}, limit {limit:.1}")
        }
    }
    Ok(())
}
