//! A straightforward program for a table, one pass for each rate; it judges nothing.

use planner::Recording;

/// 4,096 pictures, two ticks of a fiftieth of a second apart, of sizes that no two rounds share.
pub fn pictures(round: u64) -> (Vec<u64>, Vec<u64>) {
    let mut state = round;
    let mut size = || {
        state = state
            .wrapping_mul(6_364_136_223_846_793_005)
            .wrapping_add(1);
        20_000 + (state >> 33) % 60_000
    };
    let sizes = (0..4096).map(|_| size()).collect();
    (sizes, (0..4096).map(|i| 2 * i).collect())
}

pub fn rates() -> Vec<u64> {
    (1..=32).map(|k| k * 100_000).collect()
}

pub fn table(rec: &Recording, rates: &[u64], buffers: &mut [u64], fullnesses: &mut [u64]) {
    for (k, rate) in rates.iter().enumerate() {
        let (first, mut last) = (rec.ticks[0], rec.ticks[0]);
        let (mut total, mut level, mut buffer, mut fullness) = (0, 0, 0, 0);
        for (size, tick) in rec.sizes.iter().zip(rec.ticks) {
            let bits = size * rec.ts;
            total += bits;
            level = u64::saturating_sub(level, rate * rec.nu * (tick - last)) + bits;
            buffer = u64::max(buffer, level);
            let need = u64::saturating_sub(total, rate * rec.nu * (tick - first));
            fullness = u64::max(fullness, need);
            last = *tick;
        }
        buffers[k] = buffer.div_ceil(rec.ts);
        fullnesses[k] = fullness.div_ceil(rec.ts);
    }
}
