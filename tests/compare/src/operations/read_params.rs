//! Reading a parameter record at a bit position.

use super::Case;
use crate::draws::{any_bytes, bytes_for, one_in, params, pick};
use crate::lent::{Bytes, MARGIN};
use crate::outcome::{settled, Answer, Outcome};
use crate::{by_oracle, damage};
use oracle::bits::write_params;
use oracle::xorshift::XorShift;
use planner::Params;

pub const KINDS: &[&str] = &["read"];
pub const REFUSALS: &[u8] = &[9, 10];

#[derive(Debug)]
pub struct ReadParams {
    pub lent: Bytes,
}

pub fn draw(random: &mut XorShift) -> Box<dyn Case> {
    Box::new(ReadParams {
        lent: record_bytes(random),
    })
}

/// The bytes of a record, or any bytes, half of these with few ones or none.
fn record_bytes(random: &mut XorShift) -> Bytes {
    if one_in(random, 4) {
        let (short, any) = (random.range(0, 8), random.range(0, 40));
        let length = pick(random, &[short, any]) as usize;
        let mut list = any_bytes(random, MARGIN + length + MARGIN);
        if one_in(random, 2) {
            let any = random.draw();
            let rare = pick(random, &[0, any]);
            for byte in &mut list {
                *byte &= (rare & random.draw() & random.draw()) as u8;
            }
        }
        return Bytes {
            start: random.range(0, 31),
            list,
        };
    }
    let params = params(random);
    let mut bytes = bytes_for(random, &params);
    let end = bytes.list.len() - MARGIN;
    write_params(
        &by_oracle::params_of(&params),
        &mut bytes.list[MARGIN..end],
        bytes.start,
    )
    .expect("the drawn bytes have room");
    bytes
}

impl Case for ReadParams {
    fn damage(&mut self, random: &mut XorShift, first: bool) {
        if first {
            turn_bits(random, &mut self.lent)
        } else {
            damage::bytes(random, &mut self.lent)
        }
    }

    fn by_library(&self) -> Outcome {
        self.lent.lend(|bytes| {
            let result = planner::read_params(bytes, self.lent.start);
            settled(result, |(params, next)| read(&params, next))
        })
    }

    fn by_oracle(&self) -> Outcome {
        self.lent.lend(|bytes| {
            let result = oracle::bits::read_params(bytes, self.lent.start);
            settled(result, |(params, next)| {
                read(&by_oracle::params_from(&params), next)
            })
        })
    }
}

/// Some bits turned, near the start or anywhere.
fn turn_bits(random: &mut XorShift, lent: &mut Bytes) {
    let end = 8 * (lent.list.len() - 2 * MARGIN) as u64;
    let Some(last) = end.checked_sub(1) else {
        return;
    };
    for _ in 0..random.range(1, 3) {
        let near = lent.start.saturating_add(random.range(0, 40));
        let any = random.range(0, last);
        let position = pick(random, &[near.min(last), any]);
        lent.list[MARGIN + (position / 8) as usize] ^= 0x80 >> (position % 8);
    }
}

fn read(params: &Params, next: u64) -> Answer {
    let Params {
        cpb_cnt,
        bit_rate_scale,
        cpb_size_scale,
        bit_rate_value_minus1,
        cpb_size_value_minus1,
        cbr_flag,
        initial_cpb_removal_delay_length_minus1,
        cpb_removal_delay_length_minus1,
        dpb_output_delay_length_minus1,
        time_offset_length,
    } = *params;
    let before = [cpb_cnt as u64, bit_rate_scale, cpb_size_scale];
    let after = [
        initial_cpb_removal_delay_length_minus1,
        cpb_removal_delay_length_minus1,
        dpb_output_delay_length_minus1,
        time_offset_length,
        next,
    ];
    let rows = [bit_rate_value_minus1, cpb_size_value_minus1, cbr_flag].concat();
    Answer::given("read", [&before[..], &rows, &after].concat())
}
