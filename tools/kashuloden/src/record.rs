//! A parameter record as text: a line for each field by its name in H.264 E.1.2, and a line `row` for
//! each row, with bit_rate_value_minus1, cpb_size_value_minus1 and cbr_flag. The count is that of the
//! rows.

use crate::fault::Fault;
use crate::input::{Input, Line};
use crate::options::whole;
use planner::limits::CPB_CNT_MAX;
use planner::Params;

const FIELDS: [&str; 6] = [
    "bit_rate_scale",
    "cpb_size_scale",
    "initial_cpb_removal_delay_length_minus1",
    "cpb_removal_delay_length_minus1",
    "dpb_output_delay_length_minus1",
    "time_offset_length",
];

/// How many of the fields the standard has before the rows.
pub const FIELDS_BEFORE_ROWS: usize = 2;

/// The fields outside the rows, by name and in order.
pub fn fields(params: &Params) -> [(&'static str, u64); 6] {
    let values = [
        params.bit_rate_scale,
        params.cpb_size_scale,
        params.initial_cpb_removal_delay_length_minus1,
        params.cpb_removal_delay_length_minus1,
        params.dpb_output_delay_length_minus1,
        params.time_offset_length,
    ];
    std::array::from_fn(|k| (FIELDS[k], values[k]))
}

/// A row's three values.
pub fn row(params: &Params, row: usize) -> [u64; 3] {
    [
        params.bit_rate_value_minus1[row],
        params.cpb_size_value_minus1[row],
        params.cbr_flag[row],
    ]
}

pub fn read(input: &Input) -> Result<Params, Fault> {
    let lines = input.lines()?;
    let mut reader = Reader::default();
    for line in &lines.said {
        let read = reader.read_line(line);
        read.map_err(|words| input.fault_at(line.number, &words))?;
    }
    let missing = |expected: &str| input.fault(lines.end, "the text ends", expected);
    if let Some(k) = (0..FIELDS.len()).find(|&k| reader.values[k].is_none()) {
        return Err(missing(&format!("the line {} and its value", FIELDS[k])));
    }
    if reader.params.cpb_cnt == 0 {
        return Err(missing("a row"));
    }
    Ok(reader.params())
}

#[derive(Default)]
struct Reader {
    values: [Option<u64>; FIELDS.len()],
    params: Params,
}

impl Reader {
    fn read_line(&mut self, line: &Line) -> Result<(), String> {
        match line.words()[..] {
            ["row", rate, size, flag] => self.read_row([rate, size, flag]),
            ["row", ..] => Err("a row; row and its three values are expected".to_string()),
            [name, value] => self.read_field(name, value),
            _ => Err(
                "a field's name and its value, or row and its three values, are expected"
                    .to_string(),
            ),
        }
    }

    fn read_row(&mut self, words: [&str; 3]) -> Result<(), String> {
        let params = &mut self.params;
        let row = params.cpb_cnt;
        if row == CPB_CNT_MAX {
            return Err(format!("a row more; at most {CPB_CNT_MAX} are expected"));
        }
        let lists = [
            &mut params.bit_rate_value_minus1,
            &mut params.cpb_size_value_minus1,
            &mut params.cbr_flag,
        ];
        for (list, word) in lists.into_iter().zip(words) {
            list[row] = whole(word, "a whole number, as coded,")?;
        }
        params.cpb_cnt += 1;
        Ok(())
    }

    fn read_field(&mut self, name: &str, value: &str) -> Result<(), String> {
        let Some(k) = FIELDS.iter().position(|field| *field == name) else {
            return Err(format!(
                "{name:?}; row or one of {} is expected",
                FIELDS.join(", ")
            ));
        };
        let value = whole(value, "a whole number, as coded,")?;
        match self.values[k].replace(value) {
            Some(_) => Err(format!("{name} a second time; each field is expected once")),
            None => Ok(()),
        }
    }

    fn params(self) -> Params {
        let value = |k: usize| self.values[k].unwrap_or_default();
        Params {
            bit_rate_scale: value(0),
            cpb_size_scale: value(1),
            initial_cpb_removal_delay_length_minus1: value(2),
            cpb_removal_delay_length_minus1: value(3),
            dpb_output_delay_length_minus1: value(4),
            time_offset_length: value(5),
            ..self.params
        }
    }
}
