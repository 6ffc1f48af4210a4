//! A platinum probe (paper 02, Change 8): TEMP from the resistance of a Pt100 beside the cell.

use crate::device::{interpolate, round_div};
use crate::{Refusal, Result};

/// The table's first and last whole °C.
pub const COLDEST: i64 = -50;
pub const HOTTEST: i64 = 150;

const ENTRIES: usize = 201;

/// "The resistance by IEC 60751", in 0.0001 ohm, for each °C from the coldest to the hottest.
pub const TABLE: [i64; ENTRIES] = {
    let mut table = [0; ENTRIES];
    let mut i = 0;
    while i < ENTRIES {
        table[i] = round_div(formula(COLDEST + i as i64), 1_000_000_000);
        i += 1;
    }
    table
};

/// The least and the most that a probe call takes: the ends of the table.
pub const LEAST: i64 = TABLE[0];
pub const MOST: i64 = TABLE[ENTRIES - 1];

/// In units of 10^-13 ohm, of a whole °C; all of it is below 2 x 10^15.
const fn formula(t: i64) -> i64 {
    let above = 1_000_000_000_000_000 + 3_908_300_000_000 * t - 577_500_000 * t * t;
    if t < 0 {
        above - 4_183 * (t - 100) * t * t * t
    } else {
        above
    }
}

/// "TEMP is interpolated between entries, to a step, by step 2's rule"; 20 beyond the table.
pub fn temp(resistance: i64) -> Result<i64> {
    if !(LEAST..=MOST).contains(&resistance) {
        return Err(Refusal::Probe);
    }
    let not_above = TABLE.partition_point(|entry| *entry <= resistance);
    let from = (not_above - 1).min(ENTRIES - 2);
    let point = |&at: &usize| (TABLE[at], (COLDEST + at as i64) << 16);
    Ok(interpolate(resistance, &[from, from + 1], point))
}
