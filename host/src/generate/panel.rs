//! Calls on the panel: floats about a figure's range, and runs of writes that end in register 99.

use super::{figures, float_bits, Rng};
use crate::{APPLY, RST};
use model::panel::{Figure, ROWS};
use model::sheet::most;
use model::value::{scaled, Range, STEPS};
use model::Figures;

/// The number of a register, and the bits to write there.
pub type Write = (u16, u32);

/// 004's numbers; CMAX and SMAX stand next to CMIN and SMIN, a column's points next to the first.
const CMIN: u16 = 44;
const CLN: u16 = 50;
const CLX: u16 = 51;
const CLK: u16 = 61;
const SMIN: u16 = 74;
const CTN: u16 = 110;
const CT: u16 = 111;

/// A figure as its register would show it.
fn bits_of(f: &Figures, number: u16) -> u32 {
    let figure = Figure::at(number).expect("a figure's register");
    scaled(figure.read(f), figure.range().scale).to_bits()
}

/// A register of a figure; a count or a limit as often as one of a whole column.
pub fn register(rng: &mut Rng) -> u16 {
    let row = &ROWS[rng.below(ROWS.len() as u64) as usize];
    rng.range(row.first.into(), row.last.into()) as u16
}

/// The bits of a float about a range: its ends, counts, halves of a count, and what is apt to go wrong anywhere.
pub fn bits_about(rng: &mut Rng, range: Range) -> u32 {
    let Range { scale, least, most } = range;
    let bits = match rng.below(8) {
        0 => return float_bits(rng),
        1 => scaled(rng.pick(&[least, most]), scale).to_bits(),
        2 => scaled(rng.pick(&[least, most]) + rng.range(-1, 1), scale).to_bits(),
        3 => scaled(rng.range(-3, 3), scale).to_bits(),
        4 | 5 => scaled(2 * (rng.range(least, most) >> rng.below(36)) + 1, scale + 1).to_bits(),
        _ => scaled(rng.range(least, most), scale).to_bits(),
    };
    bits.wrapping_add(rng.pick(&[0, 0, 0, 0, 1, u32::MAX])) ^ rng.pick(&[0, 0, 0, 0x8000_0000])
}

/// Writes of acceptable figures, as floats, begun anywhere; points past a count may be anything.
fn written(rng: &mut Rng, f: &Figures) -> Vec<Write> {
    let mut writes = Vec::new();
    let junk = rng.one_in(2);
    for row in &ROWS {
        let points = if row.first < CTN { f.cln } else { f.ctn };
        for number in row.first..=row.last {
            let past = number - row.first >= points.into();
            let bits = if junk && past { bits_about(rng, row.range) } else { bits_of(f, number) };
            writes.push((number, bits));
        }
    }
    let turned = rng.below(writes.len() as u64) as usize;
    writes.rotate_left(turned);
    writes
}

/// Those of one section: cell, temperature, linearity, system, filter.
fn section(rng: &mut Rng, writes: &mut Vec<Write>) {
    let (first, last) = rng.pick(&[(40, 45), (CTN, 125), (CLN, 67), (70, 75), (92, 93)]);
    writes.retain(|(number, _)| (first..=last).contains(number));
}

/// A write that takes a figure over from another register, or moves one, so that a sheet is apt to be refused.
fn breach(rng: &mut Rng, f: &Figures) -> Write {
    let ct = rng.range(0, i64::from(f.ctn) - 2) as u16;
    let clx = rng.range(0, i64::from(f.cln) - 2) as u16;
    match rng.below(6) {
        0 => (CMIN, bits_of(f, CMIN + 1)),
        1 => (SMIN + 1, bits_of(f, SMIN)),
        2 => (CT + ct + 1, bits_of(f, CT + ct)),
        3 => (CLX + clx, bits_of(f, CLX + clx + 1)),
        4 => {
            let (before, after) = (f.linearity[usize::from(clx)], f.linearity[usize::from(clx) + 1]);
            let steep = before.clk + rng.pick(&[1, -1]) * ((after.clx - before.clx) / 4 + 1);
            (CLK + clx + 1, scaled(steep.clamp(-most::CLK, most::CLK), STEPS).to_bits())
        }
        _ => rng.pick(&[(CTN, 5_f32.to_bits()), (CLN, 7_f32.to_bits())]),
    }
}

/// A run of writes, the last one first: figures or a section of them, perhaps a breach, then 99, rarely RST before it.
pub fn run(rng: &mut Rng) -> Vec<Write> {
    let f = figures(rng);
    let mut writes = written(rng, &f);
    if rng.one_in(2) {
        section(rng, &mut writes);
    }
    if rng.one_in(3) {
        writes.push(breach(rng, &f));
    }
    if rng.one_in(12) {
        writes.push((RST, float_bits(rng)));
    }
    writes.push((APPLY, float_bits(rng)));
    writes.reverse();
    writes
}
