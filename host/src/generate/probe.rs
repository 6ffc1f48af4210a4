//! Readings by a platinum probe, and which edges of paper 02's Change 8 they reached.

use super::Rng;
use model::probe::{COLDEST, LEAST, MOST, TABLE};
use model::{fit, Device, Sample};
use std::fmt;

/// The largest ELEC that a reading takes.
const ELEC: i64 = 19_660_800;

/// A reading for a device with a resistance in the place of TEMP; one of ten would be 9 whatever it is.
pub fn sample(rng: &mut Rng, d: &Device) -> Sample {
    let (mut elec, temp, mut integrity) = super::sample(rng, d);
    if rng.one_in(10) {
        match rng.below(2) {
            0 => elec = rng.pick(&[-ELEC - 1, ELEC + 1, i64::MIN, i64::MAX]),
            _ => integrity = rng.pick(&[2, 3, 128, 255]),
        }
    }
    (elec, resistance(rng, temp), integrity)
}

/// Any that is taken, often at an entry or beside it, at an end, or about where TEMP is; or one beyond the table.
fn resistance(rng: &mut Rng, temp: i64) -> i64 {
    let at = rng.below(TABLE.len() as u64) as usize;
    match rng.below(10) {
        0 => rng.pick(&[LEAST, MOST]) + rng.range(-2, 2),
        1 => TABLE[at],
        2 | 3 => TABLE[at] + rng.range(-2, 2),
        4 => (TABLE[at] + TABLE[(at + 1).min(TABLE.len() - 1)]) / 2,
        5 => {
            let celsius = (temp >> 16) - COLDEST;
            let about = usize::try_from(celsius).ok().and_then(|at| TABLE.get(at)).unwrap_or(&TABLE[90 + 50]);
            about + rng.range(-1, 4_000)
        }
        6 => match rng.below(5) {
            0 => rng.pick(&[0, -1, i64::MIN, i64::MAX, -LEAST, -MOST]),
            // what a count of 32 bits, or of 16, would take for one within
            1 => rng.range(LEAST, MOST) + (rng.range(-4, 4) << 32),
            2 => rng.range(LEAST, MOST) + (rng.range(-20, 20) << 16),
            3 => rng.range(0, 2 * MOST),
            _ => rng.bits() as i64 >> rng.below(64),
        },
        _ => rng.range(LEAST, MOST),
    }
}

/// What probe calls met, on four devices.
#[derive(Default)]
pub struct Reached {
    accepted: u64,
    /// Of each entry, how often it was taken; one beside an entry; one end and the other.
    entries: Vec<u64>,
    beside: u64,
    ends: [u64; 2],
    /// TEMP below 0 °C, and above 90 °C.
    frost: u64,
    hot: u64,
    /// With the filter on, after a reading by TEMP; and such a one after a probe's.
    turns: [u64; 2],
    /// Refused with 20: one below the table, one above, all others; those that would have been 9.
    beyond: [u64; 3],
    both: u64,
    /// Refused with 9: by ELEC, by the integrity byte alone.
    bad: [u64; 2],
    /// Of each device, whether its last reading was a probe's.
    last: [bool; 4],
}

impl Reached {
    /// A probe call on the device at this place.
    pub fn add(&mut self, at: usize, sample: &Sample, number: u8, before: &Device) {
        let (elec, resistance, integrity) = *sample;
        let nine = !fit(elec, 0, integrity);
        match number {
            0 => self.take(at, resistance, before),
            20 => {
                let kind = [LEAST - 1, MOST + 1].iter().position(|end| resistance == *end).unwrap_or(2);
                self.beyond[kind] += 1;
                self.both += u64::from(nine);
            }
            _ => self.bad[usize::from(fit(elec, 0, 0))] += 1,
        }
    }

    fn take(&mut self, at: usize, resistance: i64, before: &Device) {
        self.accepted += 1;
        self.entries.resize(TABLE.len(), 0);
        match TABLE.binary_search(&resistance) {
            Ok(entry) => self.entries[entry] += 1,
            Err(next) => {
                let near = &TABLE[next.saturating_sub(1)..TABLE.len().min(next + 1)];
                self.beside += u64::from(near.iter().any(|entry| (entry - resistance).abs() == 1));
            }
        }
        self.ends[0] += u64::from(resistance == LEAST);
        self.ends[1] += u64::from(resistance == MOST);
        self.frost += u64::from(resistance < TABLE[50]);
        self.hot += u64::from(resistance > TABLE[50 + 90]);
        self.turn(at, true, before);
    }

    /// An accepted reading, by a probe or by TEMP, of the device at this place.
    pub fn turn(&mut self, at: usize, probe: bool, before: &Device) {
        let filtered = before.last.is_some() && before.figures.fflv > 0 && before.figures.ffst > 0;
        self.turns[usize::from(!probe)] += u64::from(filtered && self.last[at] != probe);
        self.last[at] = probe;
    }
}

impl fmt::Display for Reached {
    fn fmt(&self, f: &mut fmt::Formatter) -> fmt::Result {
        let Reached { accepted, entries, beside, ends: [least, most], frost, hot, turns, beyond, both, bad, .. } = self;
        let met = entries.iter().filter(|times| **times > 0).count();
        write!(f, "probe: {accepted} accepted, at an entry {} ({met} entries met), ", entries.iter().sum::<u64>())?;
        writeln!(f, "one beside {beside}, at the least {least}, at the most {most}")?;
        let [after_temp, before_temp] = turns;
        write!(f, "       below 0 °C {frost}, above 90 °C {hot}; with the filter on ")?;
        writeln!(f, "after a reading by TEMP {after_temp}, before one {before_temp}")?;
        let ([below, above, others], [elec, integrity]) = (beyond, bad);
        write!(f, "       refused with 20: one below the table {below}, one above {above}, others {others}, ")?;
        writeln!(f, "where 9 would be due too {both}")?;
        write!(f, "       refused with 9: by ELEC {elec}, by the integrity byte alone {integrity}")
    }
}

#[cfg(test)]
mod tests {
    use super::*;
    use crate::generate::{done, Call, Calls};

    /// The generator is worth something: each edge comes up often, and every entry does.
    #[test]
    fn every_edge_is_reached() {
        let (mut calls, mut devices, mut reached) = (Calls::new(8), <[Device; 4]>::default(), Reached::default());
        for _ in 0..200_000 {
            let (call, at, number, before) = done(&mut calls, &mut devices);
            match call {
                Call::Probe(sample) => reached.add(at, &sample, number, &before),
                Call::Reading(_) if number == 0 => reached.turn(at, false, &before),
                _ => {}
            }
        }
        let Reached { beside, ends, frost, hot, turns, beyond, both, bad, .. } = &reached;
        let edges = [&[*beside, *frost, *hot, *both], &ends[..], &turns[..], &beyond[..], &bad[..]].concat();
        assert!(edges.iter().all(|times| *times > 100), "{reached}");
        assert!(reached.entries.iter().all(|times| *times > 0), "{reached}");
    }
}
