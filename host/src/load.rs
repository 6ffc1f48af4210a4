//! A heavier bridge signal beside a lighter one: "More load, more weight" (paper 02, Change 14).
//!
//! Two devices of one set of figures, with the filter off, take readings at one temperature, by TEMP or by a probe, with
//! other calls before and between them. Of any two readings the one of the larger ELEC is never the lighter, or never the
//! heavier, by the signs of the gains: in steps, and as the floats that a master reads.

use crate::generate::{figures, float_bits, probe, sample, sheet, Rng};
use crate::{read_frame, write_frame, Converter};
use model::Figures;
use std::cmp::Ordering;

/// CRAW, CELL, SRAW and SYS.
const VALUES: usize = 4;

/// Their registers.
const WEIGHTS: [u16; VALUES] = [15, 13, 12, 10];

/// What a reading gave: ELEC, and its values in steps and as floats on the bus.
#[derive(Clone, Copy, Debug)]
struct Weighed {
    elec: i64,
    steps: [i64; VALUES],
    floats: [f32; VALUES],
}

/// The float that a master reads.
fn read<C: Converter>(device: &mut C, register: u16) -> f32 {
    let mut reply = [0; 9];
    let answered = device.frame(&read_frame(1, 2 * register), &mut reply);
    assert_eq!(answered, (0, 9), "register {register}");
    f32::from_bits(u32::from_be_bytes([reply[5], reply[6], reply[3], reply[4]]))
}

fn weighed<C: Converter>(device: &mut C) -> Weighed {
    let r = device.state().last.expect("a reading");
    let floats = WEIGHTS.map(|register| read(device, register));
    Weighed { elec: r.input, steps: [r.craw, r.cell, r.sraw, r.sys], floats }
}

/// What goes the wrong way from the one to the other, of which ELEC is no smaller: "CGAI and SGAI both at least 0, a larger
/// ELEC never gives a smaller CRAW, CELL, SRAW or SYS. If exactly one of the gains is below 0, a larger ELEC never gives a
/// larger SYS." With both below 0 SYS rises again.
fn wrong(f: &Figures, less: &Weighed, more: &Weighed) -> Option<&'static str> {
    let names = ["CRAW", "CELL", "SRAW", "SYS"];
    let judged = if f.cgai >= 0 && f.sgai >= 0 { 0..VALUES } else { VALUES - 1..VALUES };
    let (less, more) = if (f.cgai < 0) == (f.sgai < 0) { (less, more) } else { (more, less) };
    // A NaN is in no order.
    let falls = |&at: &usize| {
        less.steps[at] > more.steps[at] || !less.floats[at].partial_cmp(&more.floats[at]).is_some_and(Ordering::is_le)
    };
    judged.into_iter().find(falls).map(|at| names[at])
}

/// What was compared.
#[derive(Debug, Default, PartialEq)]
pub struct Followed {
    /// Pairs of devices, their readings, and those of them by a probe.
    pub pairs: u64,
    pub readings: u64,
    pub by_probe: u64,
    /// Neighbours in ELEC: by whether CGAI, and SGAI, is below 0; those one step apart; and those that differ in SYS.
    pub signs: [[u64; 2]; 2],
    pub one_step: u64,
    pub differing: u64,
}

/// Readings that a pair of devices takes.
const RUN: usize = 16;

/// As many pairs. An error says what went the wrong way where.
pub fn run<C: Converter>(pairs: u64, seed: u64) -> Result<Followed, String> {
    let (mut rng, mut seen) = (Rng::new(seed), Followed::default());
    for _ in 0..pairs {
        let mut f = figures(&mut rng);
        if rng.one_in(2) {
            f.fflv = 0;
        } else {
            f.ffst = 0;
        }
        let run = feed::<C>(&mut rng, &f, &mut seen);
        seen.pairs += 1;
        for pair in run.windows(2) {
            let [less, more] = [&pair[0], &pair[1]];
            if let Some(name) = wrong(&f, less, more) {
                return Err(format!("{name} goes the wrong way from {less:?} to {more:?}: {f:?}"));
            }
            seen.signs[usize::from(f.cgai < 0)][usize::from(f.sgai < 0)] += 1;
            seen.one_step += u64::from(less.elec + 1 == more.elec);
            seen.differing += u64::from(less.steps[3] != more.steps[3]);
        }
    }
    Ok(seen)
}

/// Readings at one temperature on two devices, in any order, sorted by ELEC.
fn feed<C: Converter>(rng: &mut Rng, f: &Figures, seen: &mut Followed) -> Vec<Weighed> {
    let mut devices = <[C; 2]>::default();
    for device in &mut devices {
        assert_eq!(device.make(&sheet(f), 1), 0, "{f:?}");
    }
    let by_probe = rng.one_in(3);
    let mut run: Vec<Weighed> = Vec::new();
    let mut temp = None;
    while run.len() < RUN {
        let device = rng.below(2) as usize;
        let device = &mut devices[device];
        disturb(rng, device);
        let (elec, place, integrity) =
            if by_probe { probe::sample(rng, &device.state()) } else { sample(rng, &device.state()) };
        // Often a step from an earlier one.
        let elec = if !run.is_empty() && rng.one_in(3) { rng.pick(&run).elec + rng.pick(&[1, -1]) } else { elec };
        let place = temp.unwrap_or(place);
        let number =
            if by_probe { device.probe(elec, place, integrity) } else { device.reading(elec, place, integrity) };
        if number == 0 {
            temp = Some(place);
            run.push(weighed(device));
            seen.readings += 1;
            seen.by_probe += u64::from(by_probe);
        }
    }
    run.sort_by_key(|weighed| weighed.elec);
    run
}

/// Other calls, after which the figures in force are the same: a reading at another temperature, or a write that is no SZ's.
fn disturb<C: Converter>(rng: &mut Rng, device: &mut C) {
    const FLAG: u16 = 14;
    const RST: u16 = 100;
    const SNAP: u16 = 103;
    const PEAK_RESET: u16 = 104;
    match rng.below(6) {
        0 => {
            let (elec, temp, integrity) = sample(rng, &device.state());
            device.reading(elec, temp, integrity);
        }
        1 => {
            let register = rng.pick(&[FLAG, RST, SNAP, PEAK_RESET]);
            device.frame(&write_frame(1, 2 * register, float_bits(rng)), &mut [0; 9]);
        }
        _ => {}
    }
}

#[cfg(test)]
mod tests {
    use super::*;
    use model::Device;

    /// Change 14 over any figures, with each sign of each gain.
    #[test]
    fn a_larger_elec_never_reads_lighter() {
        let seen = run::<Device>(20_000, 14).unwrap_or_else(|what| panic!("{what}"));
        assert_eq!((seen.pairs, seen.readings), (20_000, 20_000 * RUN as u64));
        assert!(seen.signs.as_flattened().iter().all(|&pairs| pairs > 10_000), "{seen:?}");
        assert!(seen.by_probe > 50_000 && seen.one_step > 20_000 && seen.differing > 50_000, "{seen:?}");
    }

    #[test]
    fn what_goes_the_wrong_way_is_seen() {
        let at = |elec: i64, steps: i64| Weighed { elec, steps: [steps; VALUES], floats: [steps as f32; VALUES] };
        let gains = |cgai, sgai| Figures { cgai, sgai, ..Figures::standard() };
        let (less, more) = (at(0, 5), at(1, 6));
        for (cgai, sgai, forth, back) in
            [(1, 1, None, Some("CRAW")), (-1, 0, Some("SYS"), None), (-1, -1, None, Some("SYS"))]
        {
            let f = gains(cgai, sgai);
            assert_eq!((wrong(&f, &less, &more), wrong(&f, &more, &less)), (forth, back));
            assert_eq!(wrong(&f, &less, &less), None);
        }
        for (at, name) in ["CRAW", "CELL", "SRAW", "SYS"].into_iter().enumerate() {
            for slip in [5.0_f32.next_down(), f32::NAN] {
                let mut slipped = more;
                slipped.floats[at] = slip;
                assert_eq!(wrong(&gains(0, 0), &less, &slipped), Some(name));
            }
            let mut slipped = more;
            slipped.steps[at] = 4;
            assert_eq!(wrong(&gains(0, 0), &less, &slipped), Some(name));
        }
    }

    /// What the sentence leaves out (docs/batching.md has the numbers): with the filter on, and at another temperature, a
    /// larger ELEC may read lighter.
    #[test]
    fn with_the_filter_on_or_at_another_temperature_it_may() {
        let sys = |f: &Figures, samples: &[(i64, i64)]| {
            let mut device = Device::new(&sheet(f), 1).expect("a device");
            for &(percent, celsius) in samples {
                device.take(percent << 16, celsius << 16, 0).expect("taken");
            }
            read(&mut device, 10)
        };
        let filtered = Figures { fflv: 20 << 16, ffst: 4, ..Figures::standard() };
        assert_eq!((sys(&filtered, &[(50, 20)]), sys(&filtered, &[(40, 20), (52, 20)])), (50.0, 43.0));
        let mut drifting = Figures::standard();
        drifting.temperature[1].cto = 2 << 16;
        assert_eq!((sys(&drifting, &[(50, 0)]), sys(&drifting, &[(51, 25)])), (50.0, 49.0));
    }
}
