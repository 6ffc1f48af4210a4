//! A cell that is pulled beside one that is pushed: "Pulling as good as pushing" (paper 02, Change 5).
//!
//! The pulled cell has the pushed one's figures turned round, and its readings negated. Halves go away from zero on both
//! sides, so that its values are the negatives of the other's; CELL may be one step off where the correction lies half-way
//! between two steps, since a linearity table that is turned round is read from its other end.

use crate::generate::{figures, float_bits, sample, sheet, Rng};
use crate::{write_frame, Converter};
use model::sheet::LinearityPoint;
use model::{Figures, Reading};

/// The figures for loads the other way: offsets, limits, zero and linearity points change sides; gains and filter stay.
pub fn mirrored(f: &Figures) -> Figures {
    let mut m = Figures { cofs: -f.cofs, sofs: -f.sofs, sz: -f.sz, ..*f };
    (m.cmin, m.cmax, m.smin, m.smax) = (-f.cmax, -f.cmin, -f.smax, -f.smin);
    for point in &mut m.temperature {
        point.cto = -point.cto;
    }
    let points = &mut m.linearity[..f.cln.into()];
    points.reverse();
    for point in points {
        *point = LinearityPoint { clx: -point.clx, clk: -point.clk };
    }
    m
}

/// STAT with each pair of under and over exchanged, but for TEMP's.
fn turned(stat: u16) -> u16 {
    const UNDER: u16 = 16 | 64 | 256;
    const OVER: u16 = 32 | 128 | 512;
    stat & !(UNDER | OVER) | (stat & UNDER) << 1 | (stat & OVER) >> 1
}

/// What CELL of the two adds up to at a CRAW of the pushed one: 0, or, where the correction lies half-way between two
/// steps, the one step that both went away from their own lower points.
fn one_step(f: &Figures, craw: i64) -> i64 {
    let half_way = |pair: &&[LinearityPoint]| {
        let (way, width) = ((pair[1].clk - pair[0].clk) * (craw - pair[0].clx), pair[1].clx - pair[0].clx);
        (pair[0].clx..pair[1].clx).contains(&craw) && (2 * way).rem_euclid(2 * width) == width
    };
    f.linearity[..f.cln.into()].windows(2).find(half_way).map_or(0, |pair| (pair[1].clk - pair[0].clk).signum())
}

/// Whether CELL is one step apart; or what is not as it should be. The figures are those of the pushed one.
fn apart(f: &Figures, pushed: &Reading, pulled: &Reading) -> Result<bool, &'static str> {
    let sum = |of: fn(&Reading) -> i64| of(pushed) + of(pulled);
    let cell = one_step(f, pushed.craw);
    // By a step of CELL, the system's values are up to a gain and the two roundings apart, and SYSUR and SYSOR may differ.
    let (most, judged) = if cell == 0 { (0, u16::MAX) } else { (1 + (f.sgai.abs() >> 28), !(256 | 512)) };
    let rules = [
        (sum(|r| r.input) == 0 && sum(|r| r.elec) == 0 && pushed.temp == pulled.temp, "ELEC"),
        (sum(|r| r.craw) == 0, "CRAW"),
        (sum(|r| r.cell) == cell, "CELL"),
        (sum(|r| r.sraw).abs() <= most, "SRAW"),
        (sum(|r| r.sys).abs() <= most, "SYS"),
        ((pushed.stat ^ turned(pulled.stat)) & judged == 0, "STAT"),
    ];
    match rules.iter().find(|(holds, _)| !holds) {
        Some((_, name)) => Err(name),
        None => Ok(cell != 0),
    }
}

/// Whether PEAK and TROF are each other's negatives, and the floats of a report the negatives too.
fn reports_opposite<C: Converter>(pushed: &mut C, pulled: &mut C) -> bool {
    let extremes = |device: &C| device.state().last.map(|r| (r.peak, r.trof));
    let (number, floats) = pushed.report();
    let (other, [sys, peak, trof, cell]) = pulled.report();
    let negatives = [sys, trof, peak, cell].map(|bits| -f32::from_bits(bits));
    extremes(pushed) == extremes(pulled).map(|(peak, trof)| (-trof, -peak))
        && (number, floats.map(f32::from_bits)) == (other, negatives)
}

/// What was compared.
#[derive(Debug, Default, PartialEq)]
pub struct Mirrored {
    /// Pairs of devices, and accepted readings of each pair.
    pub pairs: u64,
    pub readings: u64,
    /// Readings with CELL one step apart.
    pub apart: u64,
}

/// Readings that a pair takes, refused ones too.
const RUN: u64 = 16;

/// As many pairs: runs of readings aimed at the edges, with writes of SZ between them. An error says what differs where.
pub fn run<C: Converter>(pairs: u64, seed: u64) -> Result<Mirrored, String> {
    let (mut rng, mut seen) = (Rng::new(seed), Mirrored::default());
    for _ in 0..pairs {
        pair::<C>(&mut rng, &mut seen)?;
    }
    Ok(seen)
}

fn pair<C: Converter>(rng: &mut Rng, seen: &mut Mirrored) -> Result<(), String> {
    const SZ: u16 = 44;
    let f = figures(rng);
    let (mut pushed, mut pulled) = (C::default(), C::default());
    let made = [pushed.make(&sheet(&f), 1), pulled.make(&sheet(&mirrored(&f)), 1)];
    if made != [0, 0] {
        return Err(format!("made with {made:?}: {f:?}"));
    }
    seen.pairs += 1;
    let mut exact = true;
    for _ in 0..RUN {
        let (elec, temp, integrity) = sample(rng, &pushed.state());
        let mut numbers =
            [pushed.reading(elec, temp, integrity), pulled.reading(elec.saturating_neg(), temp, integrity)];
        let accepted = numbers == [0, 0];
        if rng.one_in(4) && numbers[0] == numbers[1] {
            let (bits, mut reply) = (float_bits(rng), [0; 9]);
            numbers[0] = pushed.frame(&write_frame(1, SZ, bits), &mut reply).0;
            numbers[1] = pulled.frame(&write_frame(1, SZ, bits ^ 0x8000_0000), &mut reply).0;
        }
        let states = [pushed.state(), pulled.state()];
        let zeros = states[0].figures.sz == -states[1].figures.sz;
        let found = match (states[0].last, states[1].last) {
            _ if numbers[0] != numbers[1] => Err("the number"),
            _ if !zeros => Err("SZ"),
            (Some(pushed), Some(pulled)) => apart(&f, &pushed, &pulled),
            (None, None) => Ok(false),
            _ => Err("whether there is a reading"),
        };
        let apart = found.map_err(|what| format!("{what} differs, {numbers:?}: {states:?}"))?;
        exact &= !apart;
        if exact && !reports_opposite(&mut pushed, &mut pulled) {
            return Err(format!("PEAK, TROF or a report differs: {states:?}"));
        }
        seen.readings += u64::from(accepted);
        seen.apart += u64::from(accepted && apart);
    }
    Ok(())
}

#[cfg(test)]
mod tests {
    use super::*;
    use model::Device;

    #[test]
    fn mirrored_figures_are_accepted_and_turn_back() {
        let mut rng = Rng::new(5);
        for _ in 0..10_000 {
            let f = figures(&mut rng);
            let m = mirrored(&f);
            assert!(Device::new(&sheet(&m), 1).is_ok(), "{f:?}");
            assert_eq!(mirrored(&m), f);
        }
    }

    /// The reason for Change 5, over any figures, with the filter on and off.
    #[test]
    fn a_pulled_cell_reads_as_a_pushed_one() {
        let seen = run::<Device>(20_000, 5).unwrap_or_else(|what| panic!("{what}"));
        assert!(seen.pairs == 20_000 && seen.readings > 200_000 && seen.apart > 1_000, "{seen:?}");
    }

    /// What goes wrong in a reading, and the name that is told.
    type Slip = (fn(&mut Reading), &'static str);

    /// A quarter of a step more for each step from 0 to 4: half-way at 2, and nowhere else.
    #[test]
    fn what_is_not_mirrored_is_seen() {
        let mut f = Figures::standard();
        f.linearity[1] = LinearityPoint { clx: 4, clk: 1 };
        assert_eq!([0, 1, 2, 3, 4, 5].map(|craw| one_step(&f, craw)), [0, 0, 1, 0, 0, 0]);
        assert_eq!([0, 1, 2, 3, 4, 5].map(|craw| one_step(&mirrored(&f), -craw)), [0, 0, 1, 0, 0, 0]);
        let taken = |f: &Figures, elec| {
            let mut device = Device::new(&sheet(f), 1).expect("a device");
            device.take(elec, 0, 0).expect("taken");
            device.last.expect("a reading")
        };
        for elec in [2, 3] {
            let (pushed, pulled) = (taken(&f, elec), taken(&mirrored(&f), -elec));
            assert_eq!(apart(&f, &pushed, &pulled), Ok(elec == 2));
            let wrong: [Slip; 6] = [
                (|r| r.elec += 1, "ELEC"),
                (|r| r.craw += 1, "CRAW"),
                (|r| r.cell += 1, "CELL"),
                (|r| r.sraw += 3, "SRAW"),
                (|r| r.sys += 3, "SYS"),
                (|r| r.stat |= 64, "STAT"),
            ];
            for (slip, name) in wrong {
                let mut slipped = pulled;
                slip(&mut slipped);
                assert_eq!(apart(&f, &pushed, &slipped), Err(name), "{elec}");
            }
        }
        let device = |elec| {
            let mut device = Device::new(&sheet(&Figures::standard()), 1).expect("a device");
            device.take(elec, 0, 0).expect("taken");
            device
        };
        let pulled = [-3, -4, 3].map(|elec| reports_opposite(&mut device(3), &mut device(elec)));
        assert_eq!(pulled, [true, false, false]);
        let over = taken(&f, 10_000_000);
        assert_eq!((over.stat, turned(over.stat), turned(4 | 8 | 2_048)), (672, 336, 4 | 8 | 2_048));
    }
}
