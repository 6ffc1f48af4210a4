//! Readings at the four corners of a platform.

use super::{sample, Rng};
use model::{Device, Sample};

/// The largest ELEC and TEMP that a reading takes.
const ELEC: i64 = 19_660_800;
const TEMP: i64 = 13_107_200;

/// A reading at each corner, fit and often at a limit; in one call of four a corner is spoiled, or two are.
pub fn samples(rng: &mut Rng, corners: &[Device; 4]) -> [Sample; 4] {
    let mut samples = corners.each_ref().map(|device| {
        let (elec, temp, integrity) = sample(rng, device);
        (elec.clamp(-ELEC, ELEC), temp.clamp(-TEMP, TEMP), integrity.min(1))
    });
    if rng.one_in(4) {
        for _ in 0..rng.range(1, 2) {
            let corner = rng.below(4) as usize;
            spoil(rng, &mut samples[corner]);
        }
    }
    samples
}

fn spoil(rng: &mut Rng, (elec, temp, integrity): &mut Sample) {
    match rng.below(3) {
        0 => *elec = rng.pick(&[-ELEC - 1, ELEC + 1, i64::MIN, i64::MAX]),
        1 => *temp = rng.pick(&[-TEMP - 1, TEMP + 1, i64::MIN, i64::MAX]),
        _ => *integrity = rng.pick(&[2, 255]),
    }
}

#[cfg(test)]
mod tests {
    use super::*;
    use crate::generate::{figures, sheet};
    use model::sheet::{most, LinearityPoint, TemperaturePoint};
    use model::{Converter, Figures};

    /// By straight lines between points (x, v) with rising x; outside them the end value is kept.
    fn along(x: f64, points: impl Iterator<Item = (i64, i64)>) -> f64 {
        let points: Vec<(f64, f64)> = points.map(|(x, v)| (x as f64, v as f64)).collect();
        match points.iter().position(|p| x < p.0) {
            Some(0) => points[0].1,
            Some(next) => {
                let ((x1, v1), (x2, v2)) = (points[next - 1], points[next]);
                v1 + (v2 - v1) * (x - x1) / (x2 - x1)
            }
            None => points[points.len() - 1].1,
        }
    }

    /// "The exact value follows the same steps 2 to 5 over fractions": here over f64, off by far less than a step.
    fn exact_sys(f: &Figures, elec: i64, temp: i64) -> f64 {
        let gain = |parts: i64| parts as f64 / f64::from(1 << 28);
        let points = &f.temperature[..f.ctn.into()];
        let offset = along(temp as f64, points.iter().map(|p| (p.ct, p.cto)));
        let adjustment = along(temp as f64, points.iter().map(|p| (p.ct, p.ctg))) / f64::from(1 << 28);
        let raw_cell = (elec as f64 - f.cofs as f64 - offset) * gain(f.cgai) * (1.0 + adjustment);
        let craw = raw_cell.clamp(f.cmin as f64, f.cmax as f64);
        let cell = craw + along(craw, f.linearity[..f.cln.into()].iter().map(|p| (p.clx, p.clk)));
        let raw_system = (cell - f.sofs as f64) * gain(f.sgai);
        raw_system.clamp(f.smin as f64, f.smax as f64) - f.sz as f64
    }

    /// How far the total of an accepted call lies from the sum of the four exact values.
    fn distance(corners: &[Device; 4], total: i64) -> f64 {
        let exact = corners.each_ref().map(|device| {
            let last = device.last.expect("a reading");
            exact_sys(&device.figures, last.elec, last.temp)
        });
        (total as f64 - exact.iter().sum::<f64>()).abs()
    }

    fn device(f: &Figures) -> Device {
        Device::new(&sheet(f), 1).expect("a device")
    }

    /// "The total is to lie within 1,664 steps of the sum of the four exact values, after any history".
    #[test]
    fn the_total_is_near_the_exact_one() {
        let mut rng = Rng::new(4);
        for _ in 0..2_000 {
            let mut corners = [(); 4].map(|()| device(&figures(&mut rng)));
            for _ in 0..20 {
                let samples = samples(&mut rng, &corners);
                let (number, weights) = Device::weigh(corners.each_mut(), samples);
                assert!(number != 0 || distance(&corners, weights.total) <= 1_664.0, "{corners:?}");
            }
        }
    }

    /// The steepest gains, and o and g rounded by half a step the same way at each corner: nearly as far as it may be.
    #[test]
    fn the_total_lies_far_at_steep_gains() {
        let mut f = Figures { cofs: 10_000_000, cgai: most::CGAI, sgai: most::SGAI, ..Figures::standard() };
        (f.cmin, f.cmax, f.smin, f.smax) = (-most::CELL, most::CELL, -most::SYSTEM, most::SYSTEM);
        f.temperature[0] = TemperaturePoint { ct: 0, cto: 0, ctg: most::CTG - 1 };
        f.temperature[1] = TemperaturePoint { ct: 2, cto: 1, ctg: most::CTG };
        f.linearity[0] = LinearityPoint { clx: -most::CELL, clk: -most::CLK };
        f.linearity[1] = LinearityPoint { clx: -most::CELL + 8 * most::CLK, clk: most::CLK };
        f.sofs = -most::SYSTEM;
        let mut corners = [device(&f); 4];
        let (_, weights) = Device::weigh(corners.each_mut(), [(-ELEC, 1, 0); 4]);
        assert!((1_500.0..=1_664.0).contains(&distance(&corners, weights.total)));
    }
}
