//! A platinum probe: Change 8 of paper 02.

use super::{ask, made, put, STATION};
use crate::probe::{temp, COLDEST, HOTTEST, LEAST, MOST, TABLE};
use crate::{Converter, Device, Figures, Refusal};

const UNIT: i64 = 65_536;
/// The largest ELEC that a reading takes.
const ELEC: i64 = 19_660_800;

fn entry(celsius: i64) -> i64 {
    TABLE[(celsius - COLDEST) as usize]
}

fn resistances() -> impl Iterator<Item = i64> {
    803_063..=1_573_251
}

#[test]
fn entries_of_the_paper() {
    assert_eq!([-50, 0, 100, 150].map(entry), [803_063, 1_000_000, 1_385_055, 1_573_251]);
    assert_eq!((TABLE.len(), LEAST, MOST, HOTTEST), (201, 803_063, 1_573_251, 150));
    assert!(TABLE.is_sorted_by(|one, next| one < next));
}

/// The table that IEC 60751 prints, in 0.01 ohm, every 10 °C.
#[test]
fn entries_of_the_standard() {
    let printed = [
        8031, 8427, 8822, 9216, 9609, 10000, 10390, 10779, 11167, 11554, 11940, 12324, 12708, 13090, 13471, 13851,
        14229, 14607, 14983, 15358, 15733,
    ];
    assert_eq!(TABLE.iter().step_by(10).map(|entry| (entry + 50) / 100).collect::<Vec<_>>(), printed);
}

/// An entry is off by half of 0.0001 ohm at most, and none by just half.
#[test]
fn entries_fit_the_formula() {
    for (entry, t) in TABLE.iter().zip((-50..).map(f64::from)) {
        assert!((*entry as f64 - ohm(t) * 1e4).abs() < 0.499, "{t}");
    }
}

#[test]
fn temp_at_each_entry() {
    for celsius in -50..=150 {
        assert_eq!(temp(entry(celsius)), Ok(celsius * UNIT));
    }
}

/// The nearest step, by what is left over: 2 x |(TEMP - t1) x (x2 - x1) - 65,536 x (x - x1)| is not above x2 - x1, and
/// never just that, so that it is of no account here which way halves go.
#[test]
fn temp_between_entries() {
    let mut at = 0;
    for resistance in resistances() {
        at += usize::from(at < 199 && resistance >= TABLE[at + 1]);
        let (width, way) = (TABLE[at + 1] - TABLE[at], resistance - TABLE[at]);
        let steps = temp(resistance).unwrap() - (at as i64 - 50) * UNIT;
        assert!(2 * (steps * width - UNIT * way).abs() < width, "{resistance}");
    }
    assert_eq!(at, 199);
}

/// The standard's own form of the formula, in ohm, over f64.
fn ohm(t: f64) -> f64 {
    let below_0 = if t < 0.0 { -4.183e-12 * (t - 100.0) * t.powi(3) } else { 0.0 };
    100.0 * (1.0 + 3.9083e-3 * t - 5.775e-7 * t.powi(2) + below_0)
}

/// How far TEMP lies from where the formula has the resistance: at most 10.48 steps, and nowhere more than at 95.0956
/// ohm. Nearby the formula is a line by far enough: its slope is taken over a ten-thousandth of a degree.
#[test]
fn temp_is_near_the_formula() {
    let distance = |resistance: i64| {
        let t = temp(resistance).unwrap() as f64 / UNIT as f64;
        let slope = (ohm(t + 1e-4) - ohm(t - 1e-4)) / 2e-4;
        (ohm(t) - resistance as f64 / 1e4) / slope * UNIT as f64
    };
    let farthest = resistances().max_by(|a, b| distance(*a).abs().total_cmp(&distance(*b).abs())).unwrap();
    assert_eq!(farthest, 950_956);
    assert!((10.47..10.48).contains(&distance(farthest)), "{}", distance(farthest));
}

/// A step of resistance is 16 to 18 steps of TEMP: it never falls, and never stays.
#[test]
fn temp_rises() {
    let temps: Vec<i64> = resistances().map(|r| temp(r).unwrap()).collect();
    assert_eq!((temps.len(), temps[0], temps[770_188]), (770_189, -3_276_800, 9_830_400));
    assert!(temps.windows(2).all(|pair| (16..=18).contains(&(pair[1] - pair[0]))));
}

/// 20 "when the resistance is below 803,063 or above 1,573,251", before 9; the device stays as it was.
#[test]
fn numbers_in_order() {
    let mut d = made(&Figures::standard());
    d.take(7 * UNIT, 3 * UNIT, 1).unwrap();
    let before = d;
    for resistance in [803_062, 1_573_252, 0, -1, -1_000_000, i64::MIN, i64::MAX] {
        for elec in [0, ELEC, -ELEC, ELEC + 1, -ELEC - 1, i64::MIN, i64::MAX] {
            for integrity in [0, 1, 2, 255] {
                assert_eq!(d.probe(elec, resistance, integrity), 20, "{resistance} {elec} {integrity}");
            }
        }
    }
    for resistance in [803_063, 1_000_000, 1_573_251] {
        for (elec, integrity) in [(ELEC + 1, 0), (-ELEC - 1, 1), (i64::MIN, 0), (i64::MAX, 2), (0, 2), (ELEC, 255)] {
            assert_eq!(d.probe(elec, resistance, integrity), 9, "{resistance} {elec} {integrity}");
        }
    }
    assert_eq!(d, before);
    for (elec, resistance, integrity) in [(ELEC, 803_063, 0), (-ELEC, 1_573_251, 1), (0, 803_064, 0), (0, 1_573_250, 1)]
    {
        assert_eq!(d.probe(elec, resistance, integrity), 0, "{resistance}");
    }
    assert_eq!(d.take_probe(0, 803_062, 0), Err(Refusal::Probe));
}

/// "is otherwise a reading": filter, STAT, FLAG, PEAK and TROF go on over both kinds, and a refused one is no reading.
#[test]
fn otherwise_a_reading() {
    let figures = Figures { fflv: 5 * UNIT, ffst: 4, ..Figures::standard() };
    let (mut by_probe, mut by_temp) = (made(&figures), made(&figures));
    assert_eq!((by_probe.probe(0, 803_062, 0), by_probe), (20, by_temp));
    assert_eq!(by_probe.report(), Err(Refusal::NoReading));
    let percents = [0, 3, 6, 40, 38, 160, -160, 7];
    for (percent, celsius) in percents.into_iter().zip([20, -50, 150, 90, 91, 0, -1, 1]) {
        match percent {
            6 | 7 => by_probe.take(percent * UNIT, celsius * UNIT, 0).unwrap(),
            _ => by_probe.take_probe(percent * UNIT, entry(celsius), 0).unwrap(),
        }
        by_temp.take(percent * UNIT, celsius * UNIT, 0).unwrap();
        assert_eq!(by_probe, by_temp);
        assert_eq!((by_probe.probe(0, 1_573_252, 0), by_probe), (20, by_temp));
    }
    // RST makes the next a first one, by a probe too.
    assert_eq!((put(&mut by_probe, 100, 0.0), by_probe.probe(2 * UNIT, 1_000_000, 0)), (0, 0));
    assert_eq!((ask(&mut by_probe, 16), ask(&mut by_probe, 11), by_probe.station), ((0, 2.0), (0, 0.0), STATION));
}

/// TEMPOR "above 5,898,240", which is 90 °C; TEMPUR is "below −3,276,800", which is −50 °C, and nothing reaches it.
#[test]
fn range_flags() {
    let stat = |resistance| {
        let mut d: Device = made(&Figures::standard());
        d.take_probe(0, resistance, 0).unwrap();
        d.last.unwrap().stat
    };
    let at_90 = entry(90);
    assert_eq!([at_90 - 1, at_90, at_90 + 1, MOST, LEAST].map(stat), [0, 0, 8, 8, 0]);
    assert!(resistances().all(|r| temp(r).unwrap() >= -3_276_800));
}
