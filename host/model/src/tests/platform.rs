//! Four corners: Change 4 of paper 02.

use super::{made, put};
use crate::sheet::most;
use crate::{Converter, Device, Figures, Sample, Weights};

const PERCENT: i64 = 65_536;
/// 100 % at 20 degrees.
const SOUND: Sample = (100 * PERCENT, 20 * PERCENT, 0);
/// The largest ELEC and TEMP that a reading takes.
const ELEC: i64 = 19_660_800;
const TEMP: i64 = 13_107_200;

fn weigh(corners: &mut [Device; 4], samples: [Sample; 4]) -> (u8, Weights) {
    Converter::weigh(corners.each_mut(), samples)
}

fn percents(corners: [i64; 4]) -> [Sample; 4] {
    corners.map(|percent| (percent * PERCENT, 0, 0))
}

/// Four devices of one station with figures and histories of their own: smoothed, overloaded, with a snapshot, fresh.
fn used() -> [Device; 4] {
    let filtered = Figures { fflv: 5 * PERCENT, ffst: 4, ..Figures::standard() };
    let mut corners = [made(&filtered), made(&Figures::standard()), made(&filtered), made(&Figures::standard())];
    let [smoothed, overloaded, snapped, _] = &mut corners;
    for elec in [0, 3, 6, -20, -18] {
        smoothed.take(elec * PERCENT, 0, 0).unwrap();
    }
    for (elec, temp) in [(160, 0), (-160, 100), (7, 0)] {
        overloaded.take(elec * PERCENT, temp * PERCENT, 1).unwrap();
    }
    snapped.take(50 * PERCENT, 0, 0).unwrap();
    assert_eq!([(103, 0.0), (22, 12.5), (40, 1.5)].map(|(register, value)| put(snapped, register, value)), [0; 3]);
    corners
}

#[test]
fn sums_of_the_corners() {
    let mut corners = [made(&Figures::standard()); 4];
    let due = Weights { corners: [10, 20, 40, 80], total: 150, left: 50, right: 100, difference: -50 };
    let in_steps = |w: Weights| Weights {
        corners: w.corners.map(|sys| sys * PERCENT),
        total: w.total * PERCENT,
        left: w.left * PERCENT,
        right: w.right * PERCENT,
        difference: w.difference * PERCENT,
    };
    assert_eq!(weigh(&mut corners, percents([10, 20, 40, 80])), (0, in_steps(due)));
    assert_eq!(corners.map(|d| d.last.unwrap().sys), [10, 20, 40, 80].map(|sys| sys * PERCENT));
    // One corner at a time, pushed and pulled: which side it is on, and with which sign.
    for (corner, left, right) in [(0, 7, 0), (1, 0, 7), (2, 7, 0), (3, 0, 7)] {
        for sign in [1, -1] {
            let (mut loads, left, right) = ([0; 4], sign * left, sign * right);
            loads[corner] = sign * 7;
            let due = Weights { corners: loads, total: sign * 7, left, right, difference: left - right };
            assert_eq!(weigh(&mut corners, percents(loads)), (0, in_steps(due)));
        }
    }
}

/// "this call counts, for each device, as its corner's reading": filter, PEAK, TROF, STAT and FLAG; other calls between.
#[test]
fn each_corner_takes_its_own_reading() {
    let (mut corners, mut alone) = (used(), used());
    let rounds = [[3, -15, 53, 20], [-19, 155, 49, 0], [-16, -155, 140, -200], [-12, 5, 139, 300], [60, 60, 60, 60]];
    for (round, percent) in rounds.into_iter().enumerate() {
        let mut samples = percents(percent);
        samples[round % 4].1 = 100 * PERCENT;
        samples[(round + 1) % 4].2 = 1;
        let (number, weights) = weigh(&mut corners, samples);
        for (device, (elec, temp, integrity)) in alone.iter_mut().zip(samples) {
            device.take(elec, temp, integrity).unwrap();
        }
        assert_eq!((number, corners), (0, alone));
        assert_eq!(weights.corners, alone.map(|d| d.last.unwrap().sys));
        for devices in [&mut corners, &mut alone] {
            // RST, peak reset, FLAG; the copy of corner 3, which has CGAI 1.5, in force.
            let writes = [(round, 100, 0.0), (round + 1, 104, 0.0), (round + 2, 14, 128.0), (2, 99, 0.0)];
            for (corner, register, value) in writes {
                put(&mut devices[corner % 4], register, value);
            }
        }
        assert_eq!(corners, alone);
    }
    assert_eq!(corners[2].figures.cgai, 3 << 27);
}

#[test]
fn a_bad_reading_at_any_corner_is_refused_for_all() {
    let bad: [Sample; 9] = [
        (ELEC + 1, 0, 0),
        (-ELEC - 1, 0, 0),
        (i64::MAX, 0, 0),
        (i64::MIN, 0, 0),
        (0, TEMP + 1, 0),
        (0, -TEMP - 1, 0),
        (0, i64::MIN, 1),
        (0, 0, 2),
        (0, 0, 255),
    ];
    for mut corners in [used(), [made(&Figures::standard()); 4]] {
        let before = corners;
        for sample in bad {
            // Every choice of corners that have it but none: one alone, some, all.
            for chosen in 1..16 {
                let samples = [0, 1, 2, 3].map(|corner| if chosen >> corner & 1 == 1 { sample } else { SOUND });
                assert_eq!(weigh(&mut corners, samples), (18, Weights::default()), "{samples:?}");
                assert_eq!(corners, before, "{samples:?}");
            }
        }
        // None of it is remembered: the next call is what it would have been.
        let mut untouched = before;
        assert_eq!(weigh(&mut corners, [SOUND; 4]), weigh(&mut untouched, [SOUND; 4]));
        assert_eq!(corners, untouched);
    }
}

#[test]
fn limits_are_taken_at_every_corner() {
    for at_limit in [(ELEC, TEMP, 1), (-ELEC, -TEMP, 0), (ELEC, -TEMP, 0), (-ELEC, TEMP, 1)] {
        for corner in 0..4 {
            let (mut corners, mut samples) = (used(), [SOUND; 4]);
            samples[corner] = at_limit;
            let (number, weights) = weigh(&mut corners, samples);
            assert_eq!((number, weights.corners[corner]), (0, corners[corner].last.unwrap().sys));
            assert_eq!(corners[corner].last.unwrap().input, at_limit.0);
        }
    }
}

/// Change 4 asks nothing of stations: those of `used` are equal, and where they differ all is the same.
#[test]
fn stations_are_of_no_account() {
    let (mut equal, mut apart) = (used(), used());
    for (device, station) in apart.iter_mut().zip([1, 247, 7, 8]) {
        device.station = station;
    }
    let samples = percents([1, 2, 3, 4]);
    assert_eq!(weigh(&mut equal, samples), weigh(&mut apart, samples));
    assert_eq!(equal.map(|d| d.last), apart.map(|d| d.last));
    assert_eq!(apart.map(|d| d.station), [1, 247, 7, 8]);
}

/// The largest sums, in a build that checks for overflow: SYS is at most SMAX less the lowest SZ.
#[test]
fn the_widest_sums() {
    let mut figures = Figures { sgai: most::SGAI, cgai: most::CGAI, sz: -most::SYSTEM, ..Figures::standard() };
    (figures.cmin, figures.cmax, figures.smin, figures.smax) = (-most::CELL, most::CELL, -most::SYSTEM, most::SYSTEM);
    let up = made(&figures);
    figures.sz = most::SYSTEM;
    let down = made(&figures);
    let widest = 2 * most::SYSTEM;
    let (number, w) = weigh(&mut [up, down, up, down], [(ELEC, 0, 0), (-ELEC, 0, 0), (ELEC, 0, 0), (-ELEC, 0, 0)]);
    assert_eq!((number, w.corners), (0, [widest, -widest, widest, -widest]));
    assert_eq!((w.total, w.left, w.right, w.difference), (0, 2 * widest, -2 * widest, 4 * widest));
    let (_, w) = weigh(&mut [up; 4], [(ELEC, 0, 0); 4]);
    assert_eq!((w.total, w.difference), (4 * widest, 0));
}
