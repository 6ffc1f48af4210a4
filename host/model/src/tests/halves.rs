//! "Halves shall go away from zero, in round itself, so in the filter, interpolation, gains and writes": Change 5 of
//! paper 02.

use super::{ask, made, put};
use crate::device::{filter, interpolate, round_div, scale};
use crate::panel::ROWS;
use crate::sheet::LinearityPoint;
use crate::value::{scaled, SZ, WHOLE};
use crate::{Device, Figures};

/// The nearest whole number, and of two equally near the one farther from zero.
fn is_round(r: i64, a: i128, d: i128) -> bool {
    let distance = |n: i128| (n * d - a).abs();
    let r = i128::from(r);
    [r - 1, r + 1].iter().all(|&n| distance(n) > distance(r) || distance(n) == distance(r) && n.abs() < r.abs())
}

#[test]
fn round_is_the_nearest_and_halves_go_away_from_zero() {
    assert_eq!([5, 3, 1].map(|a| round_div(a, 2)), [3, 2, 1]);
    assert_eq!([-5, -3, -1].map(|a| round_div(a, 2)), [-3, -2, -1]);
    for d in 1..60 {
        for a in -300..=300 {
            assert!(is_round(round_div(a, d), a.into(), d.into()), "{a} / {d}");
            assert_eq!(round_div(-a, d), -round_div(a, d));
        }
    }
    // round(a - n) = round(a) - n, which held while halves went upwards, does not.
    assert_eq!([round_div(5 - 2 * 5, 2), round_div(5, 2) - 5], [-3, -2]);
}

/// round(a x gain / 2^28): both factors of either sign, halves and their neighbours, and the widest products.
#[test]
fn gains() {
    let half = 1 << 27;
    assert_eq!([1, -1, 3, -3, 5, -5].map(|a| scale(a, half)), [1, -1, 2, -2, 3, -3]);
    assert_eq!([1, -1, 3, -3, 5, -5].map(|a| scale(a, -half)), [-1, 1, -2, 2, -3, 3]);
    for gain in [half, -half, 3 * half, 1, half + 1, half - 1, 1 << 31, -(1 << 31), (1 << 31) - half] {
        let wide = [4_259_840_000, 4_259_839_999, half, half - 1, half + 1, 3 * half];
        for a in wide.into_iter().chain(0..9) {
            assert!(is_round(scale(a, gain), i128::from(a) * i128::from(gain), 1 << 28), "{a} x {gain}");
            assert_eq!([scale(-a, gain), scale(a, -gain)], [-scale(a, gain); 2]);
        }
    }
}

#[test]
fn the_filter_steps_as_far_down_as_up() {
    let f = Figures { fflv: 100, ffst: 4, ..Figures::default() };
    let step = |held, input| filter(&f, input, held, input) - held;
    assert_eq!([1, 2, 5, 6, 10].map(|by| step(50, 50 + by)), [0, 1, 1, 2, 3]);
    assert_eq!([1, 2, 5, 6, 10].map(|by| step(50, 50 - by)), [0, -1, -1, -2, -3]);
}

/// v1 + round(..) to the letter: the way from the lower point is rounded, and not the value.
#[test]
fn interpolation_rounds_the_way_from_the_lower_point() {
    let at = |x, points: [(i64, i64); 2]| interpolate(x, &points, |p| *p);
    // 2.5 up from 0 and from -10; 2.5 down from 10 and from 0.
    assert_eq!([at(1, [(0, 0), (4, 10)]), at(1, [(0, -10), (4, 0)])], [3, -7]);
    assert_eq!([at(1, [(0, 10), (4, 0)]), at(1, [(0, 0), (4, -10)])], [7, -3]);
}

/// SZ and every figure but the whole ones: a write of a half, read back, for both signs where the range has both.
#[test]
fn writes() {
    let mut d = made(&Figures::standard());
    assert_eq!((put(&mut d, 22, -(2_f32.powi(-17))), d.figures.sz, ask(&mut d, 22)), (0, -1, (0, -(2_f32.powi(-16)))));
    let figures = ROWS.iter().flat_map(|row| (row.first..=row.last).map(|number| (number, row.range)));
    for (number, range) in figures.chain([(22, SZ)]).filter(|(_, range)| range.scale != WHOLE) {
        for (halves, count) in [(1, 1), (3, 2), (5, 3), (-1, -1), (-3, -2), (-5, -3)] {
            let fit = halves > 0 || range.least < 0;
            assert_eq!(put(&mut d, number, scaled(halves, range.scale + 1)), if fit { 0 } else { 16 }, "{number}");
            if fit {
                assert_eq!(ask(&mut d, number), (0, scaled(count, range.scale)), "{number}");
            }
        }
    }
}

fn taken(f: &Figures, elec: i64) -> Device {
    let mut d = made(f);
    d.take(elec, 0, 0).unwrap();
    d
}

/// "Test rigs load cells both ways": half a step pushed and pulled, by gains of a half.
#[test]
fn pulled_as_pushed() {
    let f = Figures { cgai: 1 << 27, sgai: 3 << 27, ..Figures::standard() };
    let values = |elec| taken(&f, elec).last.map(|r| [r.craw, r.cell, r.sraw, r.sys]).unwrap();
    // 2.5 is 3, and 4.5 is 5.
    assert_eq!([values(5), values(-5)], [[3, 3, 5, 5], [-3, -3, -5, -5]]);
}

/// Where a step of CELL remains: a correction half-way inside a segment, which a mirrored table has from its other end.
#[test]
fn a_mirrored_table_is_read_from_its_other_end() {
    let at = |x, points: [(i64, i64); 2]| interpolate(x, &points, |p| *p);
    assert_eq!([at(1, [(0, 0), (4, 10)]), at(-1, [(-4, -10), (0, 0)])], [3, -2]);
    // The same on a sheet: a quarter of a step more for each step, from 0 to 4, or from -4 to 0.
    let with = |points: [(i64, i64); 2]| {
        let mut f = Figures::standard();
        for (point, (clx, clk)) in f.linearity.iter_mut().zip(points) {
            *point = LinearityPoint { clx, clk };
        }
        f
    };
    let (pushed, pulled) = (with([(0, 0), (4, 1)]), with([(-4, -1), (0, 0)]));
    let cell = |f, elec| taken(f, elec).last.unwrap().cell;
    assert_eq!([0, 1, 2, 3, 4, 5].map(|elec| cell(&pushed, elec)), [0, 1, 3, 4, 5, 6]);
    assert_eq!([0, 1, 2, 3, 4, 5].map(|elec| cell(&pulled, -elec)), [0, -1, -2, -4, -5, -6]);
}
