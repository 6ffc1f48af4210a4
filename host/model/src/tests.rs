//! The edges of paper 01, and the rules of Changes 1, 2, 4, 5, 6, 7 and 8 of paper 02.

mod flags;
mod forms;
mod halves;
mod platform;
mod probe;

use crate::bus::crc16;
use crate::device::{filter, interpolate, round_div, scale, REBOOT};
use crate::panel::{Figure, ROWS};
use crate::sheet::{most, read, write, LinearityPoint, TemperaturePoint, LONGEST_OLD};
use crate::value::{float, magnitude, scaled, Range, FLAG, PARTS, STEPS, SZ, WHOLE};
use crate::{bench, Device, Figures, Refusal};

fn sheet(f: &Figures) -> Vec<u8> {
    let mut out = [0; LONGEST_OLD];
    let length = write(f, &mut out).unwrap();
    out[..length].to_vec()
}

#[test]
fn rounding_and_interpolation() {
    assert_eq!([round_div(5, 2), round_div(-5, 2), round_div(-3, 2)], [3, -3, -2]);
    let at = |x| interpolate(x, &[(0, 0), (4, 10)], |p| *p);
    assert_eq!([at(1), at(-7), at(9), at(0), at(4)], [3, 0, 10, 0, 10]);
    assert_eq!(scale(scale(6_553_600, 5_368_709_120), 1 << 28), 131_072_000);
    assert_eq!(scale(131_072_000, (1 << 28) + 2_684_355), 132_382_720);
}

#[test]
fn filter_steps() {
    let f = |fflv| Figures { fflv, ffst: 4, ..Figures::default() };
    assert_eq!([filter(&f(10), 0, 0, 10), filter(&f(9), 0, 0, 10), filter(&f(0), 0, 0, 10)], [3, 10, 10]);
    // Held 0, the previous input 100: by more than 10 from 100 it jumps, else it steps from 0.
    let after = |input| filter(&f(10), 100, 0, input);
    assert_eq!([109, 110, 111].map(after), [27, 28, 111]);
    assert_eq!([91, 90, 89, 4].map(after), [23, 23, 89, 4]);
}

#[test]
fn cell_range() {
    let mut d = Device::new(&sheet(&Figures::standard()), 1).unwrap();
    d.take(9_830_400, 0, 0).unwrap();
    assert_eq!(d.last.unwrap().stat & 128, 0);
    d.take(9_830_401, 0, 0).unwrap();
    assert_eq!((d.last.unwrap().stat & 128, d.last.unwrap().craw), (128, 9_830_400));
}

#[test]
fn floats() {
    let bits = [6_553_600, 0, -1, 16_777_217].map(|n| float(n).to_bits());
    assert_eq!(bits, [0x42c8_0000, 0, 0xb780_0000, 0x4380_0000]);
    let steps = |x| SZ.count(x).unwrap();
    let half = 2_f32.powi(-17);
    assert_eq!([half, -half, -0.0, 3.0 * half, -3.0 * half].map(steps), [1, -1, 0, 2, -2]);
    assert_eq!([half.next_down(), (-half).next_up(), (-half).next_down()].map(steps), [0, 0, -1]);
    assert_eq!([f32::from_bits(1), -f32::from_bits(1)].map(steps), [0, 0]);
    assert_eq!([32_000.0, -32_000.0].map(steps), [2_097_152_000, -2_097_152_000]);
    assert!([32_000_f32.next_up(), f32::NAN, f32::INFINITY].iter().all(|x| SZ.count(*x).is_err()));
    assert_eq!([0.0, -0.0, 1.0, 65_535.0].map(|x| FLAG.count(x).unwrap()), [0, 0, 1, 65_535]);
    for unfit in [-1.0, 0.5, 65_535_f32.next_up(), 65_536.0, f32::NAN, f32::INFINITY, -f32::from_bits(1)] {
        assert!(FLAG.count(unfit).is_err());
    }
}

/// A float in counts by another way: an f64 holds it times 2^28, and the ends of the ranges, exactly, and its own
/// rounding goes away from zero on halves.
fn count_by_f64(range: Range, value: f32) -> Option<i64> {
    let counts = f64::from(value) * f64::from(1_u32 << range.scale);
    let fits = range.least as f64 <= counts && counts <= range.most as f64;
    let whole = range.scale != WHOLE || counts.fract() == 0.0;
    (fits && whole).then(|| counts.round() as i64)
}

#[test]
fn counts_of_every_scale() {
    let ranges: Vec<Range> = ROWS.iter().map(|row| row.range).chain([SZ, FLAG]).collect();
    for range in ranges {
        let ends = [range.least, range.most, 0, 1, -1].map(|n| scaled(n, range.scale).to_bits());
        let near = ends.iter().flat_map(|end| (0..9).map(move |n| (end + 4).wrapping_sub(n)));
        let spread = (0..1 << 16).map(|n: u32| n.wrapping_mul(0x9e37_79b1));
        let special = [0x7f80_0000, 0xff80_0000, 0x7fc0_0000, 1, 0x8000_0001, 0x8000_0000, 0x007f_ffff, 0x0080_0000];
        for bits in near.chain(spread).chain(special) {
            let value = f32::from_bits(bits);
            assert_eq!(range.count(value).ok(), count_by_f64(range, value), "{bits:08x} {range:?}");
        }
    }
}

#[test]
fn panel_values() {
    // "before rounding beyond its range": these would round into it.
    let ctg = magnitude(PARTS, most::CTG);
    assert_eq!([0.1, -0.1].map(|x| ctg.count(x)), [Err(Refusal::Value); 2]);
    assert_eq!(ctg.count(0.1_f32.next_down()), Ok(26_843_544));
    let fflv = Range { scale: STEPS, least: 0, most: most::FFLV };
    assert_eq!([-1e-45, -0.0, 600.0].map(|x| fflv.count(x)), [Err(Refusal::Value), Ok(0), Ok(most::FFLV)]);
    assert_eq!(magnitude(PARTS, most::CGAI).count(64.0), Ok(1 << 34));
    assert_eq!(magnitude(PARTS, most::CGAI).count(64_f32.next_up()), Err(Refusal::Value));
    // Halves of a part, away from zero.
    let half = 2_f32.powi(-29);
    let halves = [half, -half, 3.0 * half, -3.0 * half, (-half).next_up()];
    assert_eq!(halves.map(|x| ctg.count(x).unwrap()), [1, -1, 2, -2, 0]);
    // A gain of 35 bits goes out with one rounding, ties to even.
    let gains = [1 << 34, (1 << 34) - 1, (1 << 25) + 1, (1 << 25) + 3, -1].map(|n| scaled(n, PARTS).to_bits());
    assert_eq!(gains, [0x4280_0000, 0x4280_0000, 0x3e00_0000, 0x3e00_0001, 0xb180_0000]);
}

#[test]
fn checksums() {
    assert_eq!(crc16(b"123456789"), 0x4b37);
    assert_eq!(crc16(&[1, 4, 2, 0xff, 0xff]).to_le_bytes(), [0xb8, 0x80]);
}

#[test]
fn sheets() {
    let standard = sheet(&Figures::standard());
    assert_eq!(standard.len(), 173);
    assert_eq!(read(&standard).map(|contents| contents.figures), Ok(Figures::standard()));
    assert_eq!(read(&standard[..172]), Err(Refusal::ShortSheet));
    assert_eq!(read(&[&standard[..], &[0]].concat()), Err(Refusal::Trailing));
    let one = Figures { ctn: 1, ..Figures::standard() };
    assert_eq!(write(&one, &mut [0; 400]), Err(Refusal::WrongCount));
    let many = Figures { cln: 200, ..Figures::standard() };
    assert_eq!(write(&many, &mut [0; 400]), Err(Refusal::WrongCount));
    assert_eq!(write(&Figures::standard(), &mut [0; 172]), Err(Refusal::ShortBuffer));
    let mut f = Figures::standard();
    f.linearity[1] = LinearityPoint { clx: 400, clk: 100 };
    assert!(write(&f, &mut [0; 400]).is_ok());
    f.linearity[1].clk = 101;
    assert_eq!(write(&f, &mut [0; 400]), Err(Refusal::TooSteep));
}

/// The widest sums and products, in a build that checks for overflow.
#[test]
fn limits_do_not_overflow() {
    for cell_sign in [1, -1] {
        for system_sign in [1, -1] {
            let mut f = Figures::standard();
            (f.cofs, f.cgai) = (-most::COFS, cell_sign * most::CGAI);
            (f.cmin, f.cmax) = (-most::CELL, most::CELL);
            f.temperature[0].cto = -most::CTO;
            (f.temperature[0].ctg, f.temperature[1].ctg) = (most::CTG, most::CTG);
            f.linearity[0] = LinearityPoint { clx: -most::CELL, clk: -cell_sign * most::CLK };
            f.linearity[1] = LinearityPoint { clx: most::CELL, clk: cell_sign * most::CLK };
            (f.sofs, f.sgai) = (-most::SYSTEM, system_sign * most::SGAI);
            (f.smin, f.smax, f.sz) = (-most::SYSTEM, most::SYSTEM, -most::SYSTEM);
            let mut d = Device::new(&sheet(&f), 247).unwrap();
            for elec in [-19_660_800, 0, 19_660_800] {
                d.take(elec, -13_107_200, 1).unwrap();
            }
        }
    }
}

#[test]
fn bench_run() {
    let sheet = sheet(&Figures::standard());
    let mut input = [&[173, 0], &sheet[..]].concat();
    for (elec, temp) in [(6_553_600_i32, 1_310_720_i32), (-9_830_401, 1_310_720), (20_000_000, 0)] {
        input.extend(elec.to_le_bytes());
        input.extend(temp.to_le_bytes());
        input.push(0);
    }
    let printed = |input: &[u8]| {
        let mut out = Vec::new();
        bench::run::<Device>(input, &mut out).unwrap();
        String::from_utf8(out).unwrap()
    };
    assert_eq!(printed(&input), "SYS FLAG\n6553600 32768\n-9830400 32848\nrefused 9\n");
    assert_eq!(printed(&input[..180]), "SYS FLAG\nrefused 9\n");
    assert_eq!(printed(&input[..174]), "refused 1\n");
}

const STATION: u8 = 52;

/// The number and the value of a read; the number of a write.
fn ask(d: &mut Device, register: u16) -> (u8, f32) {
    let mut reply = [0; 9];
    let (number, _) = d.answer(&sealed(&[STATION, 3, 0, 2 * register as u8, 0, 2]), &mut reply);
    (number, f32::from_bits(u32::from_be_bytes([reply[5], reply[6], reply[3], reply[4]])))
}

fn tell(d: &mut Device, station: u8, register: u16, value: f32) -> (u8, usize, [u8; 9]) {
    let [b3, b2, b1, b0] = value.to_bits().to_be_bytes();
    let mut reply = [0; 9];
    let frame = sealed(&[station, 16, 0, 2 * register as u8, 0, 2, 4, b1, b0, b3, b2]);
    let (number, length) = d.answer(&frame, &mut reply);
    (number, length, reply)
}

fn put(d: &mut Device, register: u16, value: f32) -> u8 {
    tell(d, STATION, register, value).0
}

fn sealed(frame: &[u8]) -> Vec<u8> {
    [frame, &crc16(frame).to_le_bytes()].concat()
}

fn made(f: &Figures) -> Device {
    Device::new(&sheet(f), STATION).unwrap()
}

/// Each register of a figure writes and shows its own figure alone.
#[test]
fn panel_registers() {
    let numbers: Vec<u16> = ROWS.iter().flat_map(|row| row.first..=row.last).collect();
    assert_eq!(numbers.len(), 41);
    let mut d = made(&Figures::standard());
    let start = d;
    for (&register, n) in numbers.iter().zip(1..) {
        let figure = Figure::at(register).unwrap();
        let value = match register {
            50 | 110 => 5.0,
            93 => 93.0,
            _ => n as f32 / 512.0,
        };
        let before = numbers.iter().map(|&r| ask(&mut d, r)).collect::<Vec<_>>();
        assert_eq!(put(&mut d, register, value), 0, "{register}");
        for (&other, old) in numbers.iter().zip(before) {
            assert_eq!(ask(&mut d, other), if other == register { (0, value) } else { old }, "{register} {other}");
        }
        assert_eq!(scaled(figure.read(&d.copy), figure.range().scale), value);
    }
    // CTG stands before CTO here, in the sheet behind it.
    let row = |register| numbers.iter().position(|&r| r == register).unwrap() as i64 + 1;
    let point = d.copy.temperature[4];
    let due = TemperaturePoint { ct: row(115) * 128, cto: row(125) * 128, ctg: row(120) << 19 };
    assert_eq!((point, d.copy.linearity[6].clk), (due, row(67) * 128));
    // Nothing but the copy has moved, and RST sets it back.
    assert_eq!(Device { copy: start.copy, ..d }, start);
    assert_eq!((put(&mut d, 100, 0.0), d), (0, start));
    for unlisted in [39, 42, 43, 46, 49, 58, 60, 68, 69, 72, 73, 76, 91, 94, 98, 101, 109, 126] {
        assert_eq!(ask(&mut d, unlisted).0, 15, "{unlisted}");
    }
}

/// "puts the copy in force from the next reading": no reading, PEAK, snapshot, held value or FLAG is touched.
#[test]
fn panel_in_force() {
    let mut d = made(&Figures::standard());
    // Without a reading, and with a value that is none.
    assert_eq!((put(&mut d, 99, f32::NAN), ask(&mut d, 99)), (0, (0, 0.0)));
    d.take(6_553_600, 0, 0).unwrap();
    for (register, value) in [(22, 1.0), (41, 20.0), (40, 1.5), (50, 2.0), (53, 7.0), (92, 300.0), (93, 2.0)] {
        assert_eq!(put(&mut d, register, value), 0);
    }
    assert_eq!(d.figures, Figures { sz: 65_536, ..Figures::standard() });
    let before = d;
    assert_eq!(put(&mut d, 99, 0.0), 0);
    let due = Figures { cofs: 20 << 16, cgai: 3 << 27, sz: 1 << 16, fflv: 300 << 16, ffst: 2, ..Figures::standard() };
    assert_eq!(d, Device { figures: due, ..before });
    // A point past the count stays in the copy, and is 0 in force.
    assert_eq!((ask(&mut d, 53), d.figures.linearity[2].clx), ((0, 7.0), 0));
    // The filter, now on, goes on from the last reading: held 100, then 60, (60 - 20) x 1.5 - 1.
    d.take(20 << 16, 0, 0).unwrap();
    assert_eq!((ask(&mut d, 10), ask(&mut d, 16), ask(&mut d, 24)), ((0, 59.0), (0, 60.0), (0, 100.0)));
    // RST: the figures in force since the last such write, and 0 past the count.
    assert_eq!(put(&mut d, 100, 0.0), 0);
    assert_eq!(d, Device { station: STATION, figures: due, copy: due, flag: REBOOT, last: None, snapshot: None });
}

/// 17 where a sheet with the copy's figures would be refused; nothing then changes.
#[test]
fn panel_unfit_copy() {
    let unfit = [
        (44, 150.0),                 // CMIN not below CMAX
        (75, -150.0),                // SMAX not above SMIN
        (112, 0.0),                  // CT does not rise
        (110, 3.0),                  // nor to the third point, which is 0
        (51, 100.0),                 // CLX does not rise
        (62, 25.0 + 1.0 / 65_536.0), // CLK too steep by a step
    ];
    for (register, value) in unfit {
        let mut d = made(&Figures::standard());
        assert_eq!(put(&mut d, register, value), 0);
        let before = d;
        let (number, length, reply) = tell(&mut d, STATION, 99, 1.0);
        assert_eq!((number, &reply[..length]), (17, &sealed(&[STATION, 0x90, 3])[..]), "{register}");
        assert_eq!(tell(&mut d, 0, 99, 1.0), (17, 0, [0; 9]));
        assert_eq!(d, before);
    }
    let mut d = made(&Figures::standard());
    assert_eq!((put(&mut d, 62, 25.0), put(&mut d, 99, 0.0)), (0, 0));
    // A broadcast to the copy, and of 99, acts in silence.
    assert_eq!((tell(&mut d, 0, 41, 1.5), tell(&mut d, 0, 99, 0.0)), ((0, 0, [0; 9]), (0, 0, [0; 9])));
    assert_eq!(d.figures.cofs, 98_304);
    // A count that is none is refused when it is written.
    for (register, value) in [(50, 1.0), (50, 8.0), (50, 2.5), (110, 6.0), (110, f32::NAN), (93, 0.5), (93, 1001.0)] {
        assert_eq!(put(&mut d, register, value), 16, "{register} {value}");
    }
}

/// "A slow filling now jumps when the held value has fallen behind": by Change 2 it does not.
#[test]
fn slow_filling() {
    let mut d = made(&Figures { fflv: 2 << 16, ffst: 10, ..Figures::standard() });
    let mut held = 0;
    for input in (0..60).map(|percent| percent << 16) {
        d.take(input, 0, 0).unwrap();
        held += round_div(input - held, 10);
        assert_eq!((d.last.unwrap().input, d.last.unwrap().elec), (input, held));
    }
    // Nearly 9 % behind, where 1 % a reading is a tenth of the way; a test against the held value jumps at 2 %.
    assert!((8 << 16..9 << 16).contains(&((59 << 16) - held)));
    // A jump is one between samples: from 59 % to 61 % and a step.
    let (mut to, mut past) = (d, d);
    to.take(61 << 16, 0, 0).unwrap();
    past.take((61 << 16) + 1, 0, 0).unwrap();
    assert_eq!(to.last.unwrap().elec, held + round_div((61 << 16) - held, 10));
    assert_eq!(past.last.unwrap().elec, (61 << 16) + 1);
    // Back at the held value it is a jump too, where the test against it would step.
    d.take(held + 5, 0, 0).unwrap();
    assert_eq!(d.last.unwrap().elec, held + 5);
}

/// "the previous accepted unfiltered input, which the device has to remember, and RST forgets it".
#[test]
fn previous_input() {
    fn taken(d: &mut Device, percent: i64) -> (i64, i64) {
        d.take(percent << 16, 0, 0).unwrap();
        (d.last.unwrap().input >> 16, d.last.unwrap().elec >> 16)
    }
    let filter_by = |d: &mut Device, level| [(92, level), (93, 10.0), (99, 0.0)].map(|(r, value)| put(d, r, value));
    // It is remembered with the filter off, by a reading that jumps, and by one that steps.
    let mut d = made(&Figures::standard());
    assert_eq!([0, 50].map(|percent| taken(&mut d, percent)), [(0, 0), (50, 50)]);
    assert_eq!(filter_by(&mut d, 30.0), [0; 3]);
    assert_eq!([80, 120, 140].map(|percent| taken(&mut d, percent)), [(80, 53), (120, 120), (140, 122)]);
    assert_eq!(taken(&mut d, 110), (110, 120));
    // 99, refused readings and every other write but RST leave it: the next one is 9 from 110, though 120 is held.
    assert_eq!(filter_by(&mut d, 9.0), [0; 3]);
    let before = d.last;
    assert_eq!([d.take(19_660_801, 0, 0), d.take(0, 0, 2)], [Err(Refusal::BadReading); 2]);
    assert_eq!([(22, 1.0), (14, 0.0), (103, 0.0), (44, 200.0)].map(|(r, value)| put(&mut d, r, value)), [0; 4]);
    assert_eq!((put(&mut d, 99, 0.0), put(&mut d, 44, -150.0), d.last), (17, 0, before));
    assert_eq!(put(&mut d, 104, 0.0), 0);
    assert_eq!(taken(&mut d, 101), (101, 118));
    // Switched off, and on again with no reading between: as if never off.
    assert_eq!([filter_by(&mut d, 0.0), filter_by(&mut d, 9.0)], [[0; 3]; 2]);
    assert_eq!(taken(&mut d, 92), (92, 116));
    // RST forgets it: the next reading is a first one.
    assert_eq!((put(&mut d, 100, 0.0), d.last), (0, None));
    assert_eq!([97, 100].map(|percent| taken(&mut d, percent)), [(97, 97), (100, 97)]);
}
