//! Flags that outlive a reset: Change 7 of paper 02.

use super::{ask, made, put, sealed, sheet, tell, STATION};
use crate::device::REBOOT;
use crate::{Converter, Device, Figures, Sample};

const PERCENT: i64 = 65_536;
const FLAG: u16 = 14;
const RST: u16 = 100;
const SNAP: u16 = 103;
/// The bits that a reading can raise, and the others but REBOOT.
const RAISED: u16 = 4 | 8 | 16 | 32 | 64 | 128 | 256 | 512 | 2_048;
const NEVER: u16 = !(RAISED | REBOOT);
/// ECOMOR and CRAWOR: what 155 % raises by the default sheet, whose raw system value stays at its limit.
const OVERLOADED: u16 = 32 | 128;

/// Readings in percent and degrees that raise one bit alone, and the limits of cell and system that they are taken by.
const ONE_BIT: [(u16, [i64; 2], Sample); 9] = [
    (4, [150, 150], (0, -51, 0)),
    (8, [150, 150], (0, 91, 0)),
    (16, [150, 150], (-121, 0, 0)),
    (32, [150, 150], (121, 0, 0)),
    (64, [100, 150], (-101, 0, 0)),
    (128, [100, 150], (101, 0, 0)),
    (256, [150, 100], (-101, 0, 0)),
    (512, [150, 100], (101, 0, 0)),
    (2_048, [150, 150], (0, 0, 1)),
];

fn limited([cell, system]: [i64; 2]) -> Device {
    let (cmax, smax) = (cell * PERCENT, system * PERCENT);
    made(&Figures { cmin: -cmax, cmax, smin: -smax, smax, ..Figures::standard() })
}

fn take(d: &mut Device, (elec, temp, integrity): Sample) {
    d.take(elec * PERCENT, temp * PERCENT, integrity).unwrap();
}

fn flag(d: &mut Device) -> u16 {
    let (number, value) = ask(d, FLAG);
    assert_eq!(number, 0);
    value as u16
}

/// "RST shall now add REBOOT to FLAG and clear nothing": each bit survives it, however often; REBOOT is added where a
/// write had cleared it.
#[test]
fn every_bit_outlives_rst() {
    for (bit, limits, sample) in ONE_BIT {
        let mut d = limited(limits);
        take(&mut d, sample);
        assert_eq!(flag(&mut d), bit | REBOOT);
        assert_eq!((put(&mut d, FLAG, bit.into()), flag(&mut d)), (0, bit));
        for _ in 0..3 {
            assert_eq!((put(&mut d, RST, 0.0), flag(&mut d)), (0, bit | REBOOT));
        }
        // A sound reading raises nothing, and clears nothing.
        take(&mut d, (0, 0, 0));
        assert_eq!((d.last.unwrap().stat, flag(&mut d)), (0, bit | REBOOT));
    }
}

/// "only a write to FLAG clears": the bits that it lacks, before RST and after it; it raises none.
#[test]
fn only_a_write_clears() {
    for (bit, limits, sample) in ONE_BIT {
        let mut start = limited(limits);
        take(&mut start, sample);
        // After RST: the bit alone goes, or REBOOT alone, or both, or none.
        for kept in [!bit, !REBOOT, 0, u16::MAX] {
            let mut d = start;
            assert_eq!((put(&mut d, RST, 0.0), put(&mut d, FLAG, kept.into())), (0, 0));
            assert_eq!(flag(&mut d), (bit | REBOOT) & kept);
            // What was cleared is not brought back by RST, but for REBOOT.
            assert_eq!((put(&mut d, RST, 0.0), flag(&mut d)), (0, bit & kept | REBOOT));
        }
        // Before RST, and raised again after it.
        let mut d = start;
        assert_eq!((put(&mut d, FLAG, 0.0), put(&mut d, RST, 0.0), flag(&mut d)), (0, 0, REBOOT));
        take(&mut d, sample);
        assert_eq!((put(&mut d, RST, 0.0), flag(&mut d)), (0, bit | REBOOT));
    }
}

/// "A flag's history then runs back to the start or to the last write that lacked its bit, past all resets": whatever
/// stands between, RST leaves a bit that is not REBOOT as if it had not been there.
#[test]
fn a_history_runs_past_all_resets() {
    let mut with = limited([150, 100]);
    let mut without = with;
    let mut seed = 7_u32;
    let mut below = |n: u32| {
        seed = seed.wrapping_mul(1_664_525).wrapping_add(1_013_904_223);
        seed / 7 % n
    };
    let (mut seen, mut cleared) = (0, 0);
    for _ in 0..20_000 {
        match below(8) {
            0 => {
                let value = (below(1 << 16) | below(1 << 16)) as f32;
                assert_eq!([put(&mut with, FLAG, value), put(&mut without, FLAG, value)], [0; 2]);
            }
            1 | 2 => assert_eq!(put(&mut with, RST, 0.0), 0),
            _ => {
                let (elec, temp) = (i64::from(below(601)) - 300, i64::from(below(201)) - 75);
                for d in [&mut with, &mut without] {
                    take(d, (elec, temp, u8::from(elec % 7 == 0)));
                }
            }
        }
        assert_eq!((with.flag ^ without.flag) & !REBOOT, 0);
        (seen, cleared) = (seen | with.flag, cleared | !with.flag);
    }
    // Every bit that there is was set and was clear.
    assert_eq!((seen, cleared & (RAISED | REBOOT)), (RAISED | REBOOT, RAISED | REBOOT));
}

/// 01's "a start .. clears all, then raises 32768": a making is no RST, on a record in use too.
#[test]
fn a_start_has_reboot_alone() {
    let mut d = made(&Figures::standard());
    assert_eq!(flag(&mut d), REBOOT);
    take(&mut d, (155, 0, 1));
    assert_eq!((put(&mut d, RST, 0.0), flag(&mut d)), (0, OVERLOADED | 2_048 | REBOOT));
    assert_eq!((d.make(&sheet(&Figures::standard()), STATION), flag(&mut d)), (0, REBOOT));
}

/// "PEAK and TROF still begin anew", and readings, snapshot, filter and copy with them: RST differs from a start of the
/// figures in force in FLAG alone.
#[test]
fn all_but_the_flags_begins_anew() {
    let f = Figures { fflv: 20 * PERCENT, ffst: 4, ..Figures::standard() };
    let mut d = made(&f);
    for percent in [155, -155, 3, 8] {
        take(&mut d, (percent, 0, 0));
    }
    let writes = [(22, 2.5), (SNAP, 0.0), (41, 10.0)];
    assert_eq!(writes.map(|(register, value)| put(&mut d, register, value)), [0; 3]);
    let flags = OVERLOADED | 16 | 64 | REBOOT;
    assert_eq!((d.flag, put(&mut d, RST, 0.0)), (flags, 0));
    let in_force = Figures { sz: 5 << 15, ..f };
    let due = Device { station: STATION, figures: in_force, copy: in_force, flag: flags, last: None, snapshot: None };
    assert_eq!(d, due);
    // 10, and 11, until there is a reading and a snapshot again; of an earlier PEAK nothing is left.
    let refused = [6, 9, 10, 11, 12, 13, 15, 16, 24, 25, 23].map(|register| ask(&mut d, register).0);
    assert_eq!(refused, [10, 10, 10, 10, 10, 10, 10, 10, 10, 10, 11]);
    assert_eq!((put(&mut d, SNAP, 0.0), put(&mut d, 104, 0.0), Converter::report(&mut d)), (10, 10, (10, [0; 4])));
    // The next reading is a first one: not smoothed, and the whole span of PEAK and TROF.
    take(&mut d, (12, 0, 0));
    assert_eq!([16, 10, 24, 25].map(|register| ask(&mut d, register)), [12.0, 9.5, 9.5, 9.5].map(|value| (0, value)));
    assert_eq!(flag(&mut d), flags);
}

/// Broadcast or addressed, with any value, RST is the same; one to another device of the line is not ours.
#[test]
fn broadcasts_and_values() {
    let mut start = made(&Figures::standard());
    take(&mut start, (155, 0, 0));
    assert_eq!(put(&mut start, FLAG, OVERLOADED.into()), 0);
    let mut due = start;
    assert_eq!((put(&mut due, RST, 0.0), due.flag), (0, OVERLOADED | REBOOT));
    for value in [0.0, 1.0, -1.0, 65_535.0, 0.5, f32::NAN, f32::INFINITY] {
        let (mut addressed, mut broadcast, mut other) = (start, start, start);
        assert_eq!((put(&mut addressed, RST, value), addressed), (0, due), "{value}");
        assert_eq!((tell(&mut broadcast, 0, RST, value), broadcast), ((0, 0, [0; 9]), due), "{value}");
        assert_eq!((tell(&mut other, STATION + 1, RST, value), other), ((13, 0, [0; 9]), start), "{value}");
    }
}

/// "No refusal changes a device": RST in a frame that is turned down adds nothing, not even REBOOT.
#[test]
fn a_refused_rst_adds_nothing() {
    let mut start = made(&Figures::standard());
    take(&mut start, (155, 0, 0));
    assert_eq!((put(&mut start, FLAG, OVERLOADED.into()), start.flag), (0, OVERLOADED));
    let good = sealed(&[STATION, 16, 0, 200, 0, 2, 4, 0, 0, 0, 0]);
    let mut checksum = good.clone();
    checksum[12] ^= 1;
    let shaped = |at: usize, byte: u8| {
        let mut frame = good[..11].to_vec();
        frame[at] = byte;
        sealed(&frame)
    };
    let turned_down = [
        (checksum, 9, 13),
        (good[..12].to_vec(), 9, 13),
        (good.clone(), 8, 12),
        (shaped(1, 6), 9, 14),   // another function
        (shaped(5, 4), 9, 16),   // quantity
        (shaped(6, 2), 9, 16),   // byte count
        (shaped(3, 201), 9, 15), // odd
        (sealed(&good[..10]), 9, 16),
    ];
    for (frame, room, number) in turned_down {
        let mut d = start;
        assert_eq!((d.answer(&frame, &mut [0; 9][..room]).0, d), (number, start), "{frame:02x?}");
    }
    // A read of it is none either.
    let mut d = start;
    assert_eq!((ask(&mut d, RST), d), ((0, 0.0), start));
    assert_eq!((d.answer(&good, &mut [0; 9]).0, d.flag), (0, OVERLOADED | REBOOT));
}

/// The bits that nothing raises are not raised by RST either.
#[test]
fn no_bit_comes_from_nowhere() {
    let mut d = made(&Figures::standard());
    assert_eq!((put(&mut d, FLAG, 65_535.0), put(&mut d, RST, 65_535.0), flag(&mut d) & NEVER), (0, 0, 0));
    assert_eq!(flag(&mut d), REBOOT);
}
