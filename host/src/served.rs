//! What a simulator serves on its line: one device, with a probe beside its cell or without, or the four of a platform.

use crate::readings::{parsed, resistance, Profile};
use crate::refusals::meaning;
use crate::Converter;
use model::{Refusal, Sample, Weights};

pub enum Served<C> {
    One(C),
    /// With a probe beside its cell, whose resistance stands in the place of TEMP.
    Probed(C),
    /// For corners 1 to 4, at stations one after another.
    Platform([C; 4]),
}

impl<C: Converter> Served<C> {
    /// A device; or the number of the refusal.
    pub fn one(sheet: &[u8], station: u8) -> Result<Served<C>, u8> {
        made(sheet, station).map(Served::One)
    }

    /// A device with a probe; or the number of the refusal.
    pub fn probed(sheet: &[u8], station: u8) -> Result<Served<C>, u8> {
        made(sheet, station).map(Served::Probed)
    }

    /// Four devices, the first at this station; or the number of the refusal.
    pub fn platform(sheet: &[u8], station: u8) -> Result<Served<C>, u8> {
        let corner = |n| made(sheet, station.saturating_add(n));
        Ok(Served::Platform([corner(0)?, corner(1)?, corner(2)?, corner(3)?]))
    }

    /// Take what a profile has for a tick; gives the lines to report.
    pub fn follow(&mut self, profile: Profile, tick: u64, verbose: bool) -> Vec<String> {
        match self {
            Served::One(device) => take(device, profile.reading(tick)),
            Served::Probed(device) => {
                let (elec, temp, integrity) = profile.reading(tick);
                probe(device, (elec, resistance(temp), integrity))
            }
            Served::Platform(corners) => weigh(corners, profile.readings(tick), verbose),
        }
    }

    /// Take what stands in a line of text; gives the lines to report.
    pub fn read(&mut self, text: &str, verbose: bool) -> Vec<String> {
        match self {
            Served::One(device) => match parsed(text) {
                Some([sample]) => take(device, sample),
                None => vec![format!("not a reading (ELEC TEMP INTEGRITY): {text}")],
            },
            Served::Probed(device) => match parsed(text) {
                Some([sample]) => probe(device, sample),
                None => vec![format!("not a reading by a probe (ELEC RESISTANCE INTEGRITY): {text}")],
            },
            Served::Platform(corners) => match parsed(text) {
                Some(samples) => weigh(corners, samples, verbose),
                None => vec![format!("not four readings (ELEC TEMP INTEGRITY, for corners 1 to 4): {text}")],
            },
        }
    }

    /// Answer a frame; gives its number in words, of a platform that of each corner it was for, and the length replied.
    pub fn answer(&mut self, frame: &[u8], reply: &mut [u8]) -> (String, usize) {
        match self {
            Served::One(device) | Served::Probed(device) => {
                let (number, length) = device.frame(frame, reply);
                (in_words(number), length)
            }
            Served::Platform(corners) => answer(corners, frame, reply),
        }
    }
}

fn made<C: Converter>(sheet: &[u8], station: u8) -> Result<C, u8> {
    let mut device = C::default();
    match device.make(sheet, station) {
        0 => Ok(device),
        number => Err(number),
    }
}

fn take<C: Converter>(device: &mut C, (elec, temp, integrity): Sample) -> Vec<String> {
    let number = device.reading(elec, temp, integrity);
    refused("reading", &[(elec, temp, integrity)], number).into_iter().collect()
}

fn probe<C: Converter>(device: &mut C, (elec, resistance, integrity): Sample) -> Vec<String> {
    let number = device.probe(elec, resistance, integrity);
    refused("probe", &[(elec, resistance, integrity)], number).into_iter().collect()
}

fn weigh<C: Converter>(corners: &mut [C; 4], samples: [Sample; 4], verbose: bool) -> Vec<String> {
    let (number, Weights { total, left, right, difference, .. }) = C::weigh(corners.each_mut(), samples);
    let weights = || format!("weigh: {number}, total {total} left {left} right {right} difference {difference}");
    refused("weigh", &samples, number).into_iter().chain(verbose.then(weights)).collect()
}

/// What is to be said of a call on these readings, if it was refused.
fn refused(call: &str, samples: &[Sample], number: u8) -> Option<String> {
    let numbers: Vec<String> =
        samples.iter().map(|(elec, temp, integrity)| format!("{elec} {temp} {integrity}")).collect();
    (number != 0).then(|| format!("{call} {}: refused {number}, {}", numbers.join(" "), meaning(number)))
}

/// As on a wire, each device is given each frame: those of another station turn it down, and leave the reply alone.
/// Stations differ, so that at most one replies.
fn answer<C: Converter>(corners: &mut [C; 4], frame: &[u8], reply: &mut [u8]) -> (String, usize) {
    let (mut said, mut replied) = (Vec::new(), 0);
    for (device, corner) in corners.iter_mut().zip(1..) {
        let (number, length) = device.frame(frame, reply);
        replied += length;
        if number != Refusal::NotForUs as u8 {
            said.push(format!("corner {corner}: {}", in_words(number)));
        }
    }
    if said.is_empty() {
        said.push(in_words(Refusal::NotForUs as u8));
    }
    (said.join("\n  "), replied)
}

fn in_words(number: u8) -> String {
    format!("{number} {}", meaning(number))
}

#[cfg(test)]
mod tests {
    use super::*;
    use crate::generate::sheet;
    use crate::{read_frame, write_frame};
    use model::{Device, Figures};

    const STATION: u8 = 52;
    const SYS: u16 = 20;
    const SZ: u16 = 44;
    const RST: u16 = 200;

    /// Its TEMP and STAT.
    fn temp(served: &Served<Device>) -> Option<(i64, u16)> {
        let Served::Probed(device) = served else { panic!("no probe") };
        device.last.map(|last| (last.temp, last.stat))
    }

    #[test]
    fn a_line_has_a_resistance() {
        let sheet = sheet(&Figures::standard());
        let mut served = Served::<Device>::probed(&sheet, STATION).unwrap_or_else(|number| panic!("refused {number}"));
        // At -50, 0 and 150 degrees; TEMPOR above 90.
        for (line, due) in [("0 803063 0", (-50, 0)), ("0 1000000 0", (0, 0)), ("0 1573251 0", (150, 8))] {
            assert_eq!((served.read(line, true), temp(&served)), (vec![], Some((due.0 << 16, due.1))));
        }
        for (line, number) in [("0 803062 0", 20), ("0 1573252 2", 20), ("19660801 1000000 0", 9)] {
            assert_eq!(served.read(line, false), [format!("probe {line}: refused {number}, {}", meaning(number))]);
        }
        for line in ["1000000", "0 100.0 0", "0 1000000 0 0 1000000 0"] {
            let said = format!("not a reading by a probe (ELEC RESISTANCE INTEGRITY): {line}");
            assert_eq!(served.read(line, false), [said]);
        }
        assert_eq!(temp(&served), Some((150 << 16, 8)));
        assert_eq!((served.follow(Profile::Still, 0, false), temp(&served)), (vec![], Some((20 << 16, 0))));
        assert_eq!(served.answer(&read_frame(STATION, SYS), &mut [0; 9]), ("0 accepted".into(), 9));
        assert_eq!(Served::<Device>::probed(&sheet, 248).err(), Some(8));
    }

    fn platform() -> Served<Device> {
        Served::platform(&sheet(&Figures::standard()), STATION).unwrap_or_else(|number| panic!("refused {number}"))
    }

    fn sys(served: &Served<Device>) -> [Option<i64>; 4] {
        let Served::Platform(corners) = served else { panic!("no platform") };
        corners.map(|device| device.last.map(|last| last.sys))
    }

    #[test]
    fn stations_one_after_another() {
        let bytes = sheet(&Figures::standard());
        let Served::Platform(corners) = platform() else { panic!("no platform") };
        assert_eq!(corners.map(|device| device.station), [52, 53, 54, 55]);
        let refused = |station| Served::<Device>::platform(&bytes, station).err();
        assert_eq!(
            [0, 1, 244, 245, 247, 248, 255].map(refused),
            [Some(8), None, None, Some(8), Some(8), Some(8), Some(8)]
        );
        assert_eq!(Served::<Device>::platform(&bytes[1..], STATION).err(), Some(2));
        assert_eq!([247, 248].map(|station| Served::<Device>::one(&bytes, station).err()), [None, Some(8)]);
    }

    #[test]
    fn a_line_is_weighed_or_reported() {
        let mut served = platform();
        assert!(served.read("1 0 0 2 0 0 3 0 0 5 0 0", false).is_empty());
        assert_eq!(sys(&served), [Some(1), Some(2), Some(3), Some(5)]);
        let said = served.read("10 0 0 20 0 1 30 0 0 50 0 0", true);
        assert_eq!(said, ["weigh: 0, total 110 left 40 right 70 difference -30"]);
        // Corner 4 is beyond its range: all keep what they had.
        let bad = "0 0 0 0 0 0 0 0 0 19660801 0 0";
        let refused = format!("weigh {bad}: refused 18, {}", meaning(18));
        assert_eq!(served.read(bad, false), [refused.clone()]);
        assert_eq!(served.read(bad, true), [refused, "weigh: 18, total 0 left 0 right 0 difference 0".into()]);
        for line in ["1 0 0", "1 0 0 2 0 0 3 0 0 5 0", "1 0 0 2 0 0 3 0 0 5 0 256", "weight"] {
            let said = format!("not four readings (ELEC TEMP INTEGRITY, for corners 1 to 4): {line}");
            assert_eq!(served.read(line, false), [said]);
        }
        assert_eq!(sys(&served), [Some(10), Some(20), Some(30), Some(50)]);
    }

    #[test]
    fn a_frame_is_for_the_corner_of_its_station() {
        let mut served = platform();
        served.read("1 0 0 2 0 0 3 0 0 5 0 0", false);
        let mut reply = [0; 9];
        let (said, length) = served.answer(&read_frame(54, SYS), &mut reply);
        assert_eq!((said.as_str(), length, reply[0]), ("corner 3: 0 accepted", 9, 54));
        let before = reply;
        for silent in [read_frame(51, SYS), read_frame(56, SYS), read_frame(0, SYS), vec![], vec![53; 8]] {
            assert_eq!(served.answer(&silent, &mut reply), (in_words(13), 0));
        }
        // RST of corner 2 alone; a broadcast to all.
        assert_eq!(served.answer(&write_frame(53, RST, 0), &mut reply).1, 8);
        assert_eq!(sys(&served), [Some(1), None, Some(3), Some(5)]);
        reply = before;
        let (said, length) = served.answer(&write_frame(0, SZ, 1_f32.to_bits()), &mut reply);
        assert_eq!((said.lines().count(), length, reply), (4, 0, before));
        served.read("65537 0 0 65538 0 0 65539 0 0 65541 0 0", false);
        assert_eq!(sys(&served), [Some(1), Some(2), Some(3), Some(5)]);
    }
}
