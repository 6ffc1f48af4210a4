//! Where a simulated converter's readings come from: a built-in profile, or lines of text.

use model::probe::{COLDEST, TABLE};
use model::Sample;

const STEPS: i64 = 65_536;
/// Readings a second of a profile.
pub const RATE: u64 = 10;

#[derive(Clone, Copy, Debug, PartialEq)]
pub enum Profile {
    /// A hopper that fills, is knocked into overload, and empties, in 60 s, while the air warms and cools.
    Fill,
    /// 100 % at 20 degrees.
    Still,
    /// A test rig that pushes a cell, and then pulls it by the same loads, in 60 s, at 20 degrees.
    Rig,
    /// A lorry that drives on a platform, stands, and drives off, in 60 s, in the air of the hopper.
    Lorry,
}

/// Hopper: tenths of a second, and percent there; straight lines between.
const HOPPER: [(i64, i64); 9] =
    [(0, 0), (50, 0), (300, 100), (310, 100), (312, 155), (314, 100), (400, 100), (550, 0), (600, 0)];
/// Rig: the same. It stands at 50 and 100 %, unloads, and 30 s later does the same the other way.
const RIG: [(i64, i64); 14] = [
    (0, 0),
    (50, 0),
    (80, 50),
    (130, 50),
    (160, 100),
    (210, 100),
    (270, 0),
    (350, 0),
    (380, -50),
    (430, -50),
    (460, -100),
    (510, -100),
    (570, 0),
    (600, 0),
];
/// Lorry: the same at corners 1 to 4. Its front axle loads 1 and 2, its rear 3 and 4; the left, 1 and 3, a little more.
const LORRY: [[(i64, i64); 6]; 4] = [
    [(0, 0), (50, 0), (80, 30), (400, 30), (430, 0), (600, 0)],
    [(0, 0), (50, 0), (80, 28), (400, 28), (430, 0), (600, 0)],
    [(0, 0), (100, 0), (140, 60), (440, 60), (480, 0), (600, 0)],
    [(0, 0), (100, 0), (140, 57), (440, 57), (480, 0), (600, 0)],
];
/// 20 degrees.
const ROOM: i64 = 20 * STEPS;
/// Air: tenths of a second, and degrees there.
const AIR: [(i64, i64); 3] = [(0, 18), (3_000, 24), (6_000, 18)];

impl Profile {
    pub fn named(name: &str) -> Option<Profile> {
        match name {
            "fill" => Some(Profile::Fill),
            "still" => Some(Profile::Still),
            "rig" => Some(Profile::Rig),
            "lorry" => Some(Profile::Lorry),
            _ => None,
        }
    }

    /// The reading of a tick, of corner 1 where they differ; the profile repeats for ever.
    pub fn reading(self, tick: u64) -> Sample {
        self.readings(tick)[0]
    }

    /// The readings of a tick at corners 1 to 4.
    pub fn readings(self, tick: u64) -> [Sample; 4] {
        match self {
            Profile::Fill => [(along(&HOPPER, tick), along(&AIR, tick), 0); 4],
            Profile::Still => [(100 * STEPS, ROOM, 0); 4],
            Profile::Rig => [(along(&RIG, tick), ROOM, 0); 4],
            Profile::Lorry => LORRY.map(|corner| (along(&corner, tick), along(&AIR, tick), 0)),
        }
    }
}

/// What a probe has at a TEMP from -50 to below 150 degrees, in 0.0001 ohm, to the nearest.
pub fn resistance(temp: i64) -> i64 {
    let (at, part) = ((temp.div_euclid(STEPS) - COLDEST) as usize, temp.rem_euclid(STEPS));
    TABLE[at] + ((TABLE[at + 1] - TABLE[at]) * part + STEPS / 2) / STEPS
}

/// The value at a tick, in steps, over points that are run through again and again.
fn along(points: &[(i64, i64)], tick: u64) -> i64 {
    let period = points[points.len() - 1].0;
    let at = (tick % period.unsigned_abs()).cast_signed();
    let next = points.iter().position(|p| p.0 > at).expect("the last point is past every tick");
    let ((t1, v1), (t2, v2)) = (points[next - 1], points[next]);
    STEPS * v1 + STEPS * (v2 - v1) * (at - t1) / (t2 - t1)
}

/// `ELEC TEMP INTEGRITY`, in decimal steps, N times; of a probe RESISTANCE stands in the place of TEMP.
pub fn parsed<const N: usize>(line: &str) -> Option<[Sample; N]> {
    let words: Vec<&str> = line.split_whitespace().collect();
    let (samples, []) = words.as_chunks() else { return None };
    let sample =
        |[elec, temp, integrity]: &[&str; 3]| Some((elec.parse().ok()?, temp.parse().ok()?, integrity.parse().ok()?));
    samples.iter().map(sample).collect::<Option<Vec<Sample>>>()?.try_into().ok()
}

/// Longest line that is looked at.
const LONGEST: usize = 200;

/// Text cut into lines as it comes. A line past the longest keeps one byte too many, by which it is known.
#[derive(Default)]
pub struct Lines {
    line: Vec<u8>,
}

impl Lines {
    /// Hand over each line that these bytes complete.
    pub fn add(&mut self, bytes: &[u8], mut complete: impl FnMut(&str)) {
        for &byte in bytes {
            if byte == b'\n' {
                self.end(&mut complete);
            } else if self.line.len() <= LONGEST {
                self.line.push(byte);
            }
        }
    }

    /// Hand over what stands after the last line end, if anything does.
    pub fn end(&mut self, mut complete: impl FnMut(&str)) {
        let text = String::from_utf8_lossy(&self.line);
        if self.line.len() > LONGEST {
            complete("(a line too long)");
        } else if !text.trim().is_empty() {
            complete(text.trim());
        }
        self.line.clear();
    }
}

#[cfg(test)]
mod tests {
    use super::*;
    use crate::generate::sheet;
    use model::{Device, Figures, Reading};

    #[test]
    fn profiles_stay_within_what_a_reading_takes() {
        for tick in 0..12_001 {
            let (elec, temp, integrity) = Profile::Fill.reading(tick);
            assert!((0..=155 * STEPS).contains(&elec) && (18 * STEPS..=24 * STEPS).contains(&temp));
            assert_eq!(integrity, 0);
        }
        assert_eq!(Profile::Fill.reading(175), (50 * STEPS, 18 * STEPS + 350 * STEPS / 1_000, 0));
        assert_eq!(Profile::Fill.reading(312).0, 155 * STEPS);
        assert_eq!(Profile::Fill.reading(600), (0, 18 * STEPS + 1_200 * STEPS / 1_000, 0));
    }

    /// A step of resistance is up to 18 of TEMP, so that the nearest is within 9.
    #[test]
    fn a_probe_is_as_warm_as_the_air() {
        let taken = |temp| model::probe::temp(resistance(temp)).expect("within the table");
        for tick in 0..6_000 {
            let (_, temp, _) = Profile::Fill.reading(tick);
            assert!((taken(temp) - temp).abs() <= 9, "{tick}");
        }
        assert_eq!([-50, 0, 20, 149].map(|celsius| taken(celsius * STEPS) / STEPS), [-50, 0, 20, 149]);
        assert_eq!([-50, 0, 100].map(|celsius| resistance(celsius * STEPS)), [803_063, 1_000_000, 1_385_055]);
    }

    #[test]
    fn a_lorry_comes_axle_by_axle_and_goes() {
        let percent = |tick| Profile::Lorry.readings(tick).map(|(elec, _, _)| elec / STEPS);
        assert_eq!(
            [0, 80, 140, 430, 600].map(percent),
            [[0; 4], [30, 28, 0, 0], [30, 28, 60, 57], [0, 0, 60, 57], [0; 4]]
        );
        for tick in 0..6_001 {
            let [one, two, three, four] = Profile::Lorry.readings(tick);
            assert!(one.0 >= two.0 && three.0 >= four.0, "more on the left, {tick}");
            assert_eq!([one, two, three, four].map(|(_, temp, _)| temp), [Profile::Fill.reading(tick).1; 4]);
        }
        assert_eq!(Profile::Still.readings(7), [Profile::Still.reading(0); 4]);
    }

    #[test]
    fn a_rig_pulls_as_it_pushes() {
        let percent = |tick| Profile::Rig.reading(tick).0 / STEPS;
        assert_eq!([0, 80, 130, 160, 210, 270, 300].map(percent), [0, 50, 50, 100, 100, 0, 0]);
        assert_eq!([350, 380, 430, 460, 510, 570, 600].map(percent), [0, -50, -50, -100, -100, 0, 0]);
        // Gains of odd quarters, and a filter that smooths all but the first reading: many halves.
        let figures = Figures { cgai: 3 << 26, sgai: 5 << 26, fflv: 4 * STEPS, ffst: 10, ..Figures::standard() };
        let mut rig = [Device::new(&sheet(&figures), 1).expect("a device"); 2];
        for tick in 0..300 {
            let ((elec, temp, integrity), pulled) = (Profile::Rig.reading(tick), Profile::Rig.reading(tick + 300));
            assert_eq!(pulled, (-elec, temp, integrity), "{tick}");
            rig[0].take(elec, temp, integrity).expect("taken");
            rig[1].take(pulled.0, temp, integrity).expect("taken");
            let [pushed, pulled] = rig.map(|device| device.last.expect("a reading"));
            let values = |r: Reading| [r.elec, r.craw, r.cell, r.sraw, r.sys];
            assert_eq!(values(pushed), values(pulled).map(|value| -value), "{tick}");
            assert_eq!((pushed.peak, pushed.trof), (-pulled.trof, -pulled.peak));
        }
    }

    /// FFLV 2 %, FFST 10: the filling, 0.4 % a reading, is smoothed 3.6 % behind, and only the knock jumps.
    #[test]
    fn the_filling_is_smooth_and_the_knock_jumps() {
        let figures = Figures { fflv: 2 * STEPS, ffst: 10, ..Figures::standard() };
        let mut device = Device::new(&sheet(&figures), 1).expect("a device");
        let (mut held, mut jumps, mut furthest) = (0, Vec::new(), 0);
        for tick in 0..600 {
            let (elec, temp, integrity) = Profile::Fill.reading(tick);
            device.take(elec, temp, integrity).expect("taken");
            let shown = device.last.expect("a reading").elec;
            if shown == elec && shown != held {
                jumps.push(tick);
            }
            (held, furthest) = (shown, furthest.max(elec - shown));
        }
        assert_eq!(jumps, [311, 312, 313, 314]);
        assert_eq!(10 * furthest / STEPS, 36);
    }

    #[test]
    fn lines_of_readings() {
        assert_eq!(parsed(" 6553600 -1310720\t1 "), Some([(6_553_600, -1_310_720, 1)]));
        for wrong in ["", "1 2", "1 2 0 4", "1.5 2 0", "1 2 256", "9223372036854775808 0 0", "1 2 0 1 2 0"] {
            assert_eq!(parsed::<1>(wrong), None);
        }
        assert_eq!(parsed("1 2 0 3 4 1"), Some([(1, 2, 0), (3, 4, 1)]));
        // The longest that four readings can be is a line all the same.
        let longest = vec![format!("{0} {0} 255", i64::MIN); 4].join(" ");
        assert_eq!((parsed(&longest), longest.len() <= LONGEST), (Some([(i64::MIN, i64::MIN, 255); 4]), true));
    }

    #[test]
    fn text_is_cut_into_lines_and_bounded() {
        let mut lines = Lines::default();
        let mut found = Vec::new();
        lines.add(b"1 2", |line| found.push(line.to_string()));
        lines.add(b" 3\r\n\n4", |line| found.push(line.to_string()));
        lines.add(&[b'5'; 5_000], |line| found.push(line.to_string()));
        assert_eq!(lines.line.len(), LONGEST + 1);
        lines.add(b"\n6", |line| found.push(line.to_string()));
        lines.end(|line| found.push(line.to_string()));
        assert_eq!(found, ["1 2 3", "(a line too long)", "6"]);
    }
}
