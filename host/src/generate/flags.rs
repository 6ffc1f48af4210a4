//! Flags past RST: runs of readings that raise bits, of RST, and of writes to FLAG that lack bits or keep them; and which
//! edges of paper 02's Change 7 the calls reached.

use super::Rng;
use crate::{FLAG, RST};
use model::{Device, Sample, REBOOT};
use std::fmt;

/// A step of a run; what it is in full is settled when its turn comes, by the device as it then is.
#[derive(Clone, Copy)]
pub enum Step {
    /// A reading beyond ranges.
    Raise,
    Reset,
    Clear,
}

/// A run, the last step first: flags are raised, there is RST, and then all three in any order.
pub fn run(rng: &mut Rng) -> Vec<Step> {
    let mut steps = vec![Step::Raise, Step::Reset];
    for _ in 0..rng.range(0, 8) {
        steps.push(rng.pick(&[Step::Raise, Step::Reset, Step::Reset, Step::Clear]));
    }
    steps.reverse();
    steps
}

/// A fit reading far out, on either side, at a temperature far out or not, by a faulty cell or a sound one.
pub fn raising(rng: &mut Rng) -> Sample {
    let sign = rng.pick(&[1, -1]);
    (sign * rng.range(7_864_321, 19_660_800), rng.pick(&[1, -1, 0]) * rng.range(0, 13_107_200), rng.pick(&[0, 0, 1]))
}

/// The bits of a value for FLAG: it lacks one bit that is set, or some, or all; keeps all; or has bits that are not set.
pub fn value(rng: &mut Rng, flag: u16) -> u32 {
    let set: Vec<u16> = (0..16).map(|bit| 1 << bit).filter(|bit| flag & bit != 0).collect();
    let any = rng.bits() as u16;
    let value = match rng.below(6) {
        0 | 1 if !set.is_empty() => flag & !rng.pick(&set),
        2 if !set.is_empty() => !rng.pick(&set),
        3 => flag & any,
        4 => flag | any,
        _ => rng.pick(&[0, 65_535, any]),
    };
    f32::from(value).to_bits()
}

/// What RST and writes to FLAG met, on four devices.
#[derive(Default)]
pub struct Reached {
    /// Of each device, the bits but REBOOT that are set and have outlived RST.
    outlived: [u16; 4],
    resets: u64,
    /// RST with bits of readings set; with bits that had outlived one before; with REBOOT not set.
    raised: u64,
    again: u64,
    added: u64,
    /// Writes to FLAG that cleared a bit that had outlived RST; that left one; those before the first reading since
    /// start or RST.
    cleared: u64,
    left: u64,
    between: u64,
}

impl Reached {
    /// After a making of the device at this place.
    pub fn make(&mut self, at: usize) {
        self.outlived[at] = 0;
    }

    /// An accepted write to this register.
    pub fn write(&mut self, at: usize, register: u16, before: &Device, after: &Device) {
        let outlived = &mut self.outlived[at];
        match register {
            RST => {
                let bits = before.flag & !REBOOT;
                self.resets += 1;
                self.raised += u64::from(bits != 0);
                self.again += u64::from(bits & *outlived != 0);
                self.added += u64::from(before.flag & REBOOT == 0);
                *outlived = bits;
            }
            FLAG => {
                let kept = *outlived & after.flag;
                self.cleared += u64::from(kept != *outlived);
                self.left += u64::from(kept != 0);
                self.between += u64::from(before.last.is_none());
                *outlived = kept;
            }
            _ => {}
        }
    }
}

impl fmt::Display for Reached {
    fn fmt(&self, f: &mut fmt::Formatter) -> fmt::Result {
        let Reached { resets, raised, again, added, cleared, left, between, .. } = self;
        write!(f, "RST: {resets} accepted, with bits of readings in FLAG {raised}, ")?;
        writeln!(f, "with such that had outlived one {again}, with REBOOT cleared {added}")?;
        write!(f, "FLAG: writes that cleared a bit that had outlived RST {cleared}, that left one {left}, ")?;
        write!(f, "before a reading {between}")
    }
}

#[cfg(test)]
mod tests {
    use super::*;
    use crate::generate::{done, Call, Calls};

    /// The generator is worth something: each edge comes up often, and every bit outlives RST and is cleared then.
    #[test]
    fn every_edge_is_reached() {
        let (mut calls, mut devices, mut reached) = (Calls::new(7), <[Device; 4]>::default(), Reached::default());
        let (mut outlived, mut cleared) = (0, 0);
        for _ in 0..200_000 {
            let (call, at, number, before) = done(&mut calls, &mut devices);
            let bits = reached.outlived[at];
            match call {
                Call::Make(..) if number == 0 => reached.make(at),
                Call::Frame(frame, _) if number == 0 && frame[1] == 16 => {
                    reached.write(at, u16::from_be_bytes([frame[2], frame[3]]) / 2, &before, &devices[at]);
                    outlived |= reached.outlived[at];
                    cleared |= bits & !reached.outlived[at];
                }
                _ => {}
            }
        }
        let Reached { raised, again, added, cleared: writes, left, between, .. } = reached;
        assert!([raised, again, added, writes, left, between].iter().all(|times| *times > 100), "{reached}");
        let raised_by_readings = 4 | 8 | 16 | 32 | 64 | 128 | 256 | 512 | 2_048;
        assert_eq!([outlived, cleared], [raised_by_readings; 2]);
    }
}
