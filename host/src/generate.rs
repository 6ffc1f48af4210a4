//! Seeded random and adversarial calls. The model's state is looked at only to aim at the edges.

pub mod flags;
pub mod laboratory;
mod panel;
mod platform;
pub mod probe;

use crate::{read_frame, sealed, write_frame, APPLY, FLAG, REGISTERS, RST};
use laboratory::{identity, with_identity, Task};
use model::panel::Figure;
use model::sheet::{self, most, IN_FRONT, LONGEST_OLD};
use model::{Device, Figures, Reading, Sample};

/// xorshift64*.
pub struct Rng(u64);

impl Rng {
    pub fn new(seed: u64) -> Rng {
        let mut rng = Rng(seed.wrapping_mul(0x9e37_79b9_7f4a_7c15) | 1);
        for _ in 0..8 {
            rng.bits();
        }
        rng
    }

    pub fn bits(&mut self) -> u64 {
        self.0 ^= self.0 >> 12;
        self.0 ^= self.0 << 25;
        self.0 ^= self.0 >> 27;
        self.0.wrapping_mul(0x2545_f491_4f6c_dd1d)
    }

    /// From 0 up to, not including, n.
    pub fn below(&mut self, n: u64) -> u64 {
        (self.bits() >> 11) % n
    }

    pub fn one_in(&mut self, n: u64) -> bool {
        self.below(n) == 0
    }

    pub fn range(&mut self, least: i64, most: i64) -> i64 {
        least + self.below((most - least + 1) as u64) as i64
    }

    pub fn pick<T: Copy>(&mut self, from: &[T]) -> T {
        from[self.below(from.len() as u64) as usize]
    }

    /// Within +-most, often at an end or small.
    fn near(&mut self, most: i64) -> i64 {
        let sign = self.pick(&[1, -1]);
        match self.below(6) {
            0 => sign * most,
            1 => sign * (most - self.range(0, 2).min(most)),
            2 => self.range(-3, 3).clamp(-most, most),
            3 => self.range(-most, most) >> self.below(24),
            _ => self.range(-most, most),
        }
    }

    /// n strictly rising numbers within +-most; gaps of eights, where halves come in, or any.
    fn rising(&mut self, n: usize, most: i64) -> Vec<i64> {
        let gap = self.pick(&[1, 4, 1_000, most / 64, most / n as i64]);
        let unit = if self.one_in(2) { 8.min(gap) } else { 1 };
        let mut xs = vec![self.near(most)];
        while xs.len() < n {
            xs.push(xs[xs.len() - 1] + unit * self.range(1, gap / unit));
        }
        let over = (xs[n - 1] - most).max(0);
        xs.iter().map(|x| x - over).collect()
    }

    /// A lower and an upper limit.
    fn limits(&mut self, most: i64) -> (i64, i64) {
        match self.below(3) {
            0 => (-most, most),
            1 => (-self.range(1, most), self.range(0, most)),
            _ => {
                let pair = self.rising(2, most);
                (pair[0], pair[1])
            }
        }
    }

    /// A gain: halves, which make ties, small ones too, which few limits cut off; or anything up to the most.
    fn gain(&mut self, most: i64) -> i64 {
        match self.below(5) {
            0 => self.near(most),
            1 => self.range(-16, 16) << 27,
            2 => self.pick(&[-3, -1, 1, 3]) << self.range(25, 27),
            _ => self.range(-most, most) >> self.below(8),
        }
    }
}

/// Figures that a sheet accepts.
pub fn figures(rng: &mut Rng) -> Figures {
    let mut f = Figures::standard();
    if !rng.one_in(8) {
        f.ctn = rng.range(2, 5) as u8;
        f.cln = rng.range(2, 7) as u8;
        f.cofs = rng.near(most::COFS);
        f.cgai = rng.gain(most::CGAI);
        (f.cmin, f.cmax) = rng.limits(most::CELL);
        for (i, ct) in rng.rising(f.ctn.into(), most::CT).into_iter().enumerate() {
            f.temperature[i].ct = ct;
            f.temperature[i].cto = rng.near(most::CTO);
            f.temperature[i].ctg = if rng.one_in(2) { rng.near(most::CTG) } else { rng.range(-1, 1) << 24 };
        }
        let points = rng.rising(f.cln.into(), most::CELL);
        // Anywhere, or about 0, where most readings are.
        let middle = if rng.one_in(2) { (points[0] + points[points.len() - 1]) / 2 } else { 0 };
        for (i, clx) in points.into_iter().map(|clx| clx - middle).enumerate() {
            f.linearity[i].clx = clx;
            f.linearity[i].clk = if i == 0 {
                rng.near(most::CLK)
            } else {
                let before = f.linearity[i - 1];
                let most = (clx - before.clx) / 4;
                // A slope of a quarter or an eighth has a half every four or eight steps.
                let by = if rng.one_in(2) { rng.pick(&[most, -most, most / 2, -most / 2]) } else { rng.near(most) };
                (before.clk + by).clamp(-most::CLK, most::CLK)
            };
        }
        f.sofs = rng.near(most::SYSTEM) >> rng.pick(&[0, 6, 12]);
        f.sgai = rng.gain(most::SGAI);
        (f.smin, f.smax) = rng.limits(most::SYSTEM);
        f.sz = rng.near(most::SYSTEM);
    }
    if !rng.one_in(3) {
        f.fflv = rng.near(most::FFLV).abs() >> rng.pick(&[0, 0, 4, 8]);
        f.ffst = [0, 1, 2, 3, 4, 7, 1_000, rng.range(0, 1_000)][rng.below(8) as usize];
    }
    f
}

pub fn sheet(f: &Figures) -> Vec<u8> {
    let mut out = [0; LONGEST_OLD];
    let length = sheet::write(f, &mut out).expect("acceptable figures");
    out[..length].to_vec()
}

/// Where the counts stand, and where each figure stands with its largest magnitude.
fn layout(f: &Figures, new: bool) -> (Vec<usize>, Vec<(usize, i64)>) {
    let sections: [(&[i64], u8); 6] = [
        (&[most::SERIAL, most::DAY], 1),
        (&[most::COFS, most::CGAI, most::CELL, most::CELL], 1),
        (&[most::CT, most::CTO, most::CTG], f.ctn),
        (&[most::CELL, most::CLK], f.cln),
        (&[most::SYSTEM, most::SGAI, most::SYSTEM, most::SYSTEM, most::SYSTEM], 1),
        (&[most::FFLV, most::FFST], 1),
    ];
    let (mut at, mut counts, mut places) = (0, Vec::new(), Vec::new());
    for (figures, times) in sections.into_iter().skip(usize::from(!new)) {
        counts.push(at);
        at += 1;
        for most in figures.repeat(times.into()) {
            places.push((at, most));
            at += 8;
        }
    }
    (counts, places)
}

/// Spoil a good sheet in one to three places close to each other, of a new one often in front. Some stay good.
fn damage(rng: &mut Rng, sheet: &mut Vec<u8>, f: &Figures, new: bool) {
    let (counts, places) = layout(f, new);
    let first = if new && rng.one_in(3) { 0 } else { rng.below(places.len() as u64) as usize };
    for _ in 0..rng.range(1, 3) {
        let (at, most) = places[(first + rng.below(3) as usize) % places.len()];
        let figure = i64::from_le_bytes(sheet[at..at + 8].try_into().expect("eight bytes"));
        let spoiled = match rng.below(8) {
            0 => {
                sheet[rng.pick(&counts)] = rng.pick(&[0, 1, 2, 3, 4, 5, 6, 7, 8, 200, 255]);
                continue;
            }
            1 => figure ^ 1 << rng.below(64),
            2 => figure.wrapping_add(rng.pick(&[1, -1])),
            3 | 4 => rng.pick(&[most + 1, -most - 1, -1, i64::MIN, i64::MAX]),
            5 => rng.pick(&[most, -most, 0]),
            _ => {
                // a neighbour's figure: of the same kind it breaks the order
                let before = places[first.saturating_sub(rng.below(4) as usize)].0;
                i64::from_le_bytes(sheet[before..before + 8].try_into().expect("eight bytes"))
            }
        };
        sheet[at..at + 8].copy_from_slice(&spoiled.to_le_bytes());
    }
    match rng.below(6) {
        0 => sheet.truncate(rng.below(sheet.len() as u64 + 1) as usize),
        1 => sheet.resize(sheet.len() + rng.range(1, 20) as usize, rng.bits() as u8),
        _ => {}
    }
}

/// The bits of a float that is apt to go wrong.
pub fn float_bits(rng: &mut Rng) -> u32 {
    let whole = |n: u64| (n as f32).to_bits();
    let bits = match rng.below(8) {
        0 => {
            rng.pick(&[0, 1, 0x007f_ffff, 0x0080_0000, 0x7f7f_ffff, 0x7f80_0000, 0x7f80_0001, 0x7fc0_0000, 0x7fff_ffff])
        }
        1 => 32_000_f32.to_bits(),
        2 => whole(65_535 ^ 1 << rng.below(16)),
        3 => whole(rng.below(65_540)),
        4 => whole(1 << rng.below(17)),
        // halves of a step, and floats about a step
        5 => ((2 * (rng.below(1 << 23) >> rng.below(24)) + 1) as f32 / 131_072.0).to_bits(),
        6 => (rng.range(100, 142) as u32) << 23 | rng.below(1 << 23) as u32,
        _ => rng.bits() as u32,
    };
    let neighbour = bits.wrapping_add(rng.pick(&[0, 0, 0, 1, u32::MAX]));
    neighbour ^ rng.pick(&[0, 0, 0x8000_0000])
}

/// A call on one device, but for the last two.
pub enum Call {
    Make(Vec<u8>, u8),
    Reading(Sample),
    /// A reading by a probe: a resistance stands in the place of TEMP.
    Probe(Sample),
    Report,
    /// A frame and the room for its reply.
    Frame(Vec<u8>, usize),
    /// A reading at each of the four.
    Weigh([Sample; 4]),
    /// A call on sheets, and on no device.
    Sheets(Task),
}

/// A call of a run.
enum Step {
    Panel(panel::Write),
    Flags(flags::Step),
}

/// Makes one call after another, on four devices.
pub struct Calls {
    rng: Rng,
    /// The device that calls are made on for a while.
    at: usize,
    /// A run of calls on it, the last one first.
    run: Vec<Step>,
}

impl Calls {
    pub fn new(seed: u64) -> Calls {
        Calls { rng: Rng::new(seed), at: 0, run: Vec::new() }
    }

    /// A call for devices in this state, which of them it is on, and what the lent buffer holds before it; `quiet`
    /// keeps to long histories of readings.
    pub fn next(&mut self, devices: &[Device; 4], quiet: bool) -> (Call, usize, u8) {
        if self.run.is_empty() && self.rng.one_in(6) {
            self.at = self.rng.below(4) as usize;
        }
        let call = if let Some(unmade) = devices.iter().position(|d| d.station == 0) {
            self.at = unmade;
            let old = sheet(&figures(&mut self.rng));
            let new = self.rng.one_in(2);
            let bytes = if new { with_identity(identity(&mut self.rng), &old) } else { old };
            Call::Make(bytes, self.rng.range(1, 247) as u8)
        } else if self.rng.one_in(12) {
            Call::Weigh(platform::samples(&mut self.rng, devices))
        } else if self.rng.one_in(10) {
            Call::Sheets(laboratory::task(&mut self.rng))
        } else {
            self.call(&devices[self.at], quiet)
        };
        (call, self.at, self.rng.bits() as u8)
    }

    fn call(&mut self, d: &Device, quiet: bool) -> Call {
        let rng = &mut self.rng;
        // Between the calls of a run come other ones.
        let next = if rng.one_in(6) { None } else { self.run.pop() };
        if let Some(step) = next {
            let (register, bits) = match step {
                Step::Panel(write) => write,
                Step::Flags(flags::Step::Raise) => return Call::Reading(flags::raising(rng)),
                Step::Flags(flags::Step::Reset) => (RST, float_bits(rng)),
                Step::Flags(flags::Step::Clear) => (FLAG, flags::value(rng, d.flag)),
            };
            let station = if rng.one_in(12) { 0 } else { d.station };
            return Call::Frame(write_frame(station, 2 * register, bits), 9);
        }
        if rng.one_in(200) {
            self.run = panel::run(rng).into_iter().map(Step::Panel).collect();
        } else if !quiet && rng.one_in(80) {
            self.run = flags::run(rng).into_iter().map(Step::Flags).collect();
        }
        match rng.below(if quiet { 60 } else { 100 }) {
            0..=37 => Call::Reading(sample(rng, d)),
            38..=54 => Call::Probe(probe::sample(rng, d)),
            55 => Call::Report,
            56..=59 if quiet => {
                let register = rng.pick(&[22, 103, 104, 14, APPLY]);
                Call::Frame(write_frame(d.station, 2 * register, float_bits(rng)), 9)
            }
            56..=91 => frame(rng, d),
            92 => Call::Report,
            _ => make(rng),
        }
    }
}

/// The next call, done on the model: the call, which device it was on, its number, and that device before it. A refused
/// making leaves the device.
#[cfg(test)]
fn done(calls: &mut Calls, devices: &mut [Device; 4]) -> (Call, usize, u8, Device) {
    use model::Converter;
    let (call, at, _) = calls.next(devices, false);
    let before = devices[at];
    let number = match &call {
        Call::Make(sheet, station) => devices[at].make(sheet, *station),
        Call::Reading((elec, temp, integrity)) => Converter::reading(&mut devices[at], *elec, *temp, *integrity),
        Call::Probe((elec, resistance, integrity)) => devices[at].probe(*elec, *resistance, *integrity),
        Call::Weigh(samples) => Device::weigh(devices.each_mut(), *samples).0,
        Call::Frame(frame, room) => devices[at].frame(frame, &mut vec![0; *room]).0,
        Call::Report | Call::Sheets(_) => 0,
    };
    if number != 0 {
        devices[at] = before;
    }
    (call, at, number, before)
}

/// A sheet of either form: some are good, most are damaged.
fn some_sheet(rng: &mut Rng) -> Vec<u8> {
    let (f, new) = (figures(rng), rng.one_in(2));
    let mut bytes = if new { with_identity(identity(rng), &sheet(&f)) } else { sheet(&f) };
    match rng.below(14) {
        0 | 1 => {}
        2 => bytes.truncate(rng.below(bytes.len() as u64 + 1) as usize),
        3 => bytes.resize(bytes.len() + rng.range(1, 20) as usize, rng.bits() as u8),
        4 if new => bytes.truncate(rng.below(IN_FRONT as u64 + 2) as usize),
        5 if new => bytes = with_identity(identity(rng), &bytes),
        _ => damage(rng, &mut bytes, &f, new),
    }
    bytes
}

fn make(rng: &mut Rng) -> Call {
    Call::Make(some_sheet(rng), if rng.one_in(6) { rng.pick(&[0, 1, 247, 248, 255]) } else { rng.range(1, 247) as u8 })
}

/// Two neighbouring points of a table.
fn segment<P: Copy>(rng: &mut Rng, points: &[P], count: u8) -> [P; 2] {
    let at = rng.below(u64::from(count.max(2)) - 1) as usize;
    [points[at], points[at + 1]]
}

/// A reading for a device, aimed at its edges.
pub fn sample(rng: &mut Rng, d: &Device) -> Sample {
    let f = &d.figures;
    let by_gain =
        |value: i64, gain: i64| if gain == 0 { 0 } else { ((value as i128 * (1 << 28)) / gain as i128) as i64 };
    let any_temp = rng.near(13_107_200);
    let point = f.temperature[rng.below(u64::from(f.ctn.max(1))) as usize];
    let [from, to] = segment(rng, &f.temperature, f.ctn).map(|p| p.ct);
    let temp = match rng.below(8) {
        0 => rng.pick(&[-3_276_800, 5_898_240]) + rng.range(-1, 1),
        1 => point.ct + rng.range(-2, 2),
        2 => f.temperature[0].ct + rng.below((f.temperature[1].ct - f.temperature[0].ct) as u64 + 1) as i64,
        3 if rng.one_in(10) => rng.pick(&[-13_107_201, 13_107_201, i64::MIN, i64::MAX]),
        // the middle of a segment: o and g are a half there wherever the change is odd
        4 | 5 => (from + to) >> 1,
        _ => any_temp,
    };
    let [from, to] = segment(rng, &f.linearity, f.cln).map(|p| p.clx);
    let cell = match rng.below(5) {
        0 => rng.pick(&[f.cmin, f.cmax]),
        1 => f.sofs + by_gain(rng.pick(&[f.smin, f.smax]), f.sgai),
        2 => rng.pick(&[from, to]),
        3 => (from + to) >> 1,
        _ => rng.range(from, to),
    };
    let aimed = (f.cofs + point.cto + by_gain(cell, f.cgai)).saturating_add(rng.range(-3, 3));
    let elec = match (rng.below(8), &d.last) {
        (_, Some(last)) if last.input != last.elec && !rng.one_in(3) => filling(rng, f.fflv, last),
        (0, _) => rng.pick(&[-7_864_320, 7_864_320]) + rng.range(-1, 1),
        (1 | 2, _) => aimed.clamp(-19_660_800, 19_660_800),
        (3, Some(last)) => rng.pick(&[last.elec, last.input]) + rng.pick(&[f.fflv, -f.fflv]) + rng.range(-1, 1),
        (4, Some(last)) => last.elec + rng.pick(&[1, -1, 3]) * (f.ffst / 2) + rng.range(-1, 1),
        (5, Some(last)) => last.elec + (rng.near(19_660_800) >> rng.below(20)),
        (6, _) if rng.one_in(10) => rng.pick(&[-19_660_801, 19_660_801, i64::MIN, i64::MAX]),
        _ => rng.near(19_660_800),
    };
    (elec, temp, if rng.one_in(12) { rng.pick(&[1, 1, 1, 2, 255]) } else { 0 })
}

/// The next input of a slow filling, in which the held value falls further behind; now and then a jump ends it.
fn filling(rng: &mut Rng, fflv: i64, last: &Reading) -> i64 {
    let by = if rng.one_in(2) { rng.range(0, fflv) } else { fflv + rng.range(-1, 1) };
    let away = if last.input > last.elec { by } else { -by };
    let input = last.input + away;
    // At the end of the range it turns round.
    if input.abs() > 19_660_800 {
        last.input - away
    } else {
        input
    }
}

/// A register for a frame: those that act on a write more often, RST less often.
fn register(rng: &mut Rng, write: bool) -> u16 {
    match rng.below(20) {
        0 => APPLY,
        1..=6 => panel::register(rng),
        7..=13 if write => rng.pick(&[14, 22, 22, 103, 104]),
        _ => match rng.pick(&REGISTERS) {
            RST if rng.one_in(2) => 14,
            register => register,
        },
    }
}

fn frame(rng: &mut Rng, d: &Device) -> Call {
    let station = match rng.below(12) {
        0 => 0,
        1 if rng.one_in(2) => rng.bits() as u8,
        _ => d.station,
    };
    let write = rng.one_in(2);
    let register = register(rng, write);
    let address = match rng.below(12) {
        0 => (2 * register).wrapping_add(rng.pick(&[1, 2, 256, u16::MAX, u16::MAX - 1])),
        1 if rng.one_in(2) => rng.bits() as u16,
        _ => 2 * register,
    };
    let bits = match Figure::at(register) {
        Some(figure) => panel::bits_about(rng, figure.range()),
        None => float_bits(rng),
    };
    let mut bytes = if write { write_frame(station, address, bits) } else { read_frame(station, address) };
    if rng.one_in(4) {
        bytes = misshapen(rng, bytes);
    }
    match rng.below(40) {
        0 => {
            let at = rng.below(bytes.len() as u64) as usize;
            bytes[at] ^= 1 << rng.below(8);
        }
        1 => {
            let end = bytes.len();
            bytes.swap(end - 2, end - 1);
        }
        2 => bytes.truncate(rng.below(9) as usize),
        _ => {}
    }
    let room = if rng.one_in(8) { [rng.range(0, 20), 8, 256][rng.below(3) as usize] as usize } else { 9 };
    Call::Frame(bytes, room)
}

/// Another function, quantity, byte count or length, with a good checksum.
fn misshapen(rng: &mut Rng, mut bytes: Vec<u8>) -> Vec<u8> {
    bytes.truncate(bytes.len() - 2);
    for _ in 0..rng.range(1, 2) {
        match rng.below(5) {
            0 => bytes[1] = rng.pick(&[0, 1, 2, 3, 4, 6, 15, 16, 17, 128, 131, 144, 255]),
            1 => bytes[5] = rng.pick(&[0, 1, 2, 3, 4]),
            2 => bytes[4] = rng.pick(&[0, 1, 2, 255]),
            3 if bytes.len() > 6 => bytes[6] = rng.pick(&[0, 2, 3, 4, 5, 8, 255]),
            3 => bytes[1] = 16,
            _ => {
                let length = [rng.range(2, 14), rng.range(6, 8), rng.range(252, 260)][rng.below(3) as usize];
                bytes.resize((length as usize).max(bytes.len().min(6)), rng.bits() as u8);
            }
        }
    }
    if rng.one_in(10) {
        bytes.truncate(2);
    }
    sealed(bytes)
}
