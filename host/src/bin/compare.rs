//! compare CALLS SEED: the same generated calls on the model and on the archive, with four devices each; then every
//! resistance of a probe on both; then, on the archive, devices that are pulled beside those that are pushed, and heavier
//! bridge signals beside lighter ones.
//!
//! Compared: numbers, lengths, every byte of and around the lent buffers, report bits, weights, what a sheet holds, the
//! whole record in steps, the waiting copy too, of each device that the call was on, a read of each register of 01 and
//! of some of the panel's after each call, and that a refused call keeps the record, one of a platform all four (a
//! refused making leaves zeros).

use host::generate::laboratory::{Reached, Task};
use host::generate::{flags, probe, sheet, Call, Calls};
use host::load::{self, Followed};
use host::mirror::{self, Mirrored};
use host::tool::{run, Failure};
use host::{panel_registers, read_frame, Converter, Laboratory, Other, APPLY, REGISTERS, WITH_ARCHIVE};
use model::probe::{LEAST, MOST};
use model::sheet::{NEW, OLD};
use model::{Contents, Figures, Refusal, Sample, Weights};
use std::process::ExitCode;

/// Bytes kept on either side of a lent buffer.
const MARGIN: usize = 16;

/// All that a call gives back.
#[derive(Debug, PartialEq)]
struct Outcome {
    number: u8,
    length: usize,
    report: [u32; 4],
    buffer: Vec<u8>,
    scratch: Vec<u8>,
    weights: Weights,
    /// Of a sheet that was read; of one that was moved back the identity alone.
    contents: Contents,
    /// A refused call kept the record; a refused making left zeros.
    kept: bool,
}

impl Outcome {
    fn new() -> Outcome {
        Outcome {
            number: 0,
            length: 0,
            report: [0; 4],
            buffer: Vec::new(),
            scratch: Vec::new(),
            weights: Weights::default(),
            contents: Contents::default(),
            kept: true,
        }
    }
}

/// A call on the device at this place, on all four, or on a sheet.
fn perform<C: Converter + Laboratory>(devices: &mut [C; 4], at: usize, call: &Call, fill: u8) -> Outcome {
    let device = &mut devices[at];
    let before = device.clone();
    let mut o = Outcome::new();
    match call {
        Call::Make(sheet, station) => {
            o.number = device.make(sheet, *station);
            if o.number != 0 {
                o.kept = *device == C::default();
                *device = before;
                return o;
            }
        }
        Call::Reading((elec, temp, integrity)) => o.number = device.reading(*elec, *temp, *integrity),
        Call::Probe((elec, resistance, integrity)) => o.number = device.probe(*elec, *resistance, *integrity),
        Call::Report => {
            (o.number, o.report) = device.report();
            o.kept = *device == before;
        }
        Call::Frame(frame, room) => {
            o.buffer = around(*room, fill);
            (o.number, o.length) = device.frame(frame, lent(&mut o.buffer));
        }
        Call::Weigh(samples) => return weigh(devices, *samples),
        Call::Sheets(task) => return on_sheets::<C>(task, fill),
    }
    if o.number != 0 {
        o.kept = *device == before;
    }
    o
}

/// A lent buffer and the bytes on either side of it.
fn around(room: usize, fill: u8) -> Vec<u8> {
    vec![fill; room + 2 * MARGIN]
}

/// What is lent of it.
fn lent(buffer: &mut [u8]) -> &mut [u8] {
    let end = buffer.len() - MARGIN;
    &mut buffer[MARGIN..end]
}

fn on_sheets<C: Laboratory>(task: &Task, fill: u8) -> Outcome {
    let mut o = Outcome::new();
    match task {
        Task::Judge { sheet } => o.number = C::judge_sheet(sheet),
        Task::Read { sheet } => (o.number, o.contents) = C::read_sheet(sheet),
        Task::Write { figures, room } => {
            o.buffer = around(*room, fill);
            (o.number, o.length) = C::write_sheet(figures, lent(&mut o.buffer));
        }
        Task::ToNew { sheet, identity, room, scratch } => {
            (o.buffer, o.scratch) = (around(*room, fill), around(*scratch, !fill));
            (o.number, o.length) = C::move_to_new(sheet, *identity, lent(&mut o.buffer), lent(&mut o.scratch));
        }
        Task::ToOld { sheet, room, scratch } => {
            (o.buffer, o.scratch) = (around(*room, fill), around(*scratch, !fill));
            (o.number, o.length, o.contents.identity) =
                C::move_to_old(sheet, lent(&mut o.buffer), lent(&mut o.scratch));
        }
    }
    o
}

fn weigh<C: Converter>(devices: &mut [C; 4], samples: [Sample; 4]) -> Outcome {
    let before = devices.clone();
    let (number, weights) = C::weigh(devices.each_mut(), samples);
    Outcome { number, weights, kept: number == 0 || *devices == before, ..Outcome::new() }
}

/// A read of each register: number, length and reply.
fn registers<C: Converter>(device: &mut C, reads: &[Vec<u8>]) -> Vec<(u8, usize, [u8; 9])> {
    let read = |frame: &Vec<u8>| {
        let mut reply = [host::FILL; 9];
        let (number, length) = device.frame(frame, &mut reply);
        (number, length, reply)
    };
    reads.iter().map(read).collect()
}

fn describe(call: &Call) -> String {
    match call {
        Call::Make(sheet, station) => format!("make {sheet:02x?} {station}"),
        Call::Reading(sample) => format!("reading {sample:?}"),
        Call::Probe(sample) => format!("probe {sample:?}"),
        Call::Report => "report".into(),
        Call::Frame(frame, room) => format!("frame {frame:02x?} {room}"),
        Call::Weigh(samples) => format!("weigh {samples:?}"),
        Call::Sheets(task) => format!("{task:02x?}"),
    }
}

/// How many calls, and the seed.
fn arguments(words: &[String]) -> Option<(u64, u64)> {
    let [calls, seed] = words else { return None };
    Some((calls.parse().ok().filter(|&calls| calls > 0)?, seed.parse().ok()?))
}

fn main() -> ExitCode {
    run("compare CALLS SEED", |words| {
        let (calls, seed) = arguments(words).ok_or(Failure::Usage)?;
        let (same, swept, mirrored, followed) = (compare(calls, seed), sweep(), pull(calls, seed), follow(calls, seed));
        Ok(same && swept && mirrored && followed)
    })
}

/// Calls for each pair of devices that are set beside each other.
const CALLS_A_PAIR: u64 = 100;

const SUBJECT: &str = if WITH_ARCHIVE { "archive" } else { "model (no archive linked)" };

/// Whether pulled devices read as pushed ones.
fn pull(calls: u64, seed: u64) -> bool {
    match mirror::run::<Other>(calls.div_ceil(CALLS_A_PAIR), seed) {
        Ok(Mirrored { pairs, readings, apart }) => {
            println!("{SUBJECT}, pushed and pulled: {pairs} pairs of devices, {readings} readings of both");
            println!("  CRAW the negative in all, CELL one step apart in {apart}, the negative in all others");
            true
        }
        Err(what) => {
            println!("DIFFERENCE between pushed and pulled ({SUBJECT}): {what}");
            false
        }
    }
}

/// Whether a heavier bridge signal never reads lighter, or never heavier, by the signs of the gains.
fn follow(calls: u64, seed: u64) -> bool {
    match load::run::<Other>(calls.div_ceil(CALLS_A_PAIR), seed) {
        Ok(Followed { pairs, readings, by_probe, signs, one_step, differing }) => {
            let [[none, sgai], [cgai, both]] = signs;
            println!("{SUBJECT}, more load: {pairs} pairs of devices, {readings} readings, {by_probe} by a probe");
            println!("  neighbours in ELEC: {none} with no gain below 0, {cgai} with CGAI, {sgai} with SGAI, {both} with both");
            println!("  {one_step} of them one step apart, {differing} that differ in SYS; none goes the wrong way");
            true
        }
        Err(what) => {
            println!("DIFFERENCE between a larger and a smaller ELEC ({SUBJECT}): {what}");
            false
        }
    }
}

/// How many registers of Change 1 are read after a call, in turn; all of 01's are.
const PANEL_READS: usize = 7;

/// Frames that read the registers of a device: of 01, and of Change 1, of which those in front are next.
#[derive(Default)]
struct Reads {
    base: Vec<Vec<u8>>,
    panel: Vec<Vec<u8>>,
}

impl Reads {
    fn of(station: u8) -> Reads {
        let frame = |register| read_frame(station, 2 * register);
        Reads { base: REGISTERS.map(frame).into(), panel: panel_registers().map(frame).collect() }
    }

    /// Whether the two answer some of them differently.
    fn differ(&mut self, model: &mut model::Device, other: &mut Other) -> bool {
        self.panel.rotate_left(PANEL_READS);
        let mut frames = [&self.base[..], &self.panel[..PANEL_READS]].into_iter();
        frames.any(|frames| registers(model, frames) != registers(other, frames))
    }
}

const CORNER_REFUSED: usize = Refusal::CornerRefused as usize;
/// With 0, of accepted calls.
const NUMBERS: usize = Refusal::Probe as usize + 1;

/// What the calls were.
#[derive(Default)]
struct Seen {
    numbers: [u64; NUMBERS],
    applied: u64,
    /// Readings with the filter on: whether further than FFLV from the previous input, and from the held value.
    filtered: [[u64; 2]; 2],
    flags: u16,
    /// Readings without start or RST: so far, of each device, and the most.
    readings: [u64; 4],
    longest: u64,
    /// Platform calls: accepted; refused for one corner alone, for each; refused for several.
    weighed: u64,
    spoiled: [u64; 4],
    several: u64,
    /// Makings of a first count of 4, of 2, and of another or none: accepted, and refused.
    made: [[u64; 2]; 3],
    resets: flags::Reached,
    probes: probe::Reached,
    sheets: Reached,
}

/// The inputs of the devices that take a reading where a call is accepted.
fn inputs(call: &Call, at: usize) -> [Option<i64>; 4] {
    let mut inputs = [None; 4];
    match call {
        Call::Reading((elec, ..)) | Call::Probe((elec, ..)) => inputs[at] = Some(*elec),
        Call::Weigh(samples) => inputs = samples.map(|(elec, ..)| Some(elec)),
        _ => {}
    }
    inputs
}

impl Seen {
    fn add(&mut self, call: &Call, at: usize, number: u8, before: &[model::Device; 4], after: &[model::Device; 4]) {
        self.numbers[usize::from(number)] += 1;
        match call {
            Call::Weigh(samples) => self.weigh(samples, number, before),
            Call::Probe(sample) => self.probes.add(at, sample, number, &before[at]),
            Call::Sheets(task) => self.sheets.add(task, number),
            Call::Make(sheet, _) => {
                let form = [OLD, NEW].iter().position(|count| sheet.first() == Some(count)).unwrap_or(2);
                self.made[form][usize::from(number != 0)] += 1;
                if number == 0 {
                    self.resets.make(at);
                }
            }
            Call::Frame(frame, _) if number == 0 && frame[1] == 16 => {
                let register = u16::from_be_bytes([frame[2], frame[3]]) / 2;
                self.applied += u64::from(register == APPLY);
                self.resets.write(at, register, &before[at], &after[at]);
            }
            _ => {}
        }
        for (at, input) in inputs(call, at).into_iter().enumerate() {
            if let Some(input) = input.filter(|_| number == 0) {
                self.take(at, input, &before[at]);
                if !matches!(call, Call::Probe(_)) {
                    self.probes.turn(at, false, &before[at]);
                }
            }
            self.flags |= after[at].flag;
            if after[at].last.is_none() {
                self.readings[at] = 0;
            }
        }
    }

    /// An accepted reading of a device.
    fn take(&mut self, at: usize, input: i64, before: &model::Device) {
        self.readings[at] += 1;
        self.longest = self.longest.max(self.readings[at]);
        if let Some(last) = &before.last {
            let Figures { fflv, ffst, .. } = before.figures;
            let far = |from: i64| usize::from((input - from).abs() > fflv);
            self.filtered[far(last.input)][far(last.elec)] += u64::from(fflv > 0 && ffst > 0);
        }
    }

    fn weigh(&mut self, samples: &[Sample; 4], number: u8, before: &[model::Device; 4]) {
        let refuses = |&at: &usize| {
            let (elec, temp, integrity) = samples[at];
            { before[at] }.take(elec, temp, integrity).is_err()
        };
        let spoiled: Vec<usize> = (0..4).filter(refuses).collect();
        match (number, &spoiled[..]) {
            (0, _) => self.weighed += 1,
            (_, [corner]) => self.spoiled[*corner] += 1,
            _ => self.several += 1,
        }
    }

    fn print(&self) {
        let by_number: Vec<String> =
            self.numbers.iter().enumerate().map(|(n, times)| format!("{n}: {times}")).collect();
        println!("calls by number  {}", by_number.join(", "));
        println!("the copy put in force {} times", self.applied);
        let [[smooth, behind], [back, jumps]] = self.filtered;
        println!("filter on: {} readings smoothed, {behind} of them far from the held value", smooth + behind);
        println!("           {} jumped, {back} of them to near the held value", jumps + back);
        println!("FLAG bits seen {}; longest run of readings without start or RST {}", self.flags, self.longest);
        println!("{}", self.resets);
        println!("{}", self.probes);
        let [one, two, three, four] = self.spoiled;
        println!("four corners: {} calls accepted, {} refused with 18", self.weighed, self.numbers[CORNER_REFUSED]);
        println!("              for corner 1 alone {one}, 2 {two}, 3 {three}, 4 {four}; for several {}", self.several);
        let [old, new, none] = self.made.map(|[accepted, refused]| format!("{accepted} accepted, {refused} refused"));
        println!("makings: of old sheets {old}; of new ones {new}; of neither {none}");
        println!("{}", self.sheets);
    }
}

const PAIR: &str = if WITH_ARCHIVE { "model and archive" } else { "model and itself (no archive linked)" };

/// Resistances on either side of those that a probe call takes.
const BEYOND: i64 = 5_000;

/// Whether both take each resistance alike, in number and record: all that a probe call takes, and those about them.
fn sweep() -> bool {
    let made = || {
        let (mut model, mut other) = <(model::Device, Other)>::default();
        let sheet = sheet(&Figures::standard());
        assert_eq!((model.make(&sheet, 1), other.make(&sheet, 1)), (0, 0));
        (model, other)
    };
    let ((mut model, mut other), mut differences) = (made(), 0);
    for resistance in LEAST - BEYOND..=MOST + BEYOND {
        let (expected, found) = (model.probe(0, resistance, 0), other.probe(0, resistance, 0));
        if expected != found || other.state() != model {
            differences += 1;
            if differences == 1 {
                println!("DIFFERENCE at resistance {resistance}\n  model {expected} {model:?}");
                println!("  other {found} {:?}", other.state());
            }
            (model, other) = made();
        }
    }
    println!("{PAIR}: each resistance from {LEAST} to {MOST}, and {BEYOND} on either side, {differences} differences");
    differences == 0
}

/// Whether no call differs.
fn compare(calls: u64, seed: u64) -> bool {
    let (mut generator, mut seen, mut differences) = (Calls::new(seed), Seen::default(), 0);
    let (mut models, mut others) = <([model::Device; 4], [Other; 4])>::default();
    let mut reads = <[Reads; 4]>::default();

    for i in 0..calls {
        let (call, at, fill) = generator.next(&models, i / 4_096 % 4 == 3);
        let before = models;
        let expected = perform(&mut models, at, &call, fill);
        let found = perform(&mut others, at, &call, fill);
        if matches!(call, Call::Make(..)) {
            reads[at] = Reads::of(models[at].station);
        }
        let on = if matches!(call, Call::Weigh(..)) { 0..4 } else { at..at + 1 };
        let differs = expected != found
            || !found.kept
            || reads[at].differ(&mut models[at], &mut others[at])
            || on.into_iter().any(|at| others[at].state() != models[at]);
        if differs {
            differences += 1;
            if differences <= 5 {
                println!("DIFFERENCE at call {i}, on device {}: {}", at + 1, describe(&call));
                println!("  model {expected:02x?}\n        {models:?}");
                println!("  other {found:02x?}\n        {:?}", others.map(|other| other.state()));
            }
            // The model is the reference: go on with new devices.
            (models, others) = Default::default();
        }
        seen.add(&call, at, expected.number, &before, &models);
    }

    seen.print();
    let panel = panel_registers().count();
    let reads = format!("{} registers of 01 and {PANEL_READS} of {panel} of Change 1", REGISTERS.len());
    println!("{PAIR}: {calls} calls, each with reads of {reads}, {differences} differences");
    differences == 0
}
