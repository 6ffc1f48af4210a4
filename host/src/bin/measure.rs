//! measure: a table of ns per call for each kind of call, and the sizes of the records.
//! measure KIND N [model|archive]: runs one kind N times; host/benchmark counts its instructions.

use host::generate::laboratory::with_identity;
use host::generate::{sheet, Rng};
use host::tool::{run, Failure};
use host::{read_frame, write_frame, Converter, Laboratory, Other, APPLY, RST, WITH_ARCHIVE};
use model::panel::{Row, ROWS};
use model::probe::{LEAST, MOST};
use model::sheet::{most, LinearityPoint, TemperaturePoint, LONGEST_NEW, SCRATCH};
use model::value::{scaled, Range, WHOLE};
use model::{Figures, Identity, Sample};
use std::hint::black_box;
use std::{mem::size_of, process::ExitCode, time::Instant};

const KINDS: [(&str, &str); 17] = [
    ("default", "reading, default sheet"),
    ("full", "reading, full tables, filter on"),
    ("probe", "reading by a probe, default sheet"),
    ("probe-full", "reading by a probe, full tables, filter on"),
    ("corners", "four corners, default sheet"),
    ("corners-full", "four corners, full tables, filter on"),
    ("read", "read frame"),
    ("write", "write frame (SZ)"),
    ("figure", "read frame (a figure of the copy)"),
    ("panel", "write frame (a figure of the copy)"),
    ("apply", "write frame (99, full tables in force)"),
    ("reset", "write frame (RST)"),
    ("exception", "read frame refused (no such register)"),
    ("make", "making, full tables, old sheet"),
    ("make-new", "making, full tables, new sheet"),
    ("to-new", "moving a sheet to the new form, full tables"),
    ("to-old", "moving it back"),
];
const USAGE: &str = "\
measure [default|full|probe|probe-full|corners|corners-full|read|write|figure|panel|apply|reset|exception|make|make-new|\
to-new|to-old N [model|archive]] (archive: only if linked)";
const STATION: u8 = 52;
const IDENTITY: Identity = Identity { serial: 1_234_567, day: 9_816 };

/// Five and seven points and a filter that smooths every reading.
fn full() -> Figures {
    let mut f = Figures { ctn: 5, cln: 7, cofs: 12_345, cgai: 5 << 28, ..Figures::standard() };
    (f.cmin, f.cmax, f.smin, f.smax) = (-most::CELL, most::CELL, -most::SYSTEM, most::SYSTEM);
    for (i, n) in (0..5).enumerate() {
        f.temperature[i] = TemperaturePoint { ct: (n - 1) * 1_310_720, cto: 137 * n, ctg: 2_684 * (n - 2) };
    }
    for (i, n) in (0..7).enumerate() {
        f.linearity[i] = LinearityPoint { clx: (n - 3) * 20_000_000, clk: 1_003 * n * n };
    }
    (f.sofs, f.sgai, f.sz, f.fflv, f.ffst) = (777, 3 << 27, 4_321, most::FFLV, 10);
    f
}

/// A write of a figure of the copy that is fit: its count from half of the range on, or a small one.
fn figure_write(row: &Row, i: u16) -> Vec<u8> {
    let Range { scale, least, most } = row.range;
    let count = if scale == WHOLE { least + i64::from(i) % (most - least) } else { most / 2 + i64::from(i) };
    write_frame(STATION, 2 * row.first, scaled(count, scale).to_bits())
}

/// A register that is not listed, and the number of a frame that asks for it.
const UNLISTED: u16 = 7;
const NO_SUCH: u8 = 15;

/// The i-th frame of a kind; all are accepted, but for exceptions.
fn frame(kind: &str, i: u16) -> Vec<u8> {
    let row = &ROWS[usize::from(i) % ROWS.len()];
    match kind {
        "write" => write_frame(STATION, 44, (f32::from(i) / 7.0 - 70.0).to_bits()),
        "figure" => read_frame(STATION, 2 * row.last),
        "panel" => figure_write(row, i),
        "apply" => write_frame(STATION, 2 * APPLY, 0),
        "reset" => write_frame(STATION, 2 * RST, 0),
        "exception" => read_frame(STATION, 2 * UNLISTED),
        _ => read_frame(STATION, 2 * [6, 10, 11, 13, 14, 22, 24, 25][usize::from(i % 8)]),
    }
}

/// The seconds that n calls of a kind took. All is done to the first of four devices, or to each.
fn calls<C: Converter + Laboratory>(kind: &str, n: usize) -> f64 {
    let mut rng = Rng::new(1);
    let figures =
        if matches!(kind, "full" | "probe-full" | "corners-full" | "apply") { full() } else { Figures::standard() };
    let mut devices = [(); 4].map(|()| C::default());
    for device in &mut devices {
        assert_eq!(device.make(&sheet(&figures), STATION), 0);
        assert_eq!(device.reading(6_553_600, 1_310_720, 0), 0);
    }
    let samples: Vec<Sample> =
        (0..1_024).map(|_| (rng.range(-9_000_000, 9_000_000), rng.range(-1_310_720, 3_932_160), 0)).collect();
    let probed: Vec<Sample> = samples.iter().map(|(elec, ..)| (*elec, rng.range(LEAST, MOST), 0)).collect();
    let frames: Vec<Vec<u8>> = (0..1_024).map(|i| frame(kind, i)).collect();
    let old = sheet(&full());
    let new = with_identity(IDENTITY, &old);
    let start = Instant::now();
    let others = match kind {
        "default" | "full" => readings(&mut devices[0], samples.iter().cycle().take(n)),
        "probe" | "probe-full" => probes(&mut devices[0], probed.iter().cycle().take(n)),
        "corners" | "corners-full" => weighings(&mut devices, samples.as_chunks().0.iter().cycle().take(n)),
        "make" => (0..n).filter(|_| devices[0].make(black_box(&old), STATION) != 0).count(),
        "make-new" => (0..n).filter(|_| devices[0].make(black_box(&new), STATION) != 0).count(),
        "to-new" => moves(n, |out, scratch| C::move_to_new(black_box(&old), IDENTITY, out, scratch).0),
        "to-old" => moves(n, |out, scratch| C::move_to_old(black_box(&new), out, scratch).0),
        _ => answers(&mut devices[0], frames.iter().cycle().take(n), if kind == "exception" { NO_SUCH } else { 0 }),
    };
    let seconds = start.elapsed().as_secs_f64();
    black_box(&devices);
    assert_eq!(others, 0);
    seconds
}

/// How many readings were refused.
fn readings<'a, C: Converter>(device: &mut C, samples: impl Iterator<Item = &'a Sample>) -> usize {
    samples.filter(|(elec, temp, _)| device.reading(black_box(*elec), black_box(*temp), 0) != 0).count()
}

/// How many readings by a probe were refused.
fn probes<'a, C: Converter>(device: &mut C, samples: impl Iterator<Item = &'a Sample>) -> usize {
    samples.filter(|(elec, resistance, _)| device.probe(black_box(*elec), black_box(*resistance), 0) != 0).count()
}

/// How many calls of four readings were refused.
fn weighings<'a, C: Converter>(devices: &mut [C; 4], samples: impl Iterator<Item = &'a [Sample; 4]>) -> usize {
    samples.filter(|samples| black_box(C::weigh(devices.each_mut(), black_box(**samples))).0 != 0).count()
}

/// How many moves were refused.
fn moves(n: usize, mut moved: impl FnMut(&mut [u8], &mut [u8]) -> u8) -> usize {
    let (mut out, mut scratch) = ([0; LONGEST_NEW], [0; SCRATCH]);
    let refused = |_: &usize| {
        let number = moved(&mut out, &mut scratch);
        black_box((&out, &scratch));
        number != 0
    };
    (0..n).filter(refused).count()
}

/// How many frames had another number than the one due.
fn answers<'a, C: Converter>(device: &mut C, frames: impl Iterator<Item = &'a Vec<u8>>, due: u8) -> usize {
    let mut reply = [0; 9];
    let other = |frame: &&Vec<u8>| {
        let (number, _) = device.frame(black_box(frame), &mut reply);
        black_box(&reply);
        number != due
    };
    frames.filter(other).count()
}

const PASSES: usize = 41;

/// ns per call of the model and the archive: the least and the middle of short passes, the two taking turns.
fn passes(kind: &str) -> [(f64, f64); 2] {
    const N: usize = 10_240;
    let ns = |seconds: f64| seconds * 1e9 / N as f64;
    let mut both = [Vec::new(), Vec::new()];
    for _ in 0..PASSES {
        both[0].push(ns(calls::<model::Device>(kind, N)));
        both[1].push(ns(calls::<Other>(kind, N)));
    }
    both.map(|mut pass| {
        pass.sort_by(f64::total_cmp);
        (pass[0], pass[PASSES / 2])
    })
}

/// Archive and model side by side, as a table in markdown.
fn table() {
    let row = |name: &str, archive: String, model: String, ratio: f64| {
        let (archive, ratio) =
            if WITH_ARCHIVE { (archive, format!("{ratio:.2}")) } else { ("not linked".into(), "–".into()) };
        println!("| {name} | {archive} | {model} | {ratio} |");
    };
    println!("| Per call | Archive, ns: least (middle) of {PASSES} passes | Model, ns | Ratio |\n|---|---|---|---|");
    for (kind, name) in KINDS {
        let [model, archive] = passes(kind);
        let shown = |(least, middle)| format!("{least:.1} ({middle:.1})");
        row(name, shown(archive), shown(model), archive.0 / model.0);
    }
    let (archive, model) = (size_of::<Other>(), size_of::<model::Device>());
    row("bytes of the record", archive.to_string(), model.to_string(), archive as f64 / model as f64);
}

/// A kind, how often, and whether on the archive.
fn arguments(words: &[String]) -> Option<(&str, usize, bool)> {
    let ([kind, n] | [kind, n, _]) = words else { return None };
    let archive = match words.get(2).map(String::as_str) {
        None | Some("model") => false,
        Some("archive") => WITH_ARCHIVE.then_some(true)?,
        Some(_) => return None,
    };
    KINDS.iter().find(|(name, _)| name == kind)?;
    Some((kind, n.parse().ok().filter(|&n| n > 0)?, archive))
}

fn main() -> ExitCode {
    run(USAGE, |words| {
        if words.is_empty() {
            table();
            return Ok(true);
        }
        let (kind, n, archive) = arguments(words).ok_or(Failure::Usage)?;
        let seconds = if archive { calls::<Other>(kind, n) } else { calls::<model::Device>(kind, n) };
        println!("{kind}: {n} calls in {seconds:.6} s");
        Ok(true)
    })
}
