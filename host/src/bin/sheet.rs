//! sheet: judges, shows and moves calibration sheets that stand in files; with the archive, by the archive.

use host::calendar::{day, shown};
use host::refusals::meaning;
use host::tool::{failed, run, sheet_bytes, Failure};
use host::{Laboratory, Other};
use model::sheet::{LONGEST_NEW, LONGEST_OLD, NEW, SCRATCH};
use model::{Contents, Figures, Identity};
use std::fs::File;
use std::io::{self, Write};
use std::process::ExitCode;

const USAGE: &str = "\
sheet judge SHEET | sheet show SHEET | sheet to-new SHEET SERIAL DAY OUT | sheet to-old SHEET OUT

Judges a calibration sheet, shows what stands on it, or moves it to the other form, into a file of its own.
  SHEET    a file of sheet bytes, of either form, or the word default: 001's default sheet
  SERIAL   0 to 4294967295
  DAY      days after 1 January 2000, 0 to 65535, or a date such as 2026-11-16
  OUT      the file to write, which must not be there yet";

/// An accepted call, or why it was not.
fn accepted(number: u8) -> Result<(), Failure> {
    match number {
        0 => Ok(()),
        _ => Err(Failure::Said(format!("refused {number}\n{}", meaning(number)))),
    }
}

fn say(line: &str) -> Result<(), Failure> {
    writeln!(io::stdout(), "{line}").map_err(failed("standard output"))
}

/// A new file: a sheet that is there is never written over.
fn write(out: &str, bytes: &[u8]) -> Result<(), Failure> {
    let mut file = File::options().write(true).create_new(true).open(out).map_err(failed(out))?;
    file.write_all(bytes).map_err(failed(out))
}

fn show(sheet: &[u8]) -> Result<(), Failure> {
    let (number, Contents { form, identity, figures }) = Other::read_sheet(sheet);
    accepted(number)?;
    if form == NEW {
        say(&format!("new form, {} bytes, {}", sheet.len(), shown(identity)))?;
    } else {
        say(&format!("old form, {} bytes, no identity", sheet.len()))?;
    }
    lines(&figures).iter().try_for_each(|line| say(line))
}

/// The figures in the order of the sheet; a step is 1/65,536 of a unit, a part of a gain 1/2^28.
fn lines(f: &Figures) -> Vec<String> {
    let steps = |name: &str, n: i64| format!("{name} {n} ({})", n as f64 / 65_536.0);
    let parts = |name: &str, n: i64| format!("{name} {n} ({})", n as f64 / f64::from(1 << 28));
    let mut lines = vec![steps("COFS", f.cofs), parts("CGAI", f.cgai), steps("CMIN", f.cmin), steps("CMAX", f.cmax)];
    for (p, i) in f.temperature.iter().take(f.ctn.into()).zip(1..) {
        let point =
            [steps(&format!("CT{i}"), p.ct), steps(&format!("CTO{i}"), p.cto), parts(&format!("CTG{i}"), p.ctg)];
        lines.push(point.join(", "));
    }
    for (p, i) in f.linearity.iter().take(f.cln.into()).zip(1..) {
        lines.push([steps(&format!("CLX{i}"), p.clx), steps(&format!("CLK{i}"), p.clk)].join(", "));
    }
    lines.extend([steps("SOFS", f.sofs), parts("SGAI", f.sgai), steps("SMIN", f.smin), steps("SMAX", f.smax)]);
    lines.extend([steps("SZ", f.sz), steps("FFLV", f.fflv), format!("FFST {}", f.ffst)]);
    lines
}

fn to_new(sheet: &[u8], identity: Identity, out: &str) -> Result<(), Failure> {
    let (mut bytes, mut scratch) = ([0; LONGEST_NEW], [0; SCRATCH]);
    let (number, length) = Other::move_to_new(sheet, identity, &mut bytes, &mut scratch);
    accepted(number)?;
    write(out, &bytes[..length])?;
    say(&format!("{out}: new form, {length} bytes, {}", shown(identity)))
}

fn to_old(sheet: &[u8], out: &str) -> Result<(), Failure> {
    let (mut bytes, mut scratch) = ([0; LONGEST_OLD], [0; SCRATCH]);
    let (number, length, identity) = Other::move_to_old(sheet, &mut bytes, &mut scratch);
    accepted(number)?;
    write(out, &bytes[..length])?;
    say(&format!("{out}: old form, {length} bytes; it had {}", shown(identity)))
}

fn work(words: &[&str]) -> Result<(), Failure> {
    match *words {
        ["judge", sheet] => {
            accepted(Other::judge_sheet(&sheet_bytes(sheet)?))?;
            say("0 accepted")
        }
        ["show", sheet] => show(&sheet_bytes(sheet)?),
        ["to-new", sheet, serial, on, out] => {
            let serial = serial.parse().map_err(|_| Failure::Usage)?;
            let day = day(on).or_else(|| on.parse().ok()).ok_or(Failure::Usage)?;
            to_new(&sheet_bytes(sheet)?, Identity { serial, day }, out)
        }
        ["to-old", sheet, out] => to_old(&sheet_bytes(sheet)?, out),
        _ => Err(Failure::Usage),
    }
}

fn main() -> ExitCode {
    run(USAGE, |words| {
        let words: Vec<&str> = words.iter().map(String::as_str).collect();
        work(&words).map(|()| true)
    })
}
