//! replay SCENARIOS [BENCH-FOLDER]: the vectors against the model and, if linked, the archive.

use host::tool::{failed, run, Failure};
use host::{Converter, Laboratory, FILL, FILL_SCRATCH, WITH_ARCHIVE};
use model::sheet::{LinearityPoint, TemperaturePoint};
use model::{Contents, Figures, Identity, Sample};
use std::path::{Path, PathBuf};
use std::str::FromStr;
use std::{fs, process::ExitCode};

#[derive(Default)]
struct Tally {
    checked: usize,
    differences: usize,
}

impl Tally {
    fn check(&mut self, what: &str, found: &str, expected: &str) {
        self.checked += 1;
        if found != expected {
            self.differences += 1;
            println!("DIFFERENCE at {}\n  expected {expected}\n  found    {found}", short(what));
        }
    }
}

/// A word as a value of a kind, or the sentence that says that it is none.
fn parsed<T: FromStr>(word: &str, kind: &str) -> Result<T, String> {
    word.parse().map_err(|_| format!("not {kind}: {}", short(word)))
}

fn short(text: &str) -> String {
    text.chars().take(160).collect()
}

fn bytes(hex: &str) -> Result<Vec<u8>, String> {
    let digits = if hex == "-" { "" } else { hex }.as_bytes();
    let digit = |c: u8| char::from(c).to_digit(16);
    let byte = |pair: &[u8]| match *pair {
        [high, low] => Some((16 * digit(high)? + digit(low)?) as u8),
        _ => None,
    };
    let bytes = digits.chunks(2).map(byte).collect::<Option<_>>();
    bytes.ok_or_else(|| format!("not hexadecimal bytes: {}", short(hex)))
}

fn hex(bytes: &[u8]) -> String {
    if bytes.is_empty() {
        return "-".into();
    }
    bytes.iter().map(|b| format!("{b:02x}")).collect()
}

/// Figures in the order of the vectors' README.
fn figures(list: &str) -> Result<Figures, String> {
    let numbers: Vec<i64> = list.split(',').map(|n| parsed(n, "a figure")).collect::<Result<_, _>>()?;
    if numbers.len() != 42 {
        return Err(format!("not 40 figures and 2 counts: {}", short(list)));
    }
    let count = |n: i64| n.try_into().map_err(|_| format!("not a count: {n}"));
    let mut numbers = numbers.into_iter();
    let mut next = || numbers.next().unwrap_or_default();
    let mut f = Figures { cofs: next(), cgai: next(), cmin: next(), cmax: next(), ..Figures::default() };
    f.ctn = count(next())?;
    f.temperature = [(); 5].map(|()| TemperaturePoint { ct: next(), cto: next(), ctg: next() });
    f.cln = count(next())?;
    f.linearity = [(); 7].map(|()| LinearityPoint { clx: next(), clk: next() });
    (f.sofs, f.sgai, f.smin, f.smax, f.sz) = (next(), next(), next(), next(), next());
    (f.fflv, f.ffst) = (next(), next());
    Ok(f)
}

fn list(f: &Figures) -> String {
    let mut n = vec![f.cofs, f.cgai, f.cmin, f.cmax, f.ctn.into()];
    n.extend(f.temperature.iter().flat_map(|p| [p.ct, p.cto, p.ctg]));
    n.push(f.cln.into());
    n.extend(f.linearity.iter().flat_map(|p| [p.clx, p.clk]));
    n.extend([f.sofs, f.sgai, f.smin, f.smax, f.sz, f.fflv, f.ffst]);
    n.iter().map(i64::to_string).collect::<Vec<_>>().join(",")
}

/// A lent buffer; its length has two bytes, so that no line asks for more than there is.
fn buffer(fill: u8, room: &str) -> Result<Vec<u8>, String> {
    Ok(vec![fill; parsed::<u16>(room, "a room of 0 to 65535")?.into()])
}

/// The number and what the sheet holds. Judging it alone has to give the same number.
fn contents<C: Laboratory>(sheet: &str) -> Result<(String, Contents), String> {
    let sheet = bytes(sheet)?;
    let (number, contents) = C::read_sheet(&sheet);
    let judged = C::judge_sheet(&sheet);
    Ok((if judged == number { number.to_string() } else { format!("{number}, judged {judged},") }, contents))
}

/// Calls on sheets, for which no device is meant.
fn on_sheets<C: Laboratory>(words: &[&str]) -> Result<String, String> {
    Ok(match *words {
        ["read", sheet] => {
            let (number, Contents { figures, .. }) = contents::<C>(sheet)?;
            format!("{number} {}", list(&figures))
        }
        ["contents", sheet] => {
            let (number, Contents { form, identity: Identity { serial, day }, figures }) = contents::<C>(sheet)?;
            format!("{number} {form} {serial} {day} {}", list(&figures))
        }
        ["write", figure_list, room] => {
            let mut out = buffer(FILL, room)?;
            let (number, length) = C::write_sheet(&figures(figure_list)?, &mut out);
            format!("{number} {length} {}", hex(&out))
        }
        ["to-new", sheet, serial, day, room, scratch] => {
            let (mut out, mut scratch) = (buffer(FILL, room)?, buffer(FILL_SCRATCH, scratch)?);
            let identity = Identity { serial: parsed(serial, "a serial")?, day: parsed(day, "a day")? };
            let (number, length) = C::move_to_new(&bytes(sheet)?, identity, &mut out, &mut scratch);
            format!("{number} {length} {} {}", hex(&out), hex(&scratch))
        }
        ["to-old", sheet, room, scratch] => {
            let (mut out, mut scratch) = (buffer(FILL, room)?, buffer(FILL_SCRATCH, scratch)?);
            let (number, length, Identity { serial, day }) = C::move_to_old(&bytes(sheet)?, &mut out, &mut scratch);
            format!("{number} {length} {serial} {day} {} {}", hex(&out), hex(&scratch))
        }
        _ => return Err(format!("no such call: {}", short(&words.join(" ")))),
    })
}

/// A refused making leaves the device, and a record of zeros.
fn make<C: Converter>(device: &mut C, sheet: &[u8], station: u8) -> String {
    let mut made = device.clone();
    let number = made.make(sheet, station);
    if number == 0 {
        *device = made;
    } else if made != C::default() {
        return format!("{number}, with a record that is not zeros");
    }
    number.to_string()
}

/// The devices of a scenario; `meant` is the one that the lines mean.
struct Scenario<C> {
    devices: [C; DEVICES],
    meant: usize,
}

const DEVICES: usize = 8;

impl<C: Converter> Scenario<C> {
    fn new() -> Scenario<C> {
        Scenario { devices: [(); DEVICES].map(|()| C::default()), meant: 0 }
    }
}

/// Where device K stands.
fn place(k: &str) -> Result<usize, String> {
    let at: usize = parsed(k, "a device")?;
    if (1..=DEVICES).contains(&at) {
        Ok(at - 1)
    } else {
        Err(format!("not a device of 1 to {DEVICES}: {at}"))
    }
}

/// ELEC, TEMP or what stands in its place, and the integrity byte.
fn sample([elec, second, integrity]: [&str; 3], kind: &str) -> Result<Sample, String> {
    Ok((parsed(elec, "ELEC")?, parsed(second, kind)?, parsed(integrity, "an integrity byte")?))
}

/// A reading at each of four devices: `K K K K (ELEC TEMP INTEGRITY)x4`, in the order of the corners.
fn corners<C: Converter>(devices: &mut [C], words: &[&str]) -> Result<String, String> {
    let parts = words.split_first_chunk::<4>().map(|(k, numbers)| (k, numbers.as_chunks::<3>()));
    let Some((k, (&[s1, s2, s3, s4], []))) = parts else {
        return Err(format!("not four devices and four readings: {}", short(&words.join(" "))));
    };
    let places = [place(k[0])?, place(k[1])?, place(k[2])?, place(k[3])?];
    let at = |words| sample(words, "TEMP");
    let samples = [at(s1)?, at(s2)?, at(s3)?, at(s4)?];
    let corners = devices.get_disjoint_mut(places).map_err(|_| format!("a device twice: {}", k.join(" ")))?;
    if corners.iter().any(|device| **device == C::default()) {
        return Err(format!("a device that was not made: {}", k.join(" ")));
    }
    let (number, w) = C::weigh(corners, samples);
    let [one, two, three, four] = w.corners;
    Ok(format!("{number} {one} {two} {three} {four} {} {} {} {}", w.total, w.left, w.right, w.difference))
}

/// What a call gives, as a line of the vectors has it; or what is wrong with the line.
fn found<C: Converter + Laboratory>(scenario: &mut Scenario<C>, words: &[&str]) -> Result<String, String> {
    let device = &mut scenario.devices[scenario.meant];
    // A record of zeros is no device, and nothing but a making may be given it.
    if matches!(words, ["reading" | "probe" | "frame", ..]) && *device == C::default() {
        return Err(format!("a device that was not made: {}", scenario.meant + 1));
    }
    Ok(match *words {
        ["make", sheet, station] => make(device, &bytes(sheet)?, parsed(station, "a station")?),
        ["reading", elec, temp, integrity] => {
            let (elec, temp, integrity) = sample([elec, temp, integrity], "TEMP")?;
            device.reading(elec, temp, integrity).to_string()
        }
        ["probe", elec, resistance, integrity] => {
            let (elec, resistance, integrity) = sample([elec, resistance, integrity], "a resistance")?;
            device.probe(elec, resistance, integrity).to_string()
        }
        ["corners", ref words @ ..] => corners(&mut scenario.devices, words)?,
        ["report"] => {
            let (number, [sys, peak, trof, cell]) = device.report();
            format!("{number} {sys:08x} {peak:08x} {trof:08x} {cell:08x}")
        }
        ["frame", frame, room] => {
            let mut reply = buffer(FILL, room)?;
            let (number, length) = device.frame(&bytes(frame)?, &mut reply);
            format!("{number} {length} {}", hex(&reply))
        }
        _ => on_sheets::<C>(words)?,
    })
}

fn scenarios<C: Converter + Laboratory>(text: &str, tally: &mut Tally) -> Result<(), String> {
    let mut scenario = Scenario::<C>::new();
    for (line, at) in text.lines().zip(1..) {
        let words: Vec<&str> = line.split(' ').collect();
        let in_line = |wrong| format!("line {at}: {wrong}");
        match words[..] {
            ["scenario", _] => scenario = Scenario::new(),
            ["use", k] => scenario.meant = place(k).map_err(in_line)?,
            _ => {
                let (call, expected) = line.split_once(" = ").unwrap_or((line, ""));
                let call_words: Vec<&str> = call.split(' ').collect();
                let found = found(&mut scenario, &call_words).map_err(in_line)?;
                tally.check(&format!("line {at}: {call}"), &found, expected);
            }
        }
    }
    Ok(())
}

fn bench<C: Converter>(folder: &Path, tally: &mut Tally) -> Result<(), Failure> {
    let text = |path: &Path| path.display().to_string();
    let entries = fs::read_dir(folder).map_err(failed(&text(folder)))?;
    let paths: Vec<PathBuf> =
        entries.map(|e| e.map(|e| e.path())).collect::<Result<_, _>>().map_err(failed(&text(folder)))?;
    for path in paths.iter().filter(|p| p.extension().is_some_and(|e| e == "in")) {
        let (input, stored) = (fs::read(path), path.with_extension("out"));
        let mut out = Vec::new();
        model::bench::run::<C>(&input.map_err(failed(&text(path)))?, &mut out).map_err(failed(&text(path)))?;
        let expected = fs::read_to_string(&stored).map_err(failed(&text(&stored)))?;
        tally.check(&text(path), &String::from_utf8_lossy(&out), &expected);
    }
    if tally.checked == 0 {
        return Err(Failure::Said(format!("{}: no bench run (*.in) there", text(folder))));
    }
    Ok(())
}

fn replay<C: Converter + Laboratory>(name: &str, file: &str, folder: Option<&String>) -> Result<bool, Failure> {
    let text = fs::read_to_string(file).map_err(failed(file))?;
    let (mut lines, mut runs) = (Tally::default(), Tally::default());
    scenarios::<C>(&text, &mut lines).map_err(|wrong| Failure::Said(format!("{file}: {wrong}")))?;
    if let Some(folder) = folder {
        bench::<C>(Path::new(folder), &mut runs)?;
    }
    println!("{name}: {} lines checked, {} differences", lines.checked, lines.differences);
    println!("{name}: {} bench runs checked, {} differences", runs.checked, runs.differences);
    if lines.checked == 0 {
        return Err(Failure::Said(format!("{file}: no line to check")));
    }
    Ok(lines.differences + runs.differences == 0)
}

fn main() -> ExitCode {
    run("replay SCENARIOS [BENCH-FOLDER]", |words| {
        let ([file] | [file, _]) = words else { return Err(Failure::Usage) };
        let folder = words.get(1);
        let model = replay::<model::Device>("model", file, folder)?;
        let archive = !WITH_ARCHIVE || replay::<host::Other>("archive", file, folder)?;
        Ok(model && archive)
    })
}
