//! converter-sim SHEET STATION: the proved converter, or a platform's four, as Modbus RTU devices on a pseudo-terminal.

use host::archive::Device;
use host::calendar::shown;
use host::line::Line;
use host::pty::Pty;
use host::readings::Profile;
use host::refusals::meaning;
use host::served::Served;
use host::simulator::{Simulator, Source};
use host::tool::{failed, run, sheet_bytes, Failure};
use host::Laboratory;
use model::sheet::NEW;
use model::Contents;
use std::io::{self, Write};
use std::os::fd::AsFd;
use std::process::ExitCode;

const USAGE: &str = "\
converter-sim SHEET STATION [--probe | --platform] [--profile fill|still|rig|lorry | --readings -] [--baud N] [--verbose]

Serves Modbus RTU on a pseudo-terminal, whose name it prints.
  SHEET              a file of sheet bytes, of either form, or the word default: 001's default sheet
  STATION            1 to 247
  --probe            readings by a platinum probe: a resistance, in 0.0001 ohm, in the place of TEMP
  --platform         four devices of the sheet, for corners 1 to 4 of a platform, at STATION to STATION + 3
  --profile fill     a hopper that fills and empties in 60 s, 10 readings a second (the default)
  --profile still    100 % at 20 degrees, 10 readings a second
  --profile rig      a test rig that pushes the cell to 100 %, then pulls it so, in 60 s, 10 readings a second
  --profile lorry    with --platform, and its default: a lorry drives on and off in 60 s, 10 calls a second
  --readings -       readings from standard input, a line each: ELEC TEMP INTEGRITY, in steps of 1/65536;
                     with --probe a line is ELEC RESISTANCE INTEGRITY, with --platform it has the readings of
                     corners 1 to 4, 12 numbers
  --baud N           the rate that t3.5, the silence behind a frame, is taken from (9600)
  --verbose          serial and day of a new sheet, each frame, its number and the reply, and the weights of a
                     platform, on standard error";

struct Arguments {
    sheet: String,
    station: u8,
    probe: bool,
    platform: bool,
    baud: u32,
    /// No profile: from standard input.
    profile: Option<Profile>,
    verbose: bool,
}

/// None: bad usage.
fn arguments(words: impl Iterator<Item = String>) -> Option<Arguments> {
    let (mut plain, mut source, mut baud) = (Vec::new(), None, 9_600);
    let (mut probe, mut platform, mut verbose) = (false, false, false);
    let mut words = words;
    while let Some(word) = words.next() {
        match word.as_str() {
            "--verbose" => verbose = true,
            "--probe" => probe = true,
            "--platform" => platform = true,
            "--baud" => baud = words.next()?.parse().ok().filter(|&baud| baud > 0)?,
            "--profile" if source.is_none() => source = Some(Some(Profile::named(&words.next()?)?)),
            "--readings" if source.is_none() => {
                words.next().filter(|from| from == "-")?;
                source = Some(None);
            }
            option if option.starts_with('-') => return None,
            _ => plain.push(word),
        }
    }
    let [sheet, station] = plain.try_into().ok()?;
    // The library takes a byte and refuses 255 as it would any number above.
    let station = station.parse::<u64>().ok()?.try_into().unwrap_or(u8::MAX);
    let profile = source.unwrap_or(Some(if platform { Profile::Lorry } else { Profile::Fill }));
    if !platform && profile == Some(Profile::Lorry) {
        return None;
    }
    Some(Arguments { sheet, station, probe, platform, baud, profile, verbose })
}

/// Of a new sheet its serial and day, on standard error: no register shows them.
fn say_identity(sheet: &[u8]) {
    let (_, Contents { form, identity, .. }) = Device::read_sheet(sheet);
    if form == NEW {
        let _ = writeln!(io::stderr(), "sheet: {}", shown(identity));
    }
}

fn serve(a: &Arguments) -> Result<bool, Failure> {
    let sheet = sheet_bytes(&a.sheet)?;
    let made = match (a.probe, a.platform) {
        (false, false) => Served::<Device>::one,
        (true, false) => Served::probed,
        (false, true) => Served::platform,
        (true, true) => {
            return Err(Failure::Misused("--probe is for one device: the call for four corners takes TEMP"))
        }
    };
    let served =
        made(&sheet, a.station).map_err(|number| Failure::Said(format!("refused {number}\n{}", meaning(number))))?;
    if a.verbose {
        say_identity(&sheet);
    }
    let source = match a.profile {
        Some(profile) => Source::profile(profile),
        // Not std's own reader: what that has buffered, poll does not see.
        None => Source::text(io::stdin().as_fd().try_clone_to_owned().map_err(failed("readings"))?.into()),
    };
    let pty = Pty::open().map_err(failed("the pseudo-terminal"))?;
    let mut out = io::stdout();
    writeln!(out, "{}", pty.name()).and_then(|()| out.flush()).map_err(failed("standard output"))?;
    match Simulator::new(served, pty, Line::new(a.baud), source, a.verbose).serve() {
        Ok(never) => match never {},
        Err(e) => Err(failed("the pseudo-terminal")(e)),
    }
}

fn main() -> ExitCode {
    run(USAGE, |words| serve(&arguments(words.iter().cloned()).ok_or(Failure::Usage)?))
}
