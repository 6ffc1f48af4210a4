//! converter-sim as a client meets it: raw frames over its pseudo-terminal.
//!
//! The line runs at 600 baud, where t3.5 is 64 ms, so that a busy machine does not blur gaps and silences.

use host::generate::laboratory::with_identity;
use host::generate::sheet;
use host::line::silence;
use host::pty::{open_slave, wait};
use host::{read_frame, sealed, write_frame};
use model::{Figures, Identity};
use std::fs::{self, File};
use std::io::{BufRead, BufReader, Read, Write};
use std::os::fd::AsFd;
use std::process::{Child, Command, Output, Stdio};
use std::thread::sleep;
use std::time::Duration;

const BAUD: u32 = 600;
const STATION: u8 = 52;
const STAT: u16 = 12;
const SYS: u16 = 20;
const TEMP: u16 = 22;
const FLAG: u16 = 28;
const SZ: u16 = 44;
const PEAK: u16 = 48;
const CGAI: u16 = 80;
const CMIN: u16 = 88;
/// Our own register 99.
const APPLY: u16 = 198;
const RST: u16 = 200;
/// 100 % at 20 degrees.
const READING: &str = "6553600 1310720 0";
/// What a read of SYS then gets: 42C80000, words swapped.
const HUNDRED: [u8; 9] = [0x34, 3, 4, 0, 0, 0x42, 0xc8, 0xae, 0x06];
/// Exception 2 to a read.
const ADDRESS: [u8; 5] = [0x34, 0x83, 2, 0xd0, 0xff];

fn command(arguments: &[&str]) -> Command {
    let mut command = Command::new(env!("CARGO_BIN_EXE_converter-sim"));
    command.args(arguments).stdin(Stdio::null()).stdout(Stdio::piped()).stderr(Stdio::piped());
    command
}

/// A simulator and a client on its terminal. The simulator ends with the test.
struct Bus {
    simulator: Child,
    name: String,
    client: File,
}

impl Bus {
    /// The default sheet, and readings that the test hands in.
    fn start() -> Bus {
        Bus::with(&["52", "--readings", "-"])
    }

    /// The same for the four corners of a platform, from `STATION` on.
    fn platform() -> Bus {
        Bus::with(&["52", "--readings", "-", "--platform", "--verbose"])
    }

    /// The default sheet, and these arguments.
    fn with(arguments: &[&str]) -> Bus {
        Bus::of("default", arguments)
    }

    fn of(sheet: &str, arguments: &[&str]) -> Bus {
        let baud = BAUD.to_string();
        let mut command = command(&[&[sheet, "--baud", &baud], arguments].concat());
        let mut simulator = command.stdin(Stdio::piped()).spawn().expect("converter-sim starts");
        let mut name = String::new();
        let out = simulator.stdout.take().expect("its standard output");
        BufReader::new(out).read_line(&mut name).expect("a line");
        let client = open_slave(name.trim_end()).expect("the terminal opens");
        Bus { simulator, name, client }
    }

    fn with_reading() -> Bus {
        let mut bus = Bus::start();
        bus.hand_in(READING);
        bus
    }

    fn hand_in(&mut self, reading: &str) {
        writeln!(self.simulator.stdin.as_mut().expect("its standard input"), "{reading}").expect("taken");
    }

    fn send(&mut self, bytes: &[u8]) {
        self.client.write_all(bytes).expect("sent");
    }

    /// All that comes until the line has been silent for long.
    fn replies(&mut self) -> Vec<u8> {
        let mut all = Vec::new();
        while wait([Some(self.client.as_fd())], Some(6 * silence(BAUD))).expect("waited")[0] {
            let mut bytes = [0; 64];
            let n = self.client.read(&mut bytes).expect("read");
            all.extend(&bytes[..n]);
        }
        all
    }

    fn exchange(&mut self, frame: &[u8]) -> Vec<u8> {
        self.send(frame);
        self.replies()
    }

    /// What a read gets at each station of a platform.
    fn at_each_corner(&mut self, address: u16) -> [Vec<u8>; 4] {
        [0, 1, 2, 3].map(|n| self.exchange(&read_frame(STATION + n, address)))
    }

    /// The lines on standard error; the simulator is ended.
    fn said(&mut self) -> Vec<String> {
        self.simulator.kill().expect("ended");
        let mut said = String::new();
        self.simulator.stderr.take().expect("standard error").read_to_string(&mut said).expect("text");
        said.lines().map(String::from).collect()
    }
}

impl Drop for Bus {
    fn drop(&mut self) {
        let _ = self.simulator.kill();
        let _ = self.simulator.wait();
    }
}

#[test]
fn a_read_is_answered_for_each_client() {
    let mut bus = Bus::with_reading();
    assert_eq!(bus.exchange(&read_frame(STATION, SYS)), HUNDRED);
    let name = bus.name.trim_end().to_string();
    // The first client goes: with none there, the simulator keeps serving.
    bus.client = File::open("/dev/null").expect("opened");
    sleep(Duration::from_millis(100));
    bus.client = open_slave(&name).expect("the terminal opens again");
    assert_eq!(bus.exchange(&read_frame(STATION, SYS)), HUNDRED);
}

#[test]
fn a_damaged_frame_is_not_answered() {
    let mut bus = Bus::with_reading();
    for bit in [0, 9, 63] {
        let mut frame = read_frame(STATION, SYS);
        frame[bit / 8] ^= 1 << (bit % 8);
        assert_eq!(bus.exchange(&frame), []);
    }
    assert_eq!(bus.exchange(&read_frame(STATION, SYS)[..7]), []);
    assert_eq!(bus.exchange(&read_frame(STATION + 1, SYS)), []);
    assert_eq!(bus.exchange(&read_frame(STATION, SYS)), HUNDRED);
}

#[test]
fn a_short_gap_joins_pieces() {
    let mut bus = Bus::with_reading();
    let frame = read_frame(STATION, SYS);
    for piece in [&frame[..3], &frame[3..4]] {
        bus.send(piece);
        sleep(silence(BAUD) / 4);
    }
    bus.send(&frame[4..]);
    assert_eq!(bus.replies(), HUNDRED);
}

#[test]
fn a_silence_parts_frames() {
    let mut bus = Bus::with_reading();
    let frame = read_frame(STATION, SYS);
    bus.send(&read_frame(STATION, SZ));
    sleep(4 * silence(BAUD));
    bus.send(&frame);
    sleep(4 * silence(BAUD));
    // Each was answered; the first reply, which nobody had fetched, was dropped for the second.
    assert_eq!(bus.replies(), HUNDRED);
    // With no silence between them the two are one frame, with a wrong checksum.
    assert_eq!(bus.exchange(&[&frame[..], &frame].concat()), []);
}

#[test]
fn a_reply_is_not_for_the_next_client() {
    let mut bus = Bus::with_reading();
    // A client goes with its reply there and unread; another goes before it is answered.
    for wait_for_reply in [true, false] {
        bus.send(&write_frame(STATION, SZ, 12.5_f32.to_bits()));
        if wait_for_reply {
            assert_eq!(wait([Some(bus.client.as_fd())], Some(20 * silence(BAUD))).expect("waited"), [true]);
        }
        bus.client = File::open("/dev/null").expect("opened");
        sleep(6 * silence(BAUD));
        bus.client = open_slave(bus.name.trim_end()).expect("the terminal opens again");
        sleep(silence(BAUD));
        // Nothing is lost but the reply: SZ was written.
        assert_eq!(bus.exchange(&read_frame(STATION, SZ)), value([0x41, 0x48]));
        assert_eq!(bus.exchange(&write_frame(STATION, SZ, 0)), sealed(vec![STATION, 16, 0, 44, 0, 2]));
    }
}

#[test]
fn a_broadcast_acts_in_silence() {
    let mut bus = Bus::with_reading();
    assert_eq!(bus.exchange(&write_frame(0, SZ, 12.5_f32.to_bits())), []);
    assert_eq!(bus.exchange(&read_frame(STATION, SZ)), value([0x41, 0x48]));
    bus.hand_in(READING);
    // SYS is 87.5.
    assert_eq!(bus.exchange(&read_frame(STATION, SYS)), value([0x42, 0xaf]));
    assert_eq!(bus.exchange(&read_frame(0, SYS)), []);
    assert_eq!(bus.exchange(&write_frame(0, SZ, f32::NAN.to_bits())), []);
}

/// The reply to a read, by the upper half of the float; the lower is 0.
fn value(high: [u8; 2]) -> Vec<u8> {
    sealed(vec![STATION, 3, 4, 0, 0, high[0], high[1]])
}

#[test]
fn calibration_from_the_panel() {
    let mut bus = Bus::with_reading();
    let written = |address: u16| sealed(vec![STATION, 16, 0, address as u8, 0, 2]);
    // CGAI 1.5 waits in the copy; in force, a reading later, SYS is 150.
    assert_eq!(bus.exchange(&write_frame(STATION, CGAI, 1.5_f32.to_bits())), written(CGAI));
    assert_eq!(bus.exchange(&read_frame(STATION, CGAI)), value([0x3f, 0xc0]));
    bus.hand_in(READING);
    assert_eq!(bus.exchange(&read_frame(STATION, SYS)), HUNDRED);
    assert_eq!(bus.exchange(&write_frame(STATION, APPLY, 0)), written(APPLY));
    assert_eq!(bus.exchange(&read_frame(STATION, SYS)), HUNDRED);
    bus.hand_in(READING);
    assert_eq!(bus.exchange(&read_frame(STATION, SYS)), value([0x43, 0x16]));
    // CMIN at CMAX, 150, by a broadcast: 17, until RST takes it back.
    assert_eq!(bus.exchange(&write_frame(0, CMIN, 150_f32.to_bits())), []);
    assert_eq!(bus.exchange(&write_frame(STATION, APPLY, 0)), sealed(vec![STATION, 0x90, 3]));
    assert_eq!(bus.exchange(&write_frame(STATION, RST, 0)), written(RST));
    assert_eq!(bus.exchange(&read_frame(STATION, CMIN)), value([0xc3, 0x16]));
    assert_eq!(bus.exchange(&write_frame(STATION, APPLY, 0)), written(APPLY));
}

/// 155 % raises ECOMOR and CRAWOR, 160; FLAG has them past RST, addressed and broadcast, until a write lacks them.
#[test]
fn flags_outlive_rst() {
    let mut bus = Bus::start();
    let written = |address: u16| sealed(vec![STATION, 16, 0, address as u8, 0, 2]);
    let flag = |flag: f32| value(flag.to_bits().to_be_bytes()[..2].try_into().expect("two bytes"));
    assert_eq!(bus.exchange(&read_frame(STATION, FLAG)), flag(32_768.0));
    assert_eq!(bus.exchange(&write_frame(STATION, FLAG, 0)), written(FLAG));
    bus.hand_in("10158080 1310720 0");
    assert_eq!(bus.exchange(&read_frame(STATION, FLAG)), flag(160.0));
    assert_eq!(bus.exchange(&write_frame(STATION, RST, 0)), written(RST));
    assert_eq!(bus.exchange(&write_frame(0, RST, 0)), []);
    let both = [0x34, 3, 4, 0xa0, 0x00, 0x47, 0x00];
    assert_eq!(bus.exchange(&read_frame(STATION, FLAG)), sealed(both.to_vec()));
    assert_eq!(bus.exchange(&read_frame(STATION, PEAK)), ADDRESS);
    bus.hand_in(READING);
    assert_eq!(bus.exchange(&read_frame(STATION, PEAK)), HUNDRED);
    // CRAWOR alone is lacked, then the rest.
    assert_eq!(bus.exchange(&write_frame(STATION, FLAG, 32_f32.to_bits())), written(FLAG));
    assert_eq!(bus.exchange(&read_frame(STATION, FLAG)), flag(32.0));
    assert_eq!(bus.exchange(&write_frame(STATION, FLAG, 0)), written(FLAG));
    assert_eq!(bus.exchange(&write_frame(STATION, RST, 0)), written(RST));
    assert_eq!(bus.exchange(&read_frame(STATION, FLAG)), flag(32_768.0));
}

/// Change 8 of paper 02: 138.5055 ohm are 100 degrees, which raises TEMPOR, 8; beyond the table nothing is taken.
#[test]
fn a_probe_beside_the_cell() {
    let mut bus = Bus::with(&["52", "--readings", "-", "--probe"]);
    bus.hand_in("6553600 1385055 0");
    assert_eq!(bus.exchange(&read_frame(STATION, SYS)), HUNDRED);
    assert_eq!(bus.exchange(&read_frame(STATION, TEMP)), HUNDRED);
    assert_eq!(bus.exchange(&read_frame(STATION, STAT)), value([0x41, 0x00]));
    for refused in ["0 1573252 0", "0 803062 2", "0 803063 2", "0 -0.0 0"] {
        bus.hand_in(refused);
    }
    assert_eq!(bus.exchange(&read_frame(STATION, TEMP)), HUNDRED);
    // -50 degrees, at which TEMPUR is not due.
    bus.hand_in("0 803063 0");
    assert_eq!(bus.exchange(&read_frame(STATION, TEMP)), value([0xc2, 0x48]));
    assert_eq!(bus.exchange(&read_frame(STATION, STAT)), value([0, 0]));
    let said = bus.said();
    let starts =
        ["probe 0 1573252 0: refused 20, probe", "probe 0 803062 2: refused 20", "probe 0 803063 2: refused 9"];
    assert!(starts.iter().zip(&said).all(|(start, line)| line.starts_with(start)), "{said:?}");
    assert_eq!((said.len(), said[3].starts_with("not a reading by a probe")), (4, true), "{said:?}");
}

#[test]
fn a_profile_is_for_the_probe() {
    let mut bus = Bus::with(&["52", "--probe", "--profile", "still"]);
    assert_eq!(bus.exchange(&read_frame(STATION, TEMP)), value([0x41, 0xa0]));
}

#[test]
fn exceptions_have_their_codes() {
    let mut bus = Bus::start();
    assert_eq!(bus.exchange(&read_frame(STATION, SYS)), ADDRESS);
    assert_eq!(bus.exchange(&write_frame(STATION, 206, 0)), sealed(vec![STATION, 0x90, 3]));
    bus.hand_in(READING);
    assert_eq!(bus.exchange(&read_frame(STATION, SYS)), HUNDRED);
    assert_eq!(bus.exchange(&read_frame(STATION, 14)), ADDRESS);
    assert_eq!(bus.exchange(&read_frame(STATION, 21)), ADDRESS);
    assert_eq!(bus.exchange(&sealed(vec![STATION, 4])), [0x34, 0x84, 1, 0x92, 0xce]);
    assert_eq!(bus.exchange(&sealed(vec![STATION, 3, 0, 20, 0, 4])), sealed(vec![STATION, 0x83, 3]));
    assert_eq!(bus.exchange(&write_frame(STATION, SYS, 0)), sealed(vec![STATION, 0x90, 3]));
}

#[test]
fn long_frames_are_not_answered() {
    let mut bus = Bus::with_reading();
    for length in [257, 1_024, 1_025, 20_000] {
        bus.send(&sealed(vec![STATION; length - 2]));
        assert_eq!(bus.replies(), []);
    }
    assert_eq!(bus.exchange(&read_frame(STATION, SYS)), HUNDRED);
}

#[test]
fn unfit_readings_and_their_end_do_not_stop_it() {
    let mut bus = Bus::with_reading();
    for unfit in ["19660801 0 0", "0 0 2", "1 2", "weight"] {
        bus.hand_in(unfit);
    }
    drop(bus.simulator.stdin.take());
    assert_eq!(bus.exchange(&read_frame(STATION, SYS)), HUNDRED);
    let said = bus.said();
    assert!(said[0].starts_with("reading 19660801 0 0: refused 9, bad reading"), "{said:?}");
    assert!(said[1].starts_with("reading 0 0 2: refused 9"), "{said:?}");
    assert_eq!(said[2..].iter().filter(|line| line.starts_with("not a reading")).count(), 2, "{said:?}");
}

/// Percent at corners 1 to 4, at 20 degrees, as a line of a platform's readings.
fn corners(percent: [i64; 4]) -> String {
    percent.map(|percent| format!("{} 1310720 0", percent << 16)).join(" ")
}

/// What reads get at the stations of a platform.
fn values(values: [f32; 4]) -> [Vec<u8>; 4] {
    [0, 1, 2, 3].map(|n| {
        let [b3, b2, b1, b0] = values[n].to_bits().to_be_bytes();
        sealed(vec![STATION + n as u8, 3, 4, b1, b0, b3, b2])
    })
}

#[test]
fn each_corner_answers_at_its_station() {
    let mut bus = Bus::platform();
    assert_eq!(bus.at_each_corner(SYS), [0, 1, 2, 3].map(|n| sealed(vec![STATION + n, 0x83, 2])));
    bus.hand_in(&corners([10, 20, 40, 80]));
    assert_eq!(bus.at_each_corner(SYS), values([10.0, 20.0, 40.0, 80.0]));
    for station in [STATION - 1, STATION + 4] {
        assert_eq!(bus.exchange(&read_frame(station, SYS)), []);
    }
    assert_eq!(bus.exchange(&read_frame(STATION + 1, SYS)[..7]), []);
    let said = bus.said();
    let weights = |[total, left, right, difference]: [i64; 4]| {
        format!(
            "weigh: 0, total {} left {} right {} difference {}",
            total << 16,
            left << 16,
            right << 16,
            difference << 16
        )
    };
    assert!(said.contains(&weights([150, 50, 100, -50])), "{said:?}");
    assert!(said.contains(&"  corner 4: 0 accepted".to_string()), "{said:?}");
}

#[test]
fn a_bad_reading_at_one_corner_is_refused_for_all() {
    let mut bus = Bus::platform();
    bus.hand_in(&corners([10, 20, 40, 80]));
    let bad = "0 0 0 0 0 0 0 13107201 0 0 0 0";
    bus.hand_in(bad);
    bus.hand_in(READING);
    assert_eq!(bus.at_each_corner(SYS), values([10.0, 20.0, 40.0, 80.0]));
    let said = bus.said();
    assert!(said[1].starts_with(&format!("weigh {bad}: refused 18, corner refused")), "{said:?}");
    assert_eq!(said[2], "weigh: 18, total 0 left 0 right 0 difference 0");
    assert!(said[3].starts_with("not four readings") && said[3].ends_with(READING), "{said:?}");
}

#[test]
fn a_broadcast_reaches_every_corner() {
    let mut bus = Bus::platform();
    assert_eq!(bus.exchange(&write_frame(0, SZ, 2.5_f32.to_bits())), []);
    assert_eq!(bus.at_each_corner(SZ), values([2.5; 4]));
    // SZ of corner 3 by its own station.
    let written = sealed(vec![STATION + 2, 16, 0, 44, 0, 2]);
    assert_eq!(bus.exchange(&write_frame(STATION + 2, SZ, 0)), written);
    bus.hand_in(&corners([10, 20, 40, 80]));
    assert_eq!(bus.at_each_corner(SYS), values([7.5, 17.5, 40.0, 77.5]));
}

#[test]
fn a_profile_is_for_every_corner() {
    let mut bus = Bus::with(&["52", "--platform", "--profile", "still"]);
    assert_eq!(bus.at_each_corner(SYS), values([100.0; 4]));
}

/// In the default, the lorry, the left gets more than the right as soon as the front axle comes, after 5 s.
#[test]
fn a_lorry_drives_on() {
    let mut bus = Bus::with(&["52", "--platform", "--verbose"]);
    let lines = BufReader::new(bus.simulator.stderr.take().expect("standard error")).lines();
    let said: Vec<String> = lines.map(|line| line.expect("text")).take(52).collect();
    assert_eq!(said[..51], ["weigh: 0, total 0 left 0 right 0 difference 0"; 51]);
    // A tenth of a second later a thirtieth of 30 and of 28 %.
    assert_eq!(said[51], "weigh: 0, total 126702 left 65536 right 61166 difference 4370");
}

/// The rig begins to push after 5 s; what it pulls, 30 s later, is `readings`' to test.
#[test]
fn a_rig_begins_to_push() {
    let mut bus = Bus::with(&["52", "--profile", "rig", "--platform", "--verbose"]);
    let lines = BufReader::new(bus.simulator.stderr.take().expect("standard error")).lines();
    let said: Vec<String> = lines.map(|line| line.expect("text")).take(52).collect();
    assert_eq!(said[..51], ["weigh: 0, total 0 left 0 right 0 difference 0"; 51]);
    // A thirtieth of 50 % at each.
    assert_eq!(said[51], "weigh: 0, total 436904 left 218452 right 218452 difference 0");
}

/// The name of a file with these bytes.
fn file(name: &str, bytes: &[u8]) -> String {
    let path = format!("{}/{name}", env!("CARGO_TARGET_TMPDIR"));
    fs::write(&path, bytes).expect("written");
    path
}

/// The default sheet with an identity in front.
fn identified(serial: i64, day: i64) -> Vec<u8> {
    with_identity(Identity { serial, day }, &sheet(&Figures::standard()))
}

/// Change 6 of paper 02: "Both are read and give the same device".
#[test]
fn a_sheet_with_an_identity_is_served() {
    let path = file("identified.sheet", &identified(1_234_567, 9_816));
    let mut bus = Bus::of(&path, &["52", "--readings", "-", "--verbose"]);
    bus.hand_in(READING);
    assert_eq!(bus.exchange(&read_frame(STATION, SYS)), HUNDRED);
    assert_eq!(bus.said()[0], "sheet: serial 1234567, day 9816 (2026-11-16)");
    // Without --verbose, and of an old sheet, nothing is said.
    let old = file("old.sheet", &sheet(&Figures::standard()));
    for (sheet, arguments) in [(&path, &["52", "--readings", "-"][..]), (&old, &["52", "--readings", "-", "--verbose"])]
    {
        assert_eq!(Bus::of(sheet, arguments).said(), [""; 0]);
    }
}

/// Five and seven points: 342 bytes, and one more.
#[test]
fn the_longest_sheet_is_read_whole() {
    let mut f = Figures { ctn: 5, cln: 7, ..Figures::standard() };
    f.temperature.iter_mut().zip(0..).for_each(|(point, i)| point.ct = i << 16);
    f.linearity.iter_mut().zip(0..).for_each(|(point, i)| point.clx = i << 16);
    let longest = with_identity(Identity { serial: 4_294_967_295, day: 65_535 }, &sheet(&f));
    assert_eq!(longest.len(), 342);
    let mut bus = Bus::of(&file("342.sheet", &longest), &["52", "--readings", "-"]);
    bus.hand_in(READING);
    assert_eq!(bus.exchange(&read_frame(STATION, SYS)), HUNDRED);
    let refused = |name, bytes: &[u8]| ended(&[&file(name, bytes), "52"]);
    let trailing = refused("343.sheet", &[&longest[..], &[0]].concat());
    assert_eq!((trailing.0, trailing.1.lines().next()), (Some(1), Some("refused 7")));
    let late = refused("late.sheet", &identified(0, 65_536));
    assert_eq!((late.0, late.1.lines().next()), (Some(1), Some("refused 3")));
    let twice = refused("twice.sheet", &with_identity(Identity::default(), &identified(0, 0)));
    assert_eq!((twice.0, twice.1.lines().next()), (Some(1), Some("refused 2")));
}

fn ended(arguments: &[&str]) -> (Option<i32>, String) {
    let Output { status, stdout, stderr } = command(arguments).output().expect("it runs");
    assert!(stdout.is_empty());
    (status.code(), String::from_utf8(stderr).expect("text"))
}

#[test]
fn what_is_turned_down_and_bad_usage() {
    for station in ["0", "248", "255", "256", "1000"] {
        let (code, said) = ended(&["default", station]);
        assert_eq!((code, said.starts_with("refused 8\nstation: not 1 to 247")), (Some(1), true), "{said}");
    }
    let (code, said) = ended(&["/dev/null", "52"]);
    assert_eq!((code, said.starts_with("refused 1\nshort sheet")), (Some(1), true), "{said}");
    assert_eq!(ended(&["/dev/zero", "52"]).1.lines().next(), Some("refused 2"));
    let not_there = "/no/such/sheet: No such file or directory (os error 2)\n".to_string();
    assert_eq!(ended(&["/no/such/sheet", "52"]), (Some(1), not_there));
    // The last corner's station would be 248.
    let (code, said) = ended(&["default", "245", "--platform"]);
    assert_eq!((code, said.starts_with("refused 8\nstation: not 1 to 247")), (Some(1), true), "{said}");
    let misused = "--probe is for one device: the call for four corners takes TEMP\n".to_string();
    assert_eq!(ended(&["default", "52", "--probe", "--platform"]), (Some(2), misused));
    let wrong: [&[&str]; 9] = [
        &[],
        &["default"],
        &["default", "weight"],
        &["default", "52", "53"],
        &["default", "52", "--baud", "0"],
        &["default", "52", "--profile", "empty"],
        &["default", "52", "--readings", "-", "--profile", "fill"],
        &["default", "52", "--readings", "file"],
        &["default", "52", "--profile", "lorry"],
    ];
    for arguments in wrong {
        let (code, said) = ended(arguments);
        assert_eq!((code, said.starts_with("usage: converter-sim SHEET STATION")), (Some(2), true), "{arguments:?}");
    }
}

#[test]
fn help() {
    for word in ["-h", "--help"] {
        let Output { status, stdout, stderr } = command(&[word]).output().expect("it runs");
        assert_eq!((status.code(), stderr), (Some(0), Vec::new()));
        assert!(stdout.starts_with(b"converter-sim SHEET STATION"), "{word}");
    }
}
