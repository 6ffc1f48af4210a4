//! The tools on bad input: one plain sentence on standard error and a failing status, never a panic.

use host::generate::sheet;
use model::Figures;
use std::ffi::OsString;
use std::fs::{self, File};
use std::path::{Path, PathBuf};
use std::process::{Command, Output, Stdio};

#[allow(dead_code)] // its main is cargo's
#[path = "../build.rs"]
mod build;

const REPLAY: &str = env!("CARGO_BIN_EXE_replay");
const COMPARE: &str = env!("CARGO_BIN_EXE_compare");
const MEASURE: &str = env!("CARGO_BIN_EXE_measure");
const BENCH: &str = env!("CARGO_BIN_EXE_bench");
const SHEET: &str = env!("CARGO_BIN_EXE_sheet");

/// The status, standard output and standard error of a tool with this standard input.
fn run(tool: &str, arguments: &[&str], input: Stdio, output: Stdio) -> (Option<i32>, String, String) {
    let Output { status, stdout, stderr } = Command::new(tool)
        .args(arguments)
        .stdin(input)
        .stdout(output)
        .stderr(Stdio::piped())
        .output()
        .expect("it runs");
    let text = |bytes| String::from_utf8(bytes).expect("text");
    (status.code(), text(stdout), text(stderr))
}

/// It fails with this status and says this, in one line, and nothing else.
fn fails(tool: &str, arguments: &[&str], status: i32, said: &str) {
    let found = run(tool, arguments, Stdio::null(), Stdio::piped());
    assert_eq!(found, (Some(status), String::new(), format!("{said}\n")), "{tool} {arguments:?}");
}

/// A file or a folder of this test alone.
fn place(name: &str) -> PathBuf {
    Path::new(env!("CARGO_TARGET_TMPDIR")).join(name)
}

#[test]
fn bad_usage() {
    let usages: [(&str, &str, &[&[&str]]); 4] = [
        (REPLAY, "replay SCENARIOS [BENCH-FOLDER]", &[&[], &["a", "b", "c"]]),
        (COMPARE, "compare CALLS SEED", &[&[], &["1"], &["1", "x"], &["0", "1"], &["-1", "1"], &["1", "x", "1"]]),
        (
            MEASURE,
            "measure [default|full|probe|probe-full|corners|corners-full|read|write|figure|panel|apply|reset|exception|make|\
             make-new|to-new|to-old N [model|archive]] (archive: only if linked)",
            &[&["nosuch"], &["probe"], &["read"], &["nosuch", "1"], &["read", "0"], &["apply", "x"], &["read", "1", "x"]],
        ),
        (BENCH, "bench < INPUT", &[&["file"]]),
    ];
    for (tool, usage, wrong) in usages {
        for arguments in wrong {
            fails(tool, arguments, 2, &format!("usage: {usage}"));
        }
        for help in ["-h", "--help"] {
            let found = run(tool, &[help], Stdio::null(), Stdio::piped());
            assert_eq!(found, (Some(0), format!("{usage}\n"), String::new()), "{tool} {help}");
        }
    }
}

#[test]
fn files_that_are_not_there() {
    const NOT_THERE: &str = "No such file or directory (os error 2)";
    fails(REPLAY, &["nosuch"], 1, &format!("nosuch: {NOT_THERE}"));
    let (scenarios, empty) = (place("report.txt"), place("empty"));
    fs::write(&scenarios, "report = 10 00000000 00000000 00000000 00000000\n").expect("written");
    let scenarios = scenarios.to_str().expect("text");
    fails(REPLAY, &[scenarios, "nosuch"], 1, &format!("nosuch: {NOT_THERE}"));
    fs::create_dir_all(&empty).expect("made");
    let empty = empty.to_str().expect("text");
    fails(REPLAY, &[scenarios, empty], 1, &format!("{empty}: no bench run (*.in) there"));
    let half = place("half");
    fs::create_dir_all(&half).expect("made");
    fs::write(half.join("run.in"), "").expect("written");
    let out = half.join("run.out").display().to_string();
    fails(REPLAY, &[scenarios, half.to_str().expect("text")], 1, &format!("{out}: {NOT_THERE}"));
}

#[test]
fn malformed_lines() {
    let table = [
        ("weigh 1 = 0", "no such call: weigh 1"),
        ("", "no such call: "),
        ("report 1 = 0", "no such call: report 1"),
        ("make zz 1 = 0", "not hexadecimal bytes: zz"),
        ("make 012 1 = 0", "not hexadecimal bytes: 012"),
        ("make +1 1 = 0", "not hexadecimal bytes: +1"),
        ("make é 1 = 0", "not hexadecimal bytes: é"),
        ("make - 256 = 0", "not a station: 256"),
        ("reading 0 0 0 = 0", "a device that was not made: 1"),
        ("probe 0 1000000 0 = 0", "a device that was not made: 1"),
        ("frame - 9 = 13 0 a5a5a5a5a5a5a5a5a5", "a device that was not made: 1"),
        ("write 1 x = 0", "not a room of 0 to 65535: x"),
        ("write 1 99999999999999999999 = 0", "not a room of 0 to 65535: 99999999999999999999"),
        ("use x", "not a device: x"),
        ("use 0", "not a device of 1 to 8: 0"),
        ("use 9", "not a device of 1 to 8: 9"),
        ("use 1 = 0", "no such call: use 1"),
        ("corners = 18", "not four devices and four readings: "),
        ("corners 1 2 3 4 0 0 0 = 18", "not four devices and four readings: 1 2 3 4 0 0 0"),
        (
            "corners 1 2 3 4 0 0 0 0 0 0 0 0 0 0 0 0 0 = 18",
            "not four devices and four readings: 1 2 3 4 0 0 0 0 0 0 0 0 0 0 0 0 0",
        ),
        ("corners 1 2 3 9 0 0 0 0 0 0 0 0 0 0 0 0 = 0", "not a device of 1 to 8: 9"),
        ("corners 1 2 3 1 0 0 0 0 0 0 0 0 0 0 0 0 = 0", "a device twice: 1 2 3 1"),
        ("corners 1 2 3 4 0 0 0 0 0 0 0 0 0 0 0 0 = 0", "a device that was not made: 1 2 3 4"),
        ("corners 1 2 3 4 0 0 0 0 0 0 0 x 0 0 0 0 = 0", "not TEMP: x"),
        ("write 1,x 9 = 0", "not a figure: x"),
        ("write 1,2 9 = 0", "not 40 figures and 2 counts: 1,2"),
        ("contents 2 = 1", "not hexadecimal bytes: 2"),
        ("to-new - x 0 0 0 = 1", "not a serial: x"),
        ("to-new - 0 9223372036854775808 0 0 = 1", "not a day: 9223372036854775808"),
        ("to-new - 0 0 0 = 1", "no such call: to-new - 0 0 0"),
        ("to-old - 65536 0 = 1", "not a room of 0 to 65535: 65536"),
        ("to-old - 0 -1 = 1", "not a room of 0 to 65535: -1"),
        ("to-old zz 0 0 = 1", "not hexadecimal bytes: zz"),
    ];
    for (i, (line, wrong)) in table.into_iter().enumerate() {
        let path = place(&format!("malformed-{i}.txt"));
        fs::write(&path, format!("scenario one\n{line}\n")).expect("written");
        let path = path.to_str().expect("text");
        fails(REPLAY, &[path], 1, &format!("{path}: line 2: {wrong}"));
    }
    let sheet: String = sheet(&Figures::standard()).iter().map(|byte| format!("{byte:02x}")).collect();
    let table = [
        ("reading x 0 0 = 0", "not ELEC: x"),
        ("reading 0 9223372036854775808 0 = 0", "not TEMP: 9223372036854775808"),
        ("reading 0 0 -1 = 0", "not an integrity byte: -1"),
        ("probe 0 100.0 0 = 0", "not a resistance: 100.0"),
        ("frame zz 9 = 0", "not hexadecimal bytes: zz"),
    ];
    for (i, (line, wrong)) in table.into_iter().enumerate() {
        let path = place(&format!("malformed-of-device-{i}.txt"));
        fs::write(&path, format!("make {sheet} 1 = 0\n{line}\n")).expect("written");
        let path = path.to_str().expect("text");
        fails(REPLAY, &[path], 1, &format!("{path}: line 2: {wrong}"));
    }
    let path = place("not-text.txt");
    fs::write(&path, [0xff]).expect("written");
    let path = path.to_str().expect("text");
    fails(REPLAY, &[path], 1, &format!("{path}: stream did not contain valid UTF-8"));
}

#[test]
fn a_difference_is_seen() {
    let path = place("difference.txt");
    fs::write(&path, "report = 9 00000000 00000000 00000000 00000000\n").expect("written");
    let (code, said, wrong) = run(REPLAY, &[path.to_str().expect("text")], Stdio::null(), Stdio::piped());
    assert_eq!((code, wrong.as_str()), (Some(1), ""));
    assert!(said.starts_with("DIFFERENCE at line 1: report\n") && said.contains(" 1 differences\n"), "{said}");
}

/// Each part of a move's answer is compared: number, length, identity, and the bytes of both buffers.
#[test]
fn a_difference_of_a_move_is_seen() {
    let replayed = |line: &str| {
        let path = place("move.txt");
        fs::write(&path, format!("{line}\n")).expect("written");
        run(REPLAY, &[path.to_str().expect("text")], Stdio::null(), Stdio::piped()).0
    };
    let (new, old) = ("to-new 03 1 2 2 1 =", "to-old 04 2 1 =");
    let right = [format!("{new} 2 0 a5a5 5c"), format!("{old} 2 0 0 0 a5a5 5c")];
    assert_eq!(right.map(|line| replayed(&line)), [Some(0); 2]);
    for wrong in ["19 0 a5a5 5c", "2 1 a5a5 5c", "2 0 a55c 5c", "2 0 a5a5 5d", "2 0 a5a5 -", "2 0 a5a5"] {
        assert_eq!(replayed(&format!("{new} {wrong}")), Some(1), "{wrong}");
    }
    for wrong in ["3 0 0 0 a5a5 5c", "2 0 1 0 a5a5 5c", "2 0 0 1 a5a5 5c", "2 0 0 0 00a5 5c", "2 0 0 0 a5a5 a5"] {
        assert_eq!(replayed(&format!("{old} {wrong}")), Some(1), "{wrong}");
    }
}

#[test]
fn bench_without_input_or_output() {
    let folder = || File::open(env!("CARGO_TARGET_TMPDIR")).expect("opened").into();
    let (code, _, said) = run(BENCH, &[], folder(), Stdio::piped());
    assert_eq!((code, said.as_str()), (Some(1), "standard input: Is a directory (os error 21)\n"));
    let full = File::options().write(true).open("/dev/full").expect("opened").into();
    let (code, _, said) = run(BENCH, &[], Stdio::null(), full);
    assert_eq!((code, said.as_str()), (Some(1), "standard output: No space left on device (os error 28)\n"));
}

/// It says this, in one line, and ends with 0.
fn says(tool: &str, arguments: &[&str], said: &str) {
    let found = run(tool, arguments, Stdio::null(), Stdio::piped());
    assert_eq!(found, (Some(0), format!("{said}\n"), String::new()), "{tool} {arguments:?}");
}

/// A sheet goes to the new form and back, in files; the bytes behind the identity and those given back are the first ones.
#[test]
fn a_sheet_is_moved_there_and_back() {
    let paths = ["new.sheet", "old.sheet", "again.sheet", "none.sheet"].map(place);
    for path in &paths {
        let _ = fs::remove_file(path);
    }
    let [new, old, again, none] = paths.each_ref().map(|path| path.to_str().expect("text"));
    let by_date = ["to-new", "default", "1234567", "2026-11-16", new];
    says(SHEET, &by_date, &format!("{new}: new form, 190 bytes, serial 1234567, day 9816 (2026-11-16)"));
    let had = "it had serial 1234567, day 9816 (2026-11-16)";
    says(SHEET, &["to-old", new, old], &format!("{old}: old form, 173 bytes; {had}"));
    let [new_bytes, old_bytes] = [new, old].map(|path| fs::read(path).expect("a file"));
    let identity = [&[2][..], &1_234_567_i64.to_le_bytes(), &9_816_i64.to_le_bytes()].concat();
    assert_eq!((&new_bytes[..17], &new_bytes[17..]), (&identity[..], &old_bytes[..]));
    says(SHEET, &["to-new", old, "1234567", "9816", again], &format!("{again}: new form, 190 bytes, {}", &had[7..]));
    assert_eq!(fs::read(again).expect("a file"), new_bytes);
    for sheet in ["default", new, old] {
        says(SHEET, &["judge", sheet], "0 accepted");
    }
    // A file that is there stays as it is.
    fails(SHEET, &["to-old", new, again], 1, &format!("{again}: File exists (os error 17)"));
    assert_eq!(fs::read(again).expect("a file"), new_bytes);
    // What is turned down leaves no file behind.
    let turned_down: [(&[&str], u8); 6] = [
        (&["to-new", new, "1", "2", none], 2),
        (&["to-old", old, none], 2),
        (&["to-new", old, "4294967296", "2", none], 3),
        (&["to-new", old, "-1", "2", none], 3),
        (&["to-new", old, "1", "65536", none], 3),
        (&["to-new", "/dev/null", "1", "2", none], 1),
    ];
    for (arguments, number) in turned_down {
        let (code, said, wrong) = run(SHEET, arguments, Stdio::null(), Stdio::piped());
        assert_eq!((code, said.as_str()), (Some(1), ""), "{arguments:?}");
        assert!(wrong.starts_with(&format!("refused {number}\n")) && !Path::new(none).exists(), "{wrong}");
    }
}

#[test]
fn a_sheet_is_shown() {
    let (code, said, _) = run(SHEET, &["show", "default"], Stdio::null(), Stdio::piped());
    let lines: Vec<&str> = said.lines().collect();
    assert_eq!((code, lines.len(), lines[0]), (Some(0), 16, "old form, 173 bytes, no identity"));
    assert_eq!(lines[2..4], ["CGAI 268435456 (1)", "CMIN -9830400 (-150)"]);
    assert_eq!(lines[6], "CT2 1638400 (25), CTO2 0 (0), CTG2 0 (0)");
    assert_eq!(lines[15], "FFST 0");
    let (code, said, wrong) = run(SHEET, &["show", "/dev/null"], Stdio::null(), Stdio::piped());
    assert_eq!((code, said.as_str(), wrong.starts_with("refused 1\nshort sheet")), (Some(1), "", true));
}

#[test]
fn bad_usage_of_sheet() {
    let wrong: [&[&str]; 7] = [
        &[],
        &["judge"],
        &["show", "default", "default"],
        &["to-new", "default", "x", "0", "out"],
        &["to-new", "default", "1", "2026-02-29", "out"],
        &["to-new", "default", "1", "1999-12-31", "out"],
        &["to-old", "default"],
    ];
    for arguments in wrong {
        let (code, said, usage) = run(SHEET, arguments, Stdio::null(), Stdio::piped());
        assert_eq!((code, said.as_str()), (Some(2), ""), "{arguments:?}");
        assert!(usage.starts_with("usage: sheet judge SHEET"), "{usage}");
    }
    fails(SHEET, &["judge", "nosuch"], 1, "nosuch: No such file or directory (os error 2)");
}

#[test]
fn the_folder_of_the_archive() {
    let empty = place("no-archive");
    fs::create_dir_all(&empty).expect("made");
    let shown = empty.display().to_string();
    let set = "BOARD_LIB_DIR is not set: the feature `archive` links libboard.a and liblaboratory.a there";
    let table = [
        (None, set.to_string()),
        (Some(String::new()), set.to_string()),
        (Some("nosuch".into()), "BOARD_LIB_DIR: nosuch is not a folder".into()),
        (Some(shown.clone()), format!("BOARD_LIB_DIR: no libboard.a in {shown}; `rt lib` in crates/board writes it")),
    ];
    for (dir, wrong) in table {
        assert_eq!(build::folder(dir.map(OsString::from)), Err(wrong));
    }
    let full = place("archive");
    let _ = fs::remove_dir_all(&full);
    fs::create_dir_all(&full).expect("made");
    fs::write(full.join("libboard.a"), "").expect("written");
    let half =
        format!("BOARD_LIB_DIR: no liblaboratory.a in {}; `rt lib` in crates/laboratory writes it", full.display());
    assert_eq!(build::folder(Some(full.clone().into())), Err(half));
    fs::write(full.join("liblaboratory.a"), "").expect("written");
    assert_eq!(build::folder(Some(full.clone().into())), Ok(full));
}
