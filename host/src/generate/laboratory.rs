//! Calls on sheets: of both forms, damaged here and there, with identities about their ranges and buffers about what is
//! needed; and which edges of paper 02's Change 6 they reached.

use super::{figures, sheet, some_sheet, Rng};
use model::sheet::{most, read, IN_FRONT, LONGEST_NEW, NEW, SCRATCH};
use model::{Figures, Identity};
use std::fmt;

/// A call of the laboratory. `room` and `scratch` are lengths of lent buffers.
#[derive(Debug)]
pub enum Task {
    Judge { sheet: Vec<u8> },
    Read { sheet: Vec<u8> },
    Write { figures: Box<Figures>, room: usize },
    ToNew { sheet: Vec<u8>, identity: Identity, room: usize, scratch: usize },
    ToOld { sheet: Vec<u8>, room: usize, scratch: usize },
}

/// An identity in range, often at an end.
pub fn identity(rng: &mut Rng) -> Identity {
    let mut within = |most: i64| match rng.below(4) {
        0 => rng.pick(&[0, most]),
        1 => rng.range(0, most) >> rng.below(32),
        _ => rng.range(0, most),
    };
    Identity { serial: within(most::SERIAL), day: within(most::DAY) }
}

/// The new form, put together here and not by a move.
pub fn with_identity(Identity { serial, day }: Identity, old: &[u8]) -> Vec<u8> {
    [&[NEW], &serial.to_le_bytes()[..], &day.to_le_bytes(), old].concat()
}

/// An identity for a move: one of four has a serial or a day, or both, out of range, often just so.
fn given(rng: &mut Rng) -> Identity {
    let mut given = identity(rng);
    let mut beyond =
        |most: i64| rng.pick(&[-1, -1, most + 1, most + 1, i64::MIN, i64::MAX, most + 1 + (1 << 33), -most]);
    let (serial, day) = (beyond(most::SERIAL), beyond(most::DAY));
    match rng.below(12) {
        0 => given.serial = serial,
        1 => given.day = day,
        2 => given = Identity { serial, day },
        _ => {}
    }
    given
}

fn room(rng: &mut Rng, needed: usize) -> usize {
    match rng.below(10) {
        0 => needed.saturating_sub(1),
        1 => rng.below(needed as u64 + 1) as usize,
        2 => needed.saturating_sub(IN_FRONT),
        3..=5 => needed,
        6 => needed + 1,
        _ => needed + rng.below(60) as usize,
    }
}

/// Figures that a sheet mostly refuses: one to three of them moved, or a count; points past a count are anything.
fn spoil(rng: &mut Rng, f: &mut Figures) {
    for _ in 0..rng.range(1, 3) {
        let (ct, clx) = (rng.range(1, 4) as usize, rng.range(1, 6) as usize);
        let by = rng.range(-1, 1);
        match rng.below(12) {
            0 => f.ctn = rng.pick(&[0, 1, 2, 3, 4, 5, 6, 7, 200, 255]),
            1 => f.cln = rng.pick(&[0, 1, 2, 3, 4, 5, 6, 7, 8, 200, 255]),
            2 => f.cmin = f.cmax.saturating_add(by),
            3 => f.smax = f.smin.saturating_add(by),
            4 => f.temperature[ct].ct = f.temperature[ct - 1].ct.saturating_add(by),
            5 => f.linearity[clx].clx = f.linearity[clx - 1].clx.saturating_add(by),
            6 => {
                let [before, after] = [clx - 1, clx].map(|at| f.linearity[at]);
                let steep = after.clx.saturating_sub(before.clx) / 4 + rng.range(0, 1);
                f.linearity[clx].clk = before.clk.saturating_add(rng.pick(&[steep, -steep]));
            }
            7 => (f.fflv, f.ffst) = rng.pick(&[(-1, 0), (0, -1), (most::FFLV + 1, 0), (0, most::FFST + 1), (1, 1)]),
            _ => {
                let (figure, most) = any(rng, f);
                *figure = rng.pick(&[most, most + 1, -most, -most - 1, i64::MIN, i64::MAX]);
            }
        }
    }
}

/// A figure, and its largest magnitude.
fn any<'a>(rng: &mut Rng, f: &'a mut Figures) -> (&'a mut i64, i64) {
    let (ct, clx) = (rng.below(5) as usize, rng.below(7) as usize);
    match rng.below(14) {
        0 => (&mut f.cofs, most::COFS),
        1 => (&mut f.cgai, most::CGAI),
        2 => (&mut f.cmin, most::CELL),
        3 => (&mut f.cmax, most::CELL),
        4 => (&mut f.temperature[ct].ct, most::CT),
        5 => (&mut f.temperature[ct].cto, most::CTO),
        6 => (&mut f.temperature[ct].ctg, most::CTG),
        7 => (&mut f.linearity[clx].clx, most::CELL),
        8 => (&mut f.linearity[clx].clk, most::CLK),
        9 => (&mut f.sofs, most::SYSTEM),
        10 => (&mut f.sgai, most::SGAI),
        11 => (&mut f.smin, most::SYSTEM),
        12 => (&mut f.smax, most::SYSTEM),
        _ => (&mut f.sz, most::SYSTEM),
    }
}

fn write(rng: &mut Rng) -> Task {
    let mut figures = figures(rng);
    let needed = sheet(&figures).len();
    if rng.one_in(2) {
        let (ctn, cln) = (figures.ctn.into(), figures.cln.into());
        figures.temperature[ctn..].iter_mut().for_each(|p| (p.ct, p.cto, p.ctg) = (rng.bits() as i64, 1 << 60, -1));
        figures.linearity[cln..].iter_mut().for_each(|p| (p.clx, p.clk) = (i64::MIN, rng.bits() as i64));
    }
    if rng.one_in(2) {
        spoil(rng, &mut figures);
    }
    Task::Write { figures: Box::new(figures), room: room(rng, needed) }
}

/// A call; the sheets of moves are mostly good ones, and of the form that they take.
pub fn task(rng: &mut Rng) -> Task {
    let scratch = match rng.below(10) {
        0 => SCRATCH - 1,
        1 => rng.below(SCRATCH as u64) as usize,
        2..=6 => SCRATCH,
        _ => SCRATCH + rng.below(60) as usize,
    };
    let good = |rng: &mut Rng| sheet(&figures(rng));
    match rng.below(8) {
        0 => Task::Judge { sheet: some_sheet(rng) },
        1 => Task::Read { sheet: some_sheet(rng) },
        2 => write(rng),
        3..=5 => {
            let sheet = if rng.one_in(3) { some_sheet(rng) } else { good(rng) };
            let room = room(rng, sheet.len() + IN_FRONT);
            Task::ToNew { sheet, identity: given(rng), room, scratch }
        }
        _ => {
            let sheet = if rng.one_in(3) { some_sheet(rng) } else { with_identity(identity(rng), &good(rng)) };
            let room = room(rng, sheet.len().saturating_sub(IN_FRONT));
            Task::ToOld { sheet, room, scratch }
        }
    }
}

/// With 0, of accepted calls.
const NUMBERS: usize = 20;
const KINDS: [&str; 5] = ["judge", "read", "write", "to new", "to old"];

/// An edge of a move.
#[derive(Clone, Copy)]
enum Edge {
    OutputJustEnough,
    OutputOneShort,
    ScratchJustEnough,
    ScratchOneShort,
    BothShort,
    IdentityAtAnEnd,
    IdentityOneBeyond,
    SheetBeforeIdentity,
    SheetBeforeBuffers,
    IdentityBeforeBuffers,
    OtherForm,
    Longest,
}

const EDGES: [(Edge, &str); 12] = [
    (Edge::OutputJustEnough, "output just enough"),
    (Edge::OutputOneShort, "one byte short"),
    (Edge::ScratchJustEnough, "scratch just enough"),
    (Edge::ScratchOneShort, "one byte short"),
    (Edge::BothShort, "both short"),
    (Edge::IdentityAtAnEnd, "serial or day at an end"),
    (Edge::IdentityOneBeyond, "one beyond it"),
    (Edge::SheetBeforeIdentity, "faults of sheet and identity"),
    (Edge::SheetBeforeBuffers, "of sheet and buffers"),
    (Edge::IdentityBeforeBuffers, "of identity and buffers"),
    (Edge::OtherForm, "a good sheet of the other form"),
    (Edge::Longest, "five and seven points"),
];

/// What calls on sheets were made, by their kinds and numbers, and the edges that moves reached.
#[derive(Default)]
pub struct Reached {
    numbers: [[u64; NUMBERS]; KINDS.len()],
    edges: [u64; EDGES.len()],
    /// Sheets that were read: accepted ones of the old form and of the new one.
    forms: [u64; 2],
}

impl Reached {
    /// A call, and the number that it has by the model.
    pub fn add(&mut self, task: &Task, number: u8) {
        let kind = match task {
            Task::Judge { .. } => 0,
            Task::Read { sheet } => {
                self.forms[usize::from(sheet.first() == Some(&NEW))] += u64::from(number == 0);
                1
            }
            Task::Write { .. } => 2,
            Task::ToNew { sheet, identity, room, scratch } => {
                self.moved(sheet, sheet.len() + IN_FRONT, Some(identity), [*room, *scratch], number);
                3
            }
            Task::ToOld { sheet, room, scratch } => {
                self.moved(sheet, sheet.len().saturating_sub(IN_FRONT), None, [*room, *scratch], number);
                4
            }
        };
        self.numbers[kind][usize::from(number)] += 1;
    }

    fn moved(
        &mut self,
        sheet: &[u8],
        needed: usize,
        given: Option<&Identity>,
        [room, scratch]: [usize; 2],
        number: u8,
    ) {
        let about = |ends: [i64; 2], of: fn(&Identity) -> i64| given.is_some_and(|given| ends.contains(&of(given)));
        let either = |serial, day| about(serial, |given| given.serial) || about(day, |given| given.day);
        let unfit = given
            .is_some_and(|given| !(0..=most::SERIAL).contains(&given.serial) || !(0..=most::DAY).contains(&given.day));
        let (accepted, sound) = (number == 0, read(sheet).is_ok());
        let [out_short, scratch_short] = [room < needed, scratch < SCRATCH];
        for (at, (edge, _)) in EDGES.into_iter().enumerate() {
            let reached = match edge {
                Edge::OutputJustEnough => accepted && room == needed,
                Edge::OutputOneShort => number == 19 && room + 1 == needed && !scratch_short,
                Edge::ScratchJustEnough => accepted && scratch == SCRATCH,
                Edge::ScratchOneShort => number == 19 && scratch + 1 == SCRATCH && !out_short,
                Edge::BothShort => number == 19 && out_short && scratch_short,
                Edge::IdentityAtAnEnd => accepted && either([0, most::SERIAL], [0, most::DAY]),
                Edge::IdentityOneBeyond => number == 3 && sound && either([-1, most::SERIAL + 1], [-1, most::DAY + 1]),
                Edge::SheetBeforeIdentity => !sound && unfit,
                Edge::SheetBeforeBuffers => !sound && (out_short || scratch_short),
                Edge::IdentityBeforeBuffers => number == 3 && sound && (out_short || scratch_short),
                Edge::OtherForm => number == 2 && sound,
                Edge::Longest => accepted && needed.max(sheet.len()) == LONGEST_NEW,
            };
            self.edges[at] += u64::from(reached);
        }
    }

    /// Edges that no call reached, by their names.
    pub fn missed(&self) -> Vec<&'static str> {
        EDGES.iter().zip(self.edges).filter(|(_, times)| *times == 0).map(|((_, name), _)| *name).collect()
    }
}

impl fmt::Display for Reached {
    fn fmt(&self, f: &mut fmt::Formatter) -> fmt::Result {
        for (kind, numbers) in KINDS.iter().zip(&self.numbers) {
            let times = numbers.iter().enumerate().filter(|(_, times)| **times > 0);
            let times: Vec<String> = times.map(|(number, times)| format!("{number}: {times}")).collect();
            writeln!(f, "sheets, {kind}  {}", times.join(", "))?;
        }
        let [old, new] = self.forms;
        writeln!(f, "sheets read and accepted: {old} of the old form, {new} of the new one")?;
        let edges: Vec<String> =
            EDGES.iter().zip(self.edges).map(|((_, name), times)| format!("{name} {times}")).collect();
        let lines: Vec<String> = edges.chunks(5).map(|line| line.join(", ")).collect();
        write!(f, "moves: {}", lines.join("\n       "))
    }
}

#[cfg(test)]
mod tests {
    use super::*;
    use model::{Converter, Device, Laboratory};

    fn number(task: &Task) -> u8 {
        let (mut out, mut lent) = ([0; 500], [0; 500]);
        match task {
            Task::Judge { sheet } => Device::judge_sheet(sheet),
            Task::Read { sheet } => Device::read_sheet(sheet).0,
            Task::Write { figures, room } => Device::write_sheet(figures, &mut out[..*room]).0,
            Task::ToNew { sheet, identity, room, scratch } => {
                Device::move_to_new(sheet, *identity, &mut out[..*room], &mut lent[..*scratch]).0
            }
            Task::ToOld { sheet, room, scratch } => {
                Device::move_to_old(sheet, &mut out[..*room], &mut lent[..*scratch]).0
            }
        }
    }

    /// The generator is worth something: every number that a call can have, and every edge, comes up.
    #[test]
    fn every_number_and_edge_is_reached() {
        let (mut rng, mut reached) = (Rng::new(6), Reached::default());
        for _ in 0..60_000 {
            let task = task(&mut rng);
            reached.add(&task, number(&task));
        }
        assert_eq!(reached.missed(), [""; 0], "{reached}");
        let seen = reached.numbers.map(|times| (0..NUMBERS).filter(|n| times[*n] > 0).collect::<Vec<_>>());
        let (sheet, moved) = (vec![0, 1, 2, 3, 4, 5, 6, 7], vec![0, 1, 2, 3, 4, 5, 6, 7, 19]);
        assert_eq!(seen, [sheet.clone(), sheet, vec![0, 2, 3, 4, 5, 6, 12], moved.clone(), moved]);
        assert!(reached.forms.iter().all(|times| *times > 500), "{reached}");
    }

    /// "Both are read and give the same device", over any figures and identity.
    #[test]
    fn both_forms_make_the_same_device() {
        let mut rng = Rng::new(66);
        for _ in 0..20_000 {
            let old = sheet(&figures(&mut rng));
            let [mut one, mut other] = [Device::default(); 2];
            assert_eq!([one.make(&old, 9), other.make(&with_identity(identity(&mut rng), &old), 9)], [0, 0]);
            assert_eq!(one, other);
        }
    }
}
