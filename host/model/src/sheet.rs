//! The calibration sheet: reading, judging, writing, and the moves between its two forms (paper 02, Change 6).

use crate::{Refusal, Result};

#[derive(Clone, Copy, Debug, Default, PartialEq, Eq)]
pub struct TemperaturePoint {
    pub ct: i64,
    pub cto: i64,
    pub ctg: i64,
}

#[derive(Clone, Copy, Debug, Default, PartialEq, Eq)]
pub struct LinearityPoint {
    pub clx: i64,
    pub clk: i64,
}

/// The figures of a sheet; points past a count are 0 in figures read.
#[derive(Clone, Copy, Debug, Default, PartialEq, Eq)]
pub struct Figures {
    pub cofs: i64,
    pub cgai: i64,
    pub cmin: i64,
    pub cmax: i64,
    pub ctn: u8,
    pub temperature: [TemperaturePoint; 5],
    pub cln: u8,
    pub linearity: [LinearityPoint; 7],
    pub sofs: i64,
    pub sgai: i64,
    pub smin: i64,
    pub smax: i64,
    pub sz: i64,
    pub fflv: i64,
    pub ffst: i64,
}

/// "serial number and day", the day in "days after 1 January 2000".
#[derive(Clone, Copy, Debug, Default, PartialEq, Eq)]
pub struct Identity {
    pub serial: i64,
    pub day: i64,
}

impl Identity {
    fn in_range(&self) -> bool {
        (0..=most::SERIAL).contains(&self.serial) && (0..=most::DAY).contains(&self.day)
    }
}

/// What a sheet holds. The form is its first count; an old sheet has no identity, and zeros in its place.
#[derive(Clone, Copy, Debug, Default, PartialEq, Eq)]
pub struct Contents {
    pub form: u8,
    pub identity: Identity,
    pub figures: Figures,
}

/// "A first count of 4 marks the old sheet."
pub const OLD: u8 = 4;
/// "The new sheet has one more section in front, count 2".
pub const NEW: u8 = 2;

/// Largest magnitudes.
pub mod most {
    pub const COFS: i64 = 19_660_800;
    pub const CGAI: i64 = 1 << 34;
    pub const CELL: i64 = 2_097_152_000; // CMIN, CMAX, CLX
    pub const CT: i64 = 13_107_200;
    pub const CTO: i64 = 1_310_720;
    pub const CTG: i64 = 26_843_545;
    pub const CLK: i64 = 65_536_000;
    pub const SGAI: i64 = 1 << 31;
    pub const SYSTEM: i64 = 2_097_152_000; // SOFS, SMIN, SMAX, SZ
    pub const FFLV: i64 = 39_321_600;
    pub const FFST: i64 = 1_000;
    pub const SERIAL: i64 = 4_294_967_295;
    pub const DAY: i64 = 65_535;
}

/// Lengths of the sheets with five and seven points.
pub const LONGEST_OLD: usize = 325;
pub const LONGEST_NEW: usize = 342;
/// Bytes of the section in front: a count and two figures.
pub const IN_FRONT: usize = 17;
/// "a lent scratch buffer of at least 342 bytes", whatever the sheet's length.
pub const SCRATCH: usize = 342;

impl Figures {
    /// The default sheet of document 001.
    pub fn standard() -> Self {
        const UNIT: i64 = 65_536;
        let mut f = Figures {
            cgai: 1 << 28,
            cmin: -150 * UNIT,
            cmax: 150 * UNIT,
            ctn: 2,
            cln: 2,
            sgai: 1 << 28,
            smin: -150 * UNIT,
            smax: 150 * UNIT,
            ..Figures::default()
        };
        f.temperature[1].ct = 25 * UNIT;
        f.linearity[1].clx = 100 * UNIT;
        f
    }
}

/// How far a sheet has been read.
struct Cursor<'a> {
    sheet: &'a [u8],
    at: usize,
}

impl Cursor<'_> {
    fn count(&mut self, least: u8, most: u8) -> Result<u8> {
        let count = *self.sheet.get(self.at).ok_or(Refusal::ShortSheet)?;
        self.at += 1;
        if count < least || count > most {
            return Err(Refusal::WrongCount);
        }
        Ok(count)
    }

    fn within(&mut self, least: i64, most: i64) -> Result<i64> {
        let bytes = self.sheet.get(self.at..self.at + 8).ok_or(Refusal::ShortSheet)?;
        self.at += 8;
        let figure = i64::from_le_bytes(bytes.try_into().expect("eight bytes"));
        if figure < least || figure > most {
            return Err(Refusal::Figure);
        }
        Ok(figure)
    }

    fn figure(&mut self, most: i64) -> Result<i64> {
        self.within(-most, most)
    }
}

/// Refuse unless the condition holds.
fn hold(condition: bool, refusal: Refusal) -> Result<()> {
    condition.then_some(()).ok_or(refusal)
}

/// Read a sheet of either form, judging it from left to right.
pub fn read(sheet: &[u8]) -> Result<Contents> {
    let mut s = Cursor { sheet, at: 0 };
    let mut identity = Identity::default();
    let form = s.count(0, u8::MAX)?;
    match form {
        OLD => {}
        NEW => {
            identity.serial = s.within(0, most::SERIAL)?;
            identity.day = s.within(0, most::DAY)?;
            s.count(OLD, OLD)?;
        }
        _ => return Err(Refusal::WrongCount),
    }
    let figures = figures(&mut s)?;
    Ok(Contents { form, identity, figures })
}

/// What stands behind the count 4 of the cell's section, up to the sheet's end.
fn figures(s: &mut Cursor) -> Result<Figures> {
    let mut f = Figures { cofs: s.figure(most::COFS)?, ..Figures::default() };
    f.cgai = s.figure(most::CGAI)?;
    f.cmin = s.figure(most::CELL)?;
    f.cmax = s.figure(most::CELL)?;
    hold(f.cmin < f.cmax, Refusal::Crossed)?;

    f.ctn = s.count(2, 5)?;
    for i in 0..usize::from(f.ctn) {
        let ct = s.figure(most::CT)?;
        hold(i == 0 || f.temperature[i - 1].ct < ct, Refusal::Order)?;
        let cto = s.figure(most::CTO)?;
        let ctg = s.figure(most::CTG)?;
        f.temperature[i] = TemperaturePoint { ct, cto, ctg };
    }

    f.cln = s.count(2, 7)?;
    for i in 0..usize::from(f.cln) {
        let clx = s.figure(most::CELL)?;
        hold(i == 0 || f.linearity[i - 1].clx < clx, Refusal::Order)?;
        let clk = s.figure(most::CLK)?;
        if i > 0 {
            let before = f.linearity[i - 1];
            hold(4 * (clk - before.clk).abs() <= clx - before.clx, Refusal::TooSteep)?;
        }
        f.linearity[i] = LinearityPoint { clx, clk };
    }

    s.count(5, 5)?;
    f.sofs = s.figure(most::SYSTEM)?;
    f.sgai = s.figure(most::SGAI)?;
    f.smin = s.figure(most::SYSTEM)?;
    f.smax = s.figure(most::SYSTEM)?;
    hold(f.smin < f.smax, Refusal::Crossed)?;
    f.sz = s.figure(most::SYSTEM)?;

    s.count(2, 2)?;
    f.fflv = s.within(0, most::FFLV)?;
    f.ffst = s.within(0, most::FFST)?;
    hold(s.at == s.sheet.len(), Refusal::Trailing)?;
    Ok(f)
}

/// A sheet under construction.
struct Draft {
    bytes: [u8; LONGEST_OLD],
    length: usize,
}

impl Draft {
    fn sheet(&self) -> &[u8] {
        &self.bytes[..self.length]
    }

    fn count(&mut self, count: u8) {
        self.bytes[self.length] = count;
        self.length += 1;
    }

    fn figures(&mut self, figures: &[i64]) {
        for figure in figures {
            self.bytes[self.length..self.length + 8].copy_from_slice(&figure.to_le_bytes());
            self.length += 8;
        }
    }
}

/// The figures as a sheet, not yet judged; a point past its count is not looked at.
fn draft(f: &Figures) -> Draft {
    let mut d = Draft { bytes: [0; LONGEST_OLD], length: 0 };
    d.count(OLD);
    d.figures(&[f.cofs, f.cgai, f.cmin, f.cmax]);
    d.count(f.ctn);
    for p in f.temperature.iter().take(f.ctn.into()) {
        d.figures(&[p.ct, p.cto, p.ctg]);
    }
    d.count(f.cln);
    for p in f.linearity.iter().take(f.cln.into()) {
        d.figures(&[p.clx, p.clk]);
    }
    d.count(5);
    d.figures(&[f.sofs, f.sgai, f.smin, f.smax, f.sz]);
    d.count(2);
    d.figures(&[f.fflv, f.ffst]);
    d
}

/// Write a sheet and give its length: "The writer keeps to the old sheet". The draft is judged by the reader: it meets a wrong point
/// count before any point behind it, and can only find the draft short behind a wrong count.
pub fn write(f: &Figures, out: &mut [u8]) -> Result<usize> {
    let d = draft(f);
    let sheet = d.sheet();
    read(sheet)?;
    out.get_mut(..sheet.len()).ok_or(Refusal::ShortBuffer)?.copy_from_slice(sheet);
    Ok(sheet.len())
}

/// The figures that a sheet with these figures gives: the same, with 0 in points past a count.
pub fn read_back(f: &Figures) -> Result<Figures> {
    read(draft(f).sheet()).map(|contents| contents.figures)
}

/// Judge a sheet that has to be of this form: "a sheet of the other form being 2 at its first count".
fn read_form(form: u8, sheet: &[u8]) -> Result<Contents> {
    hold(sheet.first().is_none_or(|&count| count == form), Refusal::WrongCount)?;
    read(sheet)
}

/// The end of a move: the bytes at the front of both buffers, or 19.
fn hand_over(bytes: &[u8], out: &mut [u8], scratch: &mut [u8]) -> Result<usize> {
    hold(out.len() >= bytes.len() && scratch.len() >= SCRATCH, Refusal::Buffers)?;
    for buffer in [out, scratch] {
        buffer[..bytes.len()].copy_from_slice(bytes);
    }
    Ok(bytes.len())
}

/// Move an old sheet to the new form with this identity, and give the length written.
pub fn to_new(sheet: &[u8], identity: Identity, out: &mut [u8], scratch: &mut [u8]) -> Result<usize> {
    read_form(OLD, sheet)?;
    hold(identity.in_range(), Refusal::Figure)?;
    let mut bytes = [0; LONGEST_NEW];
    let bytes = &mut bytes[..IN_FRONT + sheet.len()];
    bytes[0] = NEW;
    bytes[1..9].copy_from_slice(&identity.serial.to_le_bytes());
    bytes[9..17].copy_from_slice(&identity.day.to_le_bytes());
    bytes[IN_FRONT..].copy_from_slice(sheet);
    hand_over(bytes, out, scratch)
}

/// Move a new sheet back to the old form, and give the length written and the identity beside the bytes.
pub fn to_old(sheet: &[u8], out: &mut [u8], scratch: &mut [u8]) -> Result<(usize, Identity)> {
    let Contents { identity, .. } = read_form(NEW, sheet)?;
    let length = hand_over(&sheet[IN_FRONT..], out, scratch)?;
    Ok((length, identity))
}
