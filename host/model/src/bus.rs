//! The bus: Modbus RTU frames and their replies.

use crate::device::REBOOT;
use crate::panel::Figure;
use crate::value::{self, float, scaled};
use crate::{number, sheet, Device, Figures, Refusal, Result};

const READ: u8 = 3;
const WRITE: u8 = 16;
const BROADCAST: u8 = 0;

#[derive(Clone, Copy)]
enum Register {
    Stat,
    Sys,
    Temp,
    Sraw,
    Cell,
    Flag,
    Craw,
    Elec,
    Sz,
    Sysn,
    Peak,
    Trof,
    /// A figure of the waiting copy.
    Figure(Figure),
    /// Our own register 99: a write puts the copy in force.
    Apply,
    Rst,
    Snap,
    PeakReset,
}

impl Register {
    /// By wire address, twice the register number.
    #[inline(always)] // joined with what is done at the register
    fn at(address: u16) -> Result<Register> {
        if address & 1 == 1 {
            return Err(Refusal::Address);
        }
        Ok(match address / 2 {
            6 => Register::Stat,
            9 | 10 => Register::Sys,
            11 => Register::Temp,
            12 => Register::Sraw,
            13 => Register::Cell,
            14 => Register::Flag,
            15 => Register::Craw,
            16 => Register::Elec,
            22 => Register::Sz,
            23 => Register::Sysn,
            24 => Register::Peak,
            25 => Register::Trof,
            99 => Register::Apply,
            100 => Register::Rst,
            103 => Register::Snap,
            104 => Register::PeakReset,
            figure => Register::Figure(Figure::at(figure).ok_or(Refusal::Address)?),
        })
    }
}

impl Device {
    /// Obey a frame; gives the number and the length of the reply, 0 for none.
    pub fn answer(&mut self, frame: &[u8], reply: &mut [u8]) -> (u8, usize) {
        if reply.len() < 9 {
            return (Refusal::ShortBuffer as u8, 0);
        }
        if !self.is_for_us(frame) {
            return (Refusal::NotForUs as u8, 0);
        }
        let answer = self.obey(frame);
        let number = number(&answer);
        if frame[0] == BROADCAST {
            return (number, 0);
        }
        let length = match answer {
            Ok(Some(value)) => {
                let [b3, b2, b1, b0] = value.to_bits().to_be_bytes();
                reply[..7].copy_from_slice(&[self.station, READ, 4, b1, b0, b3, b2]);
                7
            }
            Ok(None) => {
                reply[..6].copy_from_slice(&frame[..6]);
                6
            }
            Err(refusal) => {
                reply[..3].copy_from_slice(&[self.station, frame[1] | 0x80, code(refusal, frame[1])]);
                3
            }
        };
        let checksum = crc16(&reply[..length]);
        reply[length..length + 2].copy_from_slice(&checksum.to_le_bytes());
        (number, length + 2)
    }

    fn is_for_us(&self, frame: &[u8]) -> bool {
        (4..=256).contains(&frame.len())
            && (frame[0] == self.station || frame[0] == BROADCAST && frame[1] != READ)
            && crc16(&frame[..frame.len() - 2]).to_le_bytes() == frame[frame.len() - 2..]
    }

    /// Judge and carry out a frame for us; a read gives its value.
    fn obey(&mut self, frame: &[u8]) -> Result<Option<f32>> {
        let length = match frame[1] {
            READ => 8,
            WRITE => 13,
            _ => return Err(Refusal::Function),
        };
        if frame.len() != length || frame[4..6] != [0, 2] || (frame[1] == WRITE && frame[6] != 4) {
            return Err(Refusal::Value);
        }
        let register = Register::at(u16::from_be_bytes([frame[2], frame[3]]))?;
        if frame[1] == READ {
            return self.value(register).map(Some);
        }
        let bits = u32::from_be_bytes([frame[9], frame[10], frame[7], frame[8]]);
        self.write(register, f32::from_bits(bits)).map(|()| None)
    }

    fn value(&self, register: Register) -> Result<f32> {
        Ok(match register {
            Register::Stat => self.reading()?.stat.into(),
            Register::Sys => float(self.reading()?.sys),
            Register::Temp => float(self.reading()?.temp),
            Register::Sraw => float(self.reading()?.sraw),
            Register::Cell => float(self.reading()?.cell),
            Register::Flag => self.flag.into(),
            Register::Craw => float(self.reading()?.craw),
            Register::Elec => float(self.reading()?.elec),
            Register::Sz => float(self.figures.sz),
            Register::Sysn => float(self.snapshot.ok_or(Refusal::NoSnapshot)?),
            Register::Peak => float(self.reading()?.peak),
            Register::Trof => float(self.reading()?.trof),
            Register::Figure(figure) => scaled(figure.read(&self.copy), figure.range().scale),
            Register::Apply | Register::Rst | Register::Snap | Register::PeakReset => 0.0,
        })
    }

    fn write(&mut self, register: Register, value: f32) -> Result<()> {
        match register {
            Register::Sz => self.figures.sz = value::SZ.count(value)?,
            Register::Flag => self.flag &= value::FLAG.count(value)? as u16,
            Register::Figure(figure) => figure.write(&mut self.copy, figure.range().count(value)?),
            Register::Apply => self.figures = self.offered()?,
            Register::Rst => {
                self.copy = self.figures;
                self.last = None;
                self.snapshot = None;
                // Change 7: "RST shall now add REBOOT to FLAG and clear nothing".
                self.flag |= REBOOT;
            }
            Register::Snap => self.snapshot = Some(self.reading()?.sys),
            Register::PeakReset => {
                let last = self.last.as_mut().ok_or(Refusal::NoReading)?;
                last.peak = last.sys;
                last.trof = last.sys;
            }
            _ => return Err(Refusal::Value),
        }
        Ok(())
    }

    /// The copy as figures that come into force, "if a sheet with these figures would be accepted"; SZ stays as it is.
    fn offered(&self) -> Result<Figures> {
        let figures = Figures { sz: self.figures.sz, ..self.copy };
        sheet::read_back(&figures).map_err(|_| Refusal::UnfitCopy)
    }
}

/// The exception code of a refusal.
fn code(refusal: Refusal, function: u8) -> u8 {
    match refusal {
        Refusal::Function => 1,
        Refusal::Address | Refusal::NoSnapshot => 2,
        Refusal::NoReading if function == READ => 2,
        _ => 3,
    }
}

const CRC_TABLE: [u16; 256] = {
    let mut table = [0; 256];
    let mut i = 0;
    while i < 256 {
        let mut crc = i as u16;
        let mut bit = 0;
        while bit < 8 {
            crc = if crc & 1 == 1 { crc >> 1 ^ 0xa001 } else { crc >> 1 };
            bit += 1;
        }
        table[i] = crc;
        i += 1;
    }
    table
};

/// Modbus CRC-16.
pub fn crc16(bytes: &[u8]) -> u16 {
    bytes.iter().fold(0xffff, |crc, byte| crc >> 8 ^ CRC_TABLE[usize::from(crc as u8 ^ byte)])
}
