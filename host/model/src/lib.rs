//! The load cell converter of paper 01, with Changes 1, 2, 4, 5, 6, 7 and 8 of paper 02, in plain Rust, written
//! from the papers alone.
//!
//! Whole numbers are steps (1/65,536 of a unit) and gains (1/2^28) in `i64`; the widest product,
//! (CELL - SOFS) x SGAI, is at most 4,259,840,000 x 2^31, which fits. Nothing here uses the heap.

pub mod bench;
mod bus;
mod device;
pub mod panel;
mod platform;
pub mod probe;
pub mod sheet;
pub mod value;

pub use bus::crc16;
pub use device::{fit, Device, Reading, REBOOT};
pub use platform::{weigh, Sample, Weights};
pub use sheet::{Contents, Figures, Identity};

/// Why a call was turned down, by the papers' numbers.
#[derive(Clone, Copy, Debug, PartialEq, Eq)]
#[repr(u8)]
pub enum Refusal {
    ShortSheet = 1,
    WrongCount = 2,
    Figure = 3,
    Order = 4,
    TooSteep = 5,
    Crossed = 6,
    Trailing = 7,
    Station = 8,
    BadReading = 9,
    NoReading = 10,
    NoSnapshot = 11,
    ShortBuffer = 12,
    NotForUs = 13,
    Function = 14,
    Address = 15,
    Value = 16,
    UnfitCopy = 17,
    CornerRefused = 18,
    Buffers = 19,
    Probe = 20,
}

pub type Result<T> = core::result::Result<T, Refusal>;

/// 0 for an accepted call, else the number of the refusal.
pub fn number<T>(result: &Result<T>) -> u8 {
    match result {
        Ok(_) => 0,
        Err(refusal) => *refusal as u8,
    }
}

/// What a board offers. The implementor is the device record; its default is the record of zeros.
pub trait Converter: Clone + PartialEq + Default {
    /// A making into this record; a refused one leaves zeros.
    fn make(&mut self, sheet: &[u8], station: u8) -> u8;
    fn reading(&mut self, elec: i64, temp: i64, integrity: u8) -> u8;
    /// A reading with a probe's resistance, in 0.0001 ohm, in place of TEMP.
    fn probe(&mut self, elec: i64, resistance: i64, integrity: u8) -> u8;
    /// The number and the bits of SYS, PEAK, TROF and CELL.
    fn report(&mut self) -> (u8, [u32; 4]);
    /// The number and the length replied.
    fn frame(&mut self, frame: &[u8], reply: &mut [u8]) -> (u8, usize);
    /// The number and the weights of a reading at each corner, 1 to 4. No record can be lent twice, so they are four.
    fn weigh(corners: [&mut Self; 4], samples: [Sample; 4]) -> (u8, Weights);
    /// The record in the model's form; what the paper leaves free is left out.
    fn state(&self) -> Device;
}

/// What a laboratory is offered: calls on sheets, for which no device is needed.
pub trait Laboratory {
    fn judge_sheet(sheet: &[u8]) -> u8;
    /// The number, and what the sheet holds; zeros beside a refusal.
    fn read_sheet(sheet: &[u8]) -> (u8, Contents);
    /// The number and the length written.
    fn write_sheet(figures: &Figures, out: &mut [u8]) -> (u8, usize);
    /// The number and the length written.
    fn move_to_new(sheet: &[u8], identity: Identity, out: &mut [u8], scratch: &mut [u8]) -> (u8, usize);
    /// The number, the length written and the identity.
    fn move_to_old(sheet: &[u8], out: &mut [u8], scratch: &mut [u8]) -> (u8, usize, Identity);
}

impl Converter for Device {
    fn make(&mut self, sheet: &[u8], station: u8) -> u8 {
        let made = Device::new(sheet, station);
        let number = number(&made);
        *self = made.unwrap_or_default();
        number
    }

    fn reading(&mut self, elec: i64, temp: i64, integrity: u8) -> u8 {
        number(&self.take(elec, temp, integrity))
    }

    fn probe(&mut self, elec: i64, resistance: i64, integrity: u8) -> u8 {
        number(&self.take_probe(elec, resistance, integrity))
    }

    fn report(&mut self) -> (u8, [u32; 4]) {
        let report = Device::report(self);
        (number(&report), report.unwrap_or_default().map(f32::to_bits))
    }

    fn frame(&mut self, frame: &[u8], reply: &mut [u8]) -> (u8, usize) {
        self.answer(frame, reply)
    }

    fn weigh(corners: [&mut Device; 4], samples: [Sample; 4]) -> (u8, Weights) {
        let weighed = weigh(corners, samples);
        (number(&weighed), weighed.unwrap_or_default())
    }

    fn state(&self) -> Device {
        *self
    }
}

impl Laboratory for Device {
    fn judge_sheet(sheet: &[u8]) -> u8 {
        number(&sheet::read(sheet))
    }

    fn read_sheet(sheet: &[u8]) -> (u8, Contents) {
        let read = sheet::read(sheet);
        (number(&read), read.unwrap_or_default())
    }

    fn write_sheet(figures: &Figures, out: &mut [u8]) -> (u8, usize) {
        let written = sheet::write(figures, out);
        (number(&written), written.unwrap_or_default())
    }

    fn move_to_new(sheet: &[u8], identity: Identity, out: &mut [u8], scratch: &mut [u8]) -> (u8, usize) {
        let moved = sheet::to_new(sheet, identity, out, scratch);
        (number(&moved), moved.unwrap_or_default())
    }

    fn move_to_old(sheet: &[u8], out: &mut [u8], scratch: &mut [u8]) -> (u8, usize, Identity) {
        let moved = sheet::to_old(sheet, out, scratch);
        let (length, identity) = moved.unwrap_or_default();
        (number(&moved), length, identity)
    }
}

#[cfg(test)]
mod tests;
