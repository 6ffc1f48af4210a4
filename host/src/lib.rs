//! Host tools: replay, comparison, measurement and simulation of converters behind `model::Converter`.

#![deny(unsafe_code)]

#[cfg(feature = "archive")]
#[allow(unsafe_code)] // the library's C interface
pub mod archive;
pub mod calendar;
pub mod generate;
pub mod line;
pub mod load;
pub mod mirror;
#[cfg(feature = "archive")]
#[allow(unsafe_code)] // calls of the C library
pub mod pty;
pub mod readings;
pub mod refusals;
pub mod served;
#[cfg(feature = "archive")]
pub mod simulator;
pub mod tool;

pub use model::{Converter, Laboratory};

use model::panel::ROWS;

/// The implementation set beside the model: the archive, or without it the model itself.
#[cfg(feature = "archive")]
pub use archive::Device as Other;
#[cfg(not(feature = "archive"))]
pub use model::Device as Other;

pub const WITH_ARCHIVE: bool = cfg!(feature = "archive");

/// What a lent buffer holds before a call.
pub const FILL: u8 = 0xa5;

/// What a lent scratch buffer holds before a call.
pub const FILL_SCRATCH: u8 = 0x5c;

/// The register numbers of paper 01.
pub const REGISTERS: [u16; 16] = [6, 9, 10, 11, 12, 13, 14, 15, 16, 22, 23, 24, 25, 100, 103, 104];

pub const FLAG: u16 = 14;

pub const RST: u16 = 100;

/// Our own register of Change 1, a write to which puts the waiting copy in force.
pub const APPLY: u16 = 99;

/// The registers of Change 1: those of the figures, and our own.
pub fn panel_registers() -> impl Iterator<Item = u16> {
    ROWS.iter().flat_map(|row| row.first..=row.last).chain([APPLY])
}

/// Append the checksum, low byte first.
pub fn sealed(mut frame: Vec<u8>) -> Vec<u8> {
    let checksum = model::crc16(&frame);
    frame.extend(checksum.to_le_bytes());
    frame
}

/// A good read of a wire address.
pub fn read_frame(station: u8, address: u16) -> Vec<u8> {
    let [high, low] = address.to_be_bytes();
    sealed(vec![station, 3, high, low, 0, 2])
}

/// A good write of a float's bits.
pub fn write_frame(station: u8, address: u16, bits: u32) -> Vec<u8> {
    let [high, low] = address.to_be_bytes();
    let [b3, b2, b1, b0] = bits.to_be_bytes();
    sealed(vec![station, 16, high, low, 0, 2, 4, b1, b0, b3, b2])
}
