//! Values on the bus: floats received as counts within a range, and counts sent as floats.

use crate::sheet::most;
use crate::{Refusal, Result};

/// What a register takes and shows: counts of 1/2^scale, from least to most.
#[derive(Clone, Copy, Debug, PartialEq, Eq)]
pub struct Range {
    pub scale: u32,
    pub least: i64,
    pub most: i64,
}

/// Scales: whole numbers alone; 65,536 steps to a unit; 2^28 parts to a gain of 1.
pub const WHOLE: u32 = 0;
pub const STEPS: u32 = 16;
pub const PARTS: u32 = 28;

pub const SZ: Range = magnitude(STEPS, most::SYSTEM);
pub const FLAG: Range = Range { scale: WHOLE, least: 0, most: 65_535 };

pub const fn magnitude(scale: u32, most: i64) -> Range {
    Range { scale, least: -most, most }
}

impl Range {
    /// A float in counts, halves away from zero. "Not finite, or before rounding beyond its range", or with a scale of whole
    /// numbers not whole, is refused; all in whole numbers, so that a subnormal is never taken as 0.
    #[inline(always)] // much of it is constant where the range is
    pub fn count(&self, value: f32) -> Result<i64> {
        let bits = value.to_bits();
        let exponent = (bits >> 23 & 0xff) as i32;
        let fraction = i64::from(bits & 0x7f_ffff);
        let magnitude = if exponent == 0 { fraction } else { fraction | 0x80_0000 };
        let signed = if value.is_sign_negative() { -magnitude } else { magnitude };
        // The value is signed x 2^(max(exponent, 1) - 150). From 2^38 times signed on it is beyond every range, as are
        // NaN and the infinities, whose exponent is 255; at 2^-26 times it is less than half a count, and not 0 if
        // signed is not: further out nothing else would be told.
        match (exponent.max(1) - 150 + self.scale as i32).clamp(-26, 38) {
            up @ 0.. => self.within(signed << up, 0),
            down => self.within(signed, -down),
        }
    }

    /// The whole number next to signed / 2^places, if that is fit.
    fn within(&self, signed: i64, places: i32) -> Result<i64> {
        let fits = self.least << places <= signed && signed <= self.most << places;
        let magnitude = (signed.abs() + ((1 << places) >> 1)) >> places;
        let rounded = magnitude * signed.signum();
        if fits && (self.scale != WHOLE || rounded << places == signed) {
            Ok(rounded)
        } else {
            Err(Refusal::Value)
        }
    }
}

/// A count of 1/2^scale as a float: the conversion rounds once, to even; the division is exact.
pub fn scaled(count: i64, scale: u32) -> f32 {
    count as f32 / (1_u32 << scale) as f32
}

/// Steps as a float.
pub fn float(steps: i64) -> f32 {
    scaled(steps, STEPS)
}
