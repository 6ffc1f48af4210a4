//! Frames on a serial line: a frame ends with a silence of 3.5 characters (t3.5).

use std::time::{Duration, Instant};

/// Over the 256 bytes of the longest frame: a longer one reaches the device as one, which turns it down.
pub const ROOM: usize = 1_024;

/// The frame under way. What comes past the room is dropped, so a line that is never silent costs no memory.
pub struct Line {
    silence: Duration,
    bytes: [u8; ROOM],
    length: usize,
    last: Option<Instant>,
}

impl Line {
    pub fn new(baud: u32) -> Line {
        Line { silence: silence(baud), bytes: [0; ROOM], length: 0, last: None }
    }

    /// Bytes that came now.
    pub fn receive(&mut self, bytes: &[u8], now: Instant) {
        let taken = bytes.len().min(ROOM - self.length);
        self.bytes[self.length..self.length + taken].copy_from_slice(&bytes[..taken]);
        self.length += taken;
        self.last = Some(now);
    }

    /// When the frame under way ends, if nothing more comes.
    pub fn ends(&self) -> Option<Instant> {
        self.last.map(|last| last + self.silence)
    }

    /// The frame, once the line has been silent long enough behind it.
    pub fn take(&mut self, now: Instant) -> Option<&[u8]> {
        if self.ends().is_none_or(|end| now < end) {
            return None;
        }
        self.last = None;
        let length = std::mem::take(&mut self.length);
        Some(&self.bytes[..length])
    }
}

/// t3.5: characters of 11 bits; above 19,200 baud a fixed 1.75 ms, as the Modbus standard recommends.
pub fn silence(baud: u32) -> Duration {
    if baud > 19_200 {
        Duration::from_micros(1_750)
    } else {
        Duration::from_secs_f64(3.5 * 11.0 / f64::from(baud))
    }
}

#[cfg(test)]
mod tests {
    use super::*;

    #[test]
    fn silences() {
        assert_eq!(silence(9_600).as_micros(), 4_010);
        assert_eq!(silence(19_200).as_micros(), 2_005);
        assert_eq!(silence(19_201).as_micros(), 1_750);
        assert_eq!(silence(115_200).as_micros(), 1_750);
    }

    #[test]
    fn a_shorter_gap_joins_and_a_silence_ends() {
        let start = Instant::now();
        let at = |ms| start + Duration::from_millis(ms);
        let mut line = Line::new(9_600);
        assert_eq!((line.ends(), line.take(at(0))), (None, None));
        line.receive(&[1, 2], at(0));
        assert_eq!(line.take(at(3)), None);
        line.receive(&[3], at(3));
        assert_eq!(line.take(at(6)), None);
        assert_eq!(line.take(at(8)), Some(&[1, 2, 3][..]));
        assert_eq!((line.ends(), line.take(at(20))), (None, None));
        line.receive(&[4], at(21));
        assert_eq!(line.take(at(30)), Some(&[4][..]));
    }

    #[test]
    fn a_long_frame_is_cut_at_the_room() {
        let now = Instant::now();
        let mut line = Line::new(9_600);
        for _ in 0..1_000 {
            line.receive(&[7; 100], now);
        }
        assert_eq!(line.take(now + Duration::from_secs(1)).map(<[u8]>::len), Some(ROOM));
    }
}
