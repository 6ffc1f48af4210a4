//! Converters on a pseudo-terminal: one thread that waits for bytes of the bus, for readings and for silences.

use crate::line::Line;
use crate::pty::{wait, Pty};
use crate::readings::{Lines, Profile, RATE};
use crate::served::Served;
use crate::Converter;
use std::convert::Infallible;
use std::fmt::Display;
use std::fs::File;
use std::io::{self, ErrorKind, Read, Write};
use std::os::fd::{AsFd, BorrowedFd};
use std::time::{Duration, Instant};

/// Where readings come from.
pub enum Source {
    Profile { profile: Profile, tick: u64, due: Instant },
    Text { input: Option<File>, lines: Lines },
}

impl Source {
    /// A built-in profile, its first reading at once.
    pub fn profile(profile: Profile) -> Source {
        Source::Profile { profile, tick: 0, due: Instant::now() }
    }

    /// Lines of text, until they end.
    pub fn text(input: File) -> Source {
        Source::Text { input: Some(input), lines: Lines::default() }
    }

    fn due(&self) -> Option<Instant> {
        match self {
            Source::Profile { due, .. } => Some(*due),
            Source::Text { .. } => None,
        }
    }

    fn input(&self) -> Option<BorrowedFd<'_>> {
        match self {
            Source::Profile { .. } => None,
            Source::Text { input, .. } => input.as_ref().map(AsFd::as_fd),
        }
    }
}

pub struct Simulator<C> {
    served: Served<C>,
    pty: Pty,
    line: Line,
    source: Source,
    verbose: bool,
}

impl<C: Converter> Simulator<C> {
    /// What was made, on a terminal of its own.
    pub fn new(served: Served<C>, pty: Pty, line: Line, source: Source, verbose: bool) -> Simulator<C> {
        Simulator { served, pty, line, source, verbose }
    }

    /// Serve for ever; an error is the terminal's.
    pub fn serve(&mut self) -> io::Result<Infallible> {
        loop {
            self.follow_profile(Instant::now());
            let until = [self.line.ends(), self.source.due()].into_iter().flatten().min();
            let time = until.map(|t| t.saturating_duration_since(Instant::now()));
            let (bus, visits) = (self.pty.master().as_fd(), self.pty.visits().as_fd());
            let [bus, text, visit] = wait([Some(bus), self.source.input(), Some(visits)], time)?;
            if visit {
                self.change_client()?;
            }
            // Readings first: one that was handed in before a frame counts for it.
            if text {
                self.read_text();
            }
            // Then the frame that a silence ended, before bytes that came after the silence.
            self.answer(Instant::now())?;
            if bus {
                self.receive()?;
            }
        }
    }

    /// A client came or went: a reply that the one before did not fetch is not for the next.
    fn change_client(&mut self) -> io::Result<()> {
        let mut events = [0; 4_096];
        match self.pty.visits().read(&mut events) {
            Err(e) if !matches!(e.kind(), ErrorKind::WouldBlock | ErrorKind::Interrupted) => Err(e),
            _ => self.pty.drop_unread(),
        }
    }

    fn follow_profile(&mut self, now: Instant) {
        let Source::Profile { profile, tick, due } = &mut self.source else { return };
        if now >= *due {
            self.served.follow(*profile, *tick, self.verbose).iter().for_each(report);
            (*tick, *due) = (*tick + 1, now + Duration::from_millis(1_000 / RATE));
        }
    }

    fn read_text(&mut self) {
        let Source::Text { input, lines } = &mut self.source else { return };
        let Some(mut file) = input.as_ref() else { return };
        let mut bytes = [0; 4_096];
        let mut complete = |text: &str| self.served.read(text, self.verbose).iter().for_each(report);
        match file.read(&mut bytes) {
            Ok(n @ 1..) => lines.add(&bytes[..n], complete),
            Err(e) if matches!(e.kind(), ErrorKind::WouldBlock | ErrorKind::Interrupted) => {}
            end => {
                lines.end(&mut complete);
                if let Err(e) = end {
                    report(format_args!("readings: {e}"));
                }
                *input = None;
            }
        }
    }

    fn receive(&mut self) -> io::Result<()> {
        let mut bytes = [0; 512];
        match self.pty.master().read(&mut bytes) {
            Ok(n) => self.line.receive(&bytes[..n], Instant::now()),
            Err(e) if matches!(e.kind(), ErrorKind::WouldBlock | ErrorKind::Interrupted) => {}
            Err(e) => return Err(e),
        }
        Ok(())
    }

    fn answer(&mut self, now: Instant) -> io::Result<()> {
        let Some(frame) = self.line.take(now) else { return Ok(()) };
        let mut buffer = [0; 256];
        let (said, length) = self.served.answer(frame, &mut buffer);
        let reply = &buffer[..length];
        if self.verbose {
            report(format_args!("frame {}\n  {said}", hex(frame)));
            report(format_args!("  reply {}", hex(reply)));
        }
        // As on a wire, what nobody takes is lost: the next request finds no earlier reply.
        self.pty.drop_unread()?;
        if length > 0 && !self.pty.master().write(reply).is_ok_and(|n| n == length) {
            report("a reply was lost: the terminal did not take it");
        }
        Ok(())
    }
}

/// A line on standard error; a closed one does not stop the bus.
fn report(line: impl Display) {
    let _ = writeln!(io::stderr(), "{line}");
}

fn hex(bytes: &[u8]) -> String {
    if bytes.is_empty() {
        return "none".into();
    }
    bytes.iter().map(|b| format!("{b:02x}")).collect::<Vec<_>>().join(" ")
}
