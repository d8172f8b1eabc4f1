//! Reads readings, one to a line, and shows after each how accurate the position is, in metres.
//!
//! A reading is the base-2 logarithm of the accuracy as a pattern: four hexadecimal digits and nothing else on the line, which
//! ends with a line feed, with a carriage return and a line feed, or with the input. Whatever else is on a line, if only a
//! blank or nothing at all, makes it a malformed reading. The number of a reading is its line's.
//!
//! After a reading that is malformed or answers NaR the display says since which reading the accuracy is unknown, and shows no
//! number until the next good one. bindings/c/accuracy.c prints the same.
use std::io::{self, Read, Write};
use std::mem::take;

use balehasp::{exp2, to_f64, Real};

/// What has come of a line so far: its digits, a carriage return that may belong to its end, and whether it can still be a
/// reading. No line is too long for it.
#[derive(Default)]
struct Line {
    begun: bool,
    returned: bool,
    malformed: bool,
    digits: u32,
    pattern: u16,
}

impl Line {
    fn take(&mut self, byte: u8) {
        self.begun = true;
        match char::from(byte).to_digit(16) {
            Some(digit) if !self.returned && self.digits < 4 => {
                self.pattern = self.pattern << 4 | digit as u16;
                self.digits += 1;
            }
            None if !self.returned && byte == b'\r' => self.returned = true,
            _ => self.malformed = true,
        }
    }

    fn pattern(&self) -> Option<u16> {
        (!self.malformed && self.digits == 4).then_some(self.pattern)
    }
}

#[derive(Default)]
struct Display {
    readings: u64,
    good: u64,
    malformed: u64,
    nars: u64,
    unknown_since: Option<u64>,
}

impl Display {
    /// What the display shows after this line.
    fn after(&mut self, line: &Line) -> String {
        self.readings += 1;
        let bad = match line.pattern().map(|pattern| to_f64(exp2(pattern))) {
            Some(Real::Real(metres)) => {
                self.good += 1;
                self.unknown_since = None;
                // nine decimals, so that no accuracy shows as 0: the smallest answer is 2^-28
                return format!("reading {}: accuracy {metres:.9} m", self.readings);
            }
            Some(Real::NaR) => {
                self.nars += 1;
                "NaR"
            }
            None => {
                self.malformed += 1;
                "malformed"
            }
        };
        let since = *self.unknown_since.get_or_insert(self.readings);
        format!("reading {}: {bad}, accuracy unknown since reading {since}", self.readings)
    }
}

/// Prints a line, which is on its way before the next reading is waited for.
fn print(text: &str) -> Result<(), &'static str> {
    let mut out = io::stdout().lock();
    writeln!(out, "{text}").and_then(|()| out.flush()).map_err(|_| "writing the display")
}

fn run() -> Result<(), &'static str> {
    let mut display = Display::default();
    let mut line = Line::default();
    let mut bytes = io::stdin().lock().bytes();
    loop {
        let read = bytes.next();
        match read {
            Some(Ok(byte)) if byte != b'\n' => line.take(byte),
            Some(Ok(_)) => print(&display.after(&take(&mut line)))?,
            _ => {
                if line.begun {
                    line.malformed |= read.is_some(); // a read that failed: who knows what was to come
                    print(&display.after(&line))?;
                }
                if read.is_some() {
                    return Err("reading the readings");
                }
                break;
            }
        }
    }
    let Display { readings, good, malformed, nars, .. } = display;
    print(&format!("{readings} readings: {good} good, {malformed} malformed, {nars} NaR"))
}

fn main() {
    if let Err(what) = run() {
        eprintln!("failed: {what}");
        std::process::exit(1);
    }
}
