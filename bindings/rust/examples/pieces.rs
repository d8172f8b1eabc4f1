//! Answers a listing that comes in pieces, as a radio delivers it.
//!
//! `pieces [SIZE]` reads standard input, at most SIZE bytes at a time (1 to 4096, by default 16), hands on what has come, and at
//! the end of the input writes the answered listing to standard output. A listing that is refused gets FF FF and the refusal's
//! number as two bytes, low first, and its number and after how many bytes it came are told on standard error; what would come
//! after that is not waited for. bindings/c/pieces.c does the same.
use std::io::{self, ErrorKind, Read, Write};

use balehasp::{Pieces, Refusal, LONGEST_ANSWERED};

const WORDS: &str = "the words: one at most, a number from 1 to 4096";

fn size() -> Result<usize, &'static str> {
    let mut words = std::env::args().skip(1);
    let size = match words.next() {
        None => 16,
        Some(word) if word.starts_with(|c: char| c.is_ascii_digit()) => word.parse().map_err(|_| WORDS)?,
        Some(_) => return Err(WORDS),
    };
    if words.next().is_some() || !(1..=4096).contains(&size) {
        return Err(WORDS);
    }
    Ok(size)
}

/// Hands on what comes until the input ends or a refusal has come, and answers how many bytes were written.
fn answer(size: usize, output: &mut [u8], came: &mut usize) -> Result<Result<usize, Refusal>, &'static str> {
    let mut pieces = Pieces::new();
    let mut piece = [0; 4096];
    let mut input = io::stdin().lock();
    loop {
        match input.read(&mut piece[..size]) {
            Ok(0) => return Ok(pieces.end(output)),
            Ok(n) => {
                *came += n;
                if let Err(refusal) = pieces.piece(&piece[..n]) {
                    return Ok(Err(refusal));
                }
            }
            Err(error) if error.kind() == ErrorKind::Interrupted => {}
            Err(_) => return Err("reading the listing"),
        }
    }
}

fn reply(bytes: &[u8]) -> Result<(), &'static str> {
    let mut out = io::stdout().lock();
    out.write_all(bytes).and_then(|()| out.flush()).map_err(|_| "writing the reply")
}

fn run() -> Result<(), &'static str> {
    let mut output = vec![0; LONGEST_ANSWERED];
    let mut came = 0;
    match answer(size()?, &mut output, &mut came)? {
        Ok(written) => reply(&output[..written]),
        Err(refusal) => {
            let [low, high] = refusal.number().to_le_bytes();
            eprintln!("refused: {} after {came} bytes", refusal.number());
            reply(&[0xFF, 0xFF, low, high])
        }
    }
}

fn main() {
    if let Err(what) = run() {
        eprintln!("failed: {what}");
        std::process::exit(1);
    }
}
