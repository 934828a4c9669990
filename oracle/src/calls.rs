//! The lines of docs/INTERFACE.md's `replay`: calls read, calls and rows written.

use crate::words::*;
use std::fmt::Write;

pub enum Call {
    Start(u64, Vec<u64>),
    Seed(u64, u64),
    Push(Vec<u64>),
    Close,
    Room(usize),
    Blocks(usize),
    Length(usize),
    Poke(usize, u64),
    PokeStore(usize, u64),
}

/// 1 to 16 digits, decimal or hex: what is longer is no number of a call.
fn has_digits(text: &str, is_digit: fn(&u8) -> bool) -> bool {
    (1..=16).contains(&text.len()) && text.as_bytes().iter().all(is_digit)
}

fn decimal(text: &str) -> Option<u64> {
    has_digits(text, u8::is_ascii_digit).then(|| text.parse().ok())?
}

fn up_to(most: usize, text: &str) -> Option<usize> {
    decimal(text).map(|n| n as usize).filter(|&n| n <= most)
}

fn hex(text: &str) -> Option<u64> {
    has_digits(text, u8::is_ascii_hexdigit).then(|| u64::from_str_radix(text, 16).ok())?
}

fn axis_list(text: &str) -> Option<Vec<u64>> {
    let codes: Option<Vec<u64>> = if text == "-" { Some(Vec::new()) } else { text.split(',').map(decimal).collect() };
    codes.filter(|codes| codes.len() <= MOST_LENGTH)
}

fn pushed_words(fields: &[&str]) -> Option<Vec<u64>> {
    let [line, motion, plane, carry, present, numbers @ ..] = fields else { return None };
    let mut row = vec![0; ROW_WORDS];
    row[LINE] = decimal(line)?;
    row[MOTION] = decimal(motion)?;
    row[PLANE] = decimal(plane)?;
    row[CARRY] = hex(carry)?;
    let present = hex(present)?;
    row[PRESENT] = present;
    let mut numbers = numbers.iter();
    for k in (0..CELLS).filter(|&k| has(present, k)) {
        row[CELL + k] = hex(numbers.next()?)?;
    }
    numbers.next().is_none().then_some(row)
}

/// The call on a line, or None where it cannot be read.
pub fn read(line: &str) -> Option<Call> {
    let fields: Vec<&str> = line.split(' ').collect();
    match fields[..] {
        ["start", tolerance, axes] => Some(Call::Start(hex(tolerance)?, axis_list(axes)?)),
        ["seed", axis, bits] => Some(Call::Seed(decimal(axis)?, hex(bits)?)),
        ["push", ref rest @ ..] => pushed_words(rest).map(Call::Push),
        ["words", ref rest @ ..] if rest.len() <= MOST_LENGTH => {
            rest.iter().map(|w| hex(w)).collect::<Option<_>>().map(Call::Push)
        }
        ["close"] => Some(Call::Close),
        ["room", n] => up_to(MOST_ROWS, n).map(Call::Room),
        ["blocks", n] => up_to(MOST_HELD, n).map(Call::Blocks),
        ["length", n] => up_to(MOST_LENGTH, n).map(Call::Length),
        ["poke", i, word] => Some(Call::Poke(up_to(MOST_LENGTH - 1, i)?, hex(word)?)),
        ["pokestore", i, word] => Some(Call::PokeStore(up_to(MOST_HELD * ROW_WORDS - 1, i)?, hex(word)?)),
        _ => None,
    }
}

/// Comment lines are no calls.
pub fn is_comment(line: &str) -> bool {
    line.starts_with('#')
}

pub fn write_row(row: &[u64], out: &mut String) {
    let _ = write!(
        out,
        "row {} {} {} {} {:x} {:x}",
        row[LINE], row[MOTION], row[PLANE], row[MARK], row[CARRY], row[PRESENT]
    );
    for k in (0..CELLS).filter(|&k| has(row[PRESENT], k)) {
        let _ = write!(out, " {:016x}", row[CELL + k]);
    }
    out.push('\n');
}
