//! The unchanged Rust behind words: rows to its rows and back, its warnings as the numbers of docs/RULES.md,
//! and a `Flattener` made again from a saved state.

use crate::flatten::Flattener;
use crate::output::{intern_column, Row, FLATTENED_COLUMN};
use crate::state::taken_warnings;
use crate::types::Value;
use crate::words::*;
use std::sync::OnceLock;

const CELL_NAMES: [&str; CELLS] = [
    "X", "Y", "Z", "A", "B", "C", "U", "V", "W", "E", "A2", "B2", "C2", "U2", "V2", "W2", "N", "F", "S", "D", "T", "I",
    "J", "K", "CR", "TURN", "PW", "SD", "PL",
];
const MOTION_WORDS: [&str; LAST_MOTION as usize + 1] = [
    "", "G0", "G1", "G2", "G3", "ASPLINE", "BSPLINE", "CSPLINE", "CIP", "CT", "POLY", "G33", "G34", "G35", "INVCW",
    "INVCCW", "SPARE16", "SPARE17", "SPARE18", "SPARE19", "SPARE20", "SPARE21", "SPARE22", "SPARE23", "SPARE24",
    "SPARE25", "SPARE26", "SPARE27", "SPARE28", "SPARE29", "SPARE30", "SPARE31",
];
const MOTION_CELL: &str = "gg01_motion";
const PLANE_CELL: &str = "gg06_plane_select";
const CARRY_CELL: &str = "carry";
/// A cell of a rebuilt block: the SD that the block had before the rebuild gave it the state's degree.
const SD_BEFORE: &str = "sd before";
/// A curve word that no row has: it sets "another word" and leaves the words of rows unwarned.
const NO_WORD: &str = "OTHER";

struct Names {
    cells: [&'static str; CELLS],
    motion: &'static str,
    plane: &'static str,
    carry: &'static str,
    sd_before: &'static str,
}

fn names() -> &'static Names {
    static NAMES: OnceLock<Names> = OnceLock::new();
    NAMES.get_or_init(|| Names {
        cells: CELL_NAMES.map(intern_column),
        motion: intern_column(MOTION_CELL),
        plane: intern_column(PLANE_CELL),
        carry: intern_column(CARRY_CELL),
        sd_before: intern_column(SD_BEFORE),
    })
}

pub fn rust_row(words: &[u64]) -> Row {
    let names = names();
    let mut row = Row { line_no: words[LINE] as usize, ..Row::default() };
    if words[MOTION] != 0 {
        row.cells.insert(names.motion, Value::Str(MOTION_WORDS[words[MOTION] as usize].to_string()));
    }
    if words[PLANE] != 0 {
        row.cells.insert(names.plane, Value::Str(format!("G{}", words[PLANE])));
    }
    if words[CARRY] != 0 {
        row.cells.insert(names.carry, Value::Str(words[CARRY].to_string()));
    }
    for k in 0..CELLS {
        if let Some(x) = number(words, k) {
            row.cells.insert(names.cells[k], Value::Float(x));
        }
    }
    row
}

fn put(words: &mut RowWords, k: usize, x: f64) {
    words[PRESENT] |= 1 << k;
    words[CELL + k] = x.to_bits();
}

pub fn row_words(row: &Row) -> RowWords {
    let mut words = [0; ROW_WORDS];
    words[LINE] = row.line_no as u64;
    let mut sd_before = None;
    for (&key, value) in row.cells.iter() {
        match value {
            Value::Float(_) if key == FLATTENED_COLUMN => words[MARK] = 1,
            Value::Float(x) if key == SD_BEFORE => sd_before = Some(*x),
            Value::Float(x) => {
                let k = CELL_NAMES.iter().position(|&name| name == key).expect("a number cell");
                put(&mut words, k, *x);
            }
            Value::Str(text) if key == MOTION_CELL => {
                words[MOTION] = MOTION_WORDS.iter().position(|word| word == text).expect("a motion word") as u64
            }
            Value::Str(text) if key == PLANE_CELL => words[PLANE] = text[1..].parse().expect("a plane"),
            Value::Str(text) if key == CARRY_CELL => words[CARRY] = text.parse().expect("a carry"),
            _ => unreachable!("cell {key}"),
        }
    }
    if let Some(sd) = sd_before {
        restore_sd(&mut words, sd);
    }
    words
}

/// NaN stands for "had none".
fn restore_sd(words: &mut RowWords, sd: f64) {
    words[PRESENT] &= !(1 << SD);
    words[CELL + SD] = 0;
    if !sd.is_nan() {
        put(words, SD, sd);
    }
}

/// What a call said: warning, wanted count, held axes.
#[derive(Default, Debug)]
pub struct Said {
    pub warning: u64,
    pub wanted: u64,
    pub held: u64,
}

pub fn said() -> Said {
    let mut said = Said::default();
    for text in taken_warnings() {
        let (_, body) = text.split_once("]: ").expect("a warning");
        if let Some(rest) = body.strip_prefix("start position of axis ") {
            let name = rest.split(' ').next().unwrap();
            said.held |= 1 << CELL_NAMES.iter().position(|&n| n == name).expect("an axis");
            continue;
        }
        assert_eq!(said.warning, 0, "two warnings: {text}");
        said.warning = warning_number(body);
        if said.warning == 6 {
            said.wanted = body.split(' ').nth(2).unwrap().parse().expect("a count");
        }
    }
    said
}

fn warning_number(body: &str) -> u64 {
    const TEXTS: [&str; 7] = [
        "arc start position is unknown",
        "CR arc with coincident start and end point",
        "CR radius is smaller than half the chord",
        "arc block without I/J/K centre offsets or CR radius",
        "arc with zero radius",
        "arc needs ",
        " interpolation is not flattened",
    ];
    1 + TEXTS.iter().position(|text| body.contains(text)).expect("a warning of section 2") as u64
}

pub fn fresh(tolerance: u64, axes: &[u64]) -> Flattener {
    let list: Vec<String> = axes.iter().map(|&c| CELL_NAMES[c as usize].to_string()).collect();
    Flattener::new(f64::from_bits(tolerance), &list).expect("judged before")
}

pub fn seed(flattener: &mut Flattener, k: usize, bits: u64) {
    flattener.seed_position(CELL_NAMES[k], f64::from_bits(bits));
}

fn push_cell(flattener: &mut Flattener, cell: &'static str, text: &str) {
    let mut row = Row::default();
    row.cells.insert(cell, Value::Str(text.to_string()));
    flattener.push(row, &mut Vec::new());
}

fn set_motion(flattener: &mut Flattener, motion: u64) {
    let word = if motion >= FIRST_OTHER { NO_WORD } else { MOTION_WORDS[motion as usize] };
    push_cell(flattener, names().motion, word);
    flattener.finish(&mut Vec::new());
}

/// The point whose mask is word `at`, as positions.
fn seed_point(flattener: &mut Flattener, state: &[u64], at: usize) {
    for k in (0..AXES).filter(|&k| has(state[at], k)) {
        seed(flattener, k, state[at + 1 + k]);
    }
}

/// A `Flattener` that answers as one in the saved state does, up to its next emission: with blocks held its
/// positions and plane are those of the blocks, and they are set again, from the words, after the emission.
pub fn rebuilt(lent: &Lent) -> Flattener {
    let state = lent.state();
    let mut flattener = fresh(state[0], &state[W_AXES..W_AXES + state[W_COUNT] as usize]);
    for motion in (FIRST_OTHER as usize..=LAST_MOTION as usize).filter(|&m| has(state[W_WARNED], m)) {
        push_cell(&mut flattener, names().motion, MOTION_WORDS[motion]);
    }
    push_cell(&mut flattener, names().plane, &format!("G{}", state[W_PLANE]));
    set_motion(&mut flattener, state[W_MOTION]);
    if lent.held() == 0 {
        seed_point(&mut flattener, state, W_KNOWN);
    } else {
        seed_point(&mut flattener, state, W_START);
        push_held(&mut flattener, lent);
    }
    taken_warnings();
    flattener
}

/// The last block takes the state's degree as its SD, so that a changed degree holds; a block with a point
/// drops the cell when it is emitted, one without gets back what it had.
fn push_held(flattener: &mut Flattener, lent: &Lent) {
    let last = lent.held() - 1;
    for i in 0..last {
        flattener.push(rust_row(lent.held_row(i)), &mut Vec::new());
    }
    let words = lent.held_row(last);
    let mut row = rust_row(words);
    if !has_point(lent.state(), words) {
        row.cells.insert(names().sd_before, Value::Float(number(words, SD).unwrap_or(f64::NAN)));
    }
    row.cells.insert(names().cells[SD], Value::Float(lent.state[W_DEGREE] as f64));
    flattener.push(row, &mut Vec::new());
}
