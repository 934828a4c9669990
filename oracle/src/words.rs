//! What docs/RULES.md adds to the Rust: the saved state and the store as words, the refusals 1 to 6, 8 and 9,
//! and what an accepted call leaves in the words. No curve is computed here.

// ---- The layout: the first numbers are chosen, the rest follow.
/// X Y Z A B C U V W E, then A2 B2 C2 U2 V2 W2.
pub const AXES: usize = 16;
/// N F S D T.
const RIDERS: usize = 5;
pub const MOST_HELD: usize = 256;
pub const MOST_DEGREE: u64 = 256;
/// What `replay` lends at most.
pub const MOST_ROWS: usize = 16384;
pub const MOST_LENGTH: usize = 64;

pub const F: usize = AXES + 1;
/// Codes that an axis list may name.
pub const LIST_CODES: usize = AXES + RIDERS;
pub const LAST_CODE: u64 = LIST_CODES as u64 - 1;
pub const I: usize = LIST_CODES;
pub const CR: usize = I + 3;
pub const TURN: usize = CR + 1;
pub const PW: usize = TURN + 1;
pub const SD: usize = PW + 1;
pub const PL: usize = SD + 1;
pub const CELLS: usize = PL + 1;

pub const LINE: usize = 0;
pub const MOTION: usize = 1;
pub const PLANE: usize = 2;
pub const MARK: usize = 3;
pub const CARRY: usize = 4;
pub const PRESENT: usize = 5;
pub const CELL: usize = 6;
pub const ROW_WORDS: usize = CELL + CELLS;

pub const W_COUNT: usize = 1;
pub const W_AXES: usize = 2;
pub const W_MOTION: usize = W_AXES + LIST_CODES;
pub const W_PLANE: usize = W_MOTION + 1;
pub const W_KNOWN: usize = W_PLANE + 1;
pub const W_WARNED: usize = W_KNOWN + 1 + AXES;
pub const W_START: usize = W_WARNED + 1;
pub const W_DEGREE: usize = W_START + 1 + AXES;
pub const W_HELD: usize = W_DEGREE + 1;
pub const STATE_WORDS: usize = W_HELD + 1;

// ---- Motions.
pub const G1: u64 = 2;
pub const G2: u64 = 3;
pub const G3: u64 = 4;
pub const ASPLINE: u64 = 5;
pub const BSPLINE: u64 = 6;
pub const CSPLINE: u64 = 7;
pub const FIRST_OTHER: u64 = 8;
pub const LAST_MOTION: u64 = 31;

pub type RowWords = [u64; ROW_WORDS];

/// The memory that a host lends, and how much of it.
#[derive(Clone)]
pub struct Lent {
    pub state: [u64; MOST_LENGTH],
    pub store: Vec<u64>,
    pub length: usize,
    pub blocks: usize,
    pub room: usize,
}

impl Lent {
    pub fn new() -> Self {
        Lent {
            state: [0; MOST_LENGTH],
            store: vec![0; MOST_HELD * ROW_WORDS],
            length: STATE_WORDS,
            blocks: MOST_HELD,
            room: MOST_ROWS,
        }
    }

    pub fn state(&self) -> &[u64] {
        &self.state[..self.length]
    }

    pub fn held(&self) -> usize {
        self.state[W_HELD] as usize
    }

    pub fn held_row(&self, i: usize) -> &[u64] {
        &self.store[i * ROW_WORDS..(i + 1) * ROW_WORDS]
    }
}

pub fn has(mask: u64, k: usize) -> bool {
    mask >> k & 1 == 1
}

pub fn is_spline(motion: u64) -> bool {
    (ASPLINE..=CSPLINE).contains(&motion)
}

/// The axes of the started list, in its order: rule 1.13.
pub fn geometric(state: &[u64]) -> Vec<usize> {
    let count = state[W_COUNT].min(LIST_CODES as u64) as usize;
    state[W_AXES..W_AXES + count].iter().map(|&c| c as usize).filter(|&c| c < AXES).collect()
}

pub fn has_point(state: &[u64], row: &[u64]) -> bool {
    geometric(state).iter().any(|&k| has(row[PRESENT], k))
}

pub fn cell(row: &[u64], k: usize) -> Option<u64> {
    has(row[PRESENT], k).then(|| row[CELL + k])
}

pub fn number(row: &[u64], k: usize) -> Option<f64> {
    cell(row, k).map(f64::from_bits)
}

pub fn position(state: &[u64], k: usize) -> Option<f64> {
    has(state[W_KNOWN], k).then(|| f64::from_bits(state[W_KNOWN + 1 + k]))
}

fn tolerance_ok(bits: u64) -> bool {
    let tolerance = f64::from_bits(bits);
    tolerance > 0.0 && tolerance.is_finite()
}

fn axes_ok(axes: &[u64]) -> bool {
    let fresh = |i: usize| !axes[..i].contains(&axes[i]);
    axes.len() <= LIST_CODES && (0..axes.len()).all(|i| axes[i] <= LAST_CODE && fresh(i))
}

pub fn within(bits: u64) -> bool {
    f64::from_bits(bits).abs() <= 1e9
}

/// 4, 3, 5 for a row, or 0.
pub fn row_check(row: &[u64]) -> u64 {
    let shape = row.len() == ROW_WORDS
        && row[LINE] <= u32::MAX as u64
        && row[MOTION] <= LAST_MOTION
        && matches!(row[PLANE], 0 | 17..=19)
        && row[MARK] == 0
        && row[PRESENT] < 1 << CELLS;
    if !shape {
        4
    } else if (0..CELLS).any(|k| cell(row, k).is_some_and(|bits| !within(bits))) {
        3
    } else if number(row, TURN).is_some_and(|turns| turns > 1000.0) {
        5
    } else {
        0
    }
}

/// A mask word and the numbers after it: on geometric axes alone, each within rule 3.
fn point_ok(state: &[u64], at: usize) -> bool {
    let axes = geometric(state);
    state[at] < 1 << AXES && (0..AXES).all(|k| !has(state[at], k) || axes.contains(&k) && within(state[at + 1 + k]))
}

pub fn state_ok(state: &[u64]) -> bool {
    state.len() == STATE_WORDS
        && tolerance_ok(state[0])
        && state[W_COUNT] <= LIST_CODES as u64
        && axes_ok(&state[W_AXES..W_AXES + state[W_COUNT] as usize])
        && (1..=LAST_MOTION).contains(&state[W_MOTION])
        && (17..=19).contains(&state[W_PLANE])
        && point_ok(state, W_KNOWN)
        && point_ok(state, W_START)
        && (1..=MOST_DEGREE).contains(&state[W_DEGREE])
        && state[W_HELD] <= MOST_HELD as u64
        && (state[W_HELD] == 0 || is_spline(state[W_MOTION]))
}

/// 9 for the state, 8, 9 for the held rows, or 0: rule 2.19.
pub fn saved_check(lent: &Lent) -> u64 {
    if !state_ok(lent.state()) {
        return 9;
    }
    if lent.held() > lent.blocks {
        return 8;
    }
    let row_ok = |row: &[u64]| row_check(row) == 0 && (row[MOTION] == 0 || row[MOTION] == lent.state[W_MOTION]);
    if (0..lent.held()).all(|i| row_ok(lent.held_row(i))) {
        0
    } else {
        9
    }
}

pub fn motion_then(lent: &Lent, row: &[u64]) -> u64 {
    if row[MOTION] == 0 {
        lent.state[W_MOTION]
    } else {
        row[MOTION]
    }
}

pub fn emits(lent: &Lent, row: &[u64]) -> bool {
    lent.held() > 0 && motion_then(lent, row) != lent.state[W_MOTION]
}

/// The refusals of a push that need no row: all but 7.
pub fn push_check(lent: &Lent, row: &[u64]) -> u64 {
    let saved = saved_check(lent);
    if saved != 0 {
        return saved;
    }
    let shape = row_check(row);
    if shape != 0 {
        return shape;
    }
    let kept = if emits(lent, row) { 0 } else { lent.held() };
    if is_spline(motion_then(lent, row)) && kept >= lent.blocks {
        6
    } else {
        0
    }
}

pub fn start_check(lent: &Lent, tolerance: u64, axes: &[u64]) -> u64 {
    if lent.length != STATE_WORDS {
        9
    } else if !tolerance_ok(tolerance) {
        1
    } else if !axes_ok(axes) {
        2
    } else {
        0
    }
}

pub fn seed_check(lent: &Lent, axis: u64, bits: u64) -> u64 {
    if !state_ok(lent.state()) {
        9
    } else if axis > LAST_CODE {
        2
    } else if !within(bits) {
        3
    } else {
        0
    }
}

/// A fresh state: rule 3.1.
pub fn started(lent: &mut Lent, tolerance: u64, axes: &[u64]) {
    let state = &mut lent.state[..STATE_WORDS];
    state.fill(0);
    state[0] = tolerance;
    state[W_COUNT] = axes.len() as u64;
    state[W_AXES..W_AXES + axes.len()].copy_from_slice(axes);
    state[W_MOTION] = G1;
    state[W_PLANE] = 17;
    state[W_DEGREE] = 3;
}

pub fn seeded(lent: &mut Lent, axis: u64, bits: u64) {
    if geometric(lent.state()).contains(&(axis as usize)) {
        place(&mut lent.state, axis as usize, bits);
    }
}

fn place(state: &mut [u64], k: usize, bits: u64) {
    state[W_KNOWN] |= 1 << k;
    state[W_KNOWN + 1 + k] = bits;
}

/// The curve start and the blocks are forgotten, the degree stays: rule 3.16.
pub fn emitted(lent: &mut Lent) {
    lent.state[W_START..=W_START + AXES].fill(0);
    lent.state[W_HELD] = 0;
}

pub fn closed(lent: &mut Lent) {
    if lent.held() > 0 {
        emitted(lent);
    }
}

/// A row as it is stored or goes out unchanged: an absent cell is zero, rule 1.7.
pub fn plain(row: &[u64]) -> RowWords {
    let mut out = [0; ROW_WORDS];
    out.copy_from_slice(row);
    for k in (0..CELLS).filter(|&k| !has(row[PRESENT], k)) {
        out[CELL + k] = 0;
    }
    out
}

pub fn pushed(lent: &mut Lent, row: &[u64]) {
    if emits(lent, row) {
        emitted(lent);
    }
    lent.state[W_MOTION] = motion_then(lent, row);
    if row[PLANE] != 0 {
        lent.state[W_PLANE] = row[PLANE];
    }
    if is_spline(lent.state[W_MOTION]) {
        buffered(lent, row);
    }
    if row[MOTION] >= FIRST_OTHER {
        lent.state[W_WARNED] |= 1 << row[MOTION];
    }
    for k in geometric(lent.state()) {
        if let Some(bits) = cell(row, k) {
            place(&mut lent.state, k, bits);
        }
    }
}

fn buffered(lent: &mut Lent, row: &[u64]) {
    let held = lent.held();
    if held == 0 {
        lent.state[W_START] = lent.state[W_KNOWN];
        for k in 0..AXES {
            let known = has(lent.state[W_KNOWN], k);
            lent.state[W_START + 1 + k] = if known { lent.state[W_KNOWN + 1 + k] } else { 0 };
        }
        lent.state[W_DEGREE] = 3;
    }
    if let Some(sd) = number(row, SD) {
        lent.state[W_DEGREE] = (sd as u64).clamp(1, MOST_DEGREE);
    }
    lent.store[held * ROW_WORDS..(held + 1) * ROW_WORDS].copy_from_slice(&plain(row));
    lent.state[W_HELD] += 1;
}
