//! What the rules say of the four calls, without any curve: the reply's number, what the words are afterwards, and
//! bounds on the row count. Written from the rules, apart from the oracle's own reading of them and from the crates.

/// What a call may answer. `rows` are the least and the most that it can need; the words are those it leaves.
#[derive(Clone)]
pub struct Expected {
    pub code: u64,
    pub rows: (u64, u64),
    pub warnings: std::ops::RangeInclusive<u64>,
    /// The axes that may be named as held.
    pub may_hold: u64,
    pub state: Vec<u64>,
    pub store: Vec<u64>,
}

// ---- The layout: what is chosen, and what follows from it.
/// X Y Z A B C U V W E, then A2 B2 C2 U2 V2 W2.
pub const AXES: usize = 16;
/// N F S D T, which a list may name too.
pub const LISTED: usize = AXES + 5;
/// From the start to the centre, along the three axes of space.
pub const OFFSETS: usize = LISTED;
pub const TURN: usize = OFFSETS + 4;
const SD: usize = TURN + 2;
/// The last cell is PL, behind SD.
pub const CELLS: usize = SD + 2;
/// What order 3 says in numbers: the entries of a list, its top code, the top presence bit.
const _: () = assert!(LISTED == 21 && LISTED - 1 == 20 && CELLS - 1 == 28);

pub const LINE: usize = 0;
pub const WORD: usize = 1;
pub const PLANE: usize = 2;
pub const MARK: usize = 3;
pub const CARRY: usize = 4;
pub const PRESENT: usize = 5;
pub const FIRST: usize = 6;
pub const ROW: usize = FIRST + CELLS;

/// A point of the state: a mask, and a number for each axis.
pub const POINT: usize = 1 + AXES;
pub const LIST: usize = 2;
pub const MOTION: usize = LIST + LISTED;
pub const IN_PLANE: usize = MOTION + 1;
pub const KNOWN: usize = IN_PLANE + 1;
pub const WARNED: usize = KNOWN + POINT;
pub const START: usize = WARNED + 1;
pub const DEGREE: usize = START + POINT;
pub const HELD: usize = DEGREE + 1;
pub const STATE: usize = HELD + 1;

pub const MOST_HELD: u64 = 256;
pub const MOST_DEGREE: u64 = 256;
pub const MOST_ARC_ROWS: u64 = 100_000;

// ---- Motions.
const G1: u64 = 2;
const ARCS: std::ops::RangeInclusive<u64> = 3..=4;
pub const SPLINES: std::ops::RangeInclusive<u64> = 5..=7;
const FIRST_OTHER: u64 = 8;
pub const LAST_MOTION: u64 = 31;

const BILLION: u64 = 0x41CD_CD65_0000_0000;
const THOUSAND: u64 = 0x408F_4000_0000_0000;
const SIGN: u64 = 1 << 63;
const INFINITY: u64 = 0x7FF0_0000_0000_0000;

/// Rule 3 over the bits: a number's size is at most a billion (infinities and NaN are above it).
pub fn is_small(bits: u64) -> bool {
    bits & !SIGN <= BILLION
}

fn bit(mask: u64, k: usize) -> bool {
    mask & 1 << k != 0
}

/// The fields of a saved state that passed rule 9.
pub struct Saved {
    pub axes: Vec<usize>,
    pub motion: u64,
    pub plane: u64,
    pub held: usize,
}

pub fn list_is_good(list: &[u64]) -> bool {
    let mut seen = 0u32;
    list.len() <= LISTED
        && list.iter().all(|&code| {
            let is_code = code < LISTED as u64;
            let new = is_code && seen & 1 << code == 0;
            seen |= if is_code { 1 << code } else { 0 };
            new
        })
}

fn tolerance_is_good(bits: u64) -> bool {
    bits > 0 && bits < INFINITY
}

/// None is 9.
pub fn saved(words: &[u64]) -> Option<Saved> {
    let [tolerance, count, rest @ ..] = words else { return None };
    if words.len() != STATE || !tolerance_is_good(*tolerance) || *count > LISTED as u64 {
        return None;
    }
    let list = &rest[..*count as usize];
    if !list_is_good(list) {
        return None;
    }
    let axes: Vec<usize> = list.iter().filter(|&&code| code < AXES as u64).map(|&code| code as usize).collect();
    let allowed = axes.iter().fold(0u64, |mask, &k| mask | 1 << k);
    for mask_at in [KNOWN, START] {
        let mask = words[mask_at];
        let numbers = &words[mask_at + 1..mask_at + POINT];
        if mask & !allowed != 0 || (0..AXES).any(|k| bit(mask, k) && !is_small(numbers[k])) {
            return None;
        }
    }
    let (motion, plane, degree, held) = (words[MOTION], words[IN_PLANE], words[DEGREE], words[HELD]);
    let good = motion != 0
        && motion <= LAST_MOTION
        && (plane == 17 || plane == 18 || plane == 19)
        && degree != 0
        && degree <= MOST_DEGREE
        && held <= MOST_HELD
        && (held == 0 || SPLINES.contains(&motion));
    good.then_some(Saved { axes, motion, plane, held: held as usize })
}

/// 4, 3 or 5 for an incoming or a held row; 0 for none of them.
pub fn row_fault(row: &[u64]) -> u64 {
    if row.len() != ROW {
        return 4;
    }
    let (line, motion, plane, mark, present) = (row[LINE], row[WORD], row[PLANE], row[MARK], row[PRESENT]);
    let is_plane = [0, 17, 18, 19].contains(&plane);
    if line >> 32 != 0 || motion > LAST_MOTION || !is_plane || mark != 0 || present >> CELLS != 0 {
        return 4;
    }
    if (0..CELLS).any(|k| bit(present, k) && !is_small(row[FIRST + k])) {
        return 3;
    }
    let turn = row[FIRST + TURN];
    if bit(present, TURN) && turn & SIGN == 0 && turn > THOUSAND {
        5
    } else {
        0
    }
}

/// State fields, then 8, then the held rows.
fn entry(state: &[u64], store: &[u64]) -> Result<Saved, u64> {
    let now = saved(state).ok_or(9u64)?;
    if store.len() / ROW < now.held {
        return Err(8);
    }
    for row in store.chunks_exact(ROW).take(now.held) {
        if row_fault(row) != 0 || row[WORD] != 0 && row[WORD] != now.motion {
            return Err(9);
        }
    }
    Ok(now)
}

fn refused(code: u64, state: &[u64], store: &[u64]) -> Expected {
    Expected { code, rows: (0, 0), warnings: 0..=0, may_hold: 0, state: state.to_vec(), store: store.to_vec() }
}

fn accepted(rows: (u64, u64), state: Vec<u64>, store: Vec<u64>) -> Expected {
    Expected { code: 0, rows, warnings: 0..=0, may_hold: 0, state, store }
}

pub fn start(state: &[u64], tolerance: u64, list: &[u64]) -> Expected {
    if state.len() != STATE {
        return refused(9, state, &[]);
    }
    if !tolerance_is_good(tolerance) {
        return refused(1, state, &[]);
    }
    if !list_is_good(list) {
        return refused(2, state, &[]);
    }
    let mut words = vec![0; STATE];
    words[0] = tolerance;
    words[1] = list.len() as u64;
    words[LIST..LIST + list.len()].copy_from_slice(list);
    (words[MOTION], words[IN_PLANE], words[DEGREE]) = (G1, 17, 3);
    accepted((0, 0), words, Vec::new())
}

pub fn seed(state: &[u64], axis: u64, bits: u64) -> Expected {
    let Some(now) = saved(state) else { return refused(9, state, &[]) };
    if axis >= LISTED as u64 {
        return refused(2, state, &[]);
    }
    if !is_small(bits) {
        return refused(3, state, &[]);
    }
    let mut words = state.to_vec();
    if now.axes.contains(&(axis as usize)) {
        words[KNOWN] |= 1 << axis;
        words[KNOWN + 1 + axis as usize] = bits;
    }
    accepted((0, 0), words, Vec::new())
}

/// The most rows that an emission of this many blocks can give.
fn most_emitted(held: usize) -> u64 {
    held as u64 * (1 << 20)
}

fn forget_curve(words: &mut [u64]) {
    words[START..START + POINT].fill(0);
    words[HELD] = 0;
}

pub fn close(state: &[u64], store: &[u64]) -> Expected {
    let now = match entry(state, store) {
        Ok(now) => now,
        Err(code) => return refused(code, state, store),
    };
    let mut words = state.to_vec();
    if now.held > 0 {
        forget_curve(&mut words);
    }
    accepted((now.held as u64, most_emitted(now.held)), words, store.to_vec())
}

pub fn push(state: &[u64], store: &[u64], row: &[u64]) -> Expected {
    let now = match entry(state, store) {
        Ok(now) => now,
        Err(code) => return refused(code, state, store),
    };
    let fault = row_fault(row);
    if fault != 0 {
        return refused(fault, state, store);
    }
    let motion = if row[WORD] == 0 { now.motion } else { row[WORD] };
    let plane = if row[PLANE] == 0 { now.plane } else { row[PLANE] };
    let emits = now.held > 0 && motion != now.motion;
    let held = if emits { 0 } else { now.held };
    let buffers = SPLINES.contains(&motion);
    if buffers && (held as u64 == MOST_HELD || (held + 1) * ROW > store.len()) {
        return refused(6, state, store);
    }

    let mut words = state.to_vec();
    let mut blocks = store.to_vec();
    if emits {
        forget_curve(&mut words);
    }
    words[MOTION] = motion;
    words[IN_PLANE] = plane;
    if buffers {
        buffer(&mut words, &mut blocks, row, held);
    }
    let new_word = row[WORD] >= FIRST_OTHER && !bit(state[WARNED], row[WORD] as usize);
    if new_word {
        words[WARNED] |= 1 << row[WORD];
    }
    let present: Vec<usize> = now.axes.iter().copied().filter(|&k| bit(row[PRESENT], k)).collect();
    for &k in &present {
        words[KNOWN] |= 1 << k;
        words[KNOWN + 1 + k] = row[FIRST + k];
    }

    let arc = ARCS.contains(&motion);
    let own = if buffers { (0, 0) } else { (1, if arc { MOST_ARC_ROWS } else { 1 }) };
    let before = if emits { (now.held as u64, most_emitted(now.held)) } else { (0, 0) };
    let mut expected = accepted((own.0 + before.0, own.1 + before.1), words, blocks);
    expected.warnings = if new_word {
        7..=7
    } else if arc {
        0..=6
    } else {
        0..=0
    };
    if arc {
        let in_plane = [[0, 1], [2, 0], [1, 2]][(plane - 17) as usize];
        let unknown = present.iter().filter(|&&k| !bit(state[KNOWN], k) && !in_plane.contains(&k));
        expected.may_hold = unknown.fold(0, |mask, &k| mask | 1 << k);
    }
    expected
}

fn buffer(words: &mut [u64], blocks: &mut [u64], row: &[u64], held: usize) {
    if held == 0 {
        words[DEGREE] = 3;
        words[START] = words[KNOWN];
        for k in 0..AXES {
            words[START + 1 + k] = if bit(words[KNOWN], k) { words[KNOWN + 1 + k] } else { 0 };
        }
    }
    if bit(row[PRESENT], SD) {
        let degree = f64::from_bits(row[FIRST + SD]).trunc();
        words[DEGREE] = if degree < 1.0 {
            1
        } else if degree > MOST_DEGREE as f64 {
            MOST_DEGREE
        } else {
            degree as u64
        };
    }
    let place = &mut blocks[held * ROW..(held + 1) * ROW];
    place.copy_from_slice(row);
    for k in (0..CELLS).filter(|&k| !bit(row[PRESENT], k)) {
        place[FIRST + k] = 0;
    }
    words[HELD] = held as u64 + 1;
}
