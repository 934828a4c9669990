//! The layout of rows, store and saved state (docs/INTERFACE.md): the first few numbers are chosen, the rest follow.

/// X Y Z A B C U V W E, then A2 B2 C2 U2 V2 W2.
pub const AXIS_CODES: usize = 16;
/// N F S D T.
pub const RIDER_CODES: usize = 5;
/// Blocks that a spline holds at most.
pub const STORE_BLOCKS: usize = 256;

// Cells of a row, by their codes.
pub const X: usize = 0;
pub const Y: usize = 1;
pub const Z: usize = 2;
pub const A: usize = 3;
pub const B: usize = 4;
pub const C: usize = 5;
pub const U: usize = 6;
pub const V: usize = 7;
pub const W: usize = 8;
pub const E: usize = 9;
pub const A2: usize = 10;
pub const B2: usize = 11;
pub const C2: usize = 12;
pub const U2: usize = 13;
pub const V2: usize = 14;
pub const W2: usize = 15;
pub const N: usize = AXIS_CODES;
pub const F: usize = N + 1;
pub const S: usize = F + 1;
pub const D: usize = S + 1;
pub const T: usize = D + 1;
/// Codes that an axis list may name.
pub const LIST_CODES: usize = AXIS_CODES + RIDER_CODES;
pub const I: usize = LIST_CODES;
pub const J: usize = I + 1;
pub const K: usize = J + 1;
pub const CR: usize = K + 1;
pub const TURN: usize = CR + 1;
pub const PW: usize = TURN + 1;
pub const SD: usize = PW + 1;
pub const PL: usize = SD + 1;
pub const CELLS: usize = PL + 1;

// Words of a row.
pub const R_LINE: usize = 0;
pub const R_MOTION: usize = 1;
pub const R_PLANE: usize = 2;
pub const R_MARK: usize = 3;
pub const R_CARRY: usize = 4;
pub const R_PRESENT: usize = 5;
pub const R_CELLS: usize = 6;
pub const ROW_WORDS: usize = R_CELLS + CELLS;

pub const STORE_WORDS: usize = STORE_BLOCKS * ROW_WORDS;

/// Tolerance, length of the list, the list, motion, plane, known positions, words warned of, curve start, degree,
/// blocks held; a point is a mask and a word for each axis code.
pub const STATE_WORDS: usize = 2 + LIST_CODES + 2 + POINT_WORDS + 1 + POINT_WORDS + 2;
const POINT_WORDS: usize = 1 + AXIS_CODES;

// Motions.
pub const G0: u8 = 1;
pub const G1: u8 = 2;
pub const G2: u8 = 3;
pub const G3: u8 = 4;
pub const ASPLINE: u8 = 5;
pub const BSPLINE: u8 = 6;
pub const CSPLINE: u8 = 7;
pub const LAST_MOTION: u8 = 31;
