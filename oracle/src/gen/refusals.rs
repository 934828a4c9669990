//! Calls that are refused, each number in several ways, and changed states that are not.

use crate::sequence::*;
use crate::words::*;

/// A state of ten axes, as it was before the second ones.
const BASE_WORDS: usize = 44;

impl Gen {
    pub fn refusals(&mut self) {
        self.sizes();
        let rows = self.rng.power(-1.0, 1.0);
        let tolerance = self.spline_tolerance(rows);
        self.begin(tolerance);
        for _ in 0..6 {
            match self.rng.below(4) {
                0 => self.arc_block(),
                1 => self.go(),
                _ => {
                    let motion = self.rng.pick(&SPLINES);
                    let points = 1 + self.rng.below(5) as usize;
                    self.spline(motion, points);
                }
            }
            for _ in 0..3 {
                self.refusal();
            }
        }
        self.small_room();
        self.close();
    }

    pub fn refusal(&mut self) {
        match self.rng.below(10) {
            0 => {
                let tolerance = self.rng.pick(&[0.0, -0.0, -1.0, f64::NAN, f64::INFINITY, f64::NEG_INFINITY]);
                let axes = self.rng.pick(&[&[0u64, 1, 2][..], &[LIST_CODES as u64], &[]]);
                self.start(tolerance, axes);
            }
            1 => {
                let axes: &[&[u64]] = &[&[LIST_CODES as u64], &[0, 0], &[3, 4, 3], &[1 << 40], &[0; LIST_CODES + 1]];
                let axes = self.rng.pick(axes);
                self.start(0.1, axes);
                let code = self.rng.pick(&[LAST_CODE + 1, LAST_CODE + 2, PL as u64, 1 << 32, 1 << 53]);
                let bits = self.bad_bits();
                self.seed(code, bits);
            }
            2 => self.bad_number(),
            3 => self.bad_row(),
            4 => self.bad_turn(),
            5 => self.full_store(),
            6 => self.no_room(),
            7 => self.short_store(),
            8 => self.bad_state(),
            _ => self.odd_state(),
        }
    }

    pub fn bad_bits(&mut self) -> u64 {
        let over = f64::from_bits(LIMIT.to_bits() + 1);
        self.rng.pick(&[f64::NAN, f64::INFINITY, f64::NEG_INFINITY, over, -over, 1e300, -1e10]).to_bits()
    }

    pub fn bad_number(&mut self) {
        let motion = self.rng.below(LAST_MOTION + 1);
        let mut block = self.block(motion);
        self.some_axes(&mut block, 2);
        let k = self.rng.below(CELLS as u64) as usize;
        block.set(k, 0.0);
        block.0[CELL + k] = self.bad_bits();
        self.push(block);
        let axis = self.rng.below(LIST_CODES as u64);
        let bits = self.bad_bits();
        self.seed(axis, bits);
    }

    pub fn bad_row(&mut self) {
        let mut row = self.block(2).0.to_vec();
        match self.rng.below(7) {
            0 => {
                let length = self.rng.below(65) as usize;
                row.resize(length, 0);
            }
            1 => row[LINE] = 1 << 32 | self.rng.below(100),
            2 => row[MOTION] = LAST_MOTION + 1 + self.rng.below(10),
            3 => row[PLANE] = self.rng.pick(&[1, 16, 20, 1 << 63]),
            4 => row[MARK] = self.rng.pick(&[1, 2, u64::MAX]),
            5 => row[PRESENT] = 1 << self.rng.pick(&[CELLS, CELLS + 1, 40, 63]),
            _ => row[MOTION] = 1 << self.rng.pick(&[5, 8, 32, 63]),
        }
        self.words(&row);
    }

    pub fn bad_turn(&mut self) {
        let motion = self.rng.below(FIRST_OTHER);
        let mut block = self.block(motion);
        let turns = self.rng.pick(&[1000.0000000000001, 1000.4, 1e9, 1001.0]);
        block.set(TURN, turns);
        if self.rng.one_in(3) {
            block.set(0, 0.0);
            block.0[CELL] = self.bad_bits();
        }
        self.push(block);
    }

    pub fn full_store(&mut self) {
        let held = self.lent.held();
        self.blocks(held);
        if is_spline(self.lent.state[W_MOTION]) {
            let mut block = self.block(0);
            self.some_axes(&mut block, 2);
            self.push(block);
        }
        if held == 0 {
            let motion = self.rng.pick(&SPLINES);
            let block = self.block(motion);
            self.push(block);
        }
        self.blocks(MOST_HELD);
    }

    pub fn no_room(&mut self) {
        self.room(0);
        match self.rng.below(3) {
            0 => self.close(),
            1 => self.go(),
            _ => self.arc_block(),
        }
        self.room(MOST_ROWS);
    }

    pub fn short_store(&mut self) {
        let held = self.lent.held();
        if held == 0 {
            return;
        }
        let fewer = self.rng.below(held as u64) as usize;
        self.blocks(fewer);
        if self.rng.one_in(2) {
            self.close()
        } else {
            self.bad_row()
        }
        self.go();
        self.blocks(MOST_HELD);
    }

    /// A state that 9 refuses, tried, and set right again.
    pub fn bad_state(&mut self) {
        if self.rng.one_in(5) {
            let length = self.rng.pick(&[0, 1, BASE_WORDS, STATE_WORDS - 1, STATE_WORDS + 1, MOST_LENGTH]);
            self.length(length);
            self.try_all();
            self.length(STATE_WORDS);
            return;
        }
        let held = self.lent.held();
        if held > 0 && self.rng.one_in(3) {
            let row = self.rng.below(held as u64) as usize * ROW_WORDS;
            let (at, word) = match self.rng.below(6) {
                0 => (row + LINE, 1 << 32),
                1 => (row + MOTION, self.rng.pick(&[1, G1, ASPLINE, BSPLINE, CSPLINE, FIRST_OTHER, LAST_MOTION + 1])),
                2 => (row + PLANE, 5),
                3 => (row + MARK, 1),
                4 => (row + PRESENT, 1 << CELLS),
                _ => (row + CELL + self.rng.below(CELLS as u64) as usize, self.bad_bits()),
            };
            let before = self.lent.store[at];
            self.pokestore(at, word);
            self.try_all();
            self.pokestore(at, before);
            return;
        }
        let (at, word) = match self.rng.below(10) {
            0 => (0, self.rng.pick(&[0, 1 << 63, 0x7ff0_0000_0000_0000, u64::MAX])),
            1 => (W_COUNT, self.rng.pick(&[LIST_CODES as u64 + 1, 200, u64::MAX])),
            2 => (W_AXES, self.rng.pick(&[LAST_CODE + 1, 1, 2, u64::MAX])),
            3 => (W_MOTION, self.rng.pick(&[0, 1, G1, FIRST_OTHER, LAST_MOTION + 1])),
            4 => (W_PLANE, self.rng.pick(&[0, 16, 20])),
            5 => (W_KNOWN, self.rng.pick(&[1 << AXES, 1 << (AXES - 1), 1 << 5, u64::MAX])),
            6 => (W_START, self.rng.pick(&[1 << AXES, 1 << (AXES - 1), 1 << 5, u64::MAX])),
            7 => (W_KNOWN + 1 + self.rng.below(AXES as u64) as usize, self.bad_bits()),
            8 => (W_DEGREE, self.rng.pick(&[0, MOST_DEGREE + 1, u64::MAX])),
            _ => (W_HELD, self.rng.pick(&[MOST_HELD as u64 + 1, 1 << 40])),
        };
        let before = self.lent.state[at];
        self.poke(at, word);
        self.try_all();
        self.poke(at, before);
    }

    /// A block of each sort of call, on whatever the state is; pushed words may be refused or not.
    pub fn try_all(&mut self) {
        let axis = self.rng.below(AXES as u64);
        self.seed(axis, 1f64.to_bits());
        if self.rng.one_in(2) {
            self.bad_row();
        }
        let before = self.lent.state;
        let held = self.lent.held();
        let mut block = self.block(0);
        self.riders(&mut block);
        self.push(block);
        self.close();
        // Where the odd state was accepted after all, what it changed stays: only the poked word is set back.
        if held > 0 && self.lent.held() == 0 && before != self.lent.state {
            self.go();
        }
    }

    /// A changed state that no rule refuses: it must be answered as the Rust would from there.
    pub fn odd_state(&mut self) {
        let axes = self.axes();
        let held = self.lent.held();
        match self.rng.below(8) {
            0 => {
                let degree = 1 + self.rng.below(6);
                self.poke(W_DEGREE, degree);
            }
            1 => {
                let plane = 17 + self.rng.below(3);
                self.poke(W_PLANE, plane);
            }
            2 => {
                let warned = self.rng.next();
                self.poke(W_WARNED, warned);
                let word = self.other_word();
                if held == 0 {
                    let block = self.block(word);
                    self.push(block);
                }
            }
            3 => {
                let mask = axes.iter().map(|&k| 1u64 << k).sum::<u64>() & self.rng.next();
                self.poke(W_KNOWN, mask);
            }
            4 => {
                for &k in &axes {
                    let x = self.coordinate();
                    self.poke(W_START + 1 + k, x.to_bits());
                }
                let mask = axes.iter().map(|&k| 1u64 << k).sum::<u64>() & self.rng.next();
                self.poke(W_START, mask);
            }
            5 if self.lent.state[W_COUNT] > 1 => {
                let (a, b) = (self.lent.state[W_AXES], self.lent.state[W_AXES + 1]);
                self.poke(W_AXES, b);
                self.poke(W_AXES + 1, a);
            }
            6 if held > 0 => {
                let row = self.rng.below(held as u64) as usize * ROW_WORDS;
                let k = self.rng.below(CELLS as u64) as usize;
                let x = self.coordinate().clamp(-999.0, 999.0);
                self.pokestore(row + CELL + k, x.to_bits());
            }
            _ if held == 0 => {
                let other = [FIRST_OTHER + 1, LAST_MOTION - 1];
                let motion = self.rng.pick(&[1, G1, G2, G3, ASPLINE, BSPLINE, CSPLINE, other[0], other[1]]);
                self.poke(W_MOTION, motion);
            }
            _ => {}
        }
    }

    /// Last of all, since how many rows are needed is not known here: some room, then enough.
    pub fn small_room(&mut self) {
        for _ in 0..3 {
            let room = self.rng.below(12) as usize;
            self.room(room);
            self.arc_block();
            self.close();
        }
        self.room(MOST_ROWS);
        self.close();
    }
}
