//! A sequence in the making: its lines, and the numbers and blocks that the kinds share.

use crate::rng::Rng;
use crate::words::*;
use std::fmt::Write as _;

pub const PI: f64 = std::f64::consts::PI;
pub const LIMIT: f64 = 1e9;

pub const SPLINES: [u64; 3] = [ASPLINE, BSPLINE, CSPLINE];

/// One sequence: its lines, the words that they leave, and the sizes that its numbers have.
pub struct Gen {
    pub rng: Rng,
    pub out: String,
    pub lent: Lent,
    pub line: u64,
    /// Its list has 11 codes or more.
    pub long: bool,
    pub scale: f64,
    pub origin: f64,
}

/// A row in the making.
pub struct Block(pub [u64; ROW_WORDS]);

impl Block {
    pub fn set(&mut self, k: usize, x: f64) {
        self.0[PRESENT] |= 1 << k;
        self.0[CELL + k] = x.clamp(-LIMIT, LIMIT).to_bits();
    }

    pub fn has(&self, k: usize) -> bool {
        has(self.0[PRESENT], k)
    }
}

impl Gen {
    // ---- lines, each with what it does to the words

    pub fn start(&mut self, tolerance: f64, axes: &[u64]) {
        self.write_start(tolerance.to_bits(), axes);
        if start_check(&self.lent, tolerance.to_bits(), axes) == 0 {
            started(&mut self.lent, tolerance.to_bits(), axes);
        }
    }

    pub fn write_start(&mut self, tolerance: u64, axes: &[u64]) {
        let list: Vec<String> = axes.iter().map(|c| c.to_string()).collect();
        let list = if list.is_empty() { "-".to_string() } else { list.join(",") };
        let _ = writeln!(self.out, "start {tolerance:016x} {list}");
    }

    pub fn seed(&mut self, axis: u64, bits: u64) {
        let _ = writeln!(self.out, "seed {axis} {bits:016x}");
        if seed_check(&self.lent, axis, bits) == 0 {
            seeded(&mut self.lent, axis, bits);
        }
    }

    pub fn push(&mut self, block: Block) {
        let mut row = block.0;
        if self.rng.one_in(25) {
            // What an absent cell holds is not read.
            for k in (0..CELLS).filter(|&k| !block.has(k)) {
                row[CELL + k] = self.rng.next();
            }
            self.words(&row);
            return;
        }
        let _ =
            write!(self.out, "push {} {} {} {:x} {:x}", row[LINE], row[MOTION], row[PLANE], row[CARRY], row[PRESENT]);
        for k in (0..CELLS).filter(|&k| has(row[PRESENT], k)) {
            let _ = write!(self.out, " {:016x}", row[CELL + k]);
        }
        self.out.push('\n');
        self.accept(&row);
    }

    pub fn words(&mut self, row: &[u64]) {
        self.out.push_str("words");
        for word in row {
            let _ = write!(self.out, " {word:x}");
        }
        self.out.push('\n');
        self.accept(row);
    }

    /// With no room every row is refused by 7, and only a block that is buffered, and emits nothing, is accepted.
    pub fn accept(&mut self, row: &[u64]) {
        if push_check(&self.lent, row) != 0 {
            return;
        }
        let rowless = is_spline(motion_then(&self.lent, row)) && !emits(&self.lent, row);
        if self.lent.room > 0 || rowless {
            pushed(&mut self.lent, row);
        }
    }

    pub fn close(&mut self) {
        self.out.push_str("close\n");
        if saved_check(&self.lent) == 0 && self.lent.room > 0 {
            closed(&mut self.lent);
        }
    }

    pub fn room(&mut self, n: usize) {
        let _ = writeln!(self.out, "room {n}");
        self.lent.room = n;
    }

    pub fn blocks(&mut self, n: usize) {
        let _ = writeln!(self.out, "blocks {n}");
        self.lent.blocks = n;
    }

    pub fn length(&mut self, n: usize) {
        let _ = writeln!(self.out, "length {n}");
        self.lent.length = n;
    }

    pub fn poke(&mut self, i: usize, word: u64) {
        let _ = writeln!(self.out, "poke {i} {word:x}");
        self.lent.state[i] = word;
    }

    pub fn pokestore(&mut self, i: usize, word: u64) {
        let _ = writeln!(self.out, "pokestore {i} {word:x}");
        self.lent.store[i] = word;
    }

    // ---- numbers

    pub fn coordinate(&mut self) -> f64 {
        let x = self.origin + self.scale * self.rng.between(-1.0, 1.0);
        match self.rng.below(4) {
            0 => x,
            1 => (x * 1000.0).round() / 1000.0,
            2 => (x * 8.0).round() / 8.0,
            _ => x.round(),
        }
    }

    /// Any number that rule 3 lets pass.
    pub fn any_number(&mut self) -> f64 {
        match self.rng.below(12) {
            0 => 0.0,
            1 => -0.0,
            2 => LIMIT,
            3 => -LIMIT,
            4 => f64::from_bits(self.rng.below(1 << 52)),
            5..=8 => {
                let x = self.rng.power(-12.0, 9.0);
                if self.rng.one_in(2) {
                    x
                } else {
                    -x
                }
            }
            _ => self.coordinate(),
        }
    }

    pub fn position(&self, k: usize) -> Option<f64> {
        position(&self.lent.state, k)
    }

    pub fn axes(&self) -> Vec<usize> {
        geometric(&self.lent.state)
    }

    pub fn plane_axes(&self) -> (usize, usize) {
        match self.lent.state[W_PLANE] {
            18 => (2, 0),
            19 => (1, 2),
            _ => (0, 1),
        }
    }

    pub fn tolerance(&self) -> f64 {
        f64::from_bits(self.lent.state[0])
    }

    // ---- blocks

    pub fn block(&mut self, motion: u64) -> Block {
        self.line += 1;
        let mut block = Block([0; ROW_WORDS]);
        block.0[LINE] = match self.rng.below(40) {
            0 => 0,
            1 => u32::MAX as u64,
            2 => self.rng.below(1 << 32),
            _ => self.line,
        };
        block.0[MOTION] = motion;
        block
    }

    /// Feed and the like, the carry, and now and then an axis outside the list.
    pub fn riders(&mut self, block: &mut Block) {
        if self.rng.one_in(3) {
            for k in AXES..LIST_CODES {
                if self.rng.one_in(3) {
                    let x = self.any_number();
                    block.set(k, x);
                }
            }
        }
        if self.rng.one_in(4) {
            block.0[CARRY] = self.rng.next() >> self.rng.below(64);
        }
        if self.rng.one_in(8) {
            let axes = self.axes();
            for k in (0..AXES).filter(|k| !axes.contains(k)) {
                if self.rng.one_in(3) {
                    let x = self.any_number();
                    block.set(k, x);
                }
            }
        }
    }

    pub fn some_axes(&mut self, block: &mut Block, one_in: u64) {
        for k in self.axes() {
            if self.rng.one_in(one_in) {
                // Not so far away that a spline from there would need a row for each bit of its tolerance.
                let far = 1e4 * self.scale + self.origin.abs();
                let x = if self.rng.one_in(8) { self.any_number().clamp(-far, far) } else { self.coordinate() };
                block.set(k, x);
            }
        }
    }

    /// The motion cell, or none where the modal motion says the same.
    pub fn stated(&mut self, motion: u64) -> u64 {
        if self.lent.state[W_MOTION] == motion && !self.rng.one_in(4) {
            0
        } else {
            motion
        }
    }

    /// A curve word that is not flattened.
    pub fn other_word(&mut self) -> u64 {
        FIRST_OTHER + self.rng.below(LAST_MOTION + 1 - FIRST_OTHER)
    }

    pub fn plane_cell(&mut self, block: &mut Block, one_in: u64) {
        if self.rng.one_in(one_in) {
            block.0[PLANE] = self.rng.pick(&[17, 18, 19]);
        }
    }

    pub fn linear_block(&mut self) {
        let motion = match self.rng.below(6) {
            0 => 1,
            1 | 2 => self.stated(G1),
            3 => G1,
            4 => self.other_word(),
            _ => self.rng.pick(&[1, G1, FIRST_OTHER, FIRST_OTHER + 1, FIRST_OTHER + 2, LAST_MOTION]),
        };
        let mut block = self.block(motion);
        self.plane_cell(&mut block, 5);
        self.some_axes(&mut block, 2);
        self.riders(&mut block);
        if self.rng.one_in(4) {
            for k in 0..CELLS {
                if self.rng.one_in(3) {
                    let x = self.any_number();
                    block.set(k, if k == TURN { x.min(1000.0) } else { x });
                }
            }
        }
        self.push(block);
    }

    /// A move that makes the start of what follows known.
    pub fn go(&mut self) {
        let mut block = self.block(2);
        for k in self.axes() {
            let x = self.coordinate();
            block.set(k, x);
        }
        self.riders(&mut block);
        self.push(block);
    }
}
