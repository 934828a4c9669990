//! Splines: their blocks, and how they end.

use crate::sequence::*;
use crate::words::*;

impl Gen {
    /// A spline of some blocks, its tolerance already chosen; the caller ends it.
    pub fn spline(&mut self, motion: u64, points: usize) {
        let axes = self.axes();
        let used: Vec<usize> = match self.rng.below(8) {
            0..=3 => axes.clone(),
            4 => axes.iter().copied().filter(|&k| k > 2).collect(),
            _ => axes.iter().copied().filter(|_| !self.rng.one_in(3)).collect(),
        };
        let shape = self.rng.below(12);
        let restated = if self.rng.one_in(10) { 3 } else { 40 };
        let first = self.stated(motion);
        let mut at: Vec<f64> = used.iter().map(|&k| self.position(k).unwrap_or(self.origin)).collect();
        for i in 0..points {
            if self.lent.held() > 0 && self.rng.one_in(9) {
                self.pointless_block();
                if self.lent.held() >= MOST_HELD {
                    return;
                }
            }
            let word = if i == 0 {
                first
            } else if self.rng.one_in(restated) {
                motion
            } else {
                0
            };
            let mut block = self.block(word);
            self.move_point(&mut at, shape, i);
            let all = i == 0 && !self.rng.one_in(4);
            for (c, &k) in used.iter().enumerate() {
                if all || !self.rng.one_in(5) {
                    block.set(k, at[c]);
                }
            }
            self.spline_cells(&mut block, motion);
            self.plane_cell(&mut block, 25);
            self.riders(&mut block);
            self.push(block);
        }
    }

    pub fn move_point(&mut self, at: &mut [f64], shape: u64, i: usize) {
        for (c, x) in at.iter_mut().enumerate() {
            *x = match shape {
                // All points in one place, or nearly.
                0 => *x,
                1 => *x + self.near_zero(),
                // On a line; a helix; now and then twice the same.
                2 => *x + self.scale / 16.0,
                3 => self.origin + self.scale * ((i as f64) * 0.7 + c as f64).sin(),
                4 | 5 if self.rng.one_in(4) => *x,
                6 => *x + self.scale * self.rng.power(-9.0, 0.0),
                _ => self.coordinate(),
            }
            .clamp(-LIMIT, LIMIT);
        }
    }

    pub fn spline_cells(&mut self, block: &mut Block, motion: u64) {
        if self.rng.one_in(if motion == BSPLINE { 4 } else { 20 }) {
            let weight = self.weight();
            block.set(PW, weight);
        }
        if self.rng.one_in(30) {
            let x = self.any_number();
            block.set(PL, x);
        }
        if self.rng.one_in(40) {
            self.degree_cell(block, 12);
        }
    }

    pub fn weight(&mut self) -> f64 {
        match self.rng.below(8) {
            0 => 0.0,
            1 => -2.0,
            2 => 1e-4,
            3 => self.rng.power(-5.0, 9.0),
            4 => 1.0,
            _ => self.rng.between(0.2, 5.0),
        }
    }

    pub fn degree_cell(&mut self, block: &mut Block, most: u64) {
        let whole = 1 + self.rng.below(most);
        let degree = match self.rng.below(8) {
            0 => 0.0,
            1 => -5.0,
            2 => whole as f64 + 0.99,
            3 if most > 200 => 1e9,
            _ => whole as f64,
        };
        block.set(SD, degree);
    }

    /// A held block with no point: feed, a plane, a degree, another axis.
    pub fn pointless_block(&mut self) {
        let motion = if self.rng.one_in(4) { self.lent.state[W_MOTION] } else { 0 };
        let mut block = self.block(motion);
        self.riders(&mut block);
        self.plane_cell(&mut block, 4);
        if self.rng.one_in(6) {
            self.degree_cell(&mut block, 12);
        }
        if self.rng.one_in(6) {
            let k = self.rng.pick(&[I, I + 1, CR, PW, PL]);
            let x = self.any_number();
            block.set(k, x);
        }
        self.push(block);
    }

    /// Ends what is held: a close, a move, another curve.
    pub fn end_spline(&mut self) {
        match self.rng.below(5) {
            0 | 1 => self.close(),
            2 => self.go(),
            3 => {
                let held = self.lent.state[W_MOTION];
                if is_spline(held) {
                    let word = self.rng.pick(&SPLINES);
                    if word != held {
                        let mut block = self.block(word);
                        self.some_axes(&mut block, 1);
                        self.push(block);
                    }
                }
                self.close();
            }
            _ => self.arc_block(),
        }
    }

    pub fn point_count(&mut self) -> usize {
        match self.rng.below(12) {
            0 => 1,
            1 => 2,
            2 => 250 + self.rng.below(7) as usize,
            3 => 1 + self.rng.below(MOST_HELD as u64) as usize,
            4 | 5 => 10 + self.rng.below(40) as usize,
            _ => 1 + self.rng.below(9) as usize,
        }
    }
}
