//! The sequences of each kind but refusals.

use crate::sequence::*;
use crate::words::*;

/// Codes of a list that is not long, at most.
const MOST_SHORT: u64 = 10;

impl Gen {
    pub fn axis_list(&mut self) -> Vec<u64> {
        if self.long {
            self.long_list()
        } else {
            self.short_list()
        }
    }

    fn short_list(&mut self) -> Vec<u64> {
        match self.rng.below(10) {
            0..=3 => vec![0, 1, 2],
            4 => vec![0, 1, 2, 9],
            5..=7 => self.shuffled(vec![0, 1, 2, 9]),
            8 if self.rng.one_in(4) => Vec::new(),
            _ => {
                let mut list = self.shuffled((0..LIST_CODES as u64).collect());
                list.truncate(1 + self.rng.below(MOST_SHORT) as usize);
                list
            }
        }
    }

    /// X Y Z mostly among them, since an arc needs two of these; in code order at times.
    fn long_list(&mut self) -> Vec<u64> {
        let count = MOST_SHORT + 1 + self.rng.below(LIST_CODES as u64 - MOST_SHORT);
        let xyz: Vec<u64> = if self.rng.one_in(6) { Vec::new() } else { vec![0, 1, 2] };
        let others = self.shuffled((0..LIST_CODES as u64).filter(|code| !xyz.contains(code)).collect());
        let mut list = [xyz, others].concat();
        list.truncate(count as usize);
        if self.rng.one_in(4) {
            list.sort();
            list
        } else {
            self.shuffled(list)
        }
    }

    pub fn shuffled(&mut self, mut list: Vec<u64>) -> Vec<u64> {
        for i in (1..list.len()).rev() {
            list.swap(i, self.rng.below(i as u64 + 1) as usize);
        }
        list
    }

    pub fn sizes(&mut self) {
        self.scale = match self.rng.below(6) {
            0 => self.rng.power(-10.0, 8.0),
            1 => 1000.0,
            _ => self.rng.power(0.0, 3.0),
        };
        self.origin = match self.rng.below(8) {
            0 => self.rng.between(-LIMIT / 2.0, LIMIT / 2.0),
            1 => self.scale * 10.0,
            _ => 0.0,
        };
        if self.origin.abs() > 1e6 * self.scale {
            self.origin = 1e6 * self.scale;
        }
    }

    pub fn begin(&mut self, tolerance: f64) {
        let axes = self.axis_list();
        self.start(tolerance, &axes);
        for _ in 0..self.rng.below(4) {
            let axis = self.rng.below(LIST_CODES as u64);
            let x = self.coordinate();
            self.seed(axis, x.to_bits());
        }
        if !self.rng.one_in(4) {
            self.go();
        }
    }

    pub fn linear(&mut self) {
        self.sizes();
        let tolerance = self.rng.power(-300.0, 300.0);
        self.begin(tolerance);
        for _ in 0..4 + self.rng.below(30) {
            self.linear_block();
        }
        self.close();
    }

    pub fn arcs(&mut self) {
        self.sizes();
        let tolerance =
            if self.rng.one_in(40) { self.rng.power(-12.0, 9.0) } else { self.scale * self.rng.power(-5.0, 1.0) };
        self.begin(tolerance);
        for _ in 0..2 + self.rng.below(12) {
            match self.rng.below(12) {
                0 => self.linear_block(),
                1 => self.go(),
                2 => {
                    let axis = self.rng.below(AXES as u64);
                    let x = self.coordinate();
                    self.seed(axis, x.to_bits());
                }
                _ => self.arc_block(),
            }
        }
        self.close();
    }

    /// A tolerance that gives about `rows` rows a block, and never one that rounding noise could not meet.
    pub fn spline_tolerance(&mut self, rows: f64) -> f64 {
        let noise = 1e-11 * (self.origin.abs() + self.scale);
        (0.05 * self.scale / (rows * rows)).max(noise)
    }

    pub fn splines(&mut self) {
        self.sizes();
        let motion = self.rng.pick(&[ASPLINE, BSPLINE, BSPLINE, CSPLINE]);
        let points = self.point_count();
        let degree = match self.rng.below(4) {
            0 => 3,
            1 => 1 + self.rng.below(MOST_DEGREE),
            _ => 1 + self.rng.below(8),
        };
        // Work of one row: an evaluation of a B-spline costs the square of its degree.
        let power = (degree.min(points as u64) as f64).max(1.0);
        let work = if motion == BSPLINE { 4e6 / (power * power) } else { 4000.0 };
        let most = (work / points as f64).clamp(1.0, 400.0);
        let rows = self.rng.power(-0.7, most.log10().max(0.0));
        let tolerance = self.spline_tolerance(rows);
        self.begin(tolerance);
        if self.rng.one_in(6) {
            self.command_alone(motion);
        }
        if motion == BSPLINE && degree != 3 && !self.axes().is_empty() {
            let word = self.stated(motion);
            let mut block = self.block(word);
            self.some_axes(&mut block, 1);
            block.set(SD, degree as f64);
            self.push(block);
            if points > 1 {
                self.spline(motion, points - 1);
            }
        } else {
            self.spline(motion, points);
        }
        self.end_spline();
        if points < 10 {
            let motion = self.rng.pick(&SPLINES);
            let points = 1 + self.rng.below(6) as usize;
            self.spline(motion, points);
        }
        self.close();
        self.close();
    }

    /// A short spline for `at_both_tolerances`.
    pub fn short_spline(&mut self) {
        self.sizes();
        let tolerance = self.spline_tolerance(3.0);
        self.begin(tolerance);
        let motion = self.rng.pick(&SPLINES);
        let points = 2 + self.rng.below(6) as usize;
        self.spline(motion, points);
        self.close();
    }

    /// A B-spline that still turns within a millionth of its last span, since its last weights fall so steeply:
    /// the halving reaches depth 20 there in few rows.
    pub fn steep_spline(&mut self) {
        self.sizes();
        let rows = self.rng.power(1.3, 2.0);
        let tolerance = self.spline_tolerance(rows);
        self.begin(tolerance);
        let points = 4 + self.rng.below(4) as usize;
        for i in 0..points {
            let motion = if i == 0 { BSPLINE } else { 0 };
            let mut block = self.block(motion);
            for k in self.axes() {
                let x = self.coordinate();
                block.set(k, x);
            }
            let weights = [1e-4, 3e2, 3e6, 3e8];
            if let Some(weight) = weights.get(points - 1 - i) {
                let near = self.rng.power(-0.5, 0.5);
                block.set(PW, weight * near);
            }
            self.push(block);
        }
        self.close();
    }

    /// A spline word, a close, then points: the first held block then has no motion.
    pub fn command_alone(&mut self, motion: u64) {
        let block = self.block(motion);
        self.push(block);
        self.close();
    }

    pub fn mixed(&mut self) {
        self.sizes();
        let rows = self.rng.power(-1.0, 1.3);
        let tolerance = self.spline_tolerance(rows);
        self.begin(tolerance);
        for _ in 0..2 + self.rng.below(8) {
            match self.rng.below(8) {
                0..=2 => {
                    let motion = self.rng.pick(&SPLINES);
                    let points = 1 + self.rng.below(12) as usize;
                    self.spline(motion, points);
                    self.end_spline();
                }
                3..=5 => {
                    for _ in 0..1 + self.rng.below(4) {
                        self.arc_block();
                    }
                }
                6 => {
                    let axis = self.rng.below(LIST_CODES as u64);
                    let x = self.any_number();
                    let x = x.clamp(-self.scale * 1e3, self.scale * 1e3);
                    self.seed(axis, x.to_bits());
                }
                _ => {
                    let mut block = self.block(2);
                    self.some_axes(&mut block, 2);
                    self.riders(&mut block);
                    self.push(block);
                    let word = self.other_word();
                    let mut block = self.block(word);
                    self.riders(&mut block);
                    self.push(block);
                }
            }
        }
        // Now and then a start meets held blocks.
        if !self.rng.one_in(10) {
            self.close();
        }
    }
}
