//! One spline a sequence, for a run of the curves alone: its points, degree, weights, channels and samples are spread
//! over their whole ranges, and a comment line says which it got.

use crate::sequence::*;
use crate::words::*;

pub const MOST_SAMPLES: usize = 10_000;
const MOST_POINTS: u64 = MOST_HELD as u64 + 1;
/// The shape whose points lie nearly in one place, whatever the scale.
const NEAR: u64 = 1;

/// A spline's sizes, the samples to come to, and the least tolerance that rounding noise lets it meet.
pub struct Curve {
    pub motion: u64,
    pub points: usize,
    pub degree: u64,
    pub channels: usize,
    pub weights: usize,
    pub repeated: usize,
    pub wanted: f64,
    pub least: f64,
}

impl Gen {
    /// One spline at a coarse tolerance, closed.
    pub fn curve(&mut self, motion: u64) -> Curve {
        self.sizes();
        let shape = self.rng.below(12);
        let size = if shape == NEAR { self.scale.max(1e-4) } else { 16.0 * self.scale };
        let points = self.curve_points();
        let list = self.curve_axes();
        let coarse = size * self.rng.power(0.0, 0.6);
        self.start(coarse, &list);
        let channels = self.axes().len();
        let stated = self.curve_degree(motion, points);
        let degree = stated.unwrap_or(3).min(points as u64 - 1);
        let wanted = self.wanted_samples(motion, degree, channels);
        let least = 1e-11 * (self.origin.abs() + size);
        let mut curve = Curve { motion, points, degree, channels, weights: 0, repeated: 0, wanted, least };
        if !self.rng.one_in(6) {
            self.seed_start();
        }
        self.curve_blocks(&mut curve, shape, stated);
        self.close();
        curve
    }

    /// 2 to the most, and small ones more often.
    fn curve_points(&mut self) -> usize {
        let n = match self.rng.below(8) {
            0 => 2 + self.rng.below(MOST_POINTS - 1),
            1 | 2 => self.rng.power(0.3, 2.4) as u64,
            3 if self.rng.one_in(3) => MOST_POINTS - self.rng.below(2),
            _ => 2 + self.rng.below(9),
        };
        n.clamp(2, MOST_POINTS) as usize
    }

    /// Some geometric axes, with some of the other codes, in any order.
    fn curve_axes(&mut self) -> Vec<u64> {
        let count = 1 + self.rng.below(AXES as u64) as usize;
        let mut list = self.shuffled((0..AXES as u64).collect());
        list.truncate(count);
        list.extend((AXES as u64..=LAST_CODE).filter(|_| self.rng.one_in(8)));
        self.shuffled(list)
    }

    /// What SD says, or None where no block has it.
    fn curve_degree(&mut self, motion: u64, points: usize) -> Option<u64> {
        if motion != BSPLINE && !self.rng.one_in(10) {
            return None;
        }
        match self.rng.below(5) {
            0 => None,
            1 => Some(1 + self.rng.below(MOST_DEGREE)),
            2 => Some((points as u64).saturating_sub(self.rng.below(3)).clamp(1, MOST_DEGREE)),
            _ => Some(1 + self.rng.below(8)),
        }
    }

    /// 1 to 10,000, small and large as likely; of dear ones, some splines apart, no more than end in a tenth of a
    /// second: a sample costs some 16 evaluations, here and in both programs of a run.
    fn wanted_samples(&mut self, motion: u64, degree: u64, channels: usize) -> f64 {
        let steps = if motion == BSPLINE { degree * degree } else { 60 };
        let nanoseconds = 16.0 * (50.0 + steps as f64 * channels as f64);
        let most = if self.rng.one_in(60) { 4e9 } else { 1e8 } / nanoseconds;
        self.rng.power(0.0, most.clamp(1.0, MOST_SAMPLES as f64).log10())
    }

    /// Seeds most axes: one that has no start begins at its first number.
    fn seed_start(&mut self) {
        for k in self.axes() {
            if !self.rng.one_in(12) {
                let x = self.coordinate();
                self.seed(k as u64, x.to_bits());
            }
        }
    }

    fn curve_blocks(&mut self, curve: &mut Curve, shape: u64, degree: Option<u64>) {
        let axes = self.axes();
        let repeats = self.rng.pick(&[0, 0, 2, 8]);
        let weights = if curve.motion == BSPLINE { self.rng.pick(&[0, 1, 4]) } else { 0 };
        let blocks = curve.points - 1;
        let with_degree = self.rng.below(blocks as u64) as usize;
        let mut at: Vec<f64> = axes.iter().map(|&k| self.position(k).unwrap_or(self.origin)).collect();
        let mut unused = axes.clone();
        for i in 0..blocks {
            let mut block = self.block(if i == 0 { curve.motion } else { 0 });
            if repeats > 0 && self.rng.one_in(repeats) {
                self.stay(&axes, &mut at);
                curve.repeated += 1;
            } else {
                self.move_point(&mut at, shape, i);
            }
            // Every axis is programmed at some time.
            let due: &[usize] = if i + 1 == blocks { &unused } else { &[] };
            self.program(&mut block, &axes, &at, due);
            unused.retain(|&k| !block.has(k));
            if weights > 0 && self.rng.one_in(weights) {
                let weight = self.weight();
                block.set(PW, weight);
                curve.weights += 1;
            }
            if let (Some(degree), true) = (degree, i == with_degree) {
                block.set(SD, degree as f64);
            }
            self.push(block);
        }
    }

    /// Puts most axes of the point into the block: those that are due, and at least one.
    fn program(&mut self, block: &mut Block, axes: &[usize], at: &[f64], due: &[usize]) {
        for (c, (&k, &x)) in axes.iter().zip(at).enumerate() {
            let only = c + 1 == axes.len() && block.0[PRESENT] == 0;
            if only || due.contains(&k) || !self.rng.one_in(5) {
                block.set(k, x);
            }
        }
    }

    /// The next point is where the last one was.
    fn stay(&mut self, axes: &[usize], at: &mut [f64]) {
        for (x, &k) in at.iter_mut().zip(axes) {
            *x = self.position(k).unwrap_or(*x);
        }
    }
}
