//! Arc blocks of every form.

use crate::sequence::*;
use crate::words::*;

/// About as many rows as a call should write at most.
const ROWS: f64 = 12_000.0;

impl Gen {
    pub fn arc_block(&mut self) {
        let motion = self.rng.pick(&[G2, G3]);
        let motion = self.stated(motion);
        let mut block = self.block(motion);
        // The plane is needed before the geometry: a plane cell is put into the words by the block itself.
        let plane_before = self.lent.state[W_PLANE];
        self.plane_cell(&mut block, 6);
        if block.0[PLANE] != 0 {
            self.lent.state[W_PLANE] = block.0[PLANE];
        }
        let (u, v) = self.plane_axes();
        self.lent.state[W_PLANE] = plane_before;
        match self.rng.below(12) {
            0 => self.odd_arc(&mut block, u, v),
            1..=3 => self.radius_arc(&mut block, u, v),
            _ => self.centre_arc(&mut block, u, v),
        }
        if self.rng.one_in(2) {
            for k in self.axes() {
                if k != u && k != v && self.rng.one_in(3) {
                    let x = self.coordinate();
                    block.set(k, x);
                }
            }
        }
        self.riders(&mut block);
        if self.rng.one_in(6) {
            let k = self.rng.pick(&[PW, SD, PL]);
            let x = self.any_number();
            block.set(k, x);
        }
        self.push(block);
    }

    /// How large a radius may be before an arc of this tolerance needs too many rows; now and then more.
    pub fn radius(&mut self) -> f64 {
        let most = self.tolerance() * self.rng.power(0.0, 7.3);
        let wanted = self.scale * self.rng.power(-3.0, 1.0);
        if self.rng.one_in(60) {
            wanted
        } else {
            wanted.min(most)
        }
    }

    pub fn turn(&mut self, block: &mut Block, radius: f64) {
        if !self.rng.one_in(5) {
            return;
        }
        let step = 2.0 * (1.0 - self.tolerance() / radius).clamp(-1.0, 1.0).acos();
        let most = (ROWS * step / (2.0 * PI)).min(1000.0);
        let turns = match self.rng.below(8) {
            0 => 0.5,
            1 => 0.49999999999999994,
            2 => -self.rng.power(-2.0, 3.0),
            3 => (most.floor() - 1.5).max(0.0),
            4 => self.rng.below(6) as f64 + 0.5,
            _ => self.rng.between(0.0, most),
        };
        block.set(TURN, turns.min(most.max(1.0)));
    }

    pub fn centre_arc(&mut self, block: &mut Block, u: usize, v: usize) {
        let (su, sv) = (self.position(u).unwrap_or(0.0), self.position(v).unwrap_or(0.0));
        let r = self.radius();
        let from = self.rng.between(-PI, PI);
        let round = self.rng.one_in(3);
        let tidy = |x: f64| if round { (x * 1000.0).round() / 1000.0 } else { x };
        let (i, j) = match self.rng.below(6) {
            0 => (tidy(-r), 0.0),
            1 => (0.0, tidy(r)),
            _ => (tidy(r * from.cos()), tidy(r * from.sin())),
        };
        let (ou, ov) = (I + u, I + v);
        let which = self.rng.below(8);
        let (i, j) = (if which == 0 { 0.0 } else { i }, if which == 1 { 0.0 } else { j });
        if which != 0 {
            block.set(ou, i);
        }
        if which != 1 {
            block.set(ov, j);
        }
        let (cu, cv) = (su + i, sv + j);
        let r = i.hypot(j);
        let (eu, ev) = match self.rng.below(10) {
            0 | 1 => (su, sv),
            2 => (su + self.near_zero(), sv + self.near_zero()),
            3 => (cu - (su - cu), cv - (sv - cv)),
            4 => (cu - (sv - cv), cv + (su - cu)),
            _ => {
                let to = self.rng.between(-PI, PI);
                let r = r * self.rng.pick(&[1.0, 1.0, 1.0, 1.000001, 0.99, 1.5, 1e-3]);
                (tidy(cu + r * to.cos()), tidy(cv + r * to.sin()))
            }
        };
        self.end(block, u, v, eu, ev);
        if self.rng.one_in(10) {
            let x = self.any_number();
            block.set(CR, x);
        }
        self.turn(block, r);
    }

    /// The end, or an axis of it left out.
    pub fn end(&mut self, block: &mut Block, u: usize, v: usize, eu: f64, ev: f64) {
        let left_out = self.rng.below(12);
        if left_out != 0 {
            block.set(u, eu);
        }
        if left_out != 1 {
            block.set(v, ev);
        }
    }

    /// A distance about the bounds 1e-9 and 1e-12.
    pub fn near_zero(&mut self) -> f64 {
        let x = self.rng.pick(&[0.0, 5e-10, 2e-9, 1e-6, 9e-13, 1e-15, 1e-12]);
        if self.rng.one_in(2) {
            x
        } else {
            -x
        }
    }

    pub fn radius_arc(&mut self, block: &mut Block, u: usize, v: usize) {
        let (su, sv) = (self.position(u).unwrap_or(0.0), self.position(v).unwrap_or(0.0));
        let r = self.radius();
        let half = r * self.rng.pick(&[1.0, 0.9, 0.5, 0.1, 1e-3, 1e-6]);
        let way = self.rng.between(-PI, PI);
        let (eu, ev) = match self.rng.below(16) {
            0 => (su, sv),
            1 => (su + 5e-13, sv),
            2 => (su + 2.0 * half, sv),
            3 => (su, sv - 2.0 * half),
            _ => (su + 2.0 * half * way.cos(), sv + 2.0 * half * way.sin()),
        };
        let half = (eu - su).hypot(ev - sv) / 2.0;
        let cr = match self.rng.below(10) {
            0 => half,
            1 => half - 5e-10,
            2 => half - 2e-9,
            3 => half * 0.9,
            4 => half * (1.0 + 1e-12),
            5 => 0.0,
            _ => r,
        };
        block.set(CR, if self.rng.one_in(3) { -cr } else { cr });
        self.end(block, u, v, eu, ev);
        self.turn(block, cr.max(half));
    }

    /// Arcs that pass through: nothing programmed, no centre, no radius, the wrong offset.
    pub fn odd_arc(&mut self, block: &mut Block, u: usize, v: usize) {
        let (su, sv) = (self.position(u).unwrap_or(0.0), self.position(v).unwrap_or(0.0));
        let third = I + 3 - u - v;
        match self.rng.below(7) {
            0 => {}
            1 => block.set(third, 5.0),
            2 => block.set(TURN, 2.0),
            3 => {
                block.set(u, su + 1.0);
                block.set(v, sv);
            }
            4 => {
                block.set(I + u, 0.0);
                block.set(I + v, self.near_zero());
                block.set(u, su + 1.0);
            }
            5 => {
                block.set(I + u, 3.0);
                block.set(I + v, 4.0);
                block.set(u, su + 3.0);
                block.set(v, sv + 4.0);
            }
            _ => self.some_axes(block, 2),
        }
    }
}
