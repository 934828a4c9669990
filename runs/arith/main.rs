//! The proved arithmetic beside Rust's std: `compare POINTS` holds each function to the bounds of rule 6.8,
//! `time` prints ns a call of both.
use std::hint::black_box;
use std::time::Instant;

extern "C" {
    fn arith_root_bits(b: u64) -> u64;
    fn arith_root(x: f64) -> f64;
    fn arith_root_at_most(x: f64, y: f64) -> bool;
    fn arith_ceil(x: f64) -> u64;
    fn arith_half_up(x: f64) -> u64;
    fn arith_trunc(x: f64) -> u64;
    fn arith_sin(x: f64) -> f64;
    fn arith_cos(x: f64) -> f64;
    fn arith_sincos(x: f64, s: &mut f64, c: &mut f64);
    fn arith_atan2(y: f64, x: f64) -> f64;
    fn arith_acos(x: f64) -> f64;
    fn arith_rem_euclid_tau(x: f64) -> f64;
}

const TAU: f64 = std::f64::consts::TAU;
/// Sine, cosine and arc tangent: rule 6.8.
const TRIG_BOUND: f64 = 1e-15;
/// The arc cosine, in parts of itself: rule 6.8.
const ACOS_BOUND: f64 = 1e-13;
/// Angles up to this size: rule 6.8.
const ANGLE_MOST: f64 = 6300.0;
/// Each count is held below these: see crates/whole/specs/Whole.antt.
const COUNT_MOST: f64 = 9007199254740992.0;
const HALF_MOST: f64 = 4503599627370496.0;

struct Rng(u64);

impl Rng {
    fn next(&mut self) -> u64 {
        self.0 ^= self.0 << 13;
        self.0 ^= self.0 >> 7;
        self.0 ^= self.0 << 17;
        self.0
    }
    fn unit(&mut self) -> f64 {
        (self.next() >> 11) as f64 / (1u64 << 53) as f64
    }
    fn signed(&mut self) -> f64 {
        2.0 * self.unit() - 1.0
    }
    /// 2^a for a random a, with a random mantissa and sign.
    fn spread(&mut self, low: f64, high: f64) -> f64 {
        let x = (low + (high - low) * self.unit()).exp2();
        if self.next() % 2 == 0 { x } else { -x }
    }
    fn near(&mut self, x: f64) -> f64 {
        f64::from_bits((x.to_bits() as i64 + (self.next() % 41) as i64 - 20) as u64)
    }
    /// Angles: all over, near multiples of pi/2, near 0, signed zeros.
    fn angle(&mut self) -> f64 {
        match self.next() % 8 {
            0..=2 => ANGLE_MOST * self.signed(),
            3 | 4 => {
                let k = (self.next() % 8022) as f64 - 4011.0;
                let x = k * (TAU / 4.0);
                let y = if x == 0.0 { 0.0 } else { self.near(x) };
                y.clamp(-ANGLE_MOST, ANGLE_MOST)
            }
            5 => self.spread(-1070.0, 1.0),
            6 => TAU * self.signed(),
            _ => if self.next() % 2 == 0 { 0.0 } else { -0.0 },
        }
    }
    /// Numbers of an arc tangent: every quadrant, the axes, huge ratios, signed zeros.
    fn side(&mut self) -> f64 {
        match self.next() % 6 {
            0 => 1e9 * self.signed(),
            1 => self.signed(),
            2 => self.spread(-40.0, 30.0),
            3 => self.spread(-1020.0, 1020.0),
            4 => ((self.next() % 7) as f64 - 3.0) * 1.25,
            _ => if self.next() % 2 == 0 { 0.0 } else { -0.0 },
        }
    }
    /// Arguments of an arc cosine: all over, near -1, 0 and 1.
    fn cosine(&mut self) -> f64 {
        match self.next() % 5 {
            0 | 1 => self.signed(),
            2 => 1.0 - self.spread(-53.0, -1.0).abs(),
            3 => self.spread(-53.0, -1.0).abs() - 1.0,
            _ => self.spread(-60.0, -0.1),
        }
    }
    fn any_bits(&mut self) -> u64 {
        match self.next() % 6 {
            0 => self.next() >> (self.next() % 64),
            1 => self.spread(-1074.0, 1023.0).to_bits(),
            2 => {
                let r = (self.next() >> 11) as f64;
                (r * r).to_bits()
            }
            3 => [0, 1 << 63, 0x7ff << 52, 0xfff << 52, 0x7ff8 << 48, 1, (1 << 52) - 1, 1 << 52][(self.next() % 8) as usize],
            _ => self.next(),
        }
    }
    /// Numbers to be rounded: whole, halves and their neighbours among them.
    fn count(&mut self) -> f64 {
        match self.next() % 6 {
            0 => {
                let h = (self.next() >> (11 + self.next() % 53)) as f64 / 2.0;
                if h == 0.0 { 0.0 } else { self.near(h) }
            }
            1 => (self.next() >> (10 + self.next() % 54)) as f64 / 2.0,
            2 => f64::from_bits(self.next()),
            3 => self.spread(-10.0, 60.0),
            4 => [0.49999999999999994, 0.5, 4503599627370495.5, 9007199254740991.0, f64::NAN, f64::INFINITY, -0.0, -0.5][(self.next() % 8) as usize],
            _ => 1e6 * self.signed(),
        }
    }
}

#[derive(Default)]
struct Worst {
    error: f64,
    at: (f64, f64),
    zeros: u64,
}

impl Worst {
    fn see(&mut self, error: f64, x: f64, y: f64) {
        if !(error <= self.error) {
            self.error = error;
            self.at = (x, y);
        }
    }
    fn say(&self, name: &str, points: u64, bound: f64, what: &str) -> bool {
        let ok = self.error <= bound;
        println!(
            "{name}: {points} points, greatest {what} {:.3e} (at {:e}, {:e}), bound {bound:e}, zeros of the other sign {}: {}",
            self.error, self.at.0, self.at.1, self.zeros, if ok { "ok" } else { "FAILED" }
        );
        ok
    }
}

fn other_zero(a: f64, b: f64) -> u64 {
    (a == 0.0 && b == 0.0 && a.is_sign_negative() != b.is_sign_negative()) as u64
}

/// What the counts promise, by std's rounding.
fn held(x: f64, most: f64, rounded: f64) -> u64 {
    if !(x > 0.0) { 0 } else if x < most { rounded as u64 } else { most as u64 }
}

fn compare(points: u64) -> bool {
    let mut g = Rng(0x9e3779b97f4a7c15);
    let mut ok = true;
    let (mut sin, mut cos, mut both) = (Worst::default(), Worst::default(), 0u64);
    for _ in 0..points {
        let x = g.angle();
        let (s, c) = unsafe { (arith_sin(x), arith_cos(x)) };
        sin.see((s - x.sin()).abs(), x, 0.0);
        sin.zeros += other_zero(s, x.sin());
        // docs/TRIG.md 2: the one place where the zero's sign parts from std's
        if other_zero(s, x.sin()) == 1 && x.to_bits() != (-0.0f64).to_bits() {
            println!("sine of {x:e} has the other zero");
            ok = false;
        }
        cos.see((c - x.cos()).abs(), x, 0.0);
        let (mut s2, mut c2) = (0.0, 0.0);
        unsafe { arith_sincos(x, &mut s2, &mut c2) };
        both += (s2.to_bits() != s.to_bits() || c2.to_bits() != c.to_bits()) as u64;
    }
    ok &= sin.say("sine", points, TRIG_BOUND, "error");
    ok &= cos.say("cosine", points, TRIG_BOUND, "error");
    println!("sine and cosine together: {both} unlike each alone");
    ok &= both == 0;
    let mut atan = Worst::default();
    for _ in 0..points {
        let (y, x) = (g.side(), g.side());
        let (a, b) = (unsafe { arith_atan2(y, x) }, y.atan2(x));
        atan.see((a - b).abs(), y, x);
        atan.zeros += other_zero(a, b);
        if (y == 0.0 || x == 0.0) && a.to_bits() != b.to_bits() {
            println!("arc tangent on an axis: {y:e} {x:e} gives {a:e}, std {b:e}");
            ok = false;
        }
    }
    ok &= atan.say("arc tangent", points, TRIG_BOUND, "error");
    let mut acos = Worst::default();
    for _ in 0..points {
        let x = g.cosine();
        let (a, b) = (unsafe { arith_acos(x) }, x.acos());
        acos.see(if a == b { 0.0 } else { ((a - b) / b).abs() }, x, 0.0);
    }
    ok &= acos.say("arc cosine", points, ACOS_BOUND, "relative error");
    let (mut unlike, mut judged, mut turned) = (0u64, 0u64, 0u64);
    for _ in 0..points {
        let b = g.any_bits();
        let r = unsafe { arith_root_bits(b) };
        let x = f64::from_bits(b);
        let want = if x.sqrt().is_nan() { 0x7ff8 << 48 } else { x.sqrt().to_bits() };
        let f = unsafe { arith_root(x) };
        unlike += (r != want || (f.to_bits() != want && !f.is_nan())) as u64;
        // bounds all over, and at the root itself and its neighbours
        let y = if g.next() % 4 == 0 { f64::from_bits(g.any_bits()) } else { g.near(x.sqrt()) };
        judged += (unsafe { arith_root_at_most(x, y) } != (x.sqrt() <= y)) as u64;
        // within a thousand, and all over
        let t = if g.next() % 2 == 0 { g.side() % 1e3 } else { f64::from_bits(g.any_bits()) };
        let (a, b) = (unsafe { arith_rem_euclid_tau(t) }, t.rem_euclid(TAU));
        turned += (a.to_bits() != b.to_bits() && !(a.is_nan() && b.is_nan())) as u64;
    }
    println!("root: {points} points, {unlike} unlike std's bits");
    println!("root at most a bound: {points} points, {judged} unlike std's answer");
    println!("remainder by tau: {points} points, {turned} unlike std's bits");
    ok &= unlike == 0 && judged == 0 && turned == 0;
    let mut counts = [0u64; 3];
    for _ in 0..points {
        let x = g.count();
        counts[0] += (unsafe { arith_ceil(x) } != held(x, COUNT_MOST, x.ceil())) as u64;
        counts[1] += (unsafe { arith_half_up(x) } != held(x, HALF_MOST, x.round())) as u64;
        counts[2] += (unsafe { arith_trunc(x) } != held(x, COUNT_MOST, x.trunc())) as u64;
    }
    for (name, n) in ["rounded up", "halves up", "truncated"].iter().zip(counts) {
        println!("{name}: {points} points, {n} unlike std's");
        ok &= n == 0;
    }
    ok
}

/// ns a call over a list that fits the first cache, the best of nine passes of 400 rounds.
fn ns(list: &[f64], f: impl Fn(f64) -> f64) -> f64 {
    let mut best = f64::MAX;
    for _ in 0..9 {
        let start = Instant::now();
        let mut sum = 0.0;
        for _ in 0..400 {
            for &x in list {
                sum += f(black_box(x));
            }
        }
        black_box(sum);
        best = best.min(start.elapsed().as_secs_f64() * 1e9 / (400 * list.len()) as f64);
    }
    best
}

/// ns a call where each call waits for the one before.
fn latency(start: f64, f: impl Fn(f64) -> f64) -> f64 {
    let mut best = f64::MAX;
    for _ in 0..9 {
        let t = Instant::now();
        let mut x = start;
        for _ in 0..1_000_000 {
            x = f(x) + 1.0;
        }
        black_box(x);
        best = best.min(t.elapsed().as_secs_f64() * 1e9 / 1e6);
    }
    best
}

fn time() {
    let mut g = Rng(1);
    let angles: Vec<f64> = (0..1000).map(|_| TAU * g.signed()).collect();
    let sides: Vec<f64> = (0..1000).map(|_| 100.0 * g.signed()).collect();
    let cosines: Vec<f64> = (0..1000).map(|_| g.signed()).collect();
    let positive: Vec<f64> = (0..1000).map(|_| 1e6 * g.unit()).collect();
    let row = |name: &str, ours: f64, theirs: f64| println!("| {name} | {ours:.2} | {theirs:.2} | {:.2} |", theirs / ours);
    println!("| function | ns a call | Rust's std | times as fast |\n|---|---|---|---|");
    unsafe {
        row("root", ns(&positive, |x| arith_root(x)), ns(&positive, |x| x.sqrt()));
        row("root, each waiting for the last", latency(2.0, |x| arith_root(x)), latency(2.0, |x| x.sqrt()));
        row(
            "root at most a bound",
            ns(&positive, |x| arith_root_at_most(x, 700.0) as u64 as f64),
            ns(&positive, |x| (x.sqrt() <= black_box(700.0)) as u64 as f64),
        );
        row("sine", ns(&angles, |x| arith_sin(x)), ns(&angles, |x| x.sin()));
        row("cosine", ns(&angles, |x| arith_cos(x)), ns(&angles, |x| x.cos()));
        row(
            "sine and cosine together",
            ns(&angles, |x| {
                let (mut s, mut c) = (0.0, 0.0);
                arith_sincos(x, &mut s, &mut c);
                s + c
            }),
            ns(&angles, |x| {
                let (s, c) = x.sin_cos();
                s + c
            }),
        );
        row("arc tangent", ns(&sides, |y| arith_atan2(y, 7.0)), ns(&sides, |y| y.atan2(7.0)));
        row("arc cosine", ns(&cosines, |x| arith_acos(x)), ns(&cosines, |x| x.acos()));
        row("rounded up", ns(&positive, |x| arith_ceil(x) as f64), ns(&positive, |x| x.ceil() as u64 as f64));
        row("halves up", ns(&positive, |x| arith_half_up(x) as f64), ns(&positive, |x| x.round() as u64 as f64));
    }
}

fn main() {
    let words: Vec<String> = std::env::args().collect();
    match words.get(1).map(String::as_str) {
        Some("compare") => {
            let points = words.get(2).and_then(|w| w.parse().ok()).unwrap_or(20_000_000);
            std::process::exit(if compare(points) { 0 } else { 1 });
        }
        Some("time") => time(),
        _ => {
            eprintln!("usage: compare [POINTS] | time");
            std::process::exit(2);
        }
    }
}
