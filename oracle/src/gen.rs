//! `gen SEED COUNT [arcs|splines|mixed|linear|refusals|curves]`: COUNT sequences of calls for `replay`, each begun by
//! an accepted `start`. The same arguments give the same lines. Without a kind the first five take turns; of these one
//! sequence in three has a list of 11 to 21 codes. The kind curves is one spline a sequence, ASPLINE, BSPLINE and
//! CSPLINE in turn, of 1 to 16 channels, its sizes in the comment line.
//!
//! Sizes are chosen so that a call writes at most about 16,384 rows and ends soon; a few need more and meet 7.
//! Some splines come twice, at two neighbouring tolerances between which the unchanged Rust's row count changes:
//! there a single wrong bit in a deviation shows.

#[path = "gen/arcs.rs"]
mod arcs;
mod calls;
#[path = "gen/curves.rs"]
mod curves;
mod errors;
#[path = "../../docs/src/src/flatten.rs"]
mod flatten;
#[path = "gen/kinds.rs"]
mod kinds;
mod output;
#[path = "gen/refusals.rs"]
mod refusals;
#[path = "gen/rng.rs"]
mod rng;
mod rust;
#[path = "gen/sequence.rs"]
mod sequence;
#[path = "gen/splines.rs"]
mod splines;
mod state;
mod types;
mod words;

use calls::Call;
use curves::{Curve, MOST_SAMPLES};
use output::Row;
use rng::Rng;
use sequence::Gen;
use std::io::Write as _;
use words::*;

/// The rows that the Rust gives for these calls with another tolerance.
fn rows_with(calls: &[Call], tolerance: u64) -> Vec<Row> {
    let mut rows = Vec::new();
    let mut flattener = None;
    for call in calls {
        match (call, flattener.as_mut()) {
            (Call::Start(_, axes), _) => flattener = Some(rust::fresh(tolerance, axes)),
            (Call::Seed(axis, bits), Some(f)) => rust::seed(f, *axis as usize, *bits),
            (Call::Push(row), Some(f)) => f.push(rust::rust_row(row), &mut rows),
            (Call::Close, Some(f)) => f.finish(&mut rows),
            _ => {}
        }
    }
    rust::said();
    rows
}

/// How many rows have a number of an axis. A B-spline's empty blocks give rows without.
fn samples_with(calls: &[Call], tolerance: u64) -> usize {
    let is_sample = |row: &&Row| rust::row_words(row)[PRESENT] % (1 << AXES) != 0;
    rows_with(calls, tolerance).iter().filter(is_sample).count()
}

fn read_calls(text: &str) -> (Vec<Call>, u64) {
    let calls: Vec<Call> = text.lines().filter_map(calls::read).collect();
    let Some(&Call::Start(tolerance, _)) = calls.first() else { unreachable!("begun by a start") };
    (calls, tolerance)
}

fn with_tolerance(text: &str, old: u64, new: u64) -> String {
    text.replacen(&format!("start {old:016x}"), &format!("start {new:016x}"), 1)
}

/// The sequence of one spline, its tolerance made finer until it has the wanted samples, and what it is.
fn measured(text: &str, curve: &Curve) -> String {
    let (calls, coarse) = read_calls(text);
    let mut tolerance = coarse;
    let mut samples = samples_with(&calls, tolerance);
    while (samples as f64) < curve.wanted {
        let finer = f64::from_bits(tolerance) / 4.0;
        let more = if finer < curve.least { usize::MAX } else { samples_with(&calls, finer.to_bits()) };
        if more > MOST_SAMPLES {
            break;
        }
        (tolerance, samples) = (finer.to_bits(), more);
    }
    let Curve { motion, points, degree, channels, weights, repeated, .. } = curve;
    let sizes = format!("motion {motion} points {points} degree {degree} channels {channels}");
    let (name, rest) = text.split_once('\n').expect("a comment line first");
    let rest = with_tolerance(rest, coarse, tolerance);
    format!("{name} {sizes} weights {weights} repeated {repeated} samples {samples}\n{rest}")
}

/// The sequence with each of two neighbouring tolerances that give it different row counts, where there are such.
fn at_both_tolerances(text: &str) -> String {
    let (calls, near) = read_calls(text);
    let (mut low, mut high) = (near, (100.0 * f64::from_bits(near)).to_bits());
    let at_low = rows_with(&calls, low).len();
    if at_low == rows_with(&calls, high).len() {
        return text.to_string();
    }
    while high - low > 1 {
        let middle = low + (high - low) / 2;
        if rows_with(&calls, middle).len() == at_low {
            low = middle
        } else {
            high = middle
        }
    }
    [low, high].map(|bits| with_tolerance(text, near, bits)).concat()
}

const KINDS: [&str; 6] = ["arcs", "splines", "mixed", "linear", "refusals", "curves"];
/// The kinds that take turns.
const TURNS: usize = 5;
/// One sequence in so many has a list of 11 to 21 codes, of each kind that takes turns.
const LONG_EACH: u64 = 3;

fn sequence(seed: u64, i: u64, kind: &str) -> String {
    let mut rng = Rng(seed.wrapping_mul(0x2545_f491_4f6c_dd1d) ^ i.wrapping_mul(0x9e6c_63d0_876a_68ad));
    rng.next();
    let long = (seed + i) % LONG_EACH == 0;
    let out = format!("# {kind} {seed} {i}\n");
    let mut gen = Gen { rng, out, lent: Lent::new(), line: 0, long, scale: 1.0, origin: 0.0 };
    match kind {
        "arcs" => gen.arcs(),
        "splines" if gen.rng.one_in(4) => {
            gen.short_spline();
            return at_both_tolerances(&gen.out);
        }
        "splines" if gen.rng.one_in(8) => gen.steep_spline(),
        "splines" => gen.splines(),
        "mixed" => gen.mixed(),
        "linear" => gen.linear(),
        "curves" => {
            let curve = gen.curve(ASPLINE + (seed + i) % 3);
            return measured(&gen.out, &curve);
        }
        _ => gen.refusals(),
    }
    gen.out
}

fn main() {
    let args: Vec<String> = std::env::args().skip(1).collect();
    let number = |i: usize| args.get(i).and_then(|text| text.parse::<u64>().ok());
    let kind = args.get(2).map(|kind| KINDS.iter().copied().find(|k| k == kind));
    let (Some(seed), Some(count), None | Some(Some(_))) = (number(0), number(1), kind) else {
        eprintln!("gen SEED COUNT [{}]", KINDS.join("|"));
        std::process::exit(2);
    };
    let mut output = std::io::BufWriter::new(std::io::stdout().lock());
    for i in 0..count {
        let kind = kind.flatten().unwrap_or(KINDS[i as usize % TURNS]);
        output.write_all(sequence(seed, i, kind).as_bytes()).expect("standard output");
    }
}
