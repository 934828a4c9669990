//! The library beside the unchanged Rust, in one run: rows written per second of this thread's time, and their ratio.
//!
//! Each side gets the blocks in its own form, made beforehand: words for the library, `Row`s for the Rust, which takes
//! them. Each side's rows are dropped after every call: the library's places are written over, the Rust's list is
//! cleared. The two take turns, and each keeps the best of its rounds.

#[path = "../../oracle/src/errors.rs"]
mod errors;
#[path = "../../docs/src/src/flatten.rs"]
mod flatten;
#[path = "../../oracle/src/output.rs"]
mod output;
#[path = "../../hosts/rust/src/raw.rs"]
mod raw;
#[path = "../../oracle/src/rust.rs"]
mod rust;
#[path = "../../oracle/src/state.rs"]
mod state;
#[path = "../../oracle/src/types.rs"]
mod types;
#[path = "../../oracle/src/words.rs"]
mod words;

use output::Row;
use raw::{flat_close, flat_push, flat_start, Reply};
use std::hint::black_box;
use words::*;

#[repr(C)]
#[derive(Default)]
struct Time {
    seconds: i64,
    nanoseconds: i64,
}

extern "C" {
    fn clock_gettime(clock: i32, time: *mut Time) -> i32;
}

/// This thread's own time: other work on the machine does not count.
fn now() -> f64 {
    const THREAD_TIME: i32 = 3;
    let mut time = Time::default();
    // The clock is Linux's, and writes the two numbers that it is lent.
    unsafe { clock_gettime(THREAD_TIME, &mut time) };
    time.seconds as f64 + time.nanoseconds as f64 * 1e-9
}

const XYZ: [u64; 3] = [0, 1, 2];
const PLACES: usize = 120_000;

/// Blocks to push after a start with this tolerance, then a close.
struct Work {
    name: String,
    tolerance: f64,
    blocks: Vec<RowWords>,
}

fn block(motion: u64, cells: &[(usize, f64)]) -> RowWords {
    let mut row = [0; ROW_WORDS];
    row[LINE] = 1;
    row[MOTION] = motion;
    for &(k, x) in cells {
        row[PRESENT] |= 1 << k;
        row[CELL + k] = x.to_bits();
    }
    row
}

// ---- the two sides: each runs the work once and says how many rows it wrote

struct Lent {
    state: Vec<u64>,
    store: Vec<u64>,
    rows: Vec<u64>,
}

// Each call gets pointers and lengths of live vectors.

fn start(tolerance: f64, lent: &mut Lent) -> Reply {
    let state = &mut lent.state;
    unsafe { flat_start(state.as_mut_ptr(), state.len(), tolerance.to_bits(), XYZ.as_ptr(), XYZ.len()) }
}

fn push(row: &RowWords, lent: &mut Lent) -> Reply {
    let (state, store, rows) = (&mut lent.state, &mut lent.store, &mut lent.rows);
    unsafe {
        flat_push(
            state.as_mut_ptr(),
            state.len(),
            store.as_mut_ptr(),
            store.len(),
            rows.as_mut_ptr(),
            rows.len(),
            row.as_ptr(),
            row.len(),
        )
    }
}

fn close(lent: &mut Lent) -> Reply {
    let (state, store, rows) = (&mut lent.state, &lent.store, &mut lent.rows);
    unsafe { flat_close(state.as_mut_ptr(), state.len(), store.as_ptr(), store.len(), rows.as_mut_ptr(), rows.len()) }
}

fn library(work: &Work, lent: &mut Lent) -> u64 {
    let mut count = 0;
    assert_eq!(start(work.tolerance, lent).code, 0);
    for row in &work.blocks {
        let reply = push(row, lent);
        assert_eq!((reply.code, reply.warning, reply.wanted, reply.held), (0, 0, 0, 0), "{}", work.name);
        count += reply.count;
        black_box(&lent.rows);
    }
    let reply = close(lent);
    assert_eq!(reply.code, 0);
    black_box(&lent.rows);
    count + reply.count
}

fn unchanged(tolerance: f64, blocks: Vec<Row>) -> u64 {
    let mut flattener = rust::fresh(tolerance.to_bits(), &XYZ);
    let mut out = Vec::new();
    let mut count = 0;
    for row in blocks {
        flattener.push(row, &mut out);
        count += out.len() as u64;
        black_box(&out);
        out.clear();
    }
    flattener.finish(&mut out);
    black_box(&out);
    count + out.len() as u64
}

fn rust_blocks(work: &Work) -> Vec<Row> {
    work.blocks.iter().map(|row| rust::rust_row(row)).collect()
}

// ---- measuring

const ROUNDS: usize = 15;
const ROUND_SECONDS: f64 = 0.02;
/// Calls between two looks at the clock where each is the same.
const CALLS: u64 = 1000;
/// Rows at least between two looks at the clock, which takes as long as a row or two.
const TIMED_ROWS: u64 = 200;

/// Rows per second of one round, which repeats until it is long enough to time.
fn round(mut once: impl FnMut() -> (u64, f64)) -> f64 {
    let (mut rows, mut seconds) = (0, 0.0);
    while seconds < ROUND_SECONDS {
        let (count, took) = once();
        rows += count;
        seconds += took;
    }
    rows as f64 / seconds
}

fn timed(run: impl FnOnce() -> u64) -> (u64, f64) {
    let before = now();
    let rows = run();
    (rows, now() - before)
}

fn measure(work: &Work, lent: &mut Lent) {
    let rows = library(work, lent);
    let rust_rows = unchanged(work.tolerance, rust_blocks(work));
    let (mut ours, mut theirs) = (0f64, 0f64);
    let times = TIMED_ROWS.div_ceil(rows);
    for _ in 0..ROUNDS {
        ours = ours.max(round(|| timed(|| (0..times).map(|_| library(work, lent)).sum())));
        theirs = theirs.max(round(|| {
            let all: Vec<_> = (0..times).map(|_| rust_blocks(work)).collect();
            timed(|| all.into_iter().map(|blocks| unchanged(work.tolerance, blocks)).sum())
        }));
    }
    let same = if rows == rust_rows { "" } else { " (counts differ)" };
    println!("| {} | {rows}{same} | {:.3e} | {:.3e} | {:.2} |", work.name, theirs, ours, ours / theirs);
}

/// What a push spends on checking what it is handed, with so many blocks held: a row with a mark is refused, with 4,
/// after the state and the held rows have been checked, and nothing else is done.
fn measure_checks(held: usize, lent: &mut Lent) {
    assert_eq!(start(0.1, lent).code, 0);
    for i in 0..held {
        let motion = if i == 0 { ASPLINE } else { 0 };
        assert_eq!(push(&block(motion, &[(0, i as f64), (1, 0.5), (2, 1.0)]), lent).code, 0);
    }
    let mut marked = block(0, &[]);
    marked[MARK] = 1;
    let mut best = 0f64;
    for _ in 0..ROUNDS {
        best = best.max(round(|| {
            timed(|| {
                for _ in 0..CALLS {
                    assert_eq!(push(black_box(&marked), lent).code, 4);
                }
                CALLS
            })
        }));
    }
    println!("| {held} | {:.0} |", 1e9 / best);
}

/// Rows per second where a row is only copied to each place, so many places a call: what no call that writes its rows
/// can pass.
fn measure_copies(places: usize, lent: &mut Lent) {
    let row = block(G1, &[(0, 1.0), (1, 0.5), (2, 1.0)]);
    let mut best = 0f64;
    for _ in 0..ROUNDS {
        best = best.max(round(|| {
            timed(|| {
                for _ in 0..CALLS {
                    for place in lent.rows.chunks_exact_mut(ROW_WORDS).take(places) {
                        place.copy_from_slice(black_box(&row));
                    }
                    black_box(&lent.rows);
                }
                CALLS * places as u64
            })
        }));
    }
    println!("| {places} | {best:.3e} | {:.1} |", best * (ROW_WORDS * 8) as f64 / 1e9);
}

// ---- the work

fn pass_through() -> Work {
    let blocks = (0..10_000).map(|i| block(if i == 0 { G1 } else { 0 }, &[(0, i as f64), (1, 0.5), (F, 1000.0)]));
    Work { name: "pass-through".into(), tolerance: 0.1, blocks: blocks.collect() }
}

/// Quarter turns there and back, of about so many rows each.
fn arcs(rows: usize) -> Work {
    let mut blocks = vec![block(G1, &[(0, 10.0), (1, 0.0)])];
    for _ in 0..(10_000 / rows).max(1) {
        blocks.push(block(G3, &[(0, 0.0), (1, 10.0), (I, -10.0), (I + 1, 0.0)]));
        blocks.push(block(G2, &[(0, 10.0), (1, 0.0), (I, 0.0), (I + 1, -10.0)]));
    }
    let step = std::f64::consts::FRAC_PI_2 / (rows as f64 - 0.5);
    Work { name: format!("arcs of {rows} rows"), tolerance: 10.0 * (1.0 - (step / 2.0).cos()), blocks }
}

/// A tolerance that gives about so many rows in all: they go with its inverse root.
fn tolerance_for(rows: u64, blocks: &[Row]) -> f64 {
    let mut tolerance: f64 = 1.0;
    for _ in 0..6 {
        let share = unchanged(tolerance, blocks.to_vec()) as f64 / rows as f64;
        tolerance *= (share * share).clamp(1e-3, 1e3);
    }
    tolerance
}

fn spline(name: &str, motion: u64, degree: u64, points: usize, rows: u64) -> Work {
    let mut blocks = vec![block(G1, &[(0, 0.0), (1, 0.0), (2, 0.0)])];
    for i in 1..=points {
        let t = i as f64;
        let mut row = block(0, &[(0, t * 10.0), (1, 50.0 * (t * 1.3).sin()), (2, 5.0 * (t * 0.7).cos())]);
        if i == 1 {
            row[MOTION] = motion;
            if degree != 3 {
                row[PRESENT] |= 1 << SD;
                row[CELL + SD] = (degree as f64).to_bits();
            }
        }
        blocks.push(row);
    }
    let mut work = Work { name: format!("{name}, {points} points, {rows} rows a block"), tolerance: 1.0, blocks };
    work.tolerance = tolerance_for(points as u64 * rows, &rust_blocks(&work));
    work
}

/// Moves, feeds, arcs and short splines by turns.
fn mixed() -> Work {
    let mut blocks = Vec::new();
    for i in 0..300 {
        let t = i as f64;
        blocks.push(block(G1, &[(0, t), (1, 0.0), (2, 0.0), (F, 800.0)]));
        blocks.push(block(0, &[(0, t + 10.0)]));
        blocks.push(block(G3, &[(0, t), (1, 10.0), (I, -10.0), (2, 1.0)]));
        blocks.push(block(0, &[(F, 600.0)]));
        for j in 1..=5 {
            let motion = if j == 1 { ASPLINE + i as u64 % 3 } else { 0 };
            blocks.push(block(motion, &[(0, t + 4.0 * j as f64), (1, 10.0 + 6.0 * (j as f64).sin())]));
        }
    }
    Work { name: "mixed program".into(), tolerance: 0.01, blocks }
}

fn main() {
    let quick = std::env::args().nth(1).is_some_and(|arg| arg == "quick");
    let mut lent =
        Lent { state: vec![0; STATE_WORDS], store: vec![0; MOST_HELD * ROW_WORDS], rows: vec![0; PLACES * ROW_WORDS] };
    println!("| work | rows | Rust rows/s | library rows/s | ratio |\n|---|---|---|---|---|");
    measure(&pass_through(), &mut lent);
    for rows in [6, 100, 10_000] {
        measure(&arcs(rows), &mut lent);
    }
    let kinds = [
        ("Akima", ASPLINE, 3),
        ("cubic", CSPLINE, 3),
        ("B-spline 3", BSPLINE, 3),
        ("B-spline 10", BSPLINE, 10),
        ("B-spline 50", BSPLINE, 50),
    ];
    for (name, motion, degree) in kinds {
        for points in [4, 30, MOST_HELD] {
            for rows in [2, 10, 100] {
                if !quick || points == 30 && rows == 10 {
                    measure(&spline(name, motion, degree, points, rows), &mut lent);
                }
            }
        }
    }
    measure(&mixed(), &mut lent);
    println!("\n| blocks held | ns to check state and held rows |\n|---|---|");
    for held in [0, 16, 64, MOST_HELD] {
        measure_checks(held, &mut lent);
    }
    println!("\n| rows a call | rows/s only copied | GB/s |\n|---|---|---|");
    for places in [6, 100, 10_000] {
        measure_copies(places, &mut lent);
    }
}
