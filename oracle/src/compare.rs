//! `compare CALLS WANT GOT`: the answers GOT held against WANT, the oracle's, for the same calls.
//! It stops at the first that disagrees and shows it; `compare --count CALLS WANT GOT` counts all that do.
//!
//! Everything must agree in every bit, except the two plane cells of an arc's marked rows: there rule 6.9 asks
//! 1e-11 * (1 + centre size + radius), where centre size is the larger of the two centre numbers' sizes and radius
//! the larger radius. What rule 6.10 leaves out is judged from the calls: centre, radii, sweep and step are computed
//! here. An excluded call that differs as it may is counted; should it leave two different states, the
//! rest of its sequence (to the next accepted `start`) is passed over.

mod calls;
mod words;

use calls::Call;
use std::f64::consts::TAU;
use std::fs::File;
use std::io::{BufRead, BufReader};
use words::*;

const MOST_ARC_ROWS: u64 = 100_000;

type Lines = std::io::Lines<BufReader<File>>;

/// One answer: its rows, and the lines after them.
#[derive(Default)]
struct Answer {
    rows: Vec<String>,
    rest: Vec<String>,
}

impl Answer {
    fn field(&self, name: &str) -> Option<u64> {
        let line = self.rest.iter().find(|line| line.split(' ').next() == Some(name))?;
        line.split(' ').nth(1)?.parse().ok()
    }

    fn refused(&self) -> u64 {
        self.field("refused").unwrap_or(0)
    }

    fn count(&self) -> u64 {
        self.field("done").unwrap_or(u64::MAX)
    }

    fn wanted(&self) -> u64 {
        let line = self.rest.iter().find(|line| line.starts_with("warn 6 "));
        line.and_then(|line| line[7..].parse().ok()).unwrap_or(0)
    }
}

fn next_answer(lines: &mut Lines) -> Option<Answer> {
    let mut answer = Answer::default();
    loop {
        let line = lines.next()?.ok()?;
        let last = line.starts_with("done ") || line.starts_with("bad ");
        if line.starts_with("row ") && answer.rest.is_empty() {
            answer.rows.push(line);
        } else {
            answer.rest.push(line);
        }
        if last {
            return Some(answer);
        }
    }
}

/// An arc that is flattened: what its exclusions and its distance need.
struct Arc {
    u: usize,
    v: usize,
    distance: f64,
    rows: u64,
    /// Sweep over step is about a whole number: rule 6.10.
    near_whole: bool,
    /// The sweep before TURN is about 0 or tau, and start and end are not the same: rule 6.10.
    near_turn: bool,
}

fn centre(lent: &Lent, row: &[u64], u: usize, v: usize, ends: [f64; 4]) -> Option<(f64, f64)> {
    let [su, sv, eu, ev] = ends;
    let (i, j) = (number(row, I + u), number(row, I + v));
    if i.is_some() || j.is_some() {
        return Some((su + i.unwrap_or(0.0), sv + j.unwrap_or(0.0)));
    }
    let cr = number(row, CR)?;
    let (du, dv) = (eu - su, ev - sv);
    let chord = (du * du + dv * dv).sqrt();
    let half = chord / 2.0;
    if chord < 1e-12 || cr.abs() < half - 1e-9 {
        return None;
    }
    let away = (cr * cr - half * half).max(0.0).sqrt();
    let left = (motion_then(lent, row) == G3) == (cr >= 0.0);
    let away = if left { away } else { -away };
    Some(((su + eu) / 2.0 - away * dv / chord, (sv + ev) / 2.0 + away * du / chord))
}

/// The arc that an accepted push flattens, or None where its block passes.
fn arc(lent: &Lent, row: &[u64]) -> Option<Arc> {
    let motion = motion_then(lent, row);
    let state = lent.state();
    if !matches!(motion, G2 | G3) {
        return None;
    }
    let plane = if row[PLANE] == 0 { state[W_PLANE] } else { row[PLANE] };
    let (u, v) = match plane {
        18 => (2, 0),
        19 => (1, 2),
        _ => (0, 1),
    };
    let offset = [I + u, I + v, CR].iter().any(|&k| has(row[PRESENT], k));
    if !has_point(state, row) && !offset {
        return None;
    }
    let (su, sv) = (position(state, u)?, position(state, v)?);
    let (eu, ev) = (number(row, u).unwrap_or(su), number(row, v).unwrap_or(sv));
    let (cu, cv) = centre(lent, row, u, v, [su, sv, eu, ev])?;
    let from = ((su - cu) * (su - cu) + (sv - cv) * (sv - cv)).sqrt();
    let to = ((eu - cu) * (eu - cu) + (ev - cv) * (ev - cv)).sqrt();
    if from < 1e-9 || to < 1e-9 {
        return None;
    }
    let radius = from.max(to);
    let turn = ((ev - cv).atan2(eu - cu) - (sv - cv).atan2(su - cu)).rem_euclid(TAU);
    let agree = (eu - su).abs() < 1e-9 && (ev - sv).abs() < 1e-9;
    let mut sweep = if turn < 1e-12 && agree { TAU } else { turn };
    if motion == G2 {
        sweep -= TAU;
        if agree && sweep > -1e-12 {
            sweep = -TAU;
        }
    }
    let extra = number(row, TURN).map_or(0.0, |turns| turns.max(0.0).round());
    sweep += if motion == G2 { -TAU * extra } else { TAU * extra };
    let step = 2.0 * (1.0 - f64::from_bits(state[0]) / radius).clamp(-1.0, 1.0).acos();
    let quotient = sweep.abs() / step;
    let wanted = if step > 1e-12 { quotient.ceil() as u64 } else { 1 };
    let margin = (1e-9 * quotient).max(1e-14 / step);
    Some(Arc {
        u,
        v,
        distance: 1e-11 * (1.0 + cu.abs().max(cv.abs()) + radius),
        rows: wanted.clamp(1, MOST_ARC_ROWS),
        near_whole: step > 1e-12 && (quotient - quotient.round()).abs() <= margin,
        near_turn: !(su == eu && sv == ev) && (turn < 1e-9 || TAU - turn < 1e-9),
    })
}

/// A row line's five fields, presence and cells.
fn row_fields(line: &str) -> Option<([&str; 6], Vec<u64>)> {
    let mut fields = line.strip_prefix("row ")?.split(' ');
    let mut head = [""; 6];
    for field in &mut head {
        *field = fields.next()?;
    }
    let present = u64::from_str_radix(head[5], 16).ok()?;
    let mut cells = vec![0; CELLS];
    for k in (0..CELLS).filter(|&k| has(present, k)) {
        cells[k] = u64::from_str_radix(fields.next()?, 16).ok()?;
    }
    fields.next().is_none().then_some((head, cells))
}

/// The share of the distance that two marked arc rows are apart, or None where they disagree.
fn share(want: &str, got: &str, arc: &Arc) -> Option<f64> {
    let (want_head, mut want_cells) = row_fields(want)?;
    let (got_head, mut got_cells) = row_fields(got)?;
    let marked = want_head[3] == "1";
    if want_head != got_head || !marked {
        return None;
    }
    let mut worst: f64 = 0.0;
    for k in [arc.u, arc.v] {
        let apart = (f64::from_bits(want_cells[k]) - f64::from_bits(got_cells[k])).abs();
        worst = worst.max(apart / arc.distance);
        (want_cells[k], got_cells[k]) = (0, 0);
    }
    (want_cells == got_cells && worst <= 1.0).then_some(worst)
}

#[derive(Default)]
struct Tally {
    calls: u64,
    rows: u64,
    arc_rows: u64,
    zones: u64,
    excluded: u64,
    passed_over: u64,
    worst: f64,
    different: u64,
    sequences: u64,
    different_sequences: u64,
}

enum Verdict {
    Same,
    /// They differ where they may; true where the states part too.
    Excluded(bool),
    Different,
}

fn judge(want: &Answer, got: &Answer, arc: Option<&Arc>, tally: &mut Tally) -> Verdict {
    let Some(arc) = arc else {
        return if want.rows == got.rows && want.rest == got.rest { Verdict::Same } else { Verdict::Different };
    };
    if want.rest == got.rest && want.rows.len() == got.rows.len() {
        let mut worst: f64 = 0.0;
        let first = want.rows.len() - (arc.rows as usize).min(want.rows.len());
        let agree = want.rows.iter().zip(&got.rows).enumerate().all(|(i, (want, got))| {
            let near = if i < first { None } else { share(want, got, arc) };
            worst = worst.max(near.unwrap_or(0.0));
            want == got || near.is_some()
        });
        if agree {
            tally.worst = tally.worst.max(worst);
            tally.arc_rows += arc.rows.min(want.rows.len() as u64);
            return Verdict::Same;
        }
    }
    let by_one = want.count().abs_diff(got.count()) <= 1 && want.wanted().abs_diff(got.wanted()) <= 1;
    if (arc.near_turn || arc.near_whole && by_one) && agree_apart_from_samples(want, got, arc) {
        Verdict::Excluded((want.refused() == 0) != (got.refused() == 0))
    } else {
        Verdict::Different
    }
}

/// What no exclusion covers: the rows of a spline that the call emits first, and an arc's end.
fn agree_apart_from_samples(want: &Answer, got: &Answer, arc: &Arc) -> bool {
    if want.rows.is_empty() || got.rows.is_empty() {
        return matches!((want.refused(), got.refused()), (0 | 7, 0 | 7));
    }
    let emitted = want.rows.len().saturating_sub(arc.rows as usize);
    let one_row = want.rows.len() == emitted + 1 || got.rows.len() <= emitted + 1;
    got.rows.len() > emitted
        && want.rows[..emitted] == got.rows[..emitted]
        && (one_row || want.rows.last() == got.rows.last())
        && want.field("held") == got.field("held")
}

/// What the accepted call leaves in the words.
fn follow(lent: &mut Lent, call: &Call, accepted: bool) {
    match call {
        Call::Room(n) => lent.room = *n,
        Call::Blocks(n) => lent.blocks = *n,
        Call::Length(n) => lent.length = *n,
        Call::Poke(i, word) => lent.state[*i] = *word,
        Call::PokeStore(i, word) => lent.store[*i] = *word,
        _ if !accepted => {}
        Call::Start(tolerance, axes) => started(lent, *tolerance, axes),
        Call::Seed(axis, bits) => seeded(lent, *axis, *bits),
        Call::Push(row) => pushed(lent, row),
        Call::Close => closed(lent),
    }
}

fn is_answered(call: &Call) -> bool {
    matches!(call, Call::Start(..) | Call::Seed(..) | Call::Push(_) | Call::Close)
}

fn show(name: &str, answer: Option<&Answer>) {
    println!("{name}:");
    let Some(answer) = answer else {
        println!("  no answer");
        return;
    };
    let most = 6;
    for line in answer.rows.iter().take(most) {
        println!("  {line}");
    }
    if answer.rows.len() > most {
        println!("  .. {} rows in all", answer.rows.len());
    }
    for line in &answer.rest {
        println!("  {line}");
    }
}

fn show_first_row(want: &Answer, got: &Answer) {
    let differs = want.rows.iter().zip(&got.rows).position(|(want, got)| want != got);
    if let Some(i) = differs {
        println!("first rows that are not the same text, number {}:", i + 1);
        println!("  want {}\n  got  {}", want.rows[i], got.rows[i]);
    }
}

fn open(path: &str) -> Lines {
    match File::open(path) {
        Ok(file) => BufReader::new(file).lines(),
        Err(error) => {
            eprintln!("{path}: {error}");
            std::process::exit(2);
        }
    }
}

fn disagree(at: usize, line: &str, want: Option<&Answer>, got: Option<&Answer>, sequence: &str) -> ! {
    println!("DIFFERENT at line {at} of the calls ({sequence}):\n  {line}");
    show("want", want);
    show("got", got);
    if let (Some(want), Some(got)) = (want, got) {
        show_first_row(want, got);
    }
    std::process::exit(1);
}

fn main() {
    let mut args: Vec<String> = std::env::args().skip(1).collect();
    let counting = args.first().is_some_and(|arg| arg == "--count");
    if counting {
        args.remove(0);
    }
    let [calls, want, got] = &args[..] else {
        eprintln!("compare [--count] CALLS WANT GOT");
        std::process::exit(2);
    };
    let (mut wants, mut gots) = (open(want), open(got));
    let mut lent = Lent::new();
    let mut tally = Tally::default();
    let mut parted = false;
    let mut sequence = "no sequence named".to_string();
    let mut last_different = String::new();
    for (i, line) in open(calls).enumerate() {
        let line = line.expect("calls");
        if calls::is_comment(&line) {
            sequence = line;
            tally.sequences += 1;
            continue;
        }
        let call = calls::read(&line);
        if call.as_ref().is_some_and(|call| !is_answered(call)) {
            follow(&mut lent, &call.unwrap(), true);
            continue;
        }
        tally.calls += 1;
        let answers = (next_answer(&mut wants), next_answer(&mut gots));
        let (Some(want), Some(got)) = &answers else {
            disagree(i + 1, &line, answers.0.as_ref(), answers.1.as_ref(), &sequence);
        };
        let accepted = want.refused() == 0;
        if parted && !(matches!(call, Some(Call::Start(..))) && accepted) {
            tally.passed_over += 1;
            continue;
        }
        parted = false;
        tally.rows += want.rows.len() as u64;
        let reached = accepted || want.refused() == 7;
        let arc = match &call {
            Some(Call::Push(row)) if reached => arc(&lent, row),
            _ => None,
        };
        if arc.as_ref().is_some_and(|arc| arc.near_turn || arc.near_whole) {
            tally.zones += 1;
        }
        match judge(want, got, arc.as_ref(), &mut tally) {
            Verdict::Same => {}
            Verdict::Excluded(apart) => {
                tally.excluded += 1;
                parted = apart;
            }
            Verdict::Different if counting => {
                tally.different += 1;
                tally.different_sequences += u64::from(last_different != sequence);
                last_different.clone_from(&sequence);
            }
            Verdict::Different => disagree(i + 1, &line, Some(want), Some(got), &sequence),
        }
        if let Some(call) = &call {
            follow(&mut lent, call, accepted);
        }
    }
    if wants.next().is_some() || gots.next().is_some() {
        println!("DIFFERENT: answers beyond the last call");
        std::process::exit(1);
    }
    if counting {
        println!(
            "different: calls {} of {} sequences {} of {}",
            tally.different, tally.calls, tally.different_sequences, tally.sequences
        );
        std::process::exit(i32::from(tally.different > 0));
    }
    println!(
        "same: calls {} rows {} arc-rows {} excludable {} excluded {} passed-over {} worst-share {:.3e}",
        tally.calls, tally.rows, tally.arc_rows, tally.zones, tally.excluded, tally.passed_over, tally.worst
    );
}
