//! Runs the calls of docs/INTERFACE.md's `replay` on the unchanged Rust and writes its answers.
//!
//! The module `flatten` is docs/src/src/flatten.rs byte for byte. The refusals are judged here, from the
//! words alone, before the Rust is called; 7 from the rows that the Rust gives. The words are the state; the Rust's
//! `Flattener` only runs beside them and is made again from them after a poke or a refused 7. Every valid state can
//! be made again exactly (see rust.rs). `oracle --rebuild` makes it again before every call: the answers must agree.

mod calls;
mod errors;
#[path = "../../docs/src/src/flatten.rs"]
mod flatten;
mod output;
mod rust;
mod state;
mod types;
mod words;

use calls::Call;
use flatten::Flattener;
use output::Row;
use rust::Said;
use std::fmt::Write as _;
use std::io::{BufRead, Write};
use words::*;

struct Answer {
    code: u64,
    count: usize,
    rows: Vec<Row>,
    said: Said,
}

fn refused(code: u64, count: usize) -> Answer {
    Answer { code, count, rows: Vec::new(), said: Said::default() }
}

fn done(rows: Vec<Row>, said: Said) -> Answer {
    Answer { code: 0, count: rows.len(), rows, said }
}

struct Oracle {
    lent: Lent,
    /// The Rust in the state of `lent`; None where it has to be made again.
    rust: Option<Flattener>,
    /// Made again with blocks held: what follows an emission needs one made after it.
    partial: bool,
    rebuild: bool,
}

impl Oracle {
    fn live(&mut self) -> &mut Flattener {
        if self.rebuild {
            self.rust = None;
        }
        if self.rust.is_none() {
            self.rust = Some(rust::rebuilt(&self.lent));
            self.partial = self.lent.held() > 0;
        }
        self.rust.as_mut().unwrap()
    }

    fn start(&mut self, tolerance: u64, axes: &[u64]) -> Answer {
        let code = start_check(&self.lent, tolerance, axes);
        if code != 0 {
            return refused(code, 0);
        }
        started(&mut self.lent, tolerance, axes);
        self.rust = Some(rust::fresh(tolerance, axes));
        self.partial = false;
        done(Vec::new(), rust::said())
    }

    fn seed(&mut self, axis: u64, bits: u64) -> Answer {
        let code = seed_check(&self.lent, axis, bits);
        if code != 0 {
            return refused(code, 0);
        }
        // A seed may come with a store that 8 refuses: the words take it, the Rust only where it runs already.
        if let Some(flattener) = self.rust.as_mut() {
            rust::seed(flattener, axis as usize, bits);
        }
        seeded(&mut self.lent, axis, bits);
        done(Vec::new(), rust::said())
    }

    fn push(&mut self, row: &[u64]) -> Answer {
        let code = push_check(&self.lent, row);
        if code != 0 {
            return refused(code, 0);
        }
        let mut out = Vec::new();
        self.live();
        if self.partial && emits(&self.lent, row) {
            self.live().finish(&mut out);
            let mut after = self.lent.clone();
            emitted(&mut after);
            self.rust = Some(rust::rebuilt(&after));
            self.partial = false;
        }
        self.rust.as_mut().unwrap().push(rust::rust_row(row), &mut out);
        self.answer(out, |lent| pushed(lent, row))
    }

    fn close(&mut self) -> Answer {
        let code = saved_check(&self.lent);
        if code != 0 {
            return refused(code, 0);
        }
        let mut out = Vec::new();
        self.live().finish(&mut out);
        if self.partial {
            self.rust = None;
        }
        self.answer(out, closed)
    }

    fn answer(&mut self, out: Vec<Row>, accept: impl Fn(&mut Lent)) -> Answer {
        let said = rust::said();
        if out.len() > self.lent.room {
            self.rust = None;
            return refused(7, out.len());
        }
        accept(&mut self.lent);
        done(out, said)
    }

    fn call(&mut self, call: Call) -> Option<Answer> {
        match call {
            Call::Start(tolerance, axes) => return Some(self.start(tolerance, &axes)),
            Call::Seed(axis, bits) => return Some(self.seed(axis, bits)),
            Call::Push(row) => return Some(self.push(&row)),
            Call::Close => return Some(self.close()),
            Call::Room(n) => self.lent.room = n,
            Call::Blocks(n) => self.lent.blocks = n,
            Call::Length(n) => self.lent.length = n,
            Call::Poke(i, word) => {
                self.lent.state[i] = word;
                self.rust = None;
            }
            Call::PokeStore(i, word) => {
                self.lent.store[i] = word;
                self.rust = None;
            }
        }
        None
    }
}

fn write_answer(answer: &Answer, out: &mut String) {
    for row in &answer.rows {
        calls::write_row(&rust::row_words(row), out);
    }
    let said = &answer.said;
    if said.warning != 0 {
        let _ = writeln!(out, "warn {} {}", said.warning, said.wanted);
    }
    if said.held != 0 {
        let _ = writeln!(out, "held {:x}", said.held);
    }
    if answer.code != 0 {
        let _ = writeln!(out, "refused {}", answer.code);
    }
    let _ = writeln!(out, "done {}", answer.count);
}

fn main() {
    let rebuild = std::env::args().any(|arg| arg == "--rebuild");
    let mut oracle = Oracle { lent: Lent::new(), rust: None, partial: false, rebuild };
    let mut output = std::io::BufWriter::with_capacity(1 << 16, std::io::stdout().lock());
    let mut text = String::new();
    for (i, line) in std::io::stdin().lock().lines().enumerate() {
        let line = line.expect("standard input");
        if calls::is_comment(&line) {
            continue;
        }
        text.clear();
        match calls::read(&line) {
            None => text = format!("bad {}\n", i + 1),
            Some(call) => {
                if let Some(answer) = oracle.call(call) {
                    write_answer(&answer, &mut text);
                }
            }
        }
        output.write_all(text.as_bytes()).expect("standard output");
    }
    output.flush().expect("standard output");
}
