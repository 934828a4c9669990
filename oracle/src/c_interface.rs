//! The unchanged Rust behind the four C functions of docs/INTERFACE.md: what `fuzz` and the hosts link when there
//! is no archive, and a check that the two readings of docs/RULES.md (words.rs and fuzz/src/model.rs) agree.

mod errors;
#[path = "../../docs/src/src/flatten.rs"]
mod flatten;
mod output;
#[path = "../../hosts/rust/src/raw.rs"]
mod raw;
mod rust;
mod state;
mod types;
mod words;

use output::Row;
use raw::Reply;
use rust::Said;
use words::*;

fn reply(code: u64, count: usize, said: Said) -> Reply {
    Reply { code, count: count as u64, warning: said.warning, wanted: said.wanted, held: said.held }
}

fn plain_reply(code: u64) -> Reply {
    reply(code, 0, Said::default())
}

/// The lent words in the form that words.rs judges; a longer state is as wrong as one of 64 words.
fn lent(state: &[u64], store: &[u64]) -> Lent {
    let mut lent = Lent::new();
    lent.length = state.len().min(MOST_LENGTH);
    lent.state[..lent.length].copy_from_slice(&state[..lent.length]);
    let words = store.len().min(lent.store.len());
    lent.blocks = words / ROW_WORDS;
    lent.store[..words].copy_from_slice(&store[..words]);
    lent
}

fn give_back(lent: &Lent, state: &mut [u64]) {
    let words = state.len();
    state.copy_from_slice(&lent.state[..words]);
}

/// # Safety
/// The pointer is of that many words that nobody else uses.
unsafe fn slice<'a>(at: *mut u64, words: usize) -> &'a mut [u64] {
    unsafe { std::slice::from_raw_parts_mut(at, words) }
}

#[no_mangle]
pub unsafe extern "C" fn flat_start(
    state: *mut u64,
    words: usize,
    tolerance: u64,
    axes: *const u64,
    n: usize,
) -> Reply {
    let (state, axes) = unsafe { (slice(state, words), std::slice::from_raw_parts(axes, n)) };
    let mut lent = lent(state, &[]);
    let code = start_check(&lent, tolerance, axes);
    if code == 0 {
        started(&mut lent, tolerance, axes);
        give_back(&lent, state);
    }
    plain_reply(code)
}

#[no_mangle]
pub unsafe extern "C" fn flat_seed(state: *mut u64, words: usize, axis: u64, bits: u64) -> Reply {
    let state = unsafe { slice(state, words) };
    let mut lent = lent(state, &[]);
    let code = seed_check(&lent, axis, bits);
    if code == 0 {
        seeded(&mut lent, axis, bits);
        give_back(&lent, state);
    }
    plain_reply(code)
}

/// The rows go out where there is room for all.
fn written(out: &[Row], rows: &mut [u64]) -> Reply {
    let said = rust::said();
    if out.len() > rows.len() / ROW_WORDS {
        return reply(7, out.len(), Said::default());
    }
    for (row, place) in out.iter().zip(rows.chunks_exact_mut(ROW_WORDS)) {
        place.copy_from_slice(&rust::row_words(row));
    }
    reply(0, out.len(), said)
}

#[no_mangle]
pub unsafe extern "C" fn flat_push(
    state: *mut u64,
    words: usize,
    store: *mut u64,
    store_words: usize,
    rows: *mut u64,
    row_words: usize,
    row: *const u64,
    this_row_words: usize,
) -> Reply {
    let (state, store, rows) = unsafe { (slice(state, words), slice(store, store_words), slice(rows, row_words)) };
    let row = unsafe { std::slice::from_raw_parts(row, this_row_words) };
    let mut lent = lent(state, store);
    let code = push_check(&lent, row);
    if code != 0 {
        return plain_reply(code);
    }
    let mut out = Vec::new();
    let mut flattener = rust::rebuilt(&lent);
    if emits(&lent, row) {
        flattener.finish(&mut out);
        let mut after = lent.clone();
        emitted(&mut after);
        flattener = rust::rebuilt(&after);
    }
    flattener.push(rust::rust_row(row), &mut out);
    let reply = written(&out, rows);
    if reply.code == 0 {
        pushed(&mut lent, row);
        give_back(&lent, state);
        let words = store.len().min(lent.store.len());
        store[..words].copy_from_slice(&lent.store[..words]);
    }
    reply
}

#[no_mangle]
pub unsafe extern "C" fn flat_close(
    state: *mut u64,
    words: usize,
    store: *const u64,
    store_words: usize,
    rows: *mut u64,
    row_words: usize,
) -> Reply {
    let (state, rows) = unsafe { (slice(state, words), slice(rows, row_words)) };
    let mut lent = lent(state, unsafe { std::slice::from_raw_parts(store, store_words) });
    let code = saved_check(&lent);
    if code != 0 {
        return plain_reply(code);
    }
    let mut out = Vec::new();
    rust::rebuilt(&lent).finish(&mut out);
    let reply = written(&out, rows);
    if reply.code == 0 {
        closed(&mut lent);
        give_back(&lent, state);
    }
    reply
}
