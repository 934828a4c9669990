//! `fuzz N [SEED]`: N random or damaged states, stores and rows thrown at the four exported calls.
//!
//! All lent memory stands between canary words. After each call the number, the state, the store, the row places
//! beyond those written, and every canary are held against the model; a reply of 7 is asked again with one place or
//! one word too few and with just enough. An emission whose tolerance is tiny against its numbers would run for
//! minutes, as it may: such a call is not made, and is counted. A long run must have met every bound of BOUNDS.

mod model;
#[path = "../../hosts/rust/src/raw.rs"]
mod raw;

use model::*;
use raw::{flat_close, flat_push, flat_seed, flat_start, Reply};

struct Rng(u64);

impl Rng {
    fn next(&mut self) -> u64 {
        self.0 ^= self.0 << 13;
        self.0 ^= self.0 >> 7;
        self.0 ^= self.0 << 17;
        self.0.wrapping_mul(0x2545_F491_4F6C_DD1D)
    }

    fn below(&mut self, n: u64) -> u64 {
        (self.next() >> 16) % n
    }

    fn one_in(&mut self, n: u64) -> bool {
        self.below(n) == 0
    }
}

const GUARD: usize = 64;
const CANARY: u64 = 0xC0FF_EE00_DEAD_BEEF;

/// Words to lend, with canaries on both sides.
struct Lent {
    all: Vec<u64>,
}

impl Lent {
    fn new(words: &[u64]) -> Self {
        let mut all = vec![CANARY; GUARD];
        all.extend_from_slice(words);
        all.resize(all.len() + GUARD, CANARY);
        Lent { all }
    }

    fn len(&self) -> usize {
        self.all.len() - 2 * GUARD
    }

    fn pointer(&mut self) -> *mut u64 {
        self.all[GUARD..].as_mut_ptr()
    }

    fn words(&self) -> &[u64] {
        &self.all[GUARD..self.all.len() - GUARD]
    }

    fn is_guarded(&self) -> bool {
        let end = self.all.len() - GUARD;
        self.all[..GUARD].iter().chain(&self.all[end..]).all(|&word| word == CANARY)
    }
}

#[derive(Clone, Debug)]
enum Call {
    Start(u64, Vec<u64>),
    Seed(u64, u64),
    Push(Vec<u64>),
    Close,
}

#[derive(Clone, Debug)]
struct Case {
    call: Call,
    state: Vec<u64>,
    store: Vec<u64>,
    row_words: usize,
}

const PLACES: u64 = 0x5EED;

/// Makes the call on guarded copies, and says what it answered and left.
fn run(case: &Case) -> (Reply, Vec<u64>, Vec<u64>, Vec<u64>) {
    let mut state = Lent::new(&case.state);
    let mut store = Lent::new(&case.store);
    let mut rows = Lent::new(&vec![PLACES; case.row_words]);
    let given = match &case.call {
        Call::Start(_, words) | Call::Push(words) => words.clone(),
        _ => Vec::new(),
    };
    let mut lent = Lent::new(&given);
    let (words, store_words, row_words, count) = (state.len(), store.len(), rows.len(), lent.len());
    let (s, t, r, l) = (state.pointer(), store.pointer(), rows.pointer(), lent.pointer());
    // Each pointer is of a live vector of its own, as long as the length beside it.
    let reply = unsafe {
        match &case.call {
            Call::Start(tolerance, _) => flat_start(s, words, *tolerance, l, count),
            Call::Seed(axis, bits) => flat_seed(s, words, *axis, *bits),
            Call::Push(_) => flat_push(s, words, t, store_words, r, row_words, l, count),
            Call::Close => flat_close(s, words, t, store_words, r, row_words),
        }
    };
    for (name, lent) in [("state", &state), ("store", &store), ("rows", &rows), ("row or list", &lent)] {
        must(lent.is_guarded(), &format!("a canary beside the {name} was changed"), case, &reply);
    }
    must(lent.words() == given, "a row or list that was only lent for reading was changed", case, &reply);
    (reply, state.words().to_vec(), store.words().to_vec(), rows.words().to_vec())
}

fn must(holds: bool, what: &str, case: &Case, reply: &Reply) {
    if !holds {
        println!("WRONG: {what}\nreply {reply:?}\ncall {:?}", case.call);
        println!("state {:x?}\nstore words {}, row words {}", case.state, case.store.len(), case.row_words);
        println!("store begins {:x?}", &case.store[..case.store.len().min(3 * ROW)]);
        std::process::exit(1);
    }
}

fn expected(case: &Case) -> Expected {
    match &case.call {
        Call::Start(tolerance, axes) => model::start(&case.state, *tolerance, axes),
        Call::Seed(axis, bits) => model::seed(&case.state, *axis, *bits),
        Call::Push(row) => model::push(&case.state, &case.store, row),
        Call::Close => model::close(&case.state, &case.store),
    }
}

/// A reply of 7 is asked again with room; more than this many rows are left at that.
const MOST_ROWS: u64 = 120_000;

fn check(case: &Case, tally: &mut Tally) {
    let want = expected(case);
    if want.code == 0 && would_run_long(case, &want) {
        tally.left_out += 1;
        return;
    }
    let (reply, state, store, rows) = run(case);
    for (name, is_met) in BOUNDS {
        *tally.met.entry(name).or_default() += u64::from(is_met(case, &reply));
    }
    let places = (case.row_words / ROW) as u64;
    tally.codes[reply.code.min(10) as usize] += 1;
    if want.code != 0 || reply.code == 7 {
        let code = if want.code == 0 { 7 } else { want.code };
        must(reply.code == code, &format!("the number is not {code}"), case, &reply);
        must((reply.warning, reply.wanted, reply.held) == (0, 0, 0), "a refusal that says more", case, &reply);
        must(state == case.state && store == case.store, "a refusal changed the state or the store", case, &reply);
        must(rows.iter().all(|&word| word == PLACES), "a refusal wrote rows", case, &reply);
        if code != 7 {
            must(reply.count == 0, "a refusal with a count", case, &reply);
            return;
        }
        let fits = want.rows.0 <= reply.count && reply.count <= want.rows.1;
        must(fits && reply.count > places, "7 with a count that is not so", case, &reply);
        ask_again(case, &reply, tally);
        return;
    }
    must(reply.code == 0, "the number is not 0", case, &reply);
    must(reply.count <= places, "0 with more rows than places", case, &reply);
    must(want.rows.0 <= reply.count && reply.count <= want.rows.1, "an impossible count", case, &reply);
    must(want.warnings.contains(&reply.warning), "an impossible warning", case, &reply);
    must((reply.wanted > MOST_ARC_ROWS) == (reply.warning == 6), "a wanted count without 6", case, &reply);
    must((reply.wanted == 0) == (reply.warning != 6), "a wanted count without 6", case, &reply);
    must(reply.held & !want.may_hold == 0, "an axis held that is not held", case, &reply);
    must(state == want.state, "the state's words", case, &reply);
    must(store == want.store || matches!(case.call, Call::Start(..) | Call::Seed(..)), "the store", case, &reply);
    let written = reply.count as usize * ROW;
    must(rows[written..].iter().all(|&word| word == PLACES), "a place beyond the rows", case, &reply);
    must(rows[..written].chunks_exact(ROW).all(is_row), "what was written is no row", case, &reply);
    tally.rows += reply.count;
}

fn is_row(row: &[u64]) -> bool {
    let finite = |k: usize| f64::from_bits(row[FIRST + k]).is_finite();
    let absent = |k: usize| row[PRESENT] >> k & 1 == 0;
    let shape = row[LINE] >> 32 == 0 && row[WORD] <= LAST_MOTION && row[MARK] <= 1 && row[PRESENT] >> CELLS == 0;
    shape && (0..CELLS).all(|k| if absent(k) { row[FIRST + k] == 0 } else { finite(k) })
}

fn ask_again(case: &Case, reply: &Reply, tally: &mut Tally) {
    if reply.count > MOST_ROWS {
        return;
    }
    let with = |row_words: usize| Case { row_words, ..case.clone() };
    let needed = reply.count as usize * ROW;
    for row_words in [needed - ROW, needed - 1] {
        let (few, ..) = run(&with(row_words));
        must(few == *reply, "one place or word too few, and another reply", case, &few);
    }
    let (enough, ..) = run(&with(needed));
    must(enough.code == 0 && enough.count == reply.count, "as many places as asked for, and no rows", case, &enough);
    tally.asked_again += 1;
}

/// An emission, or an arc, is as long as its numbers are large against the tolerance.
fn would_run_long(case: &Case, want: &Expected) -> bool {
    if want.rows.1 <= MOST_ARC_ROWS {
        return false;
    }
    let held = case.state[HELD] as usize;
    let size = |bits: u64| if model::is_small(bits) { f64::from_bits(bits).abs() } else { 0.0 };
    let cells = case.store[..held * ROW].chunks_exact(ROW).flat_map(|row| row[FIRST..FIRST + AXES].iter());
    let most = cells.chain(&case.state[START + 1..START + POINT]).map(|&bits| size(bits)).fold(0.0, f64::max);
    f64::from_bits(case.state[0]) < 1e-6 * most
}

#[derive(Default)]
struct Tally {
    codes: [u64; 11],
    rows: u64,
    asked_again: u64,
    left_out: u64,
    met: std::collections::BTreeMap<&'static str, u64>,
}

// ---- what a long run must meet: the bounds of 2, 4 and 9, on either side

type Bound = (&'static str, fn(&Case, &Reply) -> bool);

const LAST_CODE: u64 = LISTED as u64 - 1;
/// N, the first code behind the axes: no position has its bit.
const FIRST_RIDER: usize = AXES;
const LAST_BIT: usize = CELLS - 1;
const COUNT: usize = 1;

const BOUNDS: [Bound; 30] = [
    ("start: a list as long as it may be", |case, reply| reply.code == 0 && listed(case, |list| list.len() == LISTED)),
    ("start: a list one longer", |case, reply| reply.code == 2 && listed(case, is_one_longer)),
    ("start: the last code", |case, reply| reply.code == 0 && listed(case, |list| list.contains(&LAST_CODE))),
    ("start: a code one higher", |case, reply| reply.code == 2 && listed(case, |list| only_fault(list, LAST_CODE + 1))),
    ("start: a code two higher", |case, reply| reply.code == 2 && listed(case, |list| only_fault(list, LAST_CODE + 2))),
    ("seed: the last axis", |case, reply| reply.code == 0 && is_seed(case, AXES as u64 - 1)),
    ("seed: the last code", |case, reply| reply.code == 0 && is_seed(case, LAST_CODE)),
    ("seed: a code one higher", |case, reply| reply.code == 2 && is_seed(case, LAST_CODE + 1)),
    ("seed: a code two higher", |case, reply| reply.code == 2 && is_seed(case, LAST_CODE + 2)),
    ("row: the last bit", |case, reply| reply.code == 0 && pushed(case, |row| row[PRESENT] >> LAST_BIT == 1)),
    ("row: a bit one higher", |case, reply| reply.code == 4 && pushed(case, |row| only_bit(row, LAST_BIT + 1))),
    ("row: a bit two higher or more", |case, reply| {
        reply.code == 4 && pushed(case, |row| (LAST_BIT + 2..64).any(|k| only_bit(row, k)))
    }),
    ("row: as long as before", |case, reply| reply.code == 4 && pushed(case, |row| row.len() == ROW_BEFORE)),
    ("row: a word short", |case, reply| reply.code == 4 && pushed(case, |row| row.len() == ROW - 1)),
    ("row: a word long", |case, reply| reply.code == 4 && pushed(case, |row| row.len() == ROW + 1)),
    ("start: a state of before", |case, reply| is_state_before(case, reply) && matches!(case.call, Call::Start(..))),
    ("seed: a state of before", |case, reply| is_state_before(case, reply) && matches!(case.call, Call::Seed(..))),
    ("push: a state of before", |case, reply| is_state_before(case, reply) && matches!(case.call, Call::Push(_))),
    ("close: a state of before", |case, reply| is_state_before(case, reply) && matches!(case.call, Call::Close)),
    ("state: a word short", |case, reply| reply.code == 9 && is_state_of(case, STATE - 1)),
    ("state: a word long", |case, reply| reply.code == 9 && is_state_of(case, STATE + 1)),
    ("state: a list as long as it may be", |case, reply| read(case, reply) && case.state[COUNT] == LISTED as u64),
    ("state: a list one longer", |case, reply| only_word(case, reply, COUNT, LISTED as u64 + 1, LISTED as u64)),
    ("state: a code one higher", |case, reply| is_code_in_state(case, reply, LAST_CODE + 1)),
    ("state: a position of the last axis", |case, reply| read(case, reply) && case.state[KNOWN] >> (AXES - 1) == 1),
    ("state: a position one higher", |case, reply| is_mask_over(case, reply, KNOWN)),
    ("state: a curve start of the last axis", |case, reply| read(case, reply) && case.state[START] >> (AXES - 1) == 1),
    ("state: a curve start one higher", |case, reply| is_mask_over(case, reply, START)),
    ("store: a bit one higher", |case, reply| is_held_bit_over(case, reply)),
    ("reply: a held axis that is new", |_, reply| reply.held >> AXES_BEFORE != 0),
];

fn listed(case: &Case, holds: fn(&[u64]) -> bool) -> bool {
    matches!(&case.call, Call::Start(_, list) if holds(list))
}

fn pushed(case: &Case, holds: fn(&[u64]) -> bool) -> bool {
    matches!(&case.call, Call::Push(row) if holds(row))
}

fn is_seed(case: &Case, code: u64) -> bool {
    matches!(case.call, Call::Seed(axis, _) if axis == code)
}

/// A list that is good up to its last code, and is too long by it.
fn is_one_longer(list: &[u64]) -> bool {
    list.len() == LISTED + 1 && model::list_is_good(&list[..LISTED])
}

/// A list that is good but for this code.
fn only_fault(list: &[u64], code: u64) -> bool {
    let rest: Vec<u64> = list.iter().copied().filter(|&other| other != code).collect();
    list.len() == rest.len() + 1 && list.len() <= LISTED && model::list_is_good(&rest)
}

/// A row that is good but for this bit.
fn only_bit(row: &[u64], k: usize) -> bool {
    row.len() == ROW
        && row[PRESENT] >> k & 1 == 1
        && model::row_fault(&with(row, PRESENT, row[PRESENT] & !(1 << k))) == 0
}

fn with(words: &[u64], at: usize, word: u64) -> Vec<u64> {
    let mut words = words.to_vec();
    words[at] = word;
    words
}

/// The state's own words were read, and are good.
fn read(case: &Case, reply: &Reply) -> bool {
    !matches!(case.call, Call::Start(..)) && reply.code != 9 && case.state.len() == STATE
}

fn is_state_before(case: &Case, reply: &Reply) -> bool {
    reply.code == 9 && case.state.len() == STATE_BEFORE
}

/// A state that is good but for this length.
fn is_state_of(case: &Case, length: usize) -> bool {
    let mut words = case.state.clone();
    words.resize(STATE, 0);
    case.state.len() == length && model::saved(&words).is_some()
}

/// 9 for this word at this place: with the other one the state is good.
fn only_word(case: &Case, reply: &Reply, at: usize, word: u64, other: u64) -> bool {
    reply.code == 9
        && case.state.len() == STATE
        && case.state[at] == word
        && model::saved(&with(&case.state, at, other)).is_some()
}

/// 9 for this code in the list, which is good with the last one in its place.
fn is_code_in_state(case: &Case, reply: &Reply, code: u64) -> bool {
    reply.code == 9 && (LIST..LIST + LISTED).any(|at| only_word(case, reply, at, code, LAST_CODE))
}

/// 9 for the bit behind those of the axes, in a mask of the state.
fn is_mask_over(case: &Case, reply: &Reply, at: usize) -> bool {
    let Some(&mask) = case.state.get(at) else { return false };
    mask >> FIRST_RIDER & 1 == 1 && only_word(case, reply, at, mask, mask & !(1 << FIRST_RIDER))
}

/// 9 for a bit in the first held row, which is good without it.
fn is_held_bit_over(case: &Case, reply: &Reply) -> bool {
    reply.code == 9
        && !matches!(case.call, Call::Start(..) | Call::Seed(..))
        && model::saved(&case.state).is_some_and(|now| now.held > 0)
        && only_bit(&case.store[..ROW], LAST_BIT + 1)
}

// ---- the layout of before, whose states and rows hosts may still have

const AXES_BEFORE: usize = 10;
const NEW_AXES: usize = AXES - AXES_BEFORE;
const ROW_BEFORE: usize = ROW - NEW_AXES;
/// A state has three words for each axis: its code, its position and its curve start.
const STATE_BEFORE: usize = STATE - 3 * NEW_AXES;
const _: () = assert!(ROW_BEFORE == 29 && STATE_BEFORE == 44);
const MASK_BEFORE: u64 = (1 << AXES_BEFORE) - 1;

/// The words but for those of the new axes, which begin at these places.
fn without_new(words: &[u64], places: &[usize]) -> Vec<u64> {
    let is_new = |at: usize| places.iter().any(|&from| (from..from + NEW_AXES).contains(&at));
    words.iter().enumerate().filter(|&(at, _)| !is_new(at)).map(|(_, &word)| word).collect()
}

fn row_before(row: &[u64]) -> Vec<u64> {
    let mut words = without_new(row, &[FIRST + AXES_BEFORE]);
    words[PRESENT] = row[PRESENT] & MASK_BEFORE | row[PRESENT] >> AXES << AXES_BEFORE;
    words
}

fn code_before(code: u64) -> Option<u64> {
    match code as usize {
        0..AXES_BEFORE => Some(code),
        AXES_BEFORE..AXES => None,
        _ => Some(code - NEW_AXES as u64),
    }
}

fn state_before(state: &[u64]) -> Vec<u64> {
    let mut words = state.to_vec();
    let list: Vec<u64> =
        state[LIST..LIST + state[COUNT] as usize].iter().filter_map(|&code| code_before(code)).collect();
    put_list(&mut words, &list);
    words[KNOWN] &= MASK_BEFORE;
    words[START] &= MASK_BEFORE;
    without_new(&words, &[LIST + LISTED - NEW_AXES, KNOWN + 1 + AXES_BEFORE, START + 1 + AXES_BEFORE])
}

// ---- what is thrown

/// Words about the bounds of the rules.
fn special(rng: &mut Rng) -> u64 {
    const CODE: u64 = LISTED as u64;
    const WHOLE: [u64; 22] = [
        0,
        1,
        2,
        3,
        5,
        6,
        7,
        8,
        CODE - 1,
        CODE,
        CODE + 1,
        17,
        19,
        20,
        LAST_MOTION,
        LAST_MOTION + 1,
        MOST_HELD,
        MOST_HELD + 1,
        1 << 32,
        1 << 63,
        (1 << CELLS) - 1,
        u64::MAX,
    ];
    const OVER: f64 = 1_000_000_000.000_000_1;
    const NUMBERS: [f64; 10] = [f64::NAN, f64::INFINITY, OVER, -OVER, 1e9, -1e9, 1000.0, 1000.5, 0.5, -1.0];
    match rng.below(6) {
        0 => rng.next(),
        1 => 1 << rng.below(64),
        2 | 3 => WHOLE[rng.below(WHOLE.len() as u64) as usize],
        _ => NUMBERS[rng.below(NUMBERS.len() as u64) as usize].to_bits(),
    }
}

fn number(rng: &mut Rng) -> u64 {
    match rng.below(8) {
        0 => 0,
        1 => (rng.below(2000) as f64 - 1000.0).to_bits(),
        2 => (rng.below(1_000_000) as f64 / 1000.0).to_bits(),
        _ => (rng.below(400) as f64 / 8.0 - 25.0).to_bits(),
    }
}

fn shuffled(mut list: Vec<u64>, rng: &mut Rng) -> Vec<u64> {
    for i in (1..list.len()).rev() {
        list.swap(i, rng.below(i as u64 + 1) as usize);
    }
    list
}

fn good_list(rng: &mut Rng) -> Vec<u64> {
    let list = (0..LISTED as u64).filter(|_| !rng.one_in(3)).collect();
    shuffled(list, rng)
}

fn whole_list(rng: &mut Rng) -> Vec<u64> {
    shuffled((0..LISTED as u64).collect(), rng)
}

fn put_list(state: &mut [u64], list: &[u64]) {
    state[COUNT] = list.len() as u64;
    state[LIST..LIST + LISTED].fill(0);
    state[LIST..LIST + list.len()].copy_from_slice(list);
}

fn point(words: &mut [u64], axes: &[u64], rng: &mut Rng) {
    for &k in axes.iter().filter(|&&k| k < AXES as u64) {
        if !rng.one_in(4) {
            words[0] |= 1 << k;
            words[1 + k as usize] = number(rng);
        }
    }
}

fn good_state(rng: &mut Rng, held: u64) -> Vec<u64> {
    let mut words = vec![0; STATE];
    let list = good_list(rng);
    words[0] = [0.01f64, 0.5, 2.0, 100.0][rng.below(4) as usize].to_bits();
    put_list(&mut words, &list);
    words[MOTION] = if held > 0 { SPLINES.start() + rng.below(3) } else { 1 + rng.below(LAST_MOTION) };
    words[IN_PLANE] = 17 + rng.below(3);
    point(&mut words[KNOWN..KNOWN + POINT], &list, rng);
    words[WARNED] = rng.next() & 0xffff_ff00;
    if held > 0 {
        point(&mut words[START..START + POINT], &list, rng);
    }
    let most = if rng.one_in(5) { MOST_DEGREE } else { 6 };
    words[DEGREE] = 1 + rng.below(most);
    words[HELD] = held;
    words
}

fn good_row(rng: &mut Rng, motion: u64) -> Vec<u64> {
    let mut row = vec![0; ROW];
    row[LINE] = rng.below(1 << 32);
    row[WORD] = motion;
    row[PLANE] = if rng.one_in(4) { 17 + rng.below(3) } else { 0 };
    row[CARRY] = rng.next() >> rng.below(64);
    row[PRESENT] = rng.next() & rng.next() & ((1 << CELLS) - 1);
    for k in 0..CELLS {
        // What an absent cell holds is not read: leave rubbish there.
        row[FIRST + k] = if row[PRESENT] >> k & 1 == 1 { number(rng) } else { rng.next() };
    }
    row
}

fn good_store(rng: &mut Rng, held: u64, motion: u64) -> Vec<u64> {
    let mut store = Vec::new();
    for _ in 0..held {
        let word = if rng.one_in(2) { motion } else { 0 };
        let row = good_row(rng, word);
        store.extend(row);
    }
    for _ in 0..rng.below(3) * ROW as u64 + rng.below(ROW as u64) {
        store.push(rng.next());
    }
    store
}

/// A TURN about the bound of rule 5.
fn put_turn(row: &mut [u64], rng: &mut Rng) {
    row[PRESENT] |= 1 << TURN;
    row[FIRST + TURN] = [1000f64, 1000.0000000000001, -1001.0, 1e9, 999.5][rng.below(5) as usize].to_bits();
}

fn held_count(rng: &mut Rng) -> u64 {
    match rng.below(8) {
        0..=3 => 0,
        4..=6 => 1 + rng.below(5),
        _ if rng.one_in(20) => MOST_HELD,
        _ => 1 + rng.below(20),
    }
}

fn any_call(rng: &mut Rng, state: &[u64]) -> Call {
    match rng.below(12) {
        0 => {
            let list = if rng.one_in(2) {
                good_list(rng)
            } else {
                (0..rng.below(LISTED as u64 + 5)).map(|_| rng.below(LISTED as u64 + 2)).collect()
            };
            let tolerance = if rng.one_in(2) { 1f64.to_bits() } else { special(rng) };
            Call::Start(tolerance, list)
        }
        1 => Call::Seed(
            if rng.one_in(3) { special(rng) } else { rng.below(LISTED as u64 + 2) },
            if rng.one_in(3) { special(rng) } else { number(rng) },
        ),
        2..=4 => Call::Close,
        _ => {
            let now = state.get(MOTION).copied().unwrap_or(0) % (LAST_MOTION + 1);
            let motion = [0, now, rng.below(LAST_MOTION + 1), 2, 3, 4][rng.below(6) as usize];
            Call::Push(good_row(rng, motion))
        }
    }
}

/// One of the last code that there is, and the two behind it.
fn code_at_bound(rng: &mut Rng) -> u64 {
    LAST_CODE + rng.below(3)
}

fn list_at_bound(rng: &mut Rng) -> Vec<u64> {
    let mut list = if rng.one_in(2) { whole_list(rng) } else { good_list(rng) };
    if !rng.one_in(3) {
        list.push(code_at_bound(rng));
    }
    if rng.one_in(2) {
        list = shuffled(list, rng);
    }
    list
}

fn row_at_bound(rng: &mut Rng) -> Vec<u64> {
    let motion = rng.below(LAST_MOTION + 1);
    let mut row = good_row(rng, motion);
    match rng.below(4) {
        0 => return row_before(&row),
        1 => row.resize(ROW - 1 + 2 * rng.below(2) as usize, 0),
        2 => row[PRESENT] |= 1 << (LAST_BIT as u64 + rng.below(2)),
        _ => row[PRESENT] |= 1 << (LAST_BIT as u64 + rng.below(64 - LAST_BIT as u64)),
    }
    if let Some(word) = row.get_mut(FIRST + LAST_BIT) {
        *word = number(rng);
    }
    row
}

/// A state with the whole list, and one word of it at its bound or just over it.
fn put_bound(state: &mut [u64], rng: &mut Rng) {
    let list = whole_list(rng);
    put_list(state, &list);
    let last = AXES - 1;
    match rng.below(4) {
        0 => state[COUNT] += rng.below(2),
        1 => {
            let at = list.iter().position(|&code| code == LAST_CODE).expect("the whole list has every code");
            state[LIST + at] = code_at_bound(rng);
        }
        _ => {
            let mask = if rng.one_in(2) { KNOWN } else { START };
            state[mask] |= 1 << (last as u64 + rng.below(2));
            state[mask + 1 + last] = number(rng);
        }
    }
}

/// Puts a good case at a bound of 2, 4 or 9, or just over it.
fn put_at_bound(case: &mut Case, rng: &mut Rng) {
    match rng.below(8) {
        0 => case.call = Call::Start(1f64.to_bits(), list_at_bound(rng)),
        1 => {
            let code = if rng.one_in(4) { AXES as u64 - 1 } else { code_at_bound(rng) };
            case.call = Call::Seed(code, number(rng));
        }
        2 | 3 => case.call = Call::Push(row_at_bound(rng)),
        4 => case.state = state_before(&case.state),
        5 => case.state.resize(STATE - 1 + 2 * rng.below(2) as usize, 0),
        6 => put_bound(&mut case.state, rng),
        _ if case.state[HELD] > 0 => case.store[PRESENT] |= 1 << (LAST_BIT + 1),
        _ => {}
    }
}

fn any_case(rng: &mut Rng) -> Case {
    let held = held_count(rng);
    let state = good_state(rng, held);
    let store = good_store(rng, held, state[MOTION]);
    let call = any_call(rng, &state);
    let row_words = [0, ROW - 1, ROW, 100, 1000, 60 * ROW, 3000 * ROW][rng.below(7) as usize];
    let mut case = Case { call, state, store, row_words };
    damage(&mut case, rng);
    case
}

fn damage(case: &mut Case, rng: &mut Rng) {
    match rng.below(9) {
        0 => {
            case.state = (0..rng.below(65)).map(|_| if rng.one_in(2) { rng.next() } else { special(rng) }).collect();
        }
        1 | 2 => {
            let at = rng.below(STATE as u64) as usize;
            case.state[at] = special(rng);
        }
        3 => case.state.resize(rng.below(65) as usize, 0),
        4 => {
            if let Call::Push(row) = &mut case.call {
                damage_row(row, rng);
            }
        }
        5 if !case.store.is_empty() => {
            let at = rng.below(case.store.len() as u64) as usize;
            case.store[at] = special(rng);
            if case.state[HELD] > 0 && rng.one_in(4) {
                put_turn(&mut case.store[..ROW], rng);
            }
        }
        6 => {
            case.store.truncate(rng.below(case.store.len() as u64 + 1) as usize);
            case.row_words = rng.below(65) as usize;
        }
        7 => put_at_bound(case, rng),
        _ => {}
    }
}

fn damage_row(row: &mut Vec<u64>, rng: &mut Rng) {
    if rng.one_in(3) {
        row.resize(rng.below(65) as usize, 0);
    } else if rng.one_in(3) {
        put_turn(row, rng);
    } else {
        let at = rng.below(ROW as u64) as usize;
        row[at] = special(rng);
    }
}

/// Warning 6 needs 100,000 places, more than the replay program lends: it is asked for here.
fn clamped_arc(tally: &mut Tally) {
    let state = model::start(&vec![0; STATE], 1e-9f64.to_bits(), &[0, 1, 2]).state;
    let state = model::seed(&model::seed(&state, 0, 1000f64.to_bits()).state, 1, 0).state;
    let mut row = vec![0; ROW];
    (row[WORD], row[PRESENT]) = (4, 1 << 0 | 1 << 1 | 1 << OFFSETS);
    (row[FIRST], row[FIRST + OFFSETS]) = (1000f64.to_bits(), (-1000f64).to_bits());
    let case = Case { call: Call::Push(row), state, store: Vec::new(), row_words: (MOST_ARC_ROWS as usize + 1) * ROW };
    check(&case, tally);
    let (reply, ..) = run(&case);
    let step = 2.0 * (1.0 - 1e-12f64).acos();
    let wanted = (std::f64::consts::TAU / step).ceil() as u64;
    must(reply.count == MOST_ARC_ROWS && reply.warning == 6, "no warning 6 for a clamped arc", &case, &reply);
    // The wanted count may differ by one where the quotient is near a whole number.
    must(reply.wanted.abs_diff(wanted) <= 1, &format!("wanted is not {wanted}"), &case, &reply);
}

/// Stores at the bounds of 6 and 8 by the word, where the replay program lends whole blocks: one word too few for the
/// held blocks, just enough, one word too few for a block more, and room for it.
fn store_bounds(rng: &mut Rng, tally: &mut Tally) {
    for held in [1, 2, 3, MOST_HELD - 2, MOST_HELD - 1, MOST_HELD] {
        let mut state = good_state(rng, held);
        (state[0], state[MOTION]) = (100f64.to_bits(), SPLINES.start() + held % 3);
        let kept = held as usize * ROW;
        let one_more = if held < MOST_HELD { 0 } else { 6 };
        let bounds = [(kept - 1, 8, 8), (kept, 6, 0), (kept + ROW - 1, 6, 0), (kept + ROW, one_more, 0)];
        for (words, block, close) in bounds {
            let mut store = good_store(rng, held, state[MOTION]);
            store.resize(words, 7);
            for (call, code) in [(Call::Push(good_row(rng, 0)), block), (Call::Close, close)] {
                let case = Case { call, state: state.clone(), store: store.clone(), row_words: 3000 * ROW };
                check(&case, tally);
                let (reply, ..) = run(&case);
                must(reply.code == code, &format!("the number is not {code}"), &case, &reply);
            }
        }
    }
}

/// Every length of state, row and store from 0 to 64, on valid words.
fn every_length(rng: &mut Rng, tally: &mut Tally) {
    for length in 0..=64usize {
        let state = good_state(rng, 0);
        let row = good_row(rng, 2);
        let mut cut = state.clone();
        cut.resize(length, 0);
        let base = |call: Call| Case { call, state: state.clone(), store: Vec::new(), row_words: ROW };
        for call in [Call::Start(1f64.to_bits(), vec![0, 1]), Call::Seed(0, 0), Call::Push(row.clone()), Call::Close] {
            check(&Case { state: cut.clone(), ..base(call) }, tally);
        }
        let mut short = row.clone();
        short.resize(length, 0);
        check(&base(Call::Push(short)), tally);
        check(&Case { row_words: length, ..base(Call::Push(row.clone())) }, tally);
        check(&Case { store: vec![7; length], ..base(Call::Push(good_row(rng, 5))) }, tally);
        check(&base(Call::Start(1f64.to_bits(), (0..length as u64).collect())), tally);
    }
}

/// A run of this many cases meets every bound: one that it did not meet is no longer thrown.
const LONG_RUN: u64 = 50_000;

fn say_bounds(count: u64, tally: &Tally) {
    let least = BOUNDS.iter().map(|(name, _)| (tally.met.get(name).copied().unwrap_or(0), name)).min();
    let Some((times, name)) = least else { return };
    println!("fuzz: {} bounds of 2, 4 and 9, each met at least {times} times ({name})", BOUNDS.len());
    if count >= LONG_RUN && times == 0 {
        println!("WRONG: a bound was never met: {name}");
        std::process::exit(1);
    }
}

fn main() {
    let number = |i: usize, or: u64| std::env::args().nth(i).map_or(or, |text| text.parse().expect("a number"));
    let (count, seed) = (number(1, 100_000), number(2, 1));
    let mut rng = Rng(seed.wrapping_mul(0x9E37_79B9_7F4A_7C15) | 1);
    let mut tally = Tally::default();
    every_length(&mut rng, &mut tally);
    clamped_arc(&mut tally);
    store_bounds(&mut rng, &mut tally);
    // What the lines above lay out does not show that the cases below meet it.
    tally.met.clear();
    for _ in 0..count {
        let case = any_case(&mut rng);
        check(&case, &mut tally);
    }
    print!("fuzz: seed {seed}, as the model says:");
    for (code, calls) in tally.codes.iter().enumerate().filter(|(_, &calls)| calls > 0) {
        print!(" {calls} of {code},");
    }
    println!(" {} asked again, {} rows, {} left out", tally.asked_again, tally.rows, tally.left_out);
    say_bounds(count, &tally);
}
