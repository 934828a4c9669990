//! A safe tally (docs/RULES.md, section 9): it owns its words, is told each call that was made, and answers figures and
//! rates. A tally that is started here is never refused by 9.

use crate::raw::Reply;
use crate::{Flattener, Refused, Row, Said, TOO_FEW_PLACES};

pub const JOBS: usize = 64;
/// The largest numbers of a warning and of a refusal that are told apart.
pub const WARNINGS: usize = 15;
pub const REFUSALS: usize = 31;

// The words of a job's slot; calls with warning w are in word WARNED + w, those refused by n in word TURNED + n.
const BLOCKS: usize = 1;
const ROWS: usize = 2;
const MARKED: usize = 3;
const WARNED: usize = MARKED;
const TURNED: usize = WARNED + WARNINGS;
const TRY: usize = TURNED + REFUSALS + 1;
const JOB_WORDS: usize = TRY + 1;
/// The count of jobs, then their slots.
const WORDS: usize = 1 + JOBS * JOB_WORDS;

#[repr(C)]
#[derive(Clone, Copy, Debug, PartialEq)]
struct RawRates {
    code: u64,
    first_passed: u64,
    first_closed: u64,
    final_passed: u64,
    final_closed: u64,
}

extern "C" {
    fn tally_start(tally: *mut u64, words: usize) -> Reply;
    fn tally_note(
        tally: *mut u64,
        words: usize,
        job: u64,
        kind: u64,
        code: u64,
        count: u64,
        warning: u64,
        rows: *const u64,
        row_words: usize,
    ) -> Reply;
    fn tally_rates(tally: *const u64, words: usize) -> RawRates;
}

#[derive(Clone, Copy, Debug, PartialEq)]
pub enum Kind {
    Start,
    Seed,
    Push,
    Close,
}

/// What is told of a call: 0 or its refusal, its warning, the rows that it wrote, and the rows that it needed where it was
/// refused by 7 before and made again.
#[derive(Clone, Copy, Debug, Default, PartialEq)]
pub struct Answer<'a> {
    pub code: u64,
    pub warning: u64,
    pub needed: Option<u64>,
    pub rows: &'a [Row],
}

/// What a call of `Flattener` answers where it is accepted. A start and a seed say nothing and write no row.
pub trait Accepted<'a> {
    fn said(&self) -> Said<'a> {
        Said::default()
    }
}

impl Accepted<'_> for Flattener {}

impl Accepted<'_> for () {}

impl<'a> Accepted<'a> for Said<'a> {
    fn said(&self) -> Said<'a> {
        *self
    }
}

impl<'a> Answer<'a> {
    pub fn of(result: &Result<impl Accepted<'a>, Refused>) -> Answer<'a> {
        match result {
            Ok(accepted) => {
                let Said { warning, needed, rows, .. } = accepted.said();
                Answer { code: 0, warning, needed, rows }
            }
            Err(Refused(code)) => Answer { code: *code, ..Answer::default() },
        }
    }
}

/// How many jobs' first tries passed, how many final ones, and how many jobs have a closed try.
#[derive(Clone, Copy, Debug, PartialEq)]
pub struct Rates {
    pub first_passed: u64,
    pub final_passed: u64,
    pub closed: u64,
}

/// What was counted of a job's calls, all 0 of a job never told; `warned[w]` and `turned[n]` are by the number itself.
#[derive(Clone, Debug, PartialEq)]
pub struct Figures {
    pub blocks: u64,
    pub rows: u64,
    pub marked: u64,
    pub warned: [u64; WARNINGS + 1],
    pub turned: [u64; REFUSALS + 1],
    pub closed: bool,
    pub first_passed: bool,
    pub final_passed: bool,
}

pub struct Tally {
    words: Vec<u64>,
}

impl Tally {
    pub fn start() -> Tally {
        let mut words = vec![0; WORDS];
        // Pointers and lengths of live vectors of our own, here and below.
        let reply = unsafe { tally_start(words.as_mut_ptr(), words.len()) };
        assert_eq!(reply.code, 0, "a tally of the right length");
        Tally { words }
    }

    /// Tells a call of a job, and before it the same call as it was refused by 7, where it was made again. What is refused
    /// here is missing from every figure and every try; where the first of the two is, the second is not told.
    pub fn note(&mut self, job: u64, kind: Kind, answer: Answer) -> Result<(), Refused> {
        if let Some(needed) = answer.needed {
            self.tell(job, kind, TOO_FEW_PLACES, needed, 0, &[])?;
        }
        let rows: Vec<u64> = answer.rows.iter().flat_map(Row::to_words).collect();
        self.tell(job, kind, answer.code, answer.rows.len() as u64, answer.warning, &rows)
    }

    fn tell(&mut self, job: u64, kind: Kind, code: u64, count: u64, warning: u64, rows: &[u64]) -> Result<(), Refused> {
        let told = unsafe {
            tally_note(
                self.words.as_mut_ptr(),
                self.words.len(),
                job,
                kind as u64,
                code,
                count,
                warning,
                rows.as_ptr(),
                rows.len(),
            )
        };
        match told.code {
            0 => Ok(()),
            code => Err(Refused(code)),
        }
    }

    pub fn rates(&self) -> Rates {
        let rates = unsafe { tally_rates(self.words.as_ptr(), self.words.len()) };
        assert_eq!(rates.code, 0, "a tally that was started");
        Rates { first_passed: rates.first_passed, final_passed: rates.final_passed, closed: rates.first_closed }
    }

    pub fn figures(&self, job: u64) -> Figures {
        let mut told = self.words[1..].chunks_exact(JOB_WORDS).take(self.words[0] as usize);
        let slot = told.find(|slot| slot[0] == job).unwrap_or(&[0; JOB_WORDS]);
        let bit = |k: u32| slot[TRY] >> k & 1 == 1;
        Figures {
            blocks: slot[BLOCKS],
            rows: slot[ROWS],
            marked: slot[MARKED],
            warned: std::array::from_fn(|w| if w == 0 { 0 } else { slot[WARNED + w] }),
            turned: std::array::from_fn(|n| if n == 0 { 0 } else { slot[TURNED + n] }),
            closed: bit(0),
            first_passed: bit(1),
            final_passed: bit(2),
        }
    }
}

#[cfg(test)]
mod tests {
    use super::*;
    use crate::layout::{G1, G3, I, ROW_WORDS, R_MARK, TURN, X, Y};

    const NEVER: Figures = Figures {
        blocks: 0,
        rows: 0,
        marked: 0,
        warned: [0; WARNINGS + 1],
        turned: [0; REFUSALS + 1],
        closed: false,
        first_passed: false,
        final_passed: false,
    };

    fn marked(marks: &[u64]) -> Vec<Row> {
        marks.iter().map(|&m| Row { marked: m == 1, ..Row::default() }).collect()
    }

    fn refused(code: u64) -> Answer<'static> {
        Answer { code, ..Answer::default() }
    }

    const DONE: Answer = Answer { code: 0, warning: 0, needed: None, rows: &[] };
    const AXES: [u64; 2] = [X as u64, Y as u64];

    /// A full circle that turns so often more, behind a block to its start.
    fn to_circle(turns: f64) -> [Row; 2] {
        let mut to = Row { line: 1, motion: G1, ..Row::default() };
        to.cells[X] = Some(10.0);
        to.cells[Y] = Some(0.0);
        let mut circle = Row { line: 2, motion: G3, ..to.clone() };
        circle.cells[I] = Some(-10.0);
        circle.cells[TURN] = Some(turns);
        [to, circle]
    }

    #[test]
    fn the_whole_case() {
        let mut tally = Tally::start();
        let told: [(u64, Kind, Answer, &[u64]); 9] = [
            (1, Kind::Start, DONE, &[]),
            (1, Kind::Push, DONE, &[1, 1, 0]),
            (1, Kind::Push, refused(4), &[]),
            (1, Kind::Close, Answer { needed: Some(5), ..DONE }, &[1, 1, 1, 1, 0]),
            (1, Kind::Start, DONE, &[]),
            (1, Kind::Push, DONE, &[0]),
            (1, Kind::Close, DONE, &[]),
            (2, Kind::Push, Answer { warning: 4, ..DONE }, &[0]),
            (3, Kind::Close, DONE, &[]),
        ];
        for (job, kind, answer, marks) in told {
            assert_eq!(tally.note(job, kind, Answer { rows: &marked(marks), ..answer }), Ok(()));
        }
        assert_eq!(tally.rates(), Rates { first_passed: 1, final_passed: 2, closed: 2 });
        let mut first = Figures { blocks: 2, rows: 9, marked: 6, closed: true, final_passed: true, ..NEVER };
        first.turned[4] = 1;
        first.turned[7] = 1;
        assert_eq!(tally.figures(1), first);
        let mut second = Figures { blocks: 1, rows: 1, ..NEVER };
        second.warned[4] = 1;
        assert_eq!(tally.figures(2), second);
        assert_eq!(tally.figures(3), Figures { closed: true, first_passed: true, final_passed: true, ..NEVER });
        assert_eq!(tally.figures(4), NEVER);
    }

    #[test]
    fn calls_of_a_flattener_are_told_as_it_answers_them() {
        let mut flattener = Flattener::start(0.1, &AXES).unwrap();
        let mut tally = Tally::start();
        let [to, circle] = to_circle(0.0);
        let [_, wrong] = to_circle(1001.0);
        // one list for the whole job: each row counts once
        let mut out = Vec::new();
        for block in [&to, &circle, &wrong] {
            let result = flattener.push(block, &mut out);
            assert_eq!(tally.note(9, Kind::Push, Answer::of(&result)), Ok(()));
        }
        let result = flattener.close(&mut out);
        assert_eq!(tally.note(9, Kind::Close, Answer::of(&result)), Ok(()));
        let mut figures = Figures { blocks: 2, rows: 24, marked: 22, closed: true, ..NEVER };
        figures.turned[5] = 1;
        assert_eq!(tally.figures(9), figures);
        assert_eq!((out.len(), out.iter().filter(|row| row.marked).count()), (24, 22));
        assert_eq!(tally.rates(), Rates { first_passed: 0, final_passed: 0, closed: 1 });
    }

    #[test]
    fn a_refused_start_or_seed_fails_the_first_try() {
        let mut tally = Tally::start();
        let mut out = Vec::new();
        let mut flattener = Flattener::start(0.1, &AXES).unwrap();
        assert_eq!(tally.note(1, Kind::Start, Answer::of(&Flattener::start(0.0, &AXES))), Ok(()));
        assert_eq!(tally.note(2, Kind::Seed, Answer::of(&flattener.seed(X as u64, f64::NAN))), Ok(()));
        for job in [1, 2, 3] {
            assert_eq!(tally.note(job, Kind::Start, Answer::of(&Flattener::start(0.1, &AXES))), Ok(()));
            assert_eq!(tally.note(job, Kind::Seed, Answer::of(&flattener.seed(X as u64, 1.0))), Ok(()));
            assert_eq!(tally.note(job, Kind::Close, Answer::of(&flattener.close(&mut out))), Ok(()));
        }
        assert_eq!((tally.figures(1).turned[1], tally.figures(2).turned[3]), (1, 1));
        assert_eq!(tally.rates(), Rates { first_passed: 1, final_passed: 1, closed: 3 });
    }

    #[test]
    fn a_call_that_needed_more_places_is_two_and_fails_nothing() {
        let mut tally = Tally::start();
        let mut flattener = Flattener::start(0.1, &AXES).unwrap();
        let mut out = Vec::new();
        for block in &to_circle(99.0) {
            assert_eq!(tally.note(1, Kind::Push, Answer::of(&flattener.push(block, &mut out))), Ok(()));
        }
        assert_eq!(tally.note(1, Kind::Close, Answer::of(&flattener.close(&mut out))), Ok(()));
        let mut figures = Figures { blocks: 2, closed: true, first_passed: true, final_passed: true, ..NEVER };
        figures.rows = out.len() as u64;
        figures.marked = out.len() as u64 - 2;
        figures.turned[7] = 1;
        assert_eq!(tally.figures(1), figures);
    }

    #[test]
    fn a_refusal_has_its_number_and_changes_nothing() {
        let mut tally = Tally::start();
        for job in 0..JOBS as u64 {
            assert_eq!(tally.note(job, Kind::Close, DONE), Ok(()));
        }
        let before = tally.words.clone();
        let more = JOBS as u64;
        assert_eq!(tally.note(more, Kind::Close, DONE), Err(Refused(11)));
        assert_eq!(tally.note(more, Kind::Close, Answer { needed: Some(1), ..DONE }), Err(Refused(11)));
        assert_eq!(tally.note(more, Kind::Close, refused(32)), Err(Refused(4)));
        assert_eq!(tally.note(0, Kind::Push, Answer { warning: 16, ..DONE }), Err(Refused(4)));
        assert_eq!(tally.words, before);
        assert_eq!(tally.rates(), Rates { first_passed: more, final_passed: more, closed: more });
    }

    /// What the wrapper cannot ask for: rows that are not whole, other lengths, and all words of each reply.
    #[test]
    fn bounds_by_the_word() {
        let refused = |code| Reply { code, count: 0, warning: 0, wanted: 0, held: 0 };
        let mut words = vec![5; WORDS + 1];
        for wrong in [0, WORDS - 1, WORDS + 1] {
            assert_eq!(unsafe { tally_start(words.as_mut_ptr(), wrong) }, refused(9));
            let rates = unsafe { tally_rates(words.as_ptr(), wrong) };
            assert_eq!(rates, RawRates { code: 9, first_passed: 0, first_closed: 0, final_passed: 0, final_closed: 0 });
        }
        assert_eq!(words, vec![5; WORDS + 1]);
        assert_eq!(unsafe { tally_start(words.as_mut_ptr(), WORDS) }, refused(0));
        assert_eq!((&words[..WORDS], words[WORDS]), (&vec![0; WORDS][..], 5));
        let mut rows = vec![7; 2 * ROW_WORDS];
        rows[R_MARK] = 1;
        rows[ROW_WORDS + R_MARK] = 0;
        let mut note = |lent| unsafe { tally_note(words.as_mut_ptr(), WORDS, 1, 2, 0, 2, 0, rows.as_ptr(), lent) };
        assert_eq!(note(0), refused(4));
        assert_eq!(note(2 * ROW_WORDS - 1), refused(4));
        assert_eq!(note(2 * ROW_WORDS), refused(0));
        assert_eq!(words[..=MARKED + 1], [1, 1, 1, 2, 1]);
    }
}
