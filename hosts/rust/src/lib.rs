//! A safe Rust host: the flattener behind the C interface of docs/INTERFACE.md, with its memory; and the tally.

pub mod layout;
mod raw;
pub mod tally;

pub use layout::CELLS;
use layout::*;

/// Row places at first; they grow.
const PLACES: usize = 256;
const TOO_FEW_PLACES: u64 = 7;

/// A block or an output row. A motion, plane or carry of 0 is none.
#[derive(Clone, Debug, Default, PartialEq)]
pub struct Row {
    pub line: u32,
    pub motion: u8,
    pub plane: u8,
    pub marked: bool,
    pub carry: u64,
    pub cells: [Option<f64>; CELLS],
}

impl Row {
    fn to_words(&self) -> [u64; ROW_WORDS] {
        let mut words = [0; ROW_WORDS];
        words[R_LINE] = self.line.into();
        words[R_MOTION] = self.motion.into();
        words[R_PLANE] = self.plane.into();
        words[R_MARK] = self.marked.into();
        words[R_CARRY] = self.carry;
        for (k, cell) in self.cells.iter().enumerate() {
            if let Some(number) = cell {
                words[R_PRESENT] |= 1 << k;
                words[R_CELLS + k] = number.to_bits();
            }
        }
        words
    }

    fn from_words(words: &[u64]) -> Row {
        let mut row = Row {
            line: words[R_LINE] as u32,
            motion: words[R_MOTION] as u8,
            plane: words[R_PLANE] as u8,
            marked: words[R_MARK] != 0,
            carry: words[R_CARRY],
            ..Row::default()
        };
        for (k, cell) in row.cells.iter_mut().enumerate() {
            *cell = (words[R_PRESENT] >> k & 1 == 1).then(|| f64::from_bits(words[R_CELLS + k]));
        }
        row
    }
}

/// The reply number of a call that was refused (docs/RULES.md, section 2; a tally's 11 is in section 9). Nothing was
/// changed.
#[derive(Clone, Copy, Debug, PartialEq)]
pub struct Refused(pub u64);

/// What an accepted call said.
#[derive(Clone, Copy, Debug, Default, PartialEq)]
pub struct Said<'a> {
    pub warning: u64,
    /// The rows that an arc wanted, with warning 6.
    pub wanted: u64,
    /// Bit k: axis k held its end for want of a start.
    pub held: u64,
    /// The rows that it needed, where it was refused by 7 at first and was made again with as many places.
    pub needed: Option<u64>,
    /// The rows that it wrote, and no earlier ones.
    pub rows: &'a [Row],
}

/// A flattener with the memory that it needs: the saved state, the spline store, and row places, which grow.
pub struct Flattener {
    state: Vec<u64>,
    store: Vec<u64>,
    rows: Vec<u64>,
}

impl Flattener {
    pub fn start(tolerance: f64, axes: &[u64]) -> Result<Flattener, Refused> {
        let mut state = vec![0; STATE_WORDS];
        // Pointers and lengths of live vectors of our own, here and below.
        let reply = unsafe {
            raw::flat_start(state.as_mut_ptr(), state.len(), tolerance.to_bits(), axes.as_ptr(), axes.len())
        };
        accepted(reply)?;
        Ok(Flattener { state, store: vec![0; STORE_WORDS], rows: vec![0; PLACES * ROW_WORDS] })
    }

    pub fn seed(&mut self, axis: u64, value: f64) -> Result<(), Refused> {
        let reply = unsafe { raw::flat_seed(self.state.as_mut_ptr(), self.state.len(), axis, value.to_bits()) };
        accepted(reply).map(drop)
    }

    /// Puts the rows behind those of `out`; `Said` has them too.
    pub fn push<'a>(&mut self, row: &Row, out: &'a mut Vec<Row>) -> Result<Said<'a>, Refused> {
        let words = row.to_words();
        self.with_room(out, |state, store, rows| unsafe {
            raw::flat_push(
                state.as_mut_ptr(),
                state.len(),
                store.as_mut_ptr(),
                store.len(),
                rows.as_mut_ptr(),
                rows.len(),
                words.as_ptr(),
                words.len(),
            )
        })
    }

    pub fn close<'a>(&mut self, out: &'a mut Vec<Row>) -> Result<Said<'a>, Refused> {
        self.with_room(out, |state, store, rows| unsafe {
            raw::flat_close(
                state.as_mut_ptr(),
                state.len(),
                store.as_ptr(),
                store.len(),
                rows.as_mut_ptr(),
                rows.len(),
            )
        })
    }

    /// Makes the call; where it needs more places, once more with as many as it says. 7 is looked for last, so that the
    /// second call is accepted.
    fn with_room<'a>(
        &mut self,
        out: &'a mut Vec<Row>,
        call: impl Fn(&mut [u64], &mut [u64], &mut [u64]) -> raw::Reply,
    ) -> Result<Said<'a>, Refused> {
        let mut reply = call(&mut self.state, &mut self.store, &mut self.rows);
        let needed = (reply.code == TOO_FEW_PLACES).then_some(reply.count);
        if let Some(places) = needed {
            self.rows.resize(places as usize * ROW_WORDS, 0);
            reply = call(&mut self.state, &mut self.store, &mut self.rows);
        }
        let said = accepted(reply)?;
        let written = self.rows.chunks_exact(ROW_WORDS).take(reply.count as usize);
        let before = out.len();
        out.extend(written.map(Row::from_words));
        Ok(Said { needed, rows: &out[before..], ..said })
    }
}

fn accepted(reply: raw::Reply) -> Result<Said<'static>, Refused> {
    match reply.code {
        0 => Ok(Said { warning: reply.warning, wanted: reply.wanted, held: reply.held, ..Said::default() }),
        code => Err(Refused(code)),
    }
}

#[cfg(test)]
mod tests {
    use super::*;

    const XYZ: [u64; 3] = [X as u64, Y as u64, Z as u64];
    /// What hosts lent before the second axes.
    const STATE_WORDS_OF_TEN_AXES: usize = 44;

    fn block(line: u32, motion: u8, cells: &[(usize, f64)]) -> Row {
        let mut row = Row { line, motion, ..Row::default() };
        for &(k, number) in cells {
            row.cells[k] = Some(number);
        }
        row
    }

    #[test]
    fn the_whole_case_of_row_text() {
        let mut flattener = Flattener::start(0.1, &XYZ).unwrap();
        let mut out = Vec::new();
        let blocks = [
            Row { plane: 17, ..block(1, G1, &[(X, 0.04), (Y, 0.0), (F, 1000.0)]) },
            block(2, G3, &[(X, 0.0), (Y, 0.04), (I, -0.04)]),
            block(3, ASPLINE, &[(X, 10.0), (Y, 0.04)]),
            block(4, 0, &[(X, 20.0)]),
            block(5, 0, &[(F, 500.0)]),
            block(6, G1, &[(X, 0.0), (Y, 0.0)]),
        ];
        for row in &blocks {
            flattener.push(row, &mut out).unwrap();
        }
        flattener.close(&mut out).unwrap();
        let want = [
            blocks[0].clone(),
            block(2, G1, &[(X, 0.0), (Y, 0.04)]),
            block(3, G1, &[(X, 10.0), (Y, 0.04)]),
            block(4, 0, &[(X, 20.0), (Y, 0.04)]),
            blocks[4].clone(),
            blocks[5].clone(),
        ];
        assert_eq!(out, want);
    }

    #[test]
    fn the_layout_is_the_interfaces() {
        assert_eq!((AXIS_CODES, LIST_CODES, CELLS), (W2 + 1, 21, 29));
        assert_eq!((ROW_WORDS, STATE_WORDS, STORE_WORDS), (35, 62, 8960));
    }

    #[test]
    fn second_axes_go_along_with_an_arc() {
        let codes: Vec<u64> = (0..LIST_CODES as u64).collect();
        let mut flattener = Flattener::start(30.0, &codes).unwrap();
        let mut out = Vec::new();
        flattener.push(&block(1, G1, &[(X, 10.0), (Y, 0.0), (A2, 1.0)]), &mut out).unwrap();
        let arc = block(2, G3, &[(X, 0.0), (Y, 10.0), (A2, 3.0), (W2, 5.0), (I, -10.0), (PL, 7.0)]);
        let said = flattener.push(&arc, &mut out).unwrap();
        assert_eq!((said.warning, said.held), (0, 1 << W2));
        assert_eq!(said.rows, [block(2, G1, &[(X, 0.0), (Y, 10.0), (A2, 3.0), (W2, 5.0)])]);
    }

    #[test]
    fn a_state_of_ten_axes_is_refused() {
        let mut flattener = Flattener::start(0.1, &XYZ).unwrap();
        flattener.state.truncate(STATE_WORDS_OF_TEN_AXES);
        assert_eq!(flattener.seed(X as u64, 1.0), Err(Refused(9)));
        assert_eq!(flattener.push(&block(1, G1, &[(X, 1.0)]), &mut Vec::new()), Err(Refused(9)));
        assert_eq!(flattener.close(&mut Vec::new()), Err(Refused(9)));
    }

    #[test]
    fn places_grow_for_a_long_arc() {
        let mut flattener = Flattener::start(0.1, &XYZ).unwrap();
        flattener.seed(X as u64, 10.0).unwrap();
        flattener.seed(Y as u64, 0.0).unwrap();
        let mut out = Vec::new();
        let said = flattener.push(&block(1, G3, &[(X, 10.0), (Z, 5.0), (I, -10.0), (TURN, 99.0)]), &mut out).unwrap();
        assert_eq!((said.warning, said.held, said.needed, said.rows.len()), (0, 1 << Z, Some(2220), 2220));
        assert_eq!(out.len(), 2220);
        assert!(out[..2219].iter().all(|row| row.marked && row.line == 1));
        assert_eq!(out[2219], block(1, 0, &[(X, 10.0), (Y, 0.0), (Z, 5.0)]));
    }

    #[test]
    fn a_refusal_has_its_number_and_changes_nothing() {
        assert_eq!(Flattener::start(0.0, &XYZ).err(), Some(Refused(1)));
        assert_eq!(Flattener::start(0.1, &[LIST_CODES as u64]).err(), Some(Refused(2)));
        assert_eq!(Flattener::start(0.1, &[0; LIST_CODES + 1]).err(), Some(Refused(2)));
        let mut flattener = Flattener::start(0.1, &XYZ).unwrap();
        assert_eq!(flattener.seed(X as u64, f64::NAN), Err(Refused(3)));
        let before = flattener.state.clone();
        let mut out = Vec::new();
        assert_eq!(flattener.push(&block(1, LAST_MOTION + 1, &[]), &mut out), Err(Refused(4)));
        assert_eq!(flattener.push(&block(1, G1, &[(TURN, 1001.0)]), &mut out), Err(Refused(5)));
        assert_eq!((flattener.state, out), (before, Vec::new()));
    }
}
