//! The row text of docs/ROWTEXT.md in plain Rust, for a comparison of speed: reads and writes rows of linear motion.
use std::io::{self, BufRead, BufWriter, Write};

const HEADER: &str = "line_no,gg01_motion,gg06_plane_select,X,Y,Z,I,J,K,CR,TURN,PW,SD,F";
const WORDS: [&str; 16] = [
    "", "G0", "G1", "G2", "G3", "ASPLINE", "BSPLINE", "CSPLINE", "CIP", "CT", "POLY", "G33", "G34", "G35", "INVCW", "INVCCW",
];
const PLANES: [&str; 4] = ["", "G17", "G18", "G19"];
const CELLS: usize = 11;

struct Row {
    line: u32,
    motion: usize,
    plane: usize,
    cells: [Option<f64>; CELLS],
}

fn digits(text: &str, most: usize) -> bool {
    (1..=most).contains(&text.len()) && text.bytes().all(|b| b.is_ascii_digit())
}

fn number(text: &str) -> Option<f64> {
    let bare = text.strip_prefix('-').unwrap_or(text);
    let good = match bare.split_once('.') {
        None => digits(bare, 9),
        Some((whole, part)) => digits(whole, 9) && digits(part, 6),
    };
    if !good {
        return None;
    }
    text.parse().ok().map(|x: f64| if x == 0.0 { 0.0 } else { x })
}

fn row(text: &str) -> Option<Row> {
    let mut fields = text.split(',');
    let line = fields.next()?;
    if !digits(line, 10) {
        return None;
    }
    let line = line.parse().ok()?;
    let word = fields.next()?;
    let motion = WORDS.iter().position(|w| *w == word)?;
    let word = fields.next()?;
    let plane = PLANES.iter().position(|w| *w == word)?;
    let mut cells = [None; CELLS];
    for cell in &mut cells {
        let field = fields.next()?;
        if !field.is_empty() {
            *cell = Some(number(field)?);
        }
    }
    if fields.next().is_some() {
        return None;
    }
    Some(Row { line, motion, plane, cells })
}

fn write(out: &mut impl Write, row: &Row) -> io::Result<()> {
    write!(out, "{},{},{}", row.line, WORDS[row.motion], PLANES[row.plane])?;
    for cell in row.cells {
        match cell {
            None => out.write_all(b",")?,
            Some(x) => write!(out, ",{:.6}", if x.abs() < 0.0000005 { 0.0 } else { x })?,
        }
    }
    out.write_all(b",\r\n")
}

fn main() -> io::Result<()> {
    let mut input = io::stdin().lock();
    let mut out = BufWriter::with_capacity(131072, io::stdout().lock());
    let mut line = String::new();
    let mut number = 0;
    loop {
        line.clear();
        number += 1;
        if input.read_line(&mut line)? == 0 {
            return out.flush();
        }
        let text = line.strip_suffix("\r\n").filter(|t| number > 1 || *t == HEADER);
        match text {
            Some(_) if number == 1 => write!(out, "{HEADER},flattened\r\n")?,
            Some(text) => match row(text) {
                Some(row) => write(&mut out, &row)?,
                None => break,
            },
            None => break,
        }
    }
    out.flush()?;
    eprint!("{number},10,refused\r\n");
    Ok(())
}
