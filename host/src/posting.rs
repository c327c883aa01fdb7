//! Posting files: a line `cell,value` for each override, both decimal, a line feed after each line and
//! nothing else. Lines may stand in any order; no cell stands twice.

use crate::{files, Problem};
use std::collections::HashMap;
use std::path::Path;

/// The most lines that a posting may have: as many as there may be buckets.
const MOST_LINES: usize = 65_535;

// Two numbers of 20 digits, a comma and a line feed.
const LONGEST_LINE: usize = 42;

/// A posting: rising points and the value of each.
#[derive(Clone, Debug, Default, PartialEq, Eq)]
pub struct Posting {
    pub points: Vec<u64>,
    pub values: Vec<u64>,
}

/// What is wrong with a posting, and in which line, counted from 1.
#[derive(Clone, Debug, PartialEq, Eq)]
pub struct Wrong {
    pub line: usize,
    pub what: String,
}

/// A decimal number of 1 to 20 digits that fits 64 bits.
pub fn number(text: &[u8]) -> Result<u64, &'static str> {
    if text.is_empty() {
        return Err("a number is missing");
    }
    if !text.iter().all(u8::is_ascii_digit) {
        return Err("only the digits 0 to 9 make a number");
    }
    if text.len() > 20 {
        return Err("a number has more than 20 digits");
    }
    let digit = |sum: u64, d: &u8| sum.checked_mul(10)?.checked_add(u64::from(d - b'0'));
    text.iter().try_fold(0, digit).ok_or("a number is above 2^64 - 1")
}

/// A line, without its line feed.
fn pair(line: &[u8]) -> Result<(u64, u64), &'static str> {
    if line.is_empty() {
        return Err("the line is empty");
    }
    if line.ends_with(b"\r") {
        return Err("the line ends with a carriage return: save the file with plain line feeds");
    }
    let Some(comma) = line.iter().position(|&b| b == b',') else {
        return Err("there is no comma");
    };
    Ok((number(&line[..comma])?, number(&line[comma + 1..])?))
}

fn shown(line: &[u8]) -> String {
    let front = &line[..line.len().min(60)];
    let text: String =
        front.iter().flat_map(|&b| std::ascii::escape_default(b)).map(char::from).collect();
    format!("{text}{}", if line.len() > front.len() { ".." } else { "" })
}

impl Posting {
    /// Takes the text of a posting over `cells` cells apart. The lowest line that is wrong in any way
    /// is told.
    ///
    /// # Errors
    /// A line that has not the form, a cell outside the table, a cell that an earlier line has.
    pub fn parse(text: &[u8], cells: u64) -> Result<Posting, Wrong> {
        let mut rows: Vec<(u64, u64)> = Vec::new();
        let mut seen: HashMap<u64, usize> = HashMap::new();
        let mut rest = text;
        let mut at = 0;
        while !rest.is_empty() {
            at += 1;
            let wrong = |what: String| Wrong { line: at, what };
            let Some(end) = rest.iter().position(|&b| b == b'\n') else {
                return Err(wrong(format!(
                    "no line feed after '{}': the file may be cut short here",
                    shown(rest)
                )));
            };
            let line = &rest[..end];
            rest = &rest[end + 1..];
            if at > MOST_LINES {
                return Err(wrong(format!("a posting has at most {MOST_LINES} lines: split it")));
            }
            let (cell, value) = pair(line)
                .map_err(|why| wrong(format!("'{}' is not 'cell,value': {why}", shown(line))))?;
            if cell >= cells {
                return Err(wrong(format!(
                    "cell {cell} is outside the table, whose last cell is {}",
                    cells.saturating_sub(1)
                )));
            }
            if let Some(before) = seen.insert(cell, at) {
                return Err(wrong(format!("cell {cell} stands in line {before} already")));
            }
            rows.push((cell, value));
        }
        if rows.is_empty() {
            return Err(Wrong { line: 1, what: "the posting is empty".into() });
        }
        rows.sort_unstable();
        let (points, values) = rows.into_iter().unzip();
        Ok(Posting { points, values })
    }

    /// Reads a posting over `cells` cells.
    ///
    /// # Errors
    /// Where the file cannot be read, or a line of it is wrong.
    pub fn read(path: &Path, cells: u64) -> Result<Posting, Problem> {
        // one line and one byte more than fit, so that a file that is too long is noticed
        let text = files::front(path, (MOST_LINES + 1) * LONGEST_LINE + 1)?;
        Posting::parse(&text, cells).map_err(|Wrong { line, what }| {
            Problem::new(format!("{} line {line}: {what}", path.display()))
        })
    }

    /// The posting as lines, as a file has them.
    pub fn text(&self) -> String {
        self.points.iter().zip(&self.values).map(|(c, v)| format!("{c},{v}\n")).collect()
    }
}

#[cfg(test)]
mod tests {
    use super::*;

    #[test]
    fn numbers_are_plain_decimals() {
        assert_eq!(number(b"0"), Ok(0));
        assert_eq!(number(b"18446744073709551615"), Ok(u64::MAX));
        assert_eq!(number(b"00000000000000000007"), Ok(7));
        for text in ["", "-1", "+1", " 1", "1 ", "1_0", "0x1", "1e3", "18446744073709551616"] {
            assert!(number(text.as_bytes()).is_err(), "{text}");
        }
        assert!(number(b"000000000000000000007").is_err());
    }

    #[test]
    fn points_come_out_rising() {
        let posting = Posting::parse(b"9,1\n3,2\n4,0\n", 10).expect("a posting");
        assert_eq!(
            (posting.points.clone(), posting.values.clone()),
            (vec![3, 4, 9], vec![2, 0, 1])
        );
        assert_eq!(Posting::parse(posting.text().as_bytes(), 10), Ok(posting));
    }

    #[test]
    fn the_lowest_wrong_line_is_told() {
        let wrong = |text: &str| Posting::parse(text.as_bytes(), 10).expect_err("wrong").line;
        assert_eq!(wrong("1,1\n10,1\nx\n"), 2);
        assert_eq!(wrong("1,1\nx\n10,1\n"), 2);
        assert_eq!(wrong("1,1\n1,1\nx\n"), 2);
        assert_eq!(wrong("1,1\n2,2\n3"), 3);
    }
}
