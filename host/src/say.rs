//! What the program prints: what it did on standard output, what went wrong on standard error.

use morgnet::Problem;
use std::io::{Stdout, Write};

/// Standard output. Where it cannot be written, that is a failure and no crash.
pub struct Say(Stdout);

impl Say {
    pub fn new() -> Say {
        Say(std::io::stdout())
    }

    /// Text as it is.
    pub fn text(&mut self, text: &str) -> Result<(), Problem> {
        self.0
            .write_all(text.as_bytes())
            .and_then(|()| self.0.flush())
            .map_err(|e| Problem::new(format!("cannot write to standard output: {e}")))
    }

    /// A line.
    pub fn line(&mut self, line: impl AsRef<str>) -> Result<(), Problem> {
        self.text(&format!("{}\n", line.as_ref()))
    }
}

/// Something that a person should know, though the work goes on.
pub fn note(text: impl AsRef<str>) {
    let _ = writeln!(std::io::stderr(), "morgnet: note: {}", text.as_ref());
}

/// Why the work ends here.
pub fn complain(problem: &Problem) {
    let _ = writeln!(std::io::stderr(), "morgnet: {problem}");
}

/// 1234567 as 1,234,567.
pub fn grouped(n: u64) -> String {
    let digits = n.to_string();
    let mut text = String::new();
    for (i, digit) in digits.chars().enumerate() {
        if i > 0 && (digits.len() - i).is_multiple_of(3) {
            text.push(',');
        }
        text.push(digit);
    }
    text
}

/// `1 key`, `2 keys`.
pub fn counted(n: u64, thing: &str) -> String {
    format!("{} {thing}{}", grouped(n), if n == 1 { "" } else { "s" })
}

/// How long something took.
pub fn seconds(time: std::time::Duration) -> String {
    match time.as_secs_f64() {
        s if s < 0.001 => format!("{:.0} us", s * 1e6),
        s if s < 1.0 => format!("{:.0} ms", s * 1e3),
        s => format!("{s:.1} s"),
    }
}

#[cfg(test)]
mod tests {
    use super::*;

    #[test]
    fn numbers_for_a_person() {
        assert_eq!([0, 999, 1000, 1234567].map(grouped), ["0", "999", "1,000", "1,234,567"]);
        assert_eq!([1, 2].map(|n| counted(n, "key")), ["1 key", "2 keys"]);
    }
}
