//! Makes calls of a face, compares what they leave with what is wanted, and keeps the account.

use crate::call::{refusal, After, Call};
use crate::expect::Oracle;
use crate::face::{self, Face};
use crate::random::Random;
use std::collections::BTreeMap;
use std::fmt::Write;
use std::panic::{self, AssertUnwindSafe};

/// The account of one function, or of one group of cases.
#[derive(Default, Clone, Copy)]
struct Count {
    calls: u64,
    differences: u64,
}

/// A face under comparison.
pub struct Runner<'a> {
    pub face: &'a dyn Face,
    pub oracle: Oracle,
    pub random: Random,
    /// Stop making calls after the first difference: enough where a fault was planted.
    pub stop_at_first: bool,
    group: &'static str,
    groups: Vec<(&'static str, Count)>,
    functions: BTreeMap<(&'static str, u64), Count>,
    calls: u64,
    differences: u64,
    first: Option<String>,
}

impl<'a> Runner<'a> {
    pub fn new(face: &'a dyn Face, seed: u64) -> Self {
        Self {
            face,
            oracle: Oracle::default(),
            random: Random::new(seed),
            stop_at_first: false,
            group: "",
            groups: vec![],
            functions: BTreeMap::new(),
            calls: 0,
            differences: 0,
            first: None,
        }
    }

    /// Whether there is nothing more to find out.
    pub fn done(&self) -> bool {
        self.stop_at_first && self.differences > 0
    }

    /// The calls from now on belong to this group.
    pub fn group(&mut self, group: &'static str) {
        self.group = group;
        self.groups.push((group, Count::default()));
    }

    /// The calls so far.
    pub fn calls(&self) -> u64 {
        self.calls
    }

    /// The differences so far.
    pub fn differences(&self) -> u64 {
        self.differences
    }

    /// Makes the call and compares. Gives what is wanted, whatever the face did; none where the
    /// oracle and the model do not agree on it.
    pub fn call(&mut self, call: Call) -> Option<After> {
        if self.done() {
            return None;
        }
        let wanted = match self.oracle.expect(&call) {
            Ok(after) => after,
            Err(disagreement) => {
                self.account(&call, 0, Some(format!("the oracle disagrees: {}", disagreement.0)));
                return None;
            }
        };
        let random = &mut self.random;
        let face = self.face;
        let ran = panic::catch_unwind(AssertUnwindSafe(|| face::run(face, &call, random)));
        let difference = match ran {
            Err(_) => Some("panics".to_string()),
            Ok((got, complaints)) => {
                got.difference(&wanted).or_else(|| complaints.into_iter().next())
            }
        };
        self.account(&call, wanted.number, difference);
        Some(wanted)
    }

    fn account(&mut self, call: &Call, number: u64, difference: Option<String>) {
        let differs = difference.is_some() as u64;
        let add = |count: &mut Count| {
            count.calls += 1;
            count.differences += differs;
        };
        add(self.functions.entry((call.function(), number)).or_default());
        if let Some((_, count)) = self.groups.last_mut() {
            add(count);
        }
        self.calls += 1;
        self.differences += differs;
        if let (Some(text), None) = (difference, &self.first) {
            self.first = Some(format!("{}: {text}\n{call}", self.group));
        }
    }

    /// The first difference, with its whole input.
    pub fn first(&self) -> Option<&str> {
        self.first.as_deref()
    }

    /// The account, as two tables and a line.
    pub fn report(&self) -> String {
        let mut text = String::new();
        let _ = writeln!(text, "{:<44} {:>10} {:>11}", "cases", "calls", "differences");
        for (group, count) in &self.groups {
            let _ = writeln!(text, "{group:<44} {:>10} {:>11}", count.calls, count.differences);
        }
        let _ = writeln!(text);
        let _ = writeln!(
            text,
            "{:<32} {:<11} {:>10} {:>11}",
            "function", "wanted", "calls", "differences"
        );
        for ((function, number), count) in &self.functions {
            let wanted = format!("{number} {}", refusal::name(*number));
            let _ = writeln!(
                text,
                "{function:<32} {wanted:<11} {:>10} {:>11}",
                count.calls, count.differences
            );
        }
        let _ = writeln!(text);
        let _ = write!(text, "{} calls, {} differences", self.calls, self.differences);
        text
    }
}
