//! One file for each command.

pub mod add;
pub mod bench;
pub mod demo;
pub mod make;
pub mod read;
pub mod sum;

use crate::say;
use morgnet::files::Whole;

/// Tells of a run that was stopped before.
pub fn tell_unfinished(file: &Whole) {
    if file.found_unfinished {
        say::note(format!(
            "an earlier run was stopped while it wrote {}; what it had written is thrown away",
            file.target().display()
        ));
    }
}
