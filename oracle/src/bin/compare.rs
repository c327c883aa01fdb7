//! Compares Morgnet, over its C face, with the oracle and document 01.
//!
//!     compare SEED COUNT            the fixed cases, then COUNT random cases of each kind
//!     compare SEED COUNT --self     the same over the face in src/own.rs, though Morgnet is linked
//!     compare SEED COUNT --faults   the face in src/own.rs with each fault planted: all must be noticed
//!
//! Without the feature `linked` the face is the one in src/own.rs. The exit status is 1 where something
//! differs, or a fault is not noticed.
#![forbid(unsafe_code)]

use oracle::cases;
use oracle::face::Face;
use oracle::own::{Fault, Own, FAULTS};
use oracle::runner::Runner;
use std::process::exit;
use std::time::Instant;

fn usage() -> ! {
    eprintln!("usage: compare SEED COUNT [--self | --faults]");
    exit(2)
}

fn main() {
    let args: Vec<String> = std::env::args().skip(1).collect();
    let number = |i: usize| args.get(i).and_then(|a| a.parse::<u64>().ok());
    let (Some(seed), Some(count)) = (number(0), number(1)) else { usage() };
    match args.get(2).map(String::as_str) {
        Some("--faults") => faults(seed, count),
        Some("--self") => compare(seed, count, &Own { fault: Fault::None }, "src/own.rs"),
        None => linked(seed, count),
        _ => usage(),
    }
}

#[cfg(feature = "linked")]
fn linked(seed: u64, count: u64) {
    compare(seed, count, &oracle::face::Linked, "libmorgnet.a")
}

#[cfg(not(feature = "linked"))]
fn linked(seed: u64, count: u64) {
    compare(seed, count, &Own { fault: Fault::None }, "src/own.rs")
}

fn compare(seed: u64, count: u64, face: &dyn Face, name: &str) {
    println!("compare {seed} {count}: {name} with the Rust at e39e55625f");
    println!(
        "the source's debug assertions are {}",
        if cfg!(debug_assertions) { "on" } else { "off" }
    );
    let start = Instant::now();
    let told = |r: &Runner| {
        eprintln!(
            "{:>8.1} s  {} calls, {} differences",
            start.elapsed().as_secs_f64(),
            r.calls(),
            r.differences()
        );
    };
    let mut runner = Runner::new(face, seed);
    cases::fixed(&mut runner, false, told);
    cases::drawn(&mut runner, count, told);
    println!("\n{}", runner.report());
    if let Some(first) = runner.first() {
        println!("\nthe first difference: {first}");
        exit(1);
    }
}

/// Every fault must be noticed.
fn faults(seed: u64, count: u64) {
    std::panic::set_hook(Box::new(|_| {}));
    let mut missed = 0;
    for &fault in FAULTS {
        let face = Own { fault };
        let mut runner = Runner::new(&face, seed);
        runner.stop_at_first = true;
        cases::fixed(&mut runner, true, |_| {});
        cases::drawn(&mut runner, count, |_| {});
        match runner.first() {
            Some(first) => {
                let line = first.lines().next().unwrap_or_default();
                println!("{:<28} {:>7}  {line}", format!("{fault:?}"), runner.calls());
            }
            None => {
                missed += 1;
                println!("{:<28} {:>7}  NOT NOTICED", format!("{fault:?}"), runner.calls());
            }
        }
    }
    println!("{} faults, {missed} not noticed", FAULTS.len());
    if missed != 0 {
        exit(1);
    }
}
