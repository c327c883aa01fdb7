//! How often placement gives up with the default bucket count.

use super::{wanted, Sequence};
use crate::say::{grouped, Say};
use morgnet::progress::Progress;
use morgnet::{face, keys, Problem, Refusal};

const COUNTS: [u64; 15] =
    [1, 2, 3, 4, 5, 10, 30, 100, 300, 1000, 10_000, 36_000, 58_000, 60_000, 60_500];

/// What draws of hash keys for one list of points came to.
#[derive(Default)]
struct Drawn {
    draws: u64,
    given_up: u64,
    evictions: u64,
}

/// So many draws, or fewer where it gives up a hundred times.
fn drawn(points: u64, draws: u64, any: &mut Sequence) -> Result<Drawn, Problem> {
    let buckets = keys::default_buckets(points);
    let domain = points * 4000;
    let list = any.rising(points as usize, domain);
    let mut scratch = vec![0; (buckets + points) as usize];
    let mut drawn = Drawn::default();
    while drawn.draws < draws && drawn.given_up < 100 {
        drawn.draws += 1;
        match face::place(domain, buckets, &any.hash_keys(), &list, &mut scratch) {
            Err(Refusal::Place) => drawn.given_up += 1,
            placed => drawn.evictions += wanted(placed)?,
        }
    }
    Ok(drawn)
}

const HEAD: &str = "
## Placement with the default bucket count

For n points the program takes 9 n / 5 + 48 buckets, rounded up and at most 65,535. One list of points for each line, fresh hash keys
at each draw, until it has given up 100 times. Above 36,000 points the buckets run short; above 60,000 the points do not fit.

| points | buckets | draws of hash keys | given up | evictions a point |
|---:|---:|---:|---:|---:|
";

pub fn table(say: &mut Say, draws: u64, any: &mut Sequence) -> Result<(), Problem> {
    say.text(HEAD)?;
    let progress = Progress::steps("placing", COUNTS.len() as u64);
    for (i, points) in COUNTS.into_iter().enumerate() {
        progress.at(i as u64);
        // about as much work for each line
        let draws = (draws * 1000 / (points + 20)).max(1);
        let Drawn { draws, given_up, evictions } = drawn(points, draws, any)?;
        let each = evictions as f64 / (points * (draws - given_up).max(1)) as f64;
        say.line(format!(
            "| {} | {} | {} | {given_up} | {each:.3} |",
            grouped(points),
            grouped(keys::default_buckets(points)),
            grouped(draws)
        ))?;
    }
    Ok(())
}
