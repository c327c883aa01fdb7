//! What a person sees while they wait: a line on standard error, where that is a terminal.

use crate::face;
use std::io::{IsTerminal, Write};
use std::sync::atomic::{AtomicU64, Ordering};
use std::sync::mpsc::{channel, RecvTimeoutError, Sender};
use std::sync::Arc;
use std::thread::JoinHandle;
use std::time::{Duration, Instant};

const BEAT: Duration = Duration::from_millis(200);
const WIDTH: usize = 24;

/// A line that tells how far the work is. It goes away when this is dropped.
pub struct Progress {
    done: Arc<AtomicU64>,
    line: Option<(Sender<()>, JoinHandle<()>)>,
}

/// How far the work is, from 0 to 1, after so many steps and so much time.
type Part = Box<dyn Fn(u64, Duration) -> f64 + Send>;

/// About how long so many AES blocks take on this machine, by the whole domain of a small key.
fn time_of(blocks: u64) -> Duration {
    const CELLS: usize = 2048;
    let (mut key0, mut key1) = ([0; 592], [0; 592]);
    let (mut scratch, mut out) = (vec![0; 2 * CELLS], vec![0; CELLS]);
    let made = face::single_generate_keys(CELLS as u64, 5, 7, &[1, 2, 3, 4], &mut key0, &mut key1);
    let length = made.map_or(0, |made| made.length);
    let started = Instant::now();
    let _ = face::single_evaluate_domain(&key0[..length], &mut scratch, &mut out);
    started.elapsed().mul_f64(blocks as f64 / (CELLS * 3 / 2) as f64)
}

impl Progress {
    /// A call that cannot be asked how far it is, of about so many AES blocks: a guess by the time.
    pub fn of(what: impl Into<String>, blocks: u64) -> Progress {
        Progress::start(what.into(), || {
            let whole = time_of(blocks).as_secs_f64().max(0.001);
            Box::new(move |_, gone| (gone.as_secs_f64() / whole).min(0.99))
        })
    }

    /// Work of so many steps, which are told by [`Progress::at`].
    pub fn steps(what: impl Into<String>, all: u64) -> Progress {
        Progress::start(what.into(), || Box::new(move |done, _| done as f64 / all.max(1) as f64))
    }

    /// So many steps are done.
    pub fn at(&self, done: u64) {
        self.done.store(done, Ordering::Relaxed);
    }

    fn start(what: String, part: impl FnOnce() -> Part) -> Progress {
        let done = Arc::new(AtomicU64::new(0));
        if !std::io::stderr().is_terminal() {
            return Progress { done, line: None };
        }
        let part = part();
        let (stop, stopped) = channel();
        let steps = Arc::clone(&done);
        let thread = std::thread::spawn(move || {
            let started = Instant::now();
            let mut shown = false;
            while let Err(RecvTimeoutError::Timeout) = stopped.recv_timeout(BEAT) {
                shown = true;
                let gone = started.elapsed();
                let line = line(&what, gone, part(steps.load(Ordering::Relaxed), gone));
                let _ = write!(std::io::stderr(), "\r{line}\x1b[K");
            }
            if shown {
                let _ = write!(std::io::stderr(), "\r\x1b[K");
            }
        });
        Progress { done, line: Some((stop, thread)) }
    }
}

impl Drop for Progress {
    fn drop(&mut self) {
        if let Some((stop, thread)) = self.line.take() {
            drop(stop);
            let _ = thread.join();
        }
    }
}

fn line(what: &str, gone: Duration, part: f64) -> String {
    let part = part.clamp(0.0, 1.0);
    let full = (part * WIDTH as f64) as usize;
    let bar = format!("{}{}", "#".repeat(full), ".".repeat(WIDTH - full));
    let gone = gone.as_secs_f64();
    let left = match part > 0.02 {
        true => format!(", about {:.0} s to go", gone / part - gone),
        false => String::new(),
    };
    format!("{what} [{bar}] {gone:.0} s{left}")
}

#[cfg(test)]
mod tests {
    use super::*;

    #[test]
    fn a_line_tells_how_far_it_is() {
        let second = Duration::from_secs(1);
        assert_eq!(line("adding", Duration::ZERO, 0.0), "adding [........................] 0 s");
        assert_eq!(
            line("adding", 3 * second, 0.5),
            "adding [############............] 3 s, about 3 s to go"
        );
        assert_eq!(
            line("adding", 3 * second, 7.0),
            "adding [########################] 3 s, about 0 s to go"
        );
    }
}
