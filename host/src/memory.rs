//! Memory: asked for before it is used, so that a table that does not fit is a message and no crash.

use crate::Problem;

/// The number after `name:` in a file of /proc, in bytes.
fn of_proc(file: &str, name: &str) -> Option<u64> {
    let text = std::fs::read_to_string(file).ok()?;
    let line = text.lines().find_map(|line| line.strip_prefix(name)?.strip_prefix(':'))?;
    line.trim().strip_suffix("kB")?.trim().parse::<u64>().ok().map(|kib| kib * 1024)
}

/// What the system could still give, where it tells.
fn available() -> Option<u64> {
    of_proc("/proc/meminfo", "MemAvailable")
}

/// The most that this process has had at once, where the system tells.
pub fn peak() -> Option<u64> {
    of_proc("/proc/self/status", "VmHWM")
}

/// Starts [`peak`] anew from what the process has now, where the system allows it.
pub fn forget_peak() {
    let _ = std::fs::write("/proc/self/clear_refs", "5");
}

/// `count` zeros.
///
/// # Errors
/// Where the system has not as much memory.
pub fn zeros<T: Copy + Default>(count: u64, what: &str) -> Result<Vec<T>, Problem> {
    let bytes = count.checked_mul(size_of::<T>() as u64);
    let bytes = bytes.filter(|bytes| isize::try_from(*bytes).is_ok());
    let (Some(bytes), Ok(count)) = (bytes, usize::try_from(count)) else {
        return Err(Problem::new(format!("{what}: {count} numbers are more than memory can hold")));
    };
    let short = |there: String| {
        Problem::new(format!("{what} takes {} of memory, and {there}", size(bytes)))
    };
    if let Some(there) = available().filter(|there| *there < bytes) {
        return Err(short(format!("{} are free", size(there))));
    }
    let mut zeros = Vec::new();
    zeros.try_reserve_exact(count).map_err(|_| short("the system does not give it".into()))?;
    zeros.resize(count, T::default());
    Ok(zeros)
}

/// A number of bytes for a person.
pub fn size(bytes: u64) -> String {
    const UNITS: [&str; 5] = ["KiB", "MiB", "GiB", "TiB", "PiB"];
    if bytes < 1024 {
        return format!("{bytes} bytes");
    }
    let mut value = bytes as f64 / 1024.0;
    let mut unit = 0;
    while value >= 1024.0 && unit + 1 < UNITS.len() {
        value /= 1024.0;
        unit += 1;
    }
    format!("{value:.1} {}", UNITS[unit])
}
