//! Random numbers from the system.

use crate::Problem;
use std::fs::File;
use std::io::Read;
use std::path::Path;

const SOURCE: &str = "/dev/urandom";

/// Fills `bytes`.
///
/// # Errors
/// Where the system's source cannot be read.
pub fn bytes(bytes: &mut [u8]) -> Result<(), Problem> {
    File::open(SOURCE)
        .and_then(|mut source| source.read_exact(bytes))
        .map_err(|e| Problem::file("cannot read random bytes from", Path::new(SOURCE), &e))
}

/// `count` random numbers.
///
/// # Errors
/// Where the system's source cannot be read.
pub fn numbers(count: usize) -> Result<Vec<u64>, Problem> {
    let mut raw = vec![0; 8 * count];
    bytes(&mut raw)?;
    Ok(raw.chunks_exact(8).map(|c| u64::from_le_bytes(c.try_into().expect("8 bytes"))).collect())
}

/// Three hash keys.
///
/// # Errors
/// Where the system's source cannot be read.
pub fn hash_keys() -> Result<[u8; 48], Problem> {
    let mut keys = [0; 48];
    bytes(&mut keys)?;
    Ok(keys)
}
