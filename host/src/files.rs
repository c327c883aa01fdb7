//! Key and table files. A key file has the bytes of the image; a table file has its cells, 8 bytes
//! little-endian each. What is written appears whole or not at all, under its name only once it is on
//! the disk; what stood there before stays until then.
//!
//! While a file is written it stands beside the target as `.NAME.morgnet-part`, locked, so that of two
//! runs over one target one is refused. A run that was stopped leaves that file behind; the next run
//! over the target throws it away and says so. No command reads it.

use crate::{memory, Problem};
use std::ffi::OsString;
use std::fs::{self, File, OpenOptions, TryLockError};
use std::io::{ErrorKind, Read, Write};
use std::os::unix::fs::{fchown, MetadataExt, OpenOptionsExt};
use std::path::{Path, PathBuf};

/// The longest key image: 65,535 buckets over the largest table.
pub const LONGEST_KEY: usize = 72 + 592 * 65_535;

const CHUNK: usize = 1 << 20;

/// Whether a file is a key by its name, which ends in `.key`.
pub fn is_key(path: &Path) -> bool {
    path.extension().is_some_and(|end| end == "key")
}

/// A file whose name says that it is a key is no table.
///
/// # Errors
/// Where it is one.
pub fn no_key(path: &Path) -> Result<(), Problem> {
    match is_key(path) {
        true => Err(Problem::new(format!("{} is a key by its name, no table", path.display()))),
        false => Ok(()),
    }
}

/// What a file is for: what its new file's permissions are, and whether one may stand there.
#[derive(Clone, Copy, Debug, PartialEq, Eq)]
pub enum Kind {
    /// A key, for its owner alone; none may stand there.
    NewKey,
    /// A key; one that stands there is replaced.
    Key,
    /// A table or a text; none may stand there.
    New,
    /// A table or a text; one that stands there is replaced.
    Replace,
}

/// A file on its way: written beside its target, and put there by [`Whole::finish`]. Dropped before,
/// it leaves nothing.
#[derive(Debug)]
pub struct Whole {
    target: PathBuf,
    part: PathBuf,
    file: File,
    kind: Kind,
    /// A run before this one was stopped while it wrote the same target.
    pub found_unfinished: bool,
    done: bool,
}

fn part_of(target: &Path) -> Result<PathBuf, Problem> {
    let Some(name) = target.file_name() else {
        return Err(Problem::new(format!("{} is no name for a file", target.display())));
    };
    let mut part = OsString::from(".");
    part.push(name);
    part.push(".morgnet-part");
    Ok(target.with_file_name(part))
}

fn folder_of(path: &Path) -> &Path {
    match path.parent() {
        Some(folder) if !folder.as_os_str().is_empty() => folder,
        _ => Path::new("."),
    }
}

/// Opens the part file, new or left by a run before, and says whether it was there; nothing where it
/// went away meanwhile.
fn opened(part: &Path, kind: Kind) -> std::io::Result<Option<(File, bool)>> {
    let for_all = matches!(kind, Kind::New | Kind::Replace);
    let mut options = OpenOptions::new();
    options.read(true).write(true).mode(if for_all { 0o666 } else { 0o600 });
    match options.clone().create_new(true).open(part) {
        Ok(file) => return Ok(Some((file, false))),
        Err(e) if e.kind() == ErrorKind::AlreadyExists => {}
        Err(e) => return Err(e),
    }
    match options.open(part) {
        Ok(file) => Ok(Some((file, true))),
        Err(e) if e.kind() == ErrorKind::NotFound => Ok(None),
        Err(e) => Err(e),
    }
}

/// What stands under the part file's name, where anything does. A link is refused, not followed.
fn entry(part: &Path) -> Result<Option<fs::Metadata>, Problem> {
    match fs::symlink_metadata(part) {
        Ok(entry) if entry.file_type().is_symlink() => {
            Err(Problem::new(format!("{} is a link: remove it", part.display())))
        }
        entry => Ok(entry.ok()),
    }
}

/// Whether the name still leads to the file that was opened.
fn still_there(part: &Path, file: &File) -> Result<bool, Problem> {
    let own = file.metadata().map_err(|e| Problem::file("cannot look at", part, &e))?;
    Ok(entry(part)?.is_some_and(|entry| (entry.dev(), entry.ino()) == (own.dev(), own.ino())))
}

/// Makes the part file and locks it. One that a run before had left is removed first, and that is said:
/// the file is new in any case, with this run's owner and permissions. The name may go to another file
/// before the lock is had: then once more.
fn locked(target: &Path, part: &Path, kind: Kind) -> Result<(File, bool), Problem> {
    let mut unfinished = false;
    for _ in 0..100 {
        let (file, found) = match opened(part, kind) {
            Ok(Some(opened)) => opened,
            Ok(None) => {
                entry(part)?;
                continue;
            }
            Err(e) => {
                return Err(Problem::new(format!(
                    "cannot write {}: no file can be made in {}: {e}",
                    target.display(),
                    folder_of(target).display()
                )));
            }
        };
        match file.try_lock() {
            Ok(()) if !still_there(part, &file)? => {}
            Ok(()) if !found => return Ok((file, unfinished)),
            Ok(()) => {
                fs::remove_file(part).map_err(|e| Problem::file("cannot remove", part, &e))?;
                unfinished = true;
            }
            Err(TryLockError::WouldBlock) => {
                return Err(Problem::new(format!(
                    "another run is writing {} just now; try again when it has ended",
                    target.display()
                )));
            }
            Err(TryLockError::Error(e)) => return Err(Problem::file("cannot lock", part, &e)),
        }
    }
    Err(Problem::new(format!("{} keeps changing: is another program using it?", part.display())))
}

impl Whole {
    /// Begins a file. Fails at once where it could not be put at its place in the end.
    ///
    /// # Errors
    /// Where something stands there that is not to be replaced, or the folder takes no file.
    pub fn begin(target: &Path, kind: Kind) -> Result<Whole, Problem> {
        // behind a link, the file that it points to is replaced
        let target = target.canonicalize().unwrap_or_else(|_| target.to_path_buf());
        let part = part_of(&target)?;
        let (file, found_unfinished) = locked(&target, &part, kind)?;
        let whole = Whole { target, part, file, kind, found_unfinished, done: false };
        whole.may_stand()?;
        Ok(whole)
    }

    /// Where it is to stand.
    pub fn target(&self) -> &Path {
        &self.target
    }

    fn may_stand(&self) -> Result<(), Problem> {
        let name = self.target.display();
        match fs::symlink_metadata(&self.target) {
            Err(e) if e.kind() == ErrorKind::NotFound => Ok(()),
            Err(e) => Err(Problem::file("cannot look at", &self.target, &e)),
            Ok(there) if !there.is_file() => {
                Err(Problem::new(format!("{name} is there and is no plain file")))
            }
            Ok(_) if matches!(self.kind, Kind::NewKey | Kind::New) => Err(Problem::new(format!(
                "{name} is there already; name another, or say --force to replace it"
            ))),
            Ok(_) => Ok(()),
        }
    }

    /// Writes the next bytes.
    ///
    /// # Errors
    /// Where they do not fit on the disk.
    pub fn write(&mut self, bytes: &[u8]) -> Result<(), Problem> {
        self.file.write_all(bytes).map_err(|e| self.unwritten(&e))
    }

    fn unwritten(&self, e: &std::io::Error) -> Problem {
        let stays = match self.target.exists() {
            true => "it is as it was",
            false => "nothing was left there",
        };
        Problem::new(format!("cannot write {}: {e}; {stays}", self.target.display()))
    }

    /// A table's cells.
    ///
    /// # Errors
    /// Where they do not fit on the disk.
    pub fn write_cells(&mut self, cells: &[u64]) -> Result<(), Problem> {
        let mut bytes = Vec::with_capacity(CHUNK);
        for chunk in cells.chunks(CHUNK / 8) {
            bytes.clear();
            bytes.extend(chunk.iter().flat_map(|cell| cell.to_le_bytes()));
            self.write(&bytes)?;
        }
        Ok(())
    }

    /// Everything that was written is on the disk; its permissions and owner are as they are to be.
    ///
    /// # Errors
    /// Where the disk says no.
    pub fn sync(&self) -> Result<(), Problem> {
        let settle = || -> std::io::Result<()> {
            if let Ok(there) = fs::metadata(&self.target) {
                // the owner only where the system allows it
                let _ = fchown(&self.file, Some(there.uid()), Some(there.gid()));
                self.file.set_permissions(there.permissions())?;
            }
            self.file.sync_all()
        };
        settle().map_err(|e| self.unwritten(&e))
    }

    /// Removes what stands at the target, and says whether anything did.
    ///
    /// # Errors
    /// Where the folder says no; the target is then as it was.
    pub fn clear(&self) -> Result<bool, Problem> {
        match fs::remove_file(&self.target) {
            Ok(()) => Ok(true),
            Err(e) if e.kind() == ErrorKind::NotFound => Ok(false),
            Err(e) => Err(self.unwritten(&e)),
        }
    }

    /// Puts the file at its place.
    ///
    /// # Errors
    /// Where the disk says no; the target is then as it was.
    pub fn finish(mut self) -> Result<(), Problem> {
        self.sync()?;
        self.may_stand()?;
        fs::rename(&self.part, &self.target).map_err(|e| self.unwritten(&e))?;
        self.done = true;
        // so that the new name outlives a power cut; some file systems cannot, and need not
        if let Ok(folder) = File::open(folder_of(&self.target)) {
            let _ = folder.sync_all();
        }
        Ok(())
    }
}

impl Drop for Whole {
    fn drop(&mut self) {
        if !self.done {
            let _ = fs::remove_file(&self.part);
        }
    }
}

/// The first bytes of a file, at most `most`: all of it where it has no more.
///
/// # Errors
/// Where it cannot be read.
pub fn front(path: &Path, most: usize) -> Result<Vec<u8>, Problem> {
    let mut bytes = Vec::new();
    File::open(path)
        .and_then(|file| file.take(most as u64).read_to_end(&mut bytes))
        .map_err(|e| Problem::file("cannot read", path, &e))?;
    Ok(bytes)
}

/// A table file that is open for reading: how many cells it has, and the cells in order.
#[derive(Debug)]
pub struct TableFile {
    path: PathBuf,
    file: File,
    pub cells: u64,
    left: u64,
}

impl TableFile {
    /// Opens a table.
    ///
    /// # Errors
    /// Where it cannot be read, or has no whole number of cells, or none.
    pub fn open(path: &Path) -> Result<TableFile, Problem> {
        let failed = |e: std::io::Error| Problem::file("cannot read", path, &e);
        let file = File::open(path).map_err(failed)?;
        let about = file.metadata().map_err(failed)?;
        if !about.is_file() {
            return Err(Problem::new(format!("{} is no plain file", path.display())));
        }
        let bytes = about.len();
        if bytes == 0 {
            return Err(Problem::new(format!("{} is empty: no table", path.display())));
        }
        if bytes % 8 != 0 {
            return Err(Problem::new(format!(
                "{} has {bytes} bytes, no whole number of cells of 8 bytes: it is damaged or cut short",
                path.display()
            )));
        }
        Ok(TableFile { path: path.to_path_buf(), file, cells: bytes / 8, left: bytes / 8 })
    }

    /// Puts the next cells into `cells`, as many as are left and fit. Answers how many.
    ///
    /// # Errors
    /// Where the file cannot be read, or got shorter meanwhile.
    pub fn next(&mut self, cells: &mut [u64]) -> Result<usize, Problem> {
        let count = self.left.min(cells.len() as u64) as usize;
        let mut bytes = vec![0; CHUNK];
        for chunk in cells[..count].chunks_mut(CHUNK / 8) {
            let bytes = &mut bytes[..8 * chunk.len()];
            self.file
                .read_exact(bytes)
                .map_err(|e| Problem::file("cannot read", &self.path, &e))?;
            for (cell, raw) in chunk.iter_mut().zip(bytes.chunks_exact(8)) {
                *cell = u64::from_le_bytes(raw.try_into().expect("8 bytes"));
            }
        }
        self.left -= count as u64;
        Ok(count)
    }
}

/// A whole table.
///
/// # Errors
/// As [`TableFile::open`] and [`TableFile::next`]; or it does not fit into memory.
pub fn read_table(path: &Path) -> Result<Vec<u64>, Problem> {
    let mut file = TableFile::open(path)?;
    let mut cells = memory::zeros(file.cells, &path.display().to_string())?;
    file.next(&mut cells)?;
    Ok(cells)
}

/// One cell of a table.
///
/// # Errors
/// As [`TableFile::open`]; or it has not so many cells.
pub fn read_cell(path: &Path, cell: u64) -> Result<u64, Problem> {
    use std::os::unix::fs::FileExt;
    let table = TableFile::open(path)?;
    if cell >= table.cells {
        return Err(Problem::new(format!(
            "{}: cell {cell} is outside the table, whose last cell is {}",
            path.display(),
            table.cells - 1
        )));
    }
    let mut raw = [0; 8];
    table
        .file
        .read_exact_at(&mut raw, 8 * cell)
        .map_err(|e| Problem::file("cannot read", path, &e))?;
    Ok(u64::from_le_bytes(raw))
}
