//! A folder for one test, and the program run in it.

use std::collections::BTreeMap;
use std::fs;
use std::path::{Path, PathBuf};
use std::process::{Child, Command, Output, Stdio};
use std::sync::atomic::{AtomicU64, Ordering};
use std::sync::OnceLock;
use std::time::Duration;

pub const MORGNET: &str = env!("CARGO_BIN_EXE_morgnet");
/// Errors of the system, and the signal that nothing survives.
pub const NO_SPACE: i32 = 28;
pub const BROKEN: i32 = 5;
pub const KILLED: i32 = 9;

/// What a run that was stopped leaves beside its target.
pub const UNFINISHED: &str = ".morgnet-part";

/// The commands that write, over a folder that [`Folder::posted`] made.
pub const ADD: &[&str] = &["add", "--table", "a.table", "day.0.key"];
pub const ADD_NEW: &[&str] = &["add", "--new", "--table", "c.table", "day.0.key"];
pub const MAKE: &[&str] = &["make", "--cells", "500", "--posting", "day.csv", "--out", "new"];
pub const MAKE_POINT: &[&str] = &["make", "--cells", "500", "--point", "1,1", "--out", "new"];
pub const SUM: &[&str] = &["sum", "--out", "sum.table", "a.table", "b.table"];
pub const WRITERS: [&[&str]; 5] = [ADD, ADD_NEW, MAKE, MAKE_POINT, SUM];

/// A folder for one test, removed at its end.
pub struct Folder(pub PathBuf);

impl Folder {
    pub fn new() -> Folder {
        static COUNT: AtomicU64 = AtomicU64::new(0);
        let name =
            format!("morgnet-test-{}-{}", std::process::id(), COUNT.fetch_add(1, Ordering::SeqCst));
        let path = std::env::temp_dir().join(name);
        fs::create_dir_all(&path).expect("a folder for the test");
        Folder(path)
    }

    /// A folder with a posting over 500 cells, its keys, and both partners' tables.
    pub fn posted() -> Folder {
        let folder = Folder::new();
        folder.write("day.csv", b"17,5\n404,6\n0,18446744073709551615\n");
        folder.good(&["make", "--cells", "500", "--posting", "day.csv", "--out", "day"]);
        folder.good(&["add", "--new", "--table", "a.table", "day.0.key"]);
        folder.good(&["add", "--new", "--table", "b.table", "day.1.key"]);
        folder
    }

    pub fn file(&self, name: &str) -> PathBuf {
        self.0.join(name)
    }

    pub fn write(&self, name: &str, bytes: &[u8]) {
        fs::write(self.file(name), bytes).expect("a file of the test");
    }

    pub fn read(&self, name: &str) -> Vec<u8> {
        fs::read(self.file(name)).expect("a file of the test")
    }

    pub fn cells(&self, name: &str) -> Vec<u64> {
        let bytes = self.read(name);
        assert_eq!(bytes.len() % 8, 0);
        bytes.chunks_exact(8).map(|c| u64::from_le_bytes(c.try_into().unwrap())).collect()
    }

    /// Every file in the folder, hidden ones too, with its bytes.
    pub fn all(&self) -> BTreeMap<String, Vec<u8>> {
        fs::read_dir(&self.0)
            .expect("the folder")
            .map(|entry| {
                let path = entry.expect("an entry").path();
                let bytes =
                    if path.is_dir() { vec![] } else { fs::read(&path).unwrap_or_default() };
                (path.file_name().unwrap().to_string_lossy().into_owned(), bytes)
            })
            .collect()
    }

    pub fn command(&self, words: &[&str]) -> Command {
        let mut command = Command::new(MORGNET);
        command.args(words).current_dir(&self.0).stdin(Stdio::null());
        command
    }

    pub fn run(&self, words: &[&str]) -> Output {
        self.command(words).output().expect("morgnet runs")
    }

    /// Runs and wants success.
    #[track_caller]
    pub fn good(&self, words: &[&str]) -> String {
        let output = self.run(words);
        assert!(output.status.success(), "{words:?}: {}", told(&output));
        String::from_utf8(output.stdout).expect("text")
    }

    /// Runs and wants a failure of status 1 that leaves everything as it was. Gives what it says.
    #[track_caller]
    pub fn bad(&self, words: &[&str]) -> String {
        let before = self.all();
        let output = self.run(words);
        assert_eq!(output.status.code(), Some(1), "{words:?}: {}", told(&output));
        let after = self.all();
        assert_eq!(
            before.keys().collect::<Vec<_>>(),
            after.keys().collect::<Vec<_>>(),
            "{words:?}"
        );
        assert!(before == after, "{words:?} changed a file");
        told(&output)
    }

    /// The same with a call that goes wrong (fault.c).
    pub fn fault(&self, fault: &str, words: &[&str]) -> Output {
        let mut command = self.command(words);
        command.env("LD_PRELOAD", shim()).env("FAULT", fault);
        command.output().expect("morgnet runs")
    }

    /// Starts a command that stops before it puts its file at its place, and waits until it is there.
    /// It goes on when [`Folder::let_go`] is called.
    pub fn held(&self, words: &[&str]) -> Child {
        let mut command = self.command(words);
        command.env("LD_PRELOAD", shim()).env("FAULT", "rename:1:wait");
        command.env("GATE", self.gate()).stdout(Stdio::null()).stderr(Stdio::null());
        let mut child = command.spawn().expect("morgnet runs");
        while !self.gate().exists() {
            assert_eq!(child.try_wait().expect("a process"), None, "it ended before");
            std::thread::sleep(Duration::from_millis(1));
        }
        child
    }

    /// What is held goes on.
    pub fn let_go(&self) {
        fs::remove_file(self.gate()).expect("something is held");
    }

    // beside the folder, so that it is none of its files
    fn gate(&self) -> PathBuf {
        self.0.with_extension("gate")
    }

    /// The files that a run which was stopped has left.
    pub fn unfinished(&self) -> Vec<String> {
        self.all().into_keys().filter(|name| name.ends_with(UNFINISHED)).collect()
    }
}

impl Drop for Folder {
    fn drop(&mut self) {
        let _ = fs::remove_dir_all(&self.0);
        let _ = fs::remove_file(self.gate());
    }
}

/// What it says on standard error.
pub fn told(output: &Output) -> String {
    String::from_utf8_lossy(&output.stderr).into_owned()
}

#[track_caller]
pub fn says(text: &str, parts: &[&str]) {
    for part in parts {
        assert!(text.contains(part), "'{part}' is not in: {text}");
    }
}

/// tests/program/fault.c, compiled.
pub fn shim() -> &'static Path {
    static SHIM: OnceLock<PathBuf> = OnceLock::new();
    SHIM.get_or_init(|| {
        let shim = Path::new(env!("CARGO_TARGET_TMPDIR")).join("fault.so");
        let status = Command::new("gcc")
            .args(["-O1", "-Wall", "-Wextra", "-Werror", "-shared", "-fPIC", "-o"])
            .arg(&shim)
            .arg(Path::new(env!("CARGO_MANIFEST_DIR")).join("tests/program/fault.c"))
            .status()
            .expect("gcc is there");
        assert!(status.success());
        shim
    })
}

pub fn summed(folder: &Folder) -> Vec<u64> {
    let (a, b) = (folder.cells("a.table"), folder.cells("b.table"));
    a.iter().zip(&b).map(|(a, b)| a.wrapping_add(*b)).collect()
}
