//! Runs that are stopped, and runs at the same time.

use crate::folder::*;
use std::os::unix::process::ExitStatusExt;
use std::process::{Command, Stdio};
use std::time::Duration;

#[test]
fn a_run_that_is_stopped() {
    for words in WRITERS {
        for fault in ["write:1:kill", "fsync:1:kill", "rename:1:kill"] {
            let folder = Folder::posted();
            let before = folder.all();
            let output = folder.fault(fault, words);
            assert_eq!(output.status.signal(), Some(KILLED), "{fault} {words:?}");
            assert!(!folder.unfinished().is_empty());
            let mut after = folder.all();
            after.retain(|name, _| !name.ends_with(UNFINISHED));
            assert!(before == after, "{fault} {words:?}");
            // the next run says so, throws it away, and does the work
            let output = folder.run(words);
            assert!(output.status.success(), "{}", told(&output));
            says(&told(&output), &["note: an earlier run was stopped", "thrown away"]);
            assert!(folder.unfinished().is_empty());
        }
    }
}

#[test]
fn a_run_that_is_stopped_between_two_keys() {
    let folder = Folder::posted();
    let output = folder.fault("rename:2:kill", MAKE);
    assert_eq!(output.status.signal(), Some(KILLED));
    assert!(folder.file("new.0.key").exists() && !folder.file("new.1.key").exists());
    says(&folder.bad(MAKE), &["new.0.key is there and new.1.key is not", "--force"]);
    // an older pair is replaced: never two keys that are no pair
    let again = [MAKE, &["--force"]].concat();
    folder.good(&again);
    says(&folder.good(&["read", "--cell", "17", "new.0.key", "new.1.key"]), &["  5  sum"]);
    for fault in ["rename:1:kill", "rename:2:kill"] {
        let output = folder.fault(fault, &again);
        assert_eq!(output.status.signal(), Some(KILLED), "{fault}");
        says(&folder.bad(MAKE), &["new.0.key is there and new.1.key is not"]);
        folder.good(&again);
    }
    let output = folder.fault("unlink:1:kill", &again);
    assert_eq!(output.status.signal(), Some(KILLED));
    says(&folder.good(&["read", "--cell", "17", "new.0.key", "new.1.key"]), &["  5  sum"]);
}

/// A run that is told to end, just before its file would stand there: the table is as it was. (TERM and not the keyboard's INT,
/// which a run behind a shell's & passes over.)
#[test]
fn a_run_that_is_interrupted() {
    let folder = Folder::posted();
    let before = folder.read("a.table");
    let mut child = folder.held(ADD);
    let told_to_end = Command::new("kill").args(["-TERM", &child.id().to_string()]).status();
    assert!(told_to_end.expect("kill").success());
    assert!(!child.wait().expect("it ends").success());
    assert_eq!(folder.read("a.table"), before);
    says(&told(&folder.run(ADD)), &["an earlier run was stopped"]);
    assert_ne!(folder.read("a.table"), before);
}

/// Stopped after some milliseconds, wherever that is: the table has the key once more, or not.
#[test]
fn a_run_that_is_stopped_at_any_moment() {
    let folder = Folder::posted();
    let share = folder.cells("a.table");
    let mut times = 1;
    for tenths in 0..60 {
        let mut command = folder.command(ADD);
        let mut child = command.stdout(Stdio::null()).stderr(Stdio::null()).spawn().expect("a run");
        std::thread::sleep(Duration::from_micros(100 * tenths));
        child.kill().expect("a signal");
        child.wait().expect("it ends");
        let now = folder.cells("a.table");
        let sum = |times: u64| share.iter().map(|x| x.wrapping_mul(times)).collect::<Vec<_>>();
        if now != sum(times) {
            times += 1;
            assert!(now == sum(times), "the table is neither as it was nor whole and new");
        }
    }
    folder.good(ADD);
    assert!(folder.unfinished().is_empty());
}

/// Two runs over one table: one is refused, neither is lost.
#[test]
fn two_runs_at_once() {
    let folder = Folder::posted();
    let once = folder.cells("a.table");
    let mut first = folder.held(ADD);
    let second = folder.run(ADD);
    assert_eq!(second.status.code(), Some(1));
    says(&told(&second), &["another run is writing", "try again"]);
    folder.let_go();
    assert!(first.wait().expect("it ends").success());
    let twice: Vec<u64> = once.iter().map(|x| x.wrapping_mul(2)).collect();
    assert_eq!(folder.cells("a.table"), twice);

    // many at once, each again until it is let in
    let runs = 12;
    std::thread::scope(|scope| {
        for _ in 0..runs {
            scope.spawn(|| {
                while !folder.run(ADD).status.success() {
                    std::thread::sleep(Duration::from_millis(3));
                }
            });
        }
    });
    let all: Vec<u64> = once.iter().map(|x| x.wrapping_mul(2 + runs)).collect();
    assert_eq!(folder.cells("a.table"), all);
    assert!(folder.unfinished().is_empty());
}
