//! What the program does when it is called wrongly, twice, or ended early.

use std::fs;
use std::os::unix::fs::symlink;
use std::path::{Path, PathBuf};
use std::process::{Child, Command, Output, Stdio};
use std::thread::sleep;
use std::time::{Duration, Instant};

const PLATE: &str = env!("CARGO_BIN_EXE_plate");
/// A run that goes on for many seconds, unless it is ended.
const SLOW: [&str; 9] = ["--size", "30000000", "--connections", "1", "--element", "4100", "--alone", "--pace", "20000"];

/// A directory of a test's own.
struct Place(PathBuf);

impl Place {
    fn new(name: &str) -> Place {
        let path = std::env::temp_dir().join(format!("plate-test-{}-{name}", std::process::id()));
        fs::create_dir(&path).unwrap();
        Place(path)
    }

    fn file(&self, name: &str, bytes: &[u8]) -> PathBuf {
        let path = self.0.join(name);
        fs::write(&path, bytes).unwrap();
        path
    }

    fn names(&self) -> Vec<String> {
        let mut names: Vec<String> =
            fs::read_dir(&self.0).unwrap().map(|entry| entry.unwrap().file_name().into_string().unwrap()).collect();
        names.sort();
        names
    }
}

impl Drop for Place {
    fn drop(&mut self) {
        let _ = fs::remove_dir_all(&self.0);
    }
}

fn plate(words: &[&str]) -> Output {
    Command::new(PLATE).args(words).output().unwrap()
}

/// Refused with a status and words on standard error.
fn refused(words: &[&str], status: i32, said: &[&str]) {
    let output = plate(words);
    let err = String::from_utf8(output.stderr).unwrap();
    assert_eq!(output.status.code(), Some(status), "{words:?}: {err}");
    for part in said {
        assert!(err.contains(part), "{words:?} does not say {part:?}: {err}");
    }
    assert!(output.stdout.is_empty(), "{words:?} reports something");
}

fn text(path: &Path) -> &str {
    path.to_str().unwrap()
}

/// The processes that one has started, in the order of their start.
fn children(of: u32) -> Vec<u32> {
    let list = fs::read_to_string(format!("/proc/{of}/task/{of}/children")).unwrap_or_default();
    list.split_whitespace().map(|pid| pid.parse().unwrap()).collect()
}

/// Whether a process is there and does not merely wait to be counted out.
fn lives(pid: u32) -> bool {
    let stat = fs::read_to_string(format!("/proc/{pid}/stat")).unwrap_or_default();
    stat.rsplit(')').next().and_then(|rest| rest.split_whitespace().next()).is_some_and(|state| state != "Z" && state != "X")
}

fn until(what: &str, mut done: impl FnMut() -> bool) {
    let since = Instant::now();
    while !done() {
        assert!(since.elapsed() < Duration::from_secs(60), "{what}: not within a minute");
        sleep(Duration::from_millis(5));
    }
}

/// A slow run whose two processes have started.
fn started(more: &[&str]) -> (Child, Vec<u32>) {
    let child = Command::new(PLATE).args(SLOW).args(more).stdout(Stdio::piped()).stderr(Stdio::piped()).spawn().unwrap();
    let mut both = Vec::new();
    until("two processes", || {
        both = children(child.id());
        both.len() == 2
    });
    (child, both)
}

fn signal(name: &str, pid: u32) {
    assert!(Command::new("/bin/sh").arg("-c").arg(format!("kill -{name} {pid}")).status().unwrap().success());
}

#[test]
fn help_and_options() {
    for word in ["-h", "--help"] {
        let output = plate(&[word]);
        assert!(output.status.success() && String::from_utf8(output.stdout).unwrap().starts_with("plate [FILE]"));
    }
    refused(&["--hlep"], 2, &["--hlep is no option"]);
    refused(&["-x"], 2, &["-x is no option"]);
    refused(&["--connections", "256"], 2, &["--connections", "1 to 255", "\"256\""]);
    refused(&["--kill", "editor"], 2, &["composer or host", "\"editor\""]);
    refused(&["--out"], 2, &["--out wants a word"]);
    refused(&["a", "b"], 2, &["a and b"]);
}

#[test]
fn errors_name_the_file() {
    let place = Place::new("errors");
    let missing = place.0.join("missing");
    refused(&[text(&missing)], 1, &["look at", text(&missing), "No such file"]);
    refused(&[text(&place.0)], 1, &[text(&place.0), "no plain file"]);
    refused(&["--size", "9", "--out", text(&place.0)], 1, &["--out", text(&place.0), "no plain file"]);
    let nowhere = missing.join("out");
    refused(&["--size", "9", "--out", text(&nowhere)], 1, &["make", text(&nowhere), "No such file"]);
    assert!(place.names().is_empty());
}

#[test]
fn the_input_is_no_output() {
    let place = Place::new("same");
    let file = place.file("file", b"the only copy");
    let (hard, soft) = (place.0.join("hard"), place.0.join("soft"));
    fs::hard_link(&file, &hard).unwrap();
    symlink(&file, &soft).unwrap();
    for out in [&file, &hard, &soft] {
        refused(&[text(&file), "--out", text(out)], 1, &["the same file as the input", "nothing was touched", text(out)]);
        refused(&[text(out), "--out", text(&file)], 1, &["the same file as the input"]);
    }
    let part = place.file("other.plate-part", b"of somebody");
    refused(&[text(&file), "--out", text(&place.0.join("other"))], 1, &[text(&part), "remove it first"]);
    assert_eq!(fs::read(&file).unwrap(), b"the only copy");
    assert_eq!(fs::read(&part).unwrap(), b"of somebody");
    assert_eq!(place.names(), ["file", "hard", "other.plate-part", "soft"]);
}

#[test]
fn an_output_is_replaced_whole() {
    let place = Place::new("out");
    let (file, old) = (place.file("file", &[7; 100_000]), place.file("old", b"an older plate"));
    let soft = place.0.join("soft");
    symlink(&old, &soft).unwrap();
    let output = plate(&[text(&file), "--out", text(&soft), "--rounds", "1", "--alone"]);
    assert!(output.status.success(), "{output:?}");
    assert_eq!(fs::read(&old).unwrap(), [7; 100_000]);
    assert!(fs::symlink_metadata(&soft).unwrap().is_symlink());
    assert_eq!(place.names(), ["file", "old", "soft"]);
}

#[test]
fn one_output_one_run() {
    let place = Place::new("two");
    let out = place.0.join("out");
    let (first, _) = started(&["--out", text(&out)]);
    refused(&["--size", "9", "--out", text(&out)], 1, &["another plate is writing it", text(&out)]);
    signal("TERM", first.id());
    let ended = first.wait_with_output().unwrap();
    assert!(String::from_utf8(ended.stderr).unwrap().contains("stopped after"));
    assert!(place.names().is_empty());
}

#[test]
fn an_interrupt_leaves_nothing() {
    let place = Place::new("interrupt");
    let out = place.file("out", b"an older plate");
    let before = fs::read_dir("/dev/shm").map_or(0, |all| all.filter(|e| named_plate(e.as_ref().unwrap())).count());
    let (mut run, both) = started(&["--out", text(&out)]);
    signal("INT", run.id());
    until("the end", || run.try_wait().unwrap().is_some());
    assert_eq!(run.wait().unwrap().code(), Some(1));
    assert!(both.iter().all(|&pid| !lives(pid)), "its processes have ended");
    let after = fs::read_dir("/dev/shm").map_or(0, |all| all.filter(|e| named_plate(e.as_ref().unwrap())).count());
    assert_eq!((fs::read(&out).unwrap(), place.names()), (b"an older plate".to_vec(), vec!["out".to_string()]));
    assert!(after <= before, "nothing is left in shared memory");
}

fn named_plate(entry: &fs::DirEntry) -> bool {
    entry.file_name().to_string_lossy().starts_with("plate-")
}

#[test]
fn the_processes_end_with_the_one_that_started_them() {
    let (mut run, both) = started(&[]);
    signal("KILL", run.id());
    run.wait().unwrap();
    until("the end of both", || both.iter().all(|&pid| !lives(pid)));
}

#[test]
fn a_kill_names_the_side_and_the_bytes() {
    for (which, dead, left) in [(0, "composer", "host"), (1, "host", "composer")] {
        let (run, both) = started(&["--rounds", "1"]);
        sleep(Duration::from_millis(200));
        signal("KILL", both[which]);
        let output = run.wait_with_output().unwrap();
        let err = String::from_utf8(output.stderr).unwrap();
        assert_eq!(output.status.code(), Some(1), "{err}");
        assert!(err.contains(&format!("the {dead} was killed by signal 9 after ")), "{err}");
        assert!(err.contains(" of 30000000 bytes were sent and ") && err.contains(&format!("; the {left} ")), "{err}");
    }
}
