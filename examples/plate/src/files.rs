//! The files that a run is given: memory without a name, and an output that takes its name at the end.

use crate::end::{Tried, Trouble};
use crate::system;
use std::fs::{self, File, Metadata, OpenOptions};
use std::io::{self, ErrorKind, Write};
use std::os::fd::AsRawFd;
use std::os::unix::fs::{MetadataExt, OpenOptionsExt};
use std::path::{Path, PathBuf};

/// Memory that has no name in any directory: the processes that we start open it by the descriptor that they inherit, and nothing is left
/// of it when the last of them ends.
pub struct Nameless {
    pub path: PathBuf,
    _file: File,
}

impl Nameless {
    pub fn new() -> Result<Nameless, Trouble> {
        let file = system::memory_file().tried("make", "memory to share")?;
        Ok(Nameless { path: format!("/proc/self/fd/{}", file.as_raw_fd()).into(), _file: file })
    }
}

/// A file emptied and then of so many zeros.
pub fn zeros(path: &Path, len: usize) -> Result<(), Trouble> {
    let file = OpenOptions::new().write(true).truncate(true).open(path).tried("open", path.display())?;
    file.set_len(len as u64).tried(&format!("make room for {len} bytes in"), path.display())
}

/// Bytes that no two parts share.
pub fn made_up(path: &Path, size: usize) -> Result<(), Trouble> {
    let file = OpenOptions::new().write(true).open(path).tried("open", path.display())?;
    let mut out = io::BufWriter::new(file);
    let mut state = 0x5EED_u64;
    let mut all = || {
        for at in (0..size).step_by(8) {
            state = state.wrapping_mul(6_364_136_223_846_793_005).wrapping_add(1_442_695_040_888_963_407);
            out.write_all(&(state ^ state >> 29).to_le_bytes()[..8.min(size - at)])?;
        }
        out.flush()
    };
    all().tried("write made-up bytes to", path.display())
}

/// An output with a name. Until the whole of it was compared it lies beside that name, locked; then it takes the name.
pub struct Named {
    out: PathBuf,
    pub part: PathBuf,
    /// Held for its lock.
    _file: File,
    placed: bool,
}

fn one_file(a: &Metadata, b: &Metadata) -> bool {
    (a.dev(), a.ino()) == (b.dev(), b.ino())
}

impl Named {
    /// Touches nothing that is there: an output that is the input, by whatever name, and one that another run writes, are refused.
    pub fn new(out: &Path, input: Option<&Path>) -> Result<Named, Trouble> {
        let no = |why: String| Err(Trouble::Other(format!("--out {}: {why}; nothing was touched", out.display())));
        let mut target = out.to_path_buf();
        if fs::symlink_metadata(out).is_ok() {
            let there = fs::metadata(out).tried("look at", out.display())?;
            if let Some(input) = input {
                if one_file(&there, &fs::metadata(input).tried("look at", input.display())?) {
                    return no(format!("it is the same file as the input, {}", input.display()));
                }
            }
            if !there.is_file() {
                return no("it is there, and no plain file".to_string());
            }
            target = fs::canonicalize(out).tried("look at", out.display())?;
        }
        let Some(name) = target.file_name() else { return no("it names no file".to_string()) };
        let mut name = name.to_os_string();
        name.push(".plate-part");
        let part = target.with_file_name(name);
        match OpenOptions::new().read(true).write(true).create_new(true).open(&part) {
            Ok(file) => {
                // nobody else had it
                system::lock(&file);
                Ok(Named { out: target, part, _file: file, placed: false })
            }
            Err(e) if e.kind() == ErrorKind::AlreadyExists => {
                let file = OpenOptions::new().read(true).custom_flags(system::O_NOFOLLOW).open(&part);
                if file.is_ok_and(|file| !system::lock(&file)) {
                    return no("another plate is writing it".to_string());
                }
                no(format!("{} is there, as a plate that was killed leaves it: remove it first", part.display()))
            }
            Err(e) => Err(e).tried("make", part.display()),
        }
    }

    /// The output is whole: it takes its name.
    pub fn place(mut self) -> Result<(), Trouble> {
        if let Ok(there) = fs::metadata(&self.out) {
            fs::set_permissions(&self.part, there.permissions()).tried("set the permissions of", self.part.display())?;
        }
        fs::rename(&self.part, &self.out).tried(&format!("rename {} to", self.part.display()), self.out.display())?;
        self.placed = true;
        Ok(())
    }
}

impl Drop for Named {
    fn drop(&mut self) {
        if !self.placed {
            let _ = fs::remove_file(&self.part);
        }
    }
}
