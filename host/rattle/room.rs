// The place that a build works in: the repository's lock, and the temporary folder.

use super::sources::hashed;
use std::fs::{self, DirBuilder, File, TryLockError};
use std::io::Write;
use std::os::unix::ffi::OsStrExt;
use std::os::unix::fs::{DirBuilderExt, MetadataExt};
use std::path::{Path, PathBuf};
use std::process::Command;

/// Takes the lock, which ends with the last process that holds the file; waits where another build has it.
pub fn locked(path: &Path, out: &mut dyn Write) -> Result<File, String> {
    let told = |error| format!("can't lock {}: {error}", path.display());
    let file = File::options().create(true).truncate(false).write(true).open(path).map_err(told)?;
    match file.try_lock() {
        Ok(()) => return Ok(file),
        Err(TryLockError::Error(error)) => return Err(told(error)),
        Err(TryLockError::WouldBlock) => {}
    }
    let _ = writeln!(out, "raskjomi: another build is proving in this folder; waiting for it");
    file.lock().map_err(told)?;
    Ok(file)
}

/// Removes what a killed build left half written: it writes NAME.tmp-PID, a file, and renames it at the end.
pub fn remove_unfinished(folder: &Path) {
    for entry in fs::read_dir(folder).into_iter().flatten().flatten() {
        let name = entry.file_name();
        let process = name.to_str().and_then(|name| name.rsplit_once(".tmp-"));
        if process.is_some_and(|(_, id)| !Path::new("/proc").join(id).exists()) {
            let _ = fs::remove_file(entry.path());
        }
    }
}

/// The KiB of memory that are free, where the system tells it.
pub fn free_memory() -> Option<u64> {
    let text = fs::read_to_string("/proc/meminfo").ok()?;
    let line = text.lines().find_map(|line| line.strip_prefix("MemAvailable:"))?;
    line.split_whitespace().next()?.parse().ok()
}

/// So many checks as are asked for, or as so much memory in KiB has room for, at 2 GB each; one at least.
pub fn fitting(workers: usize, memory: Option<u64>) -> usize {
    memory.map_or(workers, |memory| workers.min((memory / 2_000_000) as usize)).max(1)
}

/// The KiB of temporary files that may be needed: 0.3 GB for each check, and 2 GiB at least.
pub fn space_for(workers: usize) -> u64 {
    (workers as u64 * 300_000).max(2 << 20)
}

/// A temporary folder in memory, which is removed at the end.
pub struct Room(PathBuf);

impl Room {
    /// A new folder there, if there is so much space in KiB. It has one name for a repository and a user, so that what a killed build left
    /// is found and removed; no other user can make or enter it.
    pub fn new(memory: &Path, root: &Path, needed: u64) -> Option<Room> {
        let user = fs::metadata("/proc/self").ok()?.uid();
        let name = format!("raskjomi-{user}-{}", hashed(root.as_os_str().as_bytes()));
        let path = memory.join(name);
        let _ = fs::remove_dir_all(&path);
        if free(memory)? < needed {
            return None;
        }
        DirBuilder::new().mode(0o700).create(&path).ok()?;
        Some(Room(path))
    }

    pub fn path(&self) -> &Path {
        &self.0
    }
}

impl Drop for Room {
    fn drop(&mut self) {
        let _ = fs::remove_dir_all(&self.0);
    }
}

/// The free KiB of the folder's file system.
fn free(folder: &Path) -> Option<u64> {
    let ran = Command::new("df").arg("-Pk").arg(folder).output().ok()?;
    let text = String::from_utf8(ran.stdout).ok()?;
    text.lines().nth(1)?.split_whitespace().nth(3)?.parse().ok()
}
