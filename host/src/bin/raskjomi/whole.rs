//! Files that are written whole or not at all, and never over another one unless that is asked for.

use crate::commands::Written;
use crate::failure::Failure;
use crate::source::plain_error;
use std::ffi::OsStr;
use std::fs::{self, File};
use std::io::{self, ErrorKind, Write};
use std::path::{Path, PathBuf};

/// Writes to a file what a command answers. A file that is there is told before the command runs, and again where one comes meanwhile.
pub fn to_file(path: &OsStr, over: bool, run: impl FnOnce() -> Written) -> Written {
    let path = Path::new(path);
    let told = |error: io::Error| Failure::usage(unwritten(path, &error));
    let target = target(path, over).map_err(told)?;
    let output = run()?;
    write(&target, over, &output).map_err(told)?;
    Ok(Vec::new())
}

/// The file to write: where a link leads, if it may be written over.
fn target(path: &Path, over: bool) -> io::Result<PathBuf> {
    match path.symlink_metadata() {
        Err(error) if error.kind() == ErrorKind::NotFound => Ok(path.into()),
        Err(error) => Err(error),
        Ok(_) if !over => Err(ErrorKind::AlreadyExists.into()),
        Ok(_) if path.metadata()?.is_file() => path.canonicalize(),
        Ok(_) => Err(ErrorKind::IsADirectory.into()),
    }
}

/// Writes a file beside the target, and gives it the target's name when all of it is on the disk.
fn write(target: &Path, over: bool, bytes: &[u8]) -> io::Result<()> {
    let mut name = target.file_name().ok_or(ErrorKind::InvalidInput)?.to_os_string();
    name.push(format!(".{}.part", std::process::id()));
    let part = target.with_file_name(name);
    let mut file = File::options().write(true).create_new(true).open(&part)?;
    let written = file.write_all(bytes).and_then(|()| file.sync_all());
    let written = written.and_then(|()| named(&part, target, over));
    if written.is_err() || !over {
        let _ = fs::remove_file(&part);
    }
    written
}

/// Gives a file its name; a link takes none that another file has.
fn named(part: &Path, target: &Path, over: bool) -> io::Result<()> {
    if over {
        return fs::rename(part, target);
    }
    match fs::hard_link(part, target) {
        // Where there are no links, the name is taken first.
        Err(error) if error.kind() != ErrorKind::AlreadyExists => {
            File::create_new(target).and_then(|_| fs::rename(part, target))
        }
        linked => linked,
    }
}

fn unwritten(path: &Path, error: &io::Error) -> String {
    let name = path.to_string_lossy().replace(char::is_control, "?");
    match error.kind() {
        ErrorKind::AlreadyExists => {
            format!("{name}: the file is there already, and stays as it is; name another one after -o, or write --force")
        }
        ErrorKind::IsADirectory => format!("{name}: it is no file; name a file after -o"),
        _ => format!("{name}: {}; name a file that can be written after -o", plain_error(error)),
    }
}
