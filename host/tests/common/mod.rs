//! What several test programs use.
#![allow(dead_code)]

use std::fs;
use std::hash::{DefaultHasher, Hash, Hasher};
use std::io::{stderr, Write};
use std::os::unix::fs::MetadataExt;
use std::path::{Path, PathBuf};
use std::process::Command;

/// The repository's root.
pub fn root() -> &'static Path {
    Path::new(env!("CARGO_MANIFEST_DIR")).parent().expect("the host stands in the repository")
}

/// Prints a line that shows though the test passes: the test program holds back what `eprintln!`
/// prints, and not what is written to the stream.
pub fn say(line: String) {
    stderr().write_all((line + "\n").as_bytes()).expect("standard error is open");
}

/// A folder outside the repository, where `rt ci` takes links and files of Rattle for lost ones. It has one name for a user and a place of the
/// repository.
pub fn outside() -> PathBuf {
    let mut hasher = DefaultHasher::new();
    root().hash(&mut hasher);
    let user = fs::metadata("/proc/self").expect("a user").uid();
    let name = format!("raskjomi-tests-{user}-{:016x}", hasher.finish());
    let folder = std::env::temp_dir().join(name);
    fs::create_dir_all(&folder).expect("a folder for temporary files");
    folder
}

/// The folder of the archives that the tests are built with.
pub fn archives_linked() -> PathBuf {
    std::env::var_os("RASKJOMI_ARCHIVES").map_or(root().join("target/staticlib"), PathBuf::from)
}

/// The build script, compiled in the folder, as cargo does.
pub fn build_script(folder: &Path) -> PathBuf {
    let program = folder.join("build");
    let mut rustc = Command::new(std::env::var_os("RUSTC").unwrap_or("rustc".into()));
    let source = Path::new(env!("CARGO_MANIFEST_DIR")).join("build.rs");
    let ran =
        rustc.args(["--edition=2021", "-o"]).arg(&program).arg(source).output().expect("rustc");
    assert!(ran.status.success(), "{ran:?}");
    program
}

/// The commands in the fences of a page that have this word behind them, each with the lines that follow it.
pub fn commands(page: &str, word: &str) -> Vec<(String, String)> {
    let mut commands: Vec<(String, String)> = Vec::new();
    let mut fence = None;
    for line in page.lines() {
        match (line.strip_prefix("```"), fence) {
            (Some(_), Some(_)) => fence = None,
            (Some(opened), None) => fence = Some(opened),
            (None, Some(opened)) if opened == word => match line.strip_prefix("$ ") {
                Some(command) => commands.push((command.into(), String::new())),
                None => commands.last_mut().expect("a command first").1 += &format!("{line}\n"),
            },
            (None, _) => {}
        }
    }
    commands
}

/// Writes a program by another process: one that this process has written can't be started while another thread's child, not
/// yet at its own program, has it open.
pub fn write_program(path: &Path, text: &str) {
    fs::create_dir_all(path.parent().expect("a folder")).expect("a folder");
    let mut shell = Command::new("/bin/sh");
    shell.args(["-c", "printf %s \"$1\" >\"$0\" && chmod 755 \"$0\""]).arg(path).arg(text);
    assert!(shell.status().expect("a shell").success());
}
