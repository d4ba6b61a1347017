// What `rt` does for one product, and the record of what it was made from.

use super::sources::{hashed, Sources};
use super::{Product, Verb};
use std::collections::BTreeSet;
use std::fs::{self, File};
use std::io;
use std::path::{Path, PathBuf};
use std::process::{Child, Command, ExitStatus};

/// The folders of products below target.
pub const SHARED: [&str; 2] = ["staticlib", "bin"];

/// What all jobs of a build have in common.
pub struct Settings<'a> {
    pub root: &'a Path,
    pub rt: &'a Path,
    pub version: &'a str,
    pub workers: usize,
    pub memory: Option<&'a Path>,
    pub lock: &'a File,
}

/// A crate, what `rt` leaves in its folder, the product that this becomes, and the record of what that was made from.
pub struct Job {
    name: String,
    verb: Verb,
    result: PathBuf,
    product: PathBuf,
    record: PathBuf,
    fingerprint: String,
    /// The crate and all below it.
    pub crates: BTreeSet<String>,
    /// How long it may take, beside the others.
    pub weight: u64,
}

impl Job {
    pub fn new(sources: &Sources, product: &Product, root: &Path) -> Job {
        let name = product.name;
        let made = root.join("target").join(&product.file);
        let crates = sources.list.all_below([name].into_iter());
        Job {
            name: name.into(),
            verb: product.verb,
            result: root.join("crates").join(name).join("out").join(product.verb.file(name)),
            record: root.join("target").join(format!("{}.sources", product.file)),
            product: made,
            fingerprint: sources.fingerprint(name),
            weight: sources.weight(&crates),
            crates,
        }
    }

    /// Whether the product is there, made from these sources, and not changed since.
    pub fn is_fresh(&self) -> bool {
        let record = fs::read_to_string(&self.record);
        record.is_ok_and(|record| self.recorded().is_some_and(|now| record == now))
    }

    /// The record that fits the product: what it was made from, and its own bytes.
    fn recorded(&self) -> Option<String> {
        let bytes = fs::read(&self.product).ok()?;
        Some(format!("{}\n{}\n", self.fingerprint, hashed(&bytes)))
    }

    /// The crate.
    pub fn name(&self) -> &str {
        &self.name
    }

    /// The words for `rt`, one run after the other: all crates below are proved first, several at a time, which the last run does not do.
    pub fn runs(&self, workers: usize) -> Vec<Vec<String>> {
        let words = |text: String| text.split(' ').map(String::from).collect();
        let all = (self.crates.len() > 1).then(|| format!("all check --jobs {workers}"));
        all.into_iter().chain([self.verb.word().into()]).map(words).collect()
    }

    /// The file that has what `rt` says.
    pub fn said(&self, root: &Path) -> PathBuf {
        root.join("target/build").join(format!("{}.said", self.name))
    }

    /// Starts a run of `rt`. What it says goes to a file, so that it can go on where this process is killed.
    pub fn start(&self, words: &[String], settings: &Settings) -> Result<Child, String> {
        let told = |error| format!("can't start {}: {error}", self.command(words));
        remove(fs::remove_file(&self.record)).map_err(told)?;
        let said = File::create(self.said(settings.root)).map_err(told)?;
        // The lock is kept by `rt`, as `rt` gives what it starts another input and output.
        let mut command = Command::new("/bin/sh");
        command.args(["-c", "exec \"$0\" \"$@\" 9<&0 </dev/null"]).arg(settings.rt).args(words);
        command.current_dir(settings.root.join("crates").join(&self.name));
        command.stdin(settings.lock.try_clone().map_err(told)?);
        command.stdout(said.try_clone().map_err(told)?).stderr(said);
        if let Some(memory) = settings.memory.filter(|_| self.verb != Verb::Run) {
            command.env("TMPDIR", memory);
        }
        command.spawn().map_err(told)
    }

    /// A run as it is told.
    fn command(&self, words: &[String]) -> String {
        format!("`rt {}` in crates/{}", words.join(" "), self.name)
    }

    /// Says what is wrong where a run of `rt` failed.
    pub fn ran(
        &self,
        words: &[String],
        status: io::Result<ExitStatus>,
        settings: &Settings,
    ) -> Result<(), String> {
        if status.is_ok_and(|status| status.success()) {
            return Ok(());
        }
        let said = fs::read(self.said(settings.root)).unwrap_or_default();
        let said = without_proved(&String::from_utf8_lossy(&said));
        Err(format!("{} failed; it says:\n{said}", self.command(words)))
    }

    /// Takes what `rt` has left for the product, and records what it was made from.
    pub fn end(&self, settings: &Settings) -> Result<(), String> {
        let half = format!("{}.tmp-{}", self.product.display(), std::process::id());
        let taken =
            fs::copy(&self.result, &half).and_then(|_| fs::rename(&half, &self.product)).ok();
        let Some(recorded) = taken.and_then(|()| self.recorded()) else {
            let command = self.command(&[self.verb.word().into()]);
            let (missing, to) = (self.result.display(), self.product.display());
            return Err(format!("{command} made no {missing}, or it can't be copied to {to}"));
        };
        // Sources that were changed meanwhile may be in it or not: then there is no record.
        let now = Sources::read(settings.root, settings.version)?.fingerprint(&self.name);
        if now == self.fingerprint {
            fs::write(&self.record, recorded)
                .map_err(|error| format!("can't write {}: {error}", self.record.display()))?;
        }
        let _ = fs::remove_file(self.said(settings.root));
        Ok(())
    }
}

/// What `rt` says of a failure, without the crates that are proved, each below a line `== NAME`, and without what it says of each module.
fn without_proved(said: &str) -> String {
    let is_told = |line: &&str| {
        let starts = ["statements ", "library ", "logic /", "crate ", "axioms ", "only="];
        let is_proved = line.starts_with("fn ") && line.ends_with(": proved");
        !is_proved && !starts.iter().any(|start| line.starts_with(start))
    };
    let mut parts = vec![String::new()];
    for line in said.lines().filter(is_told) {
        if line.starts_with("== ") {
            parts.push(String::new());
        }
        *parts.last_mut().expect("there is a part") += &format!("{line}\n");
    }
    let is_of_failure = |part: &String| {
        let last = part.lines().last().unwrap_or_default();
        last == "== summary" || !last.starts_with("logic=proved ") && !last.starts_with("== ")
    };
    parts.into_iter().filter(is_of_failure).collect()
}

/// What isn't there need not be removed.
fn remove(removed: io::Result<()>) -> io::Result<()> {
    removed
        .or_else(|error| if error.kind() == io::ErrorKind::NotFound { Ok(()) } else { Err(error) })
}
