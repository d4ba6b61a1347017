// What the Rattle toolchain builds. The build script and the tests share this folder.
//
// A product is made by runs of `rt` in its crate's folder (`job`), one product after the other, since each run has the folders of all crates
// below to itself (`schedule`). What is made already is told by the content of the sources (`sources`), and one build at a time works in a
// repository (`room`). What is proved already `rt` knows itself.

mod job;
pub mod room;
mod schedule;
pub mod sources;

use job::Job;
use sources::Sources;
use std::cmp::Reverse;
use std::fs::{self, File};
use std::io::{self, Write};
use std::path::{Path, PathBuf};
use std::process::Command;
use std::thread;

/// The crates that everything is built from, below the repository's root.
pub const SOURCES: [&str; 2] = ["crates", "crates.txt"];

/// A file below the root's target folder, and the crate and the command of `rt` that make it.
pub struct Product<'a> {
    pub file: String,
    pub verb: Verb,
    pub name: &'a str,
}

/// A command of `rt` that proves a crate and makes a file of it: a static library's archive, or a program, which is run too.
#[derive(Clone, Copy, PartialEq)]
pub enum Verb {
    Lib,
    Run,
}

impl Verb {
    pub fn word(self) -> &'static str {
        match self {
            Verb::Lib => "lib",
            Verb::Run => "run",
        }
    }

    /// The file that it leaves in the crate's folder out.
    pub fn file(self, name: &str) -> String {
        match self {
            Verb::Lib => format!("lib{name}.a"),
            Verb::Run => name.into(),
        }
    }
}

/// Makes each product that is missing or made from other sources, and gives the toolchain's version; or says what is wrong, in a line.
pub fn built(root: &Path, products: &[Product]) -> Result<String, String> {
    let workers = workers(std::env::var("RT_JOBS").ok().as_deref())?;
    let memory = || ("/dev/shm".into(), room::space_for(workers));
    let build = Build {
        root: root.canonicalize().map_err(|error| format!("can't read {root:?}: {error}"))?,
        rt: "rt".into(),
        workers,
        memory: std::env::var_os("TMPDIR").is_none().then(memory),
    };
    build.make(products, terminal())?;
    build.version()
}

/// So many crates are proved at a time: as the user says, or one for each processor, at most 8, and fewer where memory hasn't 2 GB for each.
pub fn workers(said: Option<&str>) -> Result<usize, String> {
    let processors = || thread::available_parallelism().map_or(1, usize::from).min(8);
    match said.map(|said| (said, said.parse())) {
        None => Ok(room::fitting(processors(), room::free_memory())),
        Some((_, Ok(count))) if count > 0 => Ok(count),
        Some((said, _)) => Err(format!("RT_JOBS is {said:?}; make it a number, 1 or more")),
    }
}

/// The folders that the crates, and all that they need, are made from; a folder that isn't there can't be watched, so
/// its crate's stands for it.
pub fn watched(root: &Path, crates: &[&str]) -> Result<Vec<PathBuf>, String> {
    let list = sources::List::read(root)?;
    let folders = |name: &String| {
        let folder = root.join("crates").join(name);
        let parts = sources::PARTS.map(|part| folder.join(part));
        if parts.iter().all(|part| part.is_dir()) {
            parts.to_vec()
        } else {
            vec![folder]
        }
    };
    Ok(list.all_below(crates.iter().copied()).iter().flat_map(folders).collect())
}

/// The terminal, as cargo keeps back what a build script writes; without one, standard error.
fn terminal() -> Box<dyn Write> {
    match File::options().write(true).open("/dev/tty") {
        Ok(terminal) => Box::new(terminal),
        Err(_) => Box::new(io::stderr()),
    }
}

/// How the products of a repository are made.
pub struct Build {
    /// The repository's folder, with no link in its path.
    pub root: PathBuf,
    /// The program `rt`.
    pub rt: PathBuf,
    /// So many crates are proved at a time.
    pub workers: usize,
    /// A folder in memory for temporary files, if it has so many KiB free.
    pub memory: Option<(PathBuf, u64)>,
}

impl Build {
    /// Makes the products that aren't fresh, and tells of it.
    pub fn make(&self, products: &[Product], mut out: Box<dyn Write>) -> Result<(), String> {
        let version = self.version()?;
        if self.jobs(&Sources::read(&self.root, &version)?, products)?.is_empty() {
            return Ok(());
        }
        let target = self.root.join("target");
        for part in job::SHARED.iter().chain(&["build"]) {
            let folder = target.join(part);
            fs::create_dir_all(&folder)
                .map_err(|error| format!("can't make the folder {}: {error}", folder.display()))?;
        }
        let lock = room::locked(&target.join("build.lock"), &mut *out)?;
        // Another build may have made them meanwhile.
        let jobs = self.jobs(&Sources::read(&self.root, &version)?, products)?;
        if jobs.is_empty() {
            return Ok(());
        }
        job::SHARED.iter().for_each(|part| room::remove_unfinished(&target.join(part)));
        let new_room = |(at, needed): &(PathBuf, u64)| room::Room::new(at, &self.root, *needed);
        let memory = self.memory.as_ref().and_then(new_room);
        let settings = job::Settings {
            root: &self.root,
            rt: &self.rt,
            version: &version,
            workers: self.workers,
            memory: memory.as_ref().map(room::Room::path),
            lock: &lock,
        };
        schedule::run(&jobs, &settings, &mut *out)
    }

    /// What `rt version` says.
    fn version(&self) -> Result<String, String> {
        let ran = Command::new(&self.rt).arg("version").current_dir(&self.root).output();
        let ran = ran.map_err(|error| {
            format!("can't start `rt` ({error}); put the Rattle toolchain that docs/TRUST.md names on the PATH, or build as docs/INSTALL.md says without it")
        })?;
        if !ran.status.success() {
            let said = String::from_utf8_lossy(&ran.stderr);
            return Err(format!("`rt version` failed; take the toolchain that docs/TRUST.md names; it says:\n{said}"));
        }
        Ok(String::from_utf8_lossy(&ran.stdout).into())
    }

    /// What is to be done for the products that aren't fresh, first for those that the most is to be proved for.
    fn jobs(&self, sources: &Sources, products: &[Product]) -> Result<Vec<Job>, String> {
        let jobs = products.iter().map(|product| Job::new(sources, product, &self.root));
        let mut jobs: Vec<Job> = jobs.filter(|job| !job.is_fresh()).collect();
        jobs.sort_by_key(|job| Reverse(job.weight));
        let crates = jobs.iter().flat_map(|job| job.crates.iter().cloned()).collect();
        let left: Vec<String> = sources.list.without_sequence(crates).into_iter().collect();
        if left.is_empty() {
            return Ok(jobs);
        }
        let left = left.join(", ");
        Err(format!("crates.txt: some of these crates need each other; correct it: {left}"))
    }
}
