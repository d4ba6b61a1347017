// Which product is made when, and what is told meanwhile.

use super::job::{Job, Settings};
use std::collections::BTreeSet;
use std::fs::File;
use std::io::{Read, Write};
use std::process::Child;
use std::sync::mpsc::{channel, RecvTimeoutError};
use std::thread;
use std::time::{Duration, Instant};

/// Does all jobs in their sequence, and tells of each crate that is proved. After a failure none is started.
pub fn run(jobs: &[Job], settings: &Settings, out: &mut dyn Write) -> Result<(), String> {
    let crates: BTreeSet<&String> = jobs.iter().flat_map(|job| &job.crates).collect();
    let mut progress = Progress {
        began: Instant::now(),
        count: crates.len(),
        done: BTreeSet::new(),
        out,
        product: String::new(),
        now: None,
    };
    progress.tell(&format!(
        "proving {}, {} at a time; the first time this can take an hour or more on two idle cores",
        counted(crates.len()),
        settings.workers
    ));
    for job in jobs {
        progress.product = job.name().into();
        for words in job.runs(settings.workers) {
            let child = job.start(&words, settings)?;
            let status = progress.follow(child, job, settings);
            job.ran(&words, status, settings)?;
        }
        job.end(settings)?;
    }
    let time = spoken(progress.began.elapsed());
    progress.tell(&format!("all is proved and written after {time}"));
    Ok(())
}

/// What is told, and what it is told by.
struct Progress<'a> {
    began: Instant,
    /// All crates of the build.
    count: usize,
    /// Those that are proved.
    done: BTreeSet<String>,
    out: &'a mut dyn Write,
    /// The crate of the product that is being made.
    product: String,
    /// The crate that `rt` has named last, and whether it has said something of it.
    now: Option<(String, bool)>,
}

impl Progress<'_> {
    fn tell(&mut self, what: &str) {
        let _ = writeln!(self.out, "raskjomi: {what}");
    }

    /// Waits for a run's end, and reads what it says meanwhile.
    fn follow(
        &mut self,
        mut child: Child,
        job: &Job,
        settings: &Settings,
    ) -> std::io::Result<std::process::ExitStatus> {
        let said = File::open(job.said(settings.root));
        let (sender, ended) = channel();
        thread::spawn(move || sender.send(child.wait()));
        let mut said = said.ok();
        let mut part = String::new();
        // Without a line for each crate, the run is about the product's alone.
        self.now = Some((job.name().into(), true));
        loop {
            let status = ended.recv_timeout(Duration::from_millis(100));
            if let Some(file) = &mut said {
                let mut bytes = Vec::new();
                let _ = file.read_to_end(&mut bytes);
                part += &String::from_utf8_lossy(&bytes);
                let end = part.rfind('\n').map_or(0, |at| at + 1);
                let rest = part.split_off(end);
                part.lines().for_each(|line| self.read(line));
                part = rest;
            }
            match status {
                Ok(status) => return status,
                Err(RecvTimeoutError::Timeout) => {}
                Err(RecvTimeoutError::Disconnected) => return Err(std::io::ErrorKind::Other.into()),
            }
        }
    }

    /// Reads a line of `rt`: it prints `== NAME` and, below that, what it says of a crate once that has ended, and nothing where the crate was
    /// proved before.
    fn read(&mut self, line: &str) {
        if let Some(name) = line.strip_prefix("== ") {
            let earlier = self.now.replace((name.into(), name == "summary"));
            self.done.extend(earlier.filter(|(_, is_said)| !is_said).map(|(name, _)| name));
        } else if let Some((name, is_said)) = &mut self.now {
            *is_said = true;
            let name = name.clone();
            if line.starts_with("logic=proved ") && self.done.insert(name.clone()) {
                let (done, count) = (self.done.len(), self.count);
                let (time, product) = (spoken(self.began.elapsed()), &self.product);
                self.tell(&format!("proved {name}, {done} of {count} in {time}, for {product}"));
            }
        }
    }
}

fn counted(crates: usize) -> String {
    if crates == 1 {
        "1 crate".into()
    } else {
        format!("{crates} crates")
    }
}

/// The time as it is said.
fn spoken(time: Duration) -> String {
    match (time.as_secs() / 60, time.as_secs() % 60) {
        (0, seconds) => format!("{seconds} s"),
        (minutes, seconds) => format!("{minutes} min {seconds} s"),
    }
}
