//! How the build script has crates proved, what it tells, and what it does where something is missing. `rt` is a script here.

#[allow(dead_code)]
#[path = "../rattle/mod.rs"]
mod rattle;

mod common;

use common::{build_script, outside, write_program};
use rattle::room::{fitting, Room};
use rattle::sources::List;
use rattle::{Build, Product, Verb};
use std::collections::BTreeSet;
use std::fs::{self, File};
use std::io::{self, Write};
use std::os::unix::process::CommandExt;
use std::path::{Path, PathBuf};
use std::process::{Child, Command, Stdio};
use std::sync::{Arc, Mutex};
use std::thread;
use std::time::{Duration, SystemTime};

#[derive(Clone, Default)]
struct Page(Arc<Mutex<Vec<u8>>>);

impl Page {
    fn text(&self) -> String {
        String::from_utf8(self.0.lock().expect("a page").clone()).expect("text")
    }
}

impl Write for Page {
    fn write(&mut self, bytes: &[u8]) -> io::Result<usize> {
        self.0.lock().expect("a page").extend(bytes);
        Ok(bytes.len())
    }

    fn flush(&mut self) -> io::Result<()> {
        Ok(())
    }
}

const CRATES: &str =
    "# crates: each with its needs\ntheory:\ntable: theory\nseed: theory table\nplan: theory\n\
                      order: table io\nedit: order\nabi staticlib: order seed\nabi_edit staticlib: edit\n";

/// A folder with crates and a program `rt`, which logs its start and its end, and does this for each crate that it has to prove. As `rt` does, it
/// works behind the shell's back, where standard input and output are others.
fn repository(name: &str, script: &str) -> PathBuf {
    let folder = outside().join(name);
    let _ = fs::remove_dir_all(&folder);
    write(&folder.join("crates.txt"), CRATES);
    for name in ["theory", "table", "seed", "plan", "order", "edit", "abi", "abi_edit"] {
        for part in ["src/lib.rt", "specs/S.antt", "proofs/P.antt", "must-fail/e.edit"] {
            write(&folder.join("crates").join(name).join(part), "some text");
        }
    }
    write(&folder.join("version"), "a kit\n");
    let at = folder.display();
    let rt = format!(
        "#!/bin/sh\nat={at}\nif [ \"$1\" = version ]; then cat $at/version; exit; fi\n\
         wait_for() {{ n=0; until [ -e $1 ]; do n=$((n + 1)); [ $n -lt 1500 ] || exit 1; sleep 0.02; done; }}\n\
         below() {{ for need in $(sed -nE \"s/^$1( staticlib)?: *//p\" $at/crates.txt); do\n\
         [ ! -d $at/crates/$need ] || {{ (below $need); echo $need; }}; done; }}\n\
         own=${{PWD##*/}}\necho \"start $* $own\" >>$at/log\n\
         prove() {{ out=$at/crates/$1/out; sum=$(cat $at/crates/$1/src/* $at/crates/$1/specs/* | cksum)\n\
         if [ \"$(cat $out/stamp 2>/dev/null)\" = \"$sum\" ]; then return; fi\n\
         echo \"prove $1\" >>$at/log\n{script}\n\
         echo \"fn $1::f: proved\"; echo \"logic=proved functions=1\"; mkdir -p $out; echo \"$sum\" >$out/stamp; }}\n\
         (\ncase $1 in\n\
         all) for crate in $(below $own | awk '!seen[$0]++') $own; do echo \"== $crate\"; prove $crate; done\n\
         echo \"== summary\" ;;\n\
         *) prove $own; cp src/lib.rt out/lib$own.a ;;\nesac\n\
         echo \"end $* $own\" >>$at/log\n) >$at/said.$own 2>&1 &\n\
         wait $!\nstatus=$?\ncat $at/said.$own\nexit $status\n"
    );
    write_program(&folder.join("bin/rt"), &rt);
    folder
}

fn write(path: &Path, text: &str) {
    fs::create_dir_all(path.parent().expect("a folder")).expect("a folder");
    fs::write(path, text).expect("a file");
}

fn archive(name: &str) -> Product<'_> {
    Product { file: format!("staticlib/lib{name}.a"), verb: Verb::Lib, name }
}

fn build(folder: &Path, workers: usize) -> Build {
    let root = folder.canonicalize().expect("a folder");
    Build { root, rt: folder.join("bin/rt"), workers, memory: None }
}

/// What is told while these archives are made, and how it ends.
fn told(folder: &Path, workers: usize, names: &[&str]) -> (String, Result<(), String>) {
    let page = Page::default();
    let products: Vec<Product> = names.iter().map(|name| archive(name)).collect();
    let ended = build(folder, workers).make(&products, Box::new(page.clone()));
    (page.text(), ended)
}

const BOTH: [&str; 2] = ["abi", "abi_edit"];

/// The lines that `rt` has logged since this was asked last.
fn logged(folder: &Path) -> Vec<String> {
    let text = fs::read_to_string(folder.join("log")).unwrap_or_default();
    let _ = fs::remove_file(folder.join("log"));
    text.lines().map(String::from).collect()
}

/// What follows this word in the lines that have it first, in sequence.
fn of<'a>(log: &'a [String], word: &str) -> Vec<&'a str> {
    log.iter().filter_map(|line| line.strip_prefix(word)?.strip_prefix(' ')).collect()
}

/// Makes both archives, one crate at a time; the words of the runs, each with the crate in whose folder it ran.
fn made(folder: &Path) -> Vec<String> {
    assert_eq!(told(folder, 1, &BOTH).1, Ok(()));
    of(&logged(folder), "start").into_iter().map(String::from).collect()
}

/// Waits until it is so.
fn wait_for(what: &str, mut is_so: impl FnMut() -> bool) {
    for _ in 0..3000 {
        if is_so() {
            return;
        }
        thread::sleep(Duration::from_millis(10));
    }
    panic!("waited in vain for {what}");
}

/// Each crate is proved once, after all crates below it, each product is made once, and one run follows the other.
fn assert_in_sequence(folder: &Path, log: &[String], workers: usize) {
    let list = List::read(folder).expect("a list");
    let mut proved = BTreeSet::new();
    for name in of(log, "prove") {
        let mut below = list.all_below([name].into_iter());
        below.remove(name);
        assert!(below.is_subset(&proved), "{name} in {log:?}");
        assert!(proved.insert(name.to_string()), "{name} twice in {log:?}");
    }
    let all: Vec<&str> = proved.iter().map(String::as_str).collect();
    assert_eq!(all.join(","), "abi,abi_edit,edit,order,seed,table,theory");
    let runs: Vec<&String> = log.iter().filter(|line| !line.starts_with("prove ")).collect();
    for pair in runs.chunks(2) {
        let words = pair[0].strip_prefix("start ").expect("a start");
        assert_eq!(pair[1].strip_prefix("end "), Some(words), "{log:?}");
    }
    let mut starts = of(log, "start");
    starts.sort();
    let check = format!("all check --jobs {workers}");
    let each = [&*format!("{check} abi"), &*format!("{check} abi_edit"), "lib abi", "lib abi_edit"];
    assert_eq!(starts, each);
}

#[test]
fn each_crate_is_proved_once_and_after_its_needs() {
    for workers in [1, 2, 8] {
        let folder = repository(&format!("building-{workers}"), "");
        assert_eq!(told(&folder, workers, &BOTH).1, Ok(()));
        assert_in_sequence(&folder, &logged(&folder), workers);
    }
}

/// `rt` proves so many crates beside each other as it is told; a product without a crate below needs none of that.
#[test]
fn crates_are_proved_beside_each_other() {
    let folder = repository("building-beside", "");
    assert_eq!(told(&folder, 3, &["abi"]).1, Ok(()));
    assert_eq!(of(&logged(&folder), "start"), ["all check --jobs 3 abi", "lib abi"]);
    write(&folder.join("crates.txt"), "abi staticlib:\n");
    assert_eq!(told(&folder, 3, &["abi"]).1, Ok(()));
    assert_eq!(of(&logged(&folder), "start"), ["lib abi"]);
}

/// More is below `abi`, unless `edit` is large.
#[test]
fn the_longest_way_of_work_is_first() {
    let folder = repository("building-way", "");
    let usual = "all check --jobs 1 abi,lib abi,all check --jobs 1 abi_edit,lib abi_edit";
    assert_eq!(made(&folder).join(","), usual);
    let folder = repository("building-large", "");
    write(&folder.join("crates/edit/specs/Large.antt"), &"more ".repeat(100));
    let large = "all check --jobs 1 abi_edit,lib abi_edit,all check --jobs 1 abi,lib abi";
    assert_eq!(made(&folder).join(","), large);
}

#[test]
fn each_crate_is_told_with_what_is_being_proved() {
    let folder = repository("building-told", "");
    let (text, ended) = told(&folder, 1, &["abi"]);
    assert_eq!(ended, Ok(()));
    // The seconds depend on the machine.
    let lines: Vec<String> = text.lines().map(without_time).collect();
    let expected = [
        "raskjomi: proving 5 crates, 1 at a time; the first time this can take an hour or more on two idle cores",
        "raskjomi: proved theory, 1 of 5 in T, for abi",
        "raskjomi: proved table, 2 of 5 in T, for abi",
        "raskjomi: proved order, 3 of 5 in T, for abi",
        "raskjomi: proved seed, 4 of 5 in T, for abi",
        "raskjomi: proved abi, 5 of 5 in T, for abi",
        "raskjomi: all is proved and written after T",
    ];
    assert_eq!(lines, expected);
    // What `rt` finds unchanged is counted and not told.
    fs::remove_file(folder.join("crates/abi/out/stamp")).expect("a stamp");
    fs::remove_file(folder.join("target/staticlib/libabi.a")).expect("an archive");
    let (text, _) = told(&folder, 1, &["abi"]);
    let lines: Vec<String> = text.lines().map(without_time).collect();
    assert_eq!(lines, [expected[0], expected[5], expected[6]]);
}

/// The line with T for its time.
fn without_time(line: &str) -> String {
    let mut words = [" in ", " after "].into_iter();
    let behind = words.find_map(|word| line.find(word).map(|at| at + word.len()));
    let Some((start, rest)) = behind.map(|at| line.split_at(at)) else { return line.into() };
    format!("{start}T{}", &rest[rest.find(" s").expect("seconds") + 2..])
}

#[test]
fn a_failing_crate_is_told_and_nothing_above_it_starts() {
    let script =
        "case $1 in order) echo 'src/lib.rt:1:1: error'; echo logic=not-proved; exit 7 ;; esac";
    let folder = repository("building-fails", script);
    let (text, ended) = told(&folder, 2, &BOTH);
    let what = ended.expect_err("it fails");
    let said = "`rt all check --jobs 2` in crates/abi failed; it says:\n== order\nsrc/lib.rt:1:1: error\nlogic=not-proved\n";
    assert_eq!(what, said, "the crates that are proved are left out");
    assert!(text.contains("proved table") && !text.contains("proved order"), "{text}");
    assert!(!text.contains("all is proved"), "{text}");
    let log = logged(&folder);
    assert_eq!(of(&log, "start"), ["all check --jobs 2 abi"]);
    assert_eq!(of(&log, "prove"), ["theory", "table", "order"]);
    // Corrected, it goes on where it was.
    let rt = fs::read_to_string(folder.join("bin/rt")).expect("rt");
    write_program(&folder.join("bin/rt"), &rt.replace("exit 7", "true"));
    assert_eq!(told(&folder, 1, &BOTH).1, Ok(()));
    let on = ["order", "seed", "abi", "edit", "abi_edit"];
    assert_eq!(of(&logged(&folder), "prove"), on);
}

#[test]
fn failures_are_lines_and_no_panics() {
    let folder = repository("building-without", "");
    fs::remove_file(folder.join("bin/rt")).expect("no rt");
    let what = told(&folder, 1, &BOTH).1.expect_err("there is no rt");
    assert!(
        what.starts_with("can't start `rt` (") && what.contains("; put the Rattle toolchain"),
        "{what}"
    );
    assert_eq!(what.lines().count(), 1);
    write_program(&folder.join("bin/rt"), "#!/bin/sh\necho no kit >&2\nexit 2\n");
    let what = told(&folder, 1, &BOTH).1.expect_err("there is no kit");
    assert!(what.starts_with("`rt version` failed; ") && what.ends_with("\nno kit\n"), "{what}");
    write_program(&folder.join("bin/rt"), "#!/bin/sh\n");
    let what = told(&folder, 1, &BOTH).1.expect_err("it makes nothing");
    let start = "`rt lib` in crates/abi made no ";
    assert!(what.starts_with(start) && what.lines().count() == 1, "{what}");
    write(&folder.join("crates.txt"), "theory: table\ntable: theory\nabi staticlib: table\n");
    let what = told(&folder, 1, &["abi"]).1.expect_err("a cycle");
    assert!(what.starts_with("crates.txt: some of these crates need each other"), "{what}");
    for said in ["", "0", "-1", "two"] {
        let what = rattle::workers(Some(said)).expect_err("no number");
        assert!(what.contains("make it a number, 1 or more"), "{what}");
    }
    assert_eq!(rattle::workers(Some("12")), Ok(12));
    assert!(rattle::workers(None).is_ok_and(|count| (1..=8).contains(&count)));
    let gigabytes = |count: u64| fitting(4, Some(count * 1_000_000));
    assert_eq!([1, 2, 5, 8, 100].map(gigabytes), [1, 1, 2, 4, 4]);
    assert_eq!(fitting(4, None), 4);
}

/// For archives that the records tell are made from the same sources, `rt` isn't even started.
#[test]
fn what_is_made_from_the_same_sources_is_not_made_again() {
    let folder = repository("building-fresh", "");
    assert_eq!(made(&folder).len(), 4);
    assert_eq!(told(&folder, 1, &BOTH), (String::new(), Ok(())));
    let order = folder.join("crates/order");
    let source = File::options().append(true).open(order.join("src/lib.rt")).expect("a source");
    source.set_modified(SystemTime::now() + Duration::from_secs(60)).expect("a later time");
    write(&order.join("must-fail/e.edit"), "another edit");
    write(&order.join("must-fail/more.edit"), "one more");
    write(&order.join("stdout"), "a text");
    write(&folder.join("host/src/lib.rs"), "// a comment");
    write(&folder.join("README.md"), "a page");
    write(&folder.join("crates.txt"), &format!("{CRATES}# a comment\n"));
    write(&folder.join("crates/plan/specs/S.antt"), "no archive rests on it");
    assert_eq!(told(&folder, 1, &BOTH), (String::new(), Ok(())));
    assert_eq!(logged(&folder), [""; 0]);
}

#[test]
fn a_change_is_proved_with_what_builds_on_it_alone() {
    let folder = repository("building-change", "");
    let all = made(&folder);
    let archives = |folder: &Path| {
        let runs = made(folder);
        let mut runs: Vec<&str> = runs.iter().filter_map(|run| run.strip_prefix("lib ")).collect();
        runs.sort();
        runs.join(",")
    };
    let both = "abi,abi_edit";
    write(&folder.join("crates/order/specs/S.antt"), "some Text");
    assert_eq!(archives(&folder), both);
    write(&folder.join("crates/order/proofs/more/P.antt"), "");
    assert_eq!(archives(&folder), both);
    fs::rename(folder.join("crates/order/proofs/more"), folder.join("crates/order/proofs/most"))
        .expect("renamed");
    assert_eq!(archives(&folder), both);
    write(&folder.join("crates/seed/src/lib.rt"), "other text");
    assert_eq!(archives(&folder), "abi");
    write(&folder.join("crates.txt"), &CRATES.replace("edit: order", "edit: order table"));
    assert_eq!(archives(&folder), "abi_edit");
    write(
        &folder.join("crates.txt"),
        &CRATES.replace("abi staticlib:", "abi staticlib backend=x:"),
    );
    assert_eq!(archives(&folder), both, "each has another line now");
    write(&folder.join("version"), "another kit\n");
    assert_eq!(made(&folder).len(), all.len());
    // An archive that someone else has written meanwhile, or removed.
    write(&folder.join("target/staticlib/libabi.a"), "another archive");
    assert_eq!(archives(&folder), "abi");
    fs::remove_file(folder.join("target/staticlib/libabi_edit.a")).expect("an archive");
    assert_eq!(archives(&folder), "abi_edit");
}

/// Sources that change while they are proved may be in the archive or not, so it is made again, even where they are as before.
#[test]
fn what_changes_meanwhile_is_proved_again() {
    let script = "[ $1 = order ] && echo more >>$at/crates/order/src/lib.rt";
    let folder = repository("building-meanwhile", script);
    made(&folder);
    write(&folder.join("crates/order/src/lib.rt"), "some text");
    let rt = fs::read_to_string(folder.join("bin/rt")).expect("rt");
    write_program(&folder.join("bin/rt"), &rt.replace(script, ""));
    let again = made(&folder);
    assert!(again.contains(&"lib abi".into()), "{again:?}");
    assert_eq!(made(&folder), [""; 0]);
}

#[test]
fn two_builds_at_once_prove_each_crate_once() {
    let folder = repository("building-twice", "sleep 0.05");
    let start = |at: PathBuf| thread::spawn(move || told(&at, 2, &BOTH));
    let builds = [start(folder.clone()), start(folder.clone())];
    let ended = builds.map(|build| build.join().expect("it ends"));
    assert!(ended.iter().all(|(_, ended)| ended.is_ok()), "{ended:?}");
    assert_in_sequence(&folder, &logged(&folder), 2);
    let proving = ended.iter().filter(|(text, _)| text.contains(" at a time; ")).count();
    assert_eq!(proving, 1, "{ended:?}");
}

#[test]
fn a_build_waits_for_another() {
    let folder = repository("building-lock", "");
    fs::create_dir(folder.join("target")).expect("a folder");
    let lock = File::create(folder.join("target/build.lock")).expect("a lock");
    lock.lock().expect("locked");
    let (page, at) = (Page::default(), folder.clone());
    let out = page.clone();
    let waiting = thread::spawn(move || build(&at, 2).make(&[archive("abi")], Box::new(out)));
    let line = "raskjomi: another build is proving in this folder; waiting for it\n";
    wait_for("the line", || page.text() == line);
    assert_eq!(logged(&folder), [""; 0]);
    drop(lock);
    assert_eq!(waiting.join().expect("it ends"), Ok(()));
    assert_eq!(of(&logged(&folder), "prove").len(), 5);
    assert!(page
        .text()
        .starts_with(&(line.to_string() + "raskjomi: proving 5 crates, 2 at a time")));
}

/// Starts the build script in a group of processes of its own, with no terminal, and waits until `order` is being proved.
fn started(folder: &Path, program: &Path) -> Child {
    let path =
        format!("{}:{}", folder.join("bin").display(), std::env::var("PATH").unwrap_or_default());
    let mut command = Command::new(program);
    command.env("CARGO_MANIFEST_DIR", folder.join("host")).env("PATH", path).env("RT_JOBS", "1");
    command.env("TMPDIR", folder).env_remove("RASKJOMI_ARCHIVES").process_group(0);
    command.stdin(Stdio::null()).stdout(Stdio::null()).stderr(Stdio::null());
    let child = command.spawn().expect("the build script starts");
    wait_for("order", || folder.join("proving").exists());
    child
}

const PROVES_UNTIL_TOLD: &str = "[ $1 = order ] && { : >$at/proving; wait_for $at/go; }";

#[test]
fn a_killed_build_goes_on_where_it_was() {
    let folder = repository("building-killed", PROVES_UNTIL_TOLD);
    let mut child = started(&folder, &build_script(&folder));
    let mut kill = Command::new("/bin/sh");
    kill.args(["-c", "kill -KILL -$0"]).arg(child.id().to_string());
    assert!(kill.status().expect("a shell").success());
    child.wait().expect("it is killed");
    assert_eq!(logged(&folder).last().map(String::as_str), Some("prove order"));
    // What the build has half written when it is killed goes; what another process is writing stays.
    let archives = folder.join("target/staticlib");
    let other = format!("libabi_edit.a.tmp-{}", std::process::id());
    write(&archives.join("libabi.a.tmp-999999999"), "half");
    write(&archives.join(&other), "half");
    write(&folder.join("go"), "");
    assert_eq!(told(&folder, 1, &["abi"]).1, Ok(()));
    assert!(!archives.join("libabi.a.tmp-999999999").exists() && archives.join(other).exists());
    assert_eq!(of(&logged(&folder), "prove"), ["order", "seed", "abi"]);
}

/// Only the script is killed: what it started goes on, and is waited for.
#[test]
fn what_a_killed_build_has_started_is_waited_for() {
    let folder = repository("building-orphan", PROVES_UNTIL_TOLD);
    let mut child = started(&folder, &build_script(&folder));
    child.kill().expect("killed");
    child.wait().expect("it is killed");
    assert_eq!(logged(&folder).last().map(String::as_str), Some("prove order"));
    let (page, at) = (Page::default(), folder.clone());
    let out = page.clone();
    let waiting = thread::spawn(move || build(&at, 1).make(&[archive("abi")], Box::new(out)));
    wait_for("the line", || page.text().contains("another build is proving"));
    assert_eq!(logged(&folder), [""; 0]);
    write(&folder.join("go"), "");
    assert_eq!(waiting.join().expect("it ends"), Ok(()));
    let log = logged(&folder);
    let goes_on = ["prove seed", "prove abi", "end all check --jobs 1 abi"];
    assert_eq!(log[..3], goes_on, "{log:?}");
    assert_eq!(of(&log, "start"), ["all check --jobs 1 abi", "lib abi"]);
    assert!(!page.text().contains("proved order"), "it is unchanged: {}", page.text());
}

#[test]
fn temporary_files_are_in_memory_and_removed() {
    let folder =
        repository("building-memory", "echo $own ${TMPDIR-none} >>$at/rooms; : >${TMPDIR:-.}/left");
    let memory = folder.join("memory");
    fs::create_dir(&memory).expect("a folder");
    let root = folder.canonicalize().expect("a folder");
    let room = Room::new(&memory, &root, 0).expect("there is space");
    let path = room.path().to_path_buf();
    write(&path.join("left"), "by a killed build");
    std::mem::forget(room);
    assert!(Room::new(&memory, &root, u64::MAX).is_none() && !path.exists());
    assert!(Room::new(&folder.join("none"), &root, 0).is_none());
    let in_memory = Build { memory: Some((memory.clone(), 0)), ..build(&folder, 2) };
    let program = Product { file: "bin/plan".into(), verb: Verb::Run, name: "plan" };
    let products = [archive("abi"), program];
    let what = in_memory.make(&products, Box::new(Page::default())).expect_err("no program");
    assert!(what.starts_with("`rt run` in crates/plan made no "), "{what}");
    assert_eq!(fs::read_dir(&memory).expect("a folder").count(), 0);
    let rooms = fs::read_to_string(folder.join("rooms")).expect("rooms");
    let (programs, libraries): (Vec<&str>, Vec<&str>) =
        rooms.lines().partition(|line| line.starts_with("plan "));
    assert_eq!((programs.len(), libraries.len()), (1, 5));
    let given = path.display().to_string();
    assert!(libraries.iter().all(|line| line.ends_with(&given)), "{rooms}");
    assert!(!programs[0].ends_with(&given), "a program is run by another user: {rooms}");
}

/// Every crate that an archive rests on is proved, whether its line names it or not.
#[test]
fn all_crates_below_the_archives_are_counted() {
    let root = Path::new(env!("CARGO_MANIFEST_DIR")).parent().expect("the repository");
    let crates = List::read(root).expect("the list").all_below(["abi"].into_iter());
    for name in ["theory", "words", "table", "table_reader", "order_rows", "order_rounds", "abi"] {
        assert!(crates.contains(name), "{name} in {crates:?}");
    }
    assert!(!crates.contains("abi_verdict") && !crates.contains("io"));
    let watched = rattle::watched(root, &["abi"]).expect("folders");
    assert!(watched.iter().all(|folder| folder.is_dir()));
    assert!(watched.contains(&root.join("crates/order/specs")));
    assert!(!watched.contains(&root.join("crates/order")), "its edits needn't be watched");
}

#[test]
fn the_build_script_says_what_is_missing() {
    let folder = repository("building-script", "");
    fs::remove_dir_all(folder.join("crates")).expect("no crates");
    let program = build_script(&folder);
    let run = |host: Option<&Path>| {
        let mut program = Command::new(&program);
        for name in ["CARGO_MANIFEST_DIR", "RASKJOMI_ARCHIVES", "RT_JOBS"] {
            program.env_remove(name);
        }
        program.env("PATH", "/none");
        host.map(|host| program.env("CARGO_MANIFEST_DIR", host));
        let ran = program.output().expect("the build script starts");
        assert_eq!(ran.status.code(), Some(1), "{ran:?}");
        String::from_utf8(ran.stderr).expect("text")
    };
    assert_eq!(run(None), "raskjomi: run this by cargo\n");
    let host = folder.join("host");
    assert_eq!(
        run(Some(&host)),
        "raskjomi: no crates beside the folder host; take the whole repository, or name a folder of archives by \
         RASKJOMI_ARCHIVES\n"
    );
    fs::create_dir(folder.join("crates")).expect("crates");
    let told = run(Some(&host));
    assert!(
        told.starts_with("raskjomi: can't start `rt` (") && told.lines().count() == 1,
        "{told}"
    );
}
