//! A build with RASKJOMI_ARCHIVES links the archives of a folder without a toolchain, and refuses those that don't fit it.

#[allow(dead_code)]
#[path = "../archives/mod.rs"]
mod archives;
mod common;

use archives::{Archives, CRATES, RECORD};
use common::{archives_linked, build_script, outside, write_program};
use std::fs;
use std::path::{Path, PathBuf};
use std::process::{Command, Output};
use std::sync::OnceLock;
use std::time::{Duration, SystemTime};

const VERSION: &str = env!("CARGO_PKG_VERSION");

/// An empty folder for one test.
fn empty(name: &str) -> PathBuf {
    let folder = outside().join("archives").join(name);
    let _ = fs::remove_dir_all(&folder);
    fs::create_dir_all(&folder).expect("a folder");
    folder
}

/// A folder with a copy of the archives and of their record.
fn copied(name: &str) -> PathBuf {
    let folder = empty(name);
    for file in CRATES.map(archives::file).iter().map(String::as_str).chain([RECORD]) {
        fs::copy(archives_linked().join(file), folder.join(file)).expect("a copy");
    }
    folder
}

/// The build script, as cargo runs it in a folder.
fn script(host: &Path) -> Command {
    static SCRIPT: OnceLock<PathBuf> = OnceLock::new();
    let mut script = Command::new(SCRIPT.get_or_init(|| build_script(&empty("script"))));
    script.env("CARGO_MANIFEST_DIR", host);
    script.env("CARGO_PKG_VERSION", VERSION).env("CARGO_CFG_TARGET_ARCH", "x86_64");
    script
}

/// Runs the build script on a folder of archives, with no program on the path.
fn built(folder: &Path) -> Output {
    let mut script = script(Path::new(env!("CARGO_MANIFEST_DIR")));
    script.env("PATH", "/none").env("RASKJOMI_ARCHIVES", folder);
    script.output().expect("the build script starts")
}

/// The line that a refused folder gets.
fn refused(folder: &Path) -> String {
    let ran = built(folder);
    assert_eq!(ran.status.code(), Some(1), "{ran:?}");
    let told = String::from_utf8(ran.stderr).expect("text");
    assert_eq!(told.lines().count(), 1, "{told}");
    let said = String::from_utf8(ran.stdout).expect("text");
    assert!(!said.contains("rustc-link"), "nothing is linked: {said}");
    told
}

/// Puts other bytes for the first place of some bytes in an archive.
fn alter(folder: &Path, name: &str, from: &[u8], to: &[u8]) {
    let path = folder.join(archives::file(name));
    let mut bytes = fs::read(&path).expect("an archive");
    let at = bytes.windows(from.len()).position(|part| part == from).expect("the bytes");
    bytes[at..at + to.len()].copy_from_slice(to);
    fs::write(path, bytes).expect("an archive");
}

/// Records the archives as they now are.
fn record(folder: &Path) {
    Archives::read(folder).and_then(|read| read.write_record(VERSION)).expect("a record");
}

#[test]
fn given_archives_are_linked_without_a_toolchain() {
    let folder = copied("given");
    let ran = built(&folder);
    let said = String::from_utf8(ran.stdout).expect("text");
    assert!(ran.status.success() && ran.stderr.is_empty(), "{said}");
    let (at, fingerprint) = (folder.display(), env!("RASKJOMI_FINGERPRINT"));
    let warning = format!("cargo:warning=nothing is proved in this build; it links the archives of {at}, SHA-256 {fingerprint}");
    let lines = [
        "cargo:rerun-if-env-changed=RASKJOMI_ARCHIVES".to_string(),
        warning,
        "cargo:rustc-env=RASKJOMI_ORIGIN=given".to_string(),
        format!("cargo:rustc-env=RASKJOMI_FINGERPRINT={fingerprint}"),
        format!("cargo:rustc-link-search=native={at}"),
    ];
    for line in lines {
        assert!(said.lines().any(|other| other == line), "no `{line}` in {said}");
    }
    let linked = said.lines().filter(|line| line.starts_with("cargo:rustc-link-lib=static="));
    assert_eq!(linked.count(), CRATES.len());
}

/// Another program sums the same bytes.
#[test]
fn the_fingerprint_is_the_sum_of_the_archives() {
    let mut sum = Command::new("/bin/sh");
    let files = CRATES.map(archives::file).join(" ");
    sum.args(["-c", &format!("cat {files} | sha256sum; sha256sum --quiet -c {RECORD} 2>&1")]);
    let ran = sum.current_dir(copied("sums")).output().expect("a shell");
    let told = String::from_utf8(ran.stdout).expect("text");
    assert_eq!(told.lines().next(), Some(&*format!("{}  -", env!("RASKJOMI_FINGERPRINT"))));
    assert!(!told.contains("FAILED"), "{told}");
    let empty = "e3b0c44298fc1c149afbf4c8996fb92427ae41e4649b934ca495991b7852b855";
    assert_eq!(archives::sha256::sum(b""), empty);
}

#[test]
fn archives_of_another_version_are_refused() {
    let folder = copied("version");
    let path = folder.join(RECORD);
    let text = fs::read_to_string(&path).expect("the record");
    fs::write(&path, text.replace(&format!("raskjomi {VERSION}"), "raskjomi 0.0.9"))
        .expect("a record");
    let told = refused(&folder);
    let parts =
        ["raskjomi 0.0.9", &format!("this is raskjomi {VERSION}"), "take archives of this version"];
    assert!(parts.iter().all(|part| told.contains(part)), "{told}");
    fs::remove_file(path).expect("no record");
    assert!(refused(&folder).contains("name a folder that a build has written"));
}

#[test]
fn archives_for_another_machine_are_refused() {
    let folder = copied("machine");
    let [own, other] = [62, 183]
        .map(|machine| [&b"\x7fELF\x02\x01\x01"[..], &[0; 9], &[1, 0, machine, 0]].concat());
    alter(&folder, "abi_edit", &own, &other);
    record(&folder);
    let told = refused(&folder);
    assert!(
        told.contains(
            "libabi_edit.a is for aarch64, and this build is for x86_64; take archives for x86_64"
        ),
        "{told}"
    );
}

#[test]
fn archives_without_an_export_are_refused() {
    let folder = copied("export");
    alter(&folder, "abi_verdict", b"raskjomi_verdict", b"raskjomi_verdics");
    record(&folder);
    let told = refused(&folder);
    assert!(told.contains("has the export raskjomi_verdict; take archives"), "{told}");
}

#[test]
fn damaged_archives_are_refused() {
    let folder = copied("damaged");
    alter(&folder, "abi_large", b"!<arch>", b"!<ARCH>");
    assert!(refused(&folder).contains("libabi_large.a isn't the archive that "));
    record(&folder);
    assert!(refused(&folder).contains("libabi_large.a is no whole archive; take it anew"));
    let path = folder.join(archives::file("abi_large"));
    for length in [0, 7, 8, 30, 68, 100, 2000] {
        let bytes =
            fs::read(archives_linked().join(archives::file("abi_large"))).expect("an archive");
        fs::write(&path, &bytes[..length]).expect("a part");
        record(&folder);
        refused(&folder);
    }
    fs::remove_file(path).expect("no archive");
    assert!(refused(&folder).contains("can't read "));
    assert!(refused(Path::new("target/staticlib"))
        .contains("name a folder by its whole path, from / on"));
}

/// A repository whose `rt` logs what it is asked for, and takes the archives that the tests are built with for those it makes.
fn repository() -> PathBuf {
    let folder = empty("repository");
    let lines = CRATES.map(|name| format!("{name} staticlib:\n")).concat();
    fs::write(folder.join("crates.txt"), lines).expect("a list");
    for name in CRATES {
        let sources = folder.join("crates").join(name).join("src");
        fs::create_dir_all(&sources).expect("a folder");
        fs::write(sources.join("lib.rt"), name).expect("a source");
    }
    fs::create_dir_all(folder.join("host/src")).expect("a folder");
    let exports = Path::new(env!("CARGO_MANIFEST_DIR")).join("src/exports.rs");
    fs::copy(exports, folder.join("host/src/exports.rs")).expect("a copy");
    let rt = format!(
        "#!/bin/sh\n[ \"$1\" != version ] || exec echo a kit\nname=${{PWD##*/}}\necho \"$* $name\" >>'{}/log'\n\
         mkdir -p out && cp '{}'/lib$name.a out/\n",
        folder.display(),
        archives_linked().display()
    );
    write_program(&folder.join("bin/rt"), &rt);
    folder
}

/// Runs the build script in the repository; what `rt` was asked for.
fn proved(folder: &Path) -> Vec<String> {
    let mut script = script(&folder.join("host"));
    script.env_remove("RASKJOMI_ARCHIVES").env("RT_JOBS", "1").env("TMPDIR", folder);
    script.env("PATH", format!("{}:/bin:/usr/bin", folder.join("bin").display()));
    let ran = script.output().expect("the build script starts");
    let said = String::from_utf8(ran.stdout).expect("text");
    assert!(ran.status.success() && said.contains("RASKJOMI_ORIGIN=proved\n"), "{said}");
    assert!(!said.contains("cargo:warning"), "{said}");
    let log = fs::read_to_string(folder.join("log")).unwrap_or_default();
    let _ = fs::remove_file(folder.join("log"));
    log.lines().map(String::from).collect()
}

#[test]
fn a_build_proves_what_has_other_content_and_records_it() {
    let folder = repository();
    assert_eq!(proved(&folder).len(), CRATES.len());
    let made = folder.join("target/staticlib");
    assert!(built(&made).status.success(), "another build takes them");
    let source = folder.join("crates/abi_edit/src/lib.rt");
    let touched = fs::File::options().append(true).open(&source).expect("a source");
    touched.set_modified(SystemTime::now() + Duration::from_secs(60)).expect("a later time");
    assert_eq!(proved(&folder), [""; 0]);
    fs::write(source, "other text").expect("a source");
    assert_eq!(proved(&folder), ["lib abi_edit"]);
    fs::remove_file(made.join(RECORD)).expect("no record");
    assert_eq!(proved(&folder), [""; 0]);
    assert!(built(&made).status.success(), "the record is there again");
}
