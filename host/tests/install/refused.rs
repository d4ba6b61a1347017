//! What can't be installed: a line says why, and nothing is written.

use crate::common::{archives_linked, root};
use crate::folder::{content, done, failed, fresh, install, with_program, word};
use std::fs;
use std::path::{Path, PathBuf};
use std::process::Command;

/// Tries an install into a folder that isn't there, and isn't there afterwards.
fn refused(name: &str, change: impl FnOnce(&mut Command)) -> String {
    let folder = fresh(name).join("deeper");
    let mut command = install(&["--prefix", word(&folder)]);
    change(&mut command);
    let told = failed(&mut command, 1);
    assert_eq!(told.lines().count(), 1, "{told}");
    assert!(!folder.parent().expect("a folder").exists(), "nothing is left");
    told
}

#[test]
fn a_folder_that_cant_be_written() {
    for prefix in ["/proc/raskjomi", "/dev/null/raskjomi"] {
        let told = failed(&mut install(&["--prefix", prefix]), 1);
        assert!(
            told.starts_with(&format!(
                "raskjomi: can't write to {prefix}; name another folder by "
            )),
            "{told}"
        );
        assert_eq!(told.lines().count(), 1);
    }
    let folder = fresh("taken");
    fs::create_dir_all(folder.join("bin/raskjomi")).expect("a folder");
    fs::write(folder.join("lib"), "a file where a folder is to stand").expect("a file");
    let before = content(&folder);
    let told = failed(&mut install(&["--prefix", word(&folder)]), 1);
    assert!(
        told.contains("bin/raskjomi is a folder, where a file is to stand; move it away"),
        "{told}"
    );
    assert_eq!(content(&folder), before);
    fs::remove_dir(folder.join("bin/raskjomi")).expect("an empty folder");
    let before = content(&folder);
    let told = failed(&mut install(&["--prefix", word(&folder)]), 1);
    assert!(told.contains("lib is no folder; move it away"), "{told}");
    assert_eq!(content(&folder), before);
}

/// A folder with a copy of the archives, of which one file is changed.
fn archives(name: &str, file: &str, change: impl FnOnce(Vec<u8>) -> Vec<u8>) -> PathBuf {
    let folder = fresh(name);
    done(Command::new("cp").arg("-r").arg(archives_linked()).arg(&folder));
    let path = folder.join(file);
    let bytes = change(fs::read(&path).expect("a file"));
    fs::write(path, bytes).expect("a file");
    folder
}

#[test]
fn archives_that_arent_the_programs() {
    let tried = |name: &str, folder: &Path| {
        refused(name, |command| {
            command.env("RASKJOMI_ARCHIVES", folder);
        })
    };
    let changed = archives("changed", "libabi_edit.a", |bytes| [bytes, vec![0]].concat());
    assert!(tried("with-changed", &changed).contains("aren't those that "));
    let of_text = |bytes: Vec<u8>| {
        String::from_utf8(bytes).expect("text").replace(env!("CARGO_PKG_VERSION"), "0.0.9").into()
    };
    let other = archives("other", "raskjomi.archives", of_text);
    assert!(tried("with-other", &other).contains("are of another version than "));
    fs::remove_file(other.join("raskjomi.archives")).expect("no record");
    assert!(tried("with-none", &other).contains("name a folder that a build has written"));
}

#[test]
fn programs_that_arent_raskjomi() {
    let told = refused("no-program", |command| {
        command.args(["--program", "/bin/false"]);
    });
    assert!(
        told.contains("can't run /bin/false; build it on this machine, or name another program"),
        "{told}"
    );
    let told = refused("other-program", |command| {
        command.args(["--program", "/bin/true"]);
    });
    assert!(told.contains("/bin/true is of version ''"), "{told}");
}

#[test]
fn a_build_that_fails() {
    let folder = fresh("no-build");
    let mut command = Command::new(root().join("install"));
    with_program(&mut command, &fresh("no-build-tools"), "cargo", "exit 1");
    let told = failed(command.arg("--prefix").arg(&folder), 3);
    assert!(
        told.lines()
            .last()
            .is_some_and(|line| line.starts_with("raskjomi: the build failed; it needs ")),
        "{told}"
    );
    assert!(!folder.exists());
}

#[test]
fn a_compiler_that_fails() {
    let told = refused("no-compiler", |command| {
        command.env("CC", "false");
    });
    assert!(told.contains("the C compiler failed; name one by CC"), "{told}");
}

/// The script that makes the libraries, beside a header that declares one call more.
#[test]
fn a_library_that_lacks_a_call() {
    let folder = fresh("lacking");
    let include = folder.join("host/include");
    fs::create_dir_all(&include).expect("a folder");
    done(Command::new("cp").arg("-r").arg(root().join("tools")).arg(&folder));
    let header = fs::read_to_string(root().join("host/include/raskjomi.h")).expect("the header");
    let kind = "uint32_t raskjomi_kind";
    let more = header.replace(kind, &format!("uint32_t raskjomi_none(void);\n{kind}"));
    fs::write(include.join("raskjomi.h"), more).expect("a header");
    let (out, archives) = (folder.join("out"), archives_linked());
    let mut library = Command::new(folder.join("tools/library"));
    library.arg(env!("CARGO_BIN_EXE_raskjomi")).arg(archives).arg(&out);
    let told = failed(&mut library, 1);
    assert!(told.contains("it lacks or adds raskjomi_none") && told.lines().count() == 1, "{told}");
    assert!(!out.exists());
}

#[test]
fn options_that_arent_there() {
    for words in
        [&["--prefx", "/none"][..], &["--prefix"], &["--prefix="], &["--libdir", "/lib"], &["more"]]
    {
        let told = failed(&mut install(words), 2);
        assert!(told.contains("; the usage is: ./install ") && told.lines().count() == 1, "{told}");
    }
    assert!(done(&mut install(&["--help"])).contains("./install --remove "));
}
