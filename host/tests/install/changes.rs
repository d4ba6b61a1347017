//! An install changes all of a folder or nothing, wherever it ends; and its removal leaves what it found.

use crate::common::root;
use crate::folder::{content, done, failed, fresh, install, installed, with_program, word};
use std::fs;
use std::os::unix::fs::PermissionsExt;
use std::path::Path;
use std::process::Command;

/// The folder of an earlier install, with files of others, and a page that the new one doesn't have.
fn earlier(name: &str) -> std::path::PathBuf {
    let folder = fresh(name);
    fs::create_dir_all(folder.join("bin")).expect("a folder");
    fs::create_dir_all(folder.join("share/raskjomi")).expect("a folder");
    fs::write(folder.join("bin/other"), "another program").expect("a file");
    fs::write(folder.join("bin/raskjomi"), "an old program").expect("a file");
    fs::write(folder.join("share/old page"), "an old page").expect("a file");
    let list = "bin/raskjomi\nshare/old page\nshare/raskjomi/installed\nshare/\nshare/raskjomi/\n";
    fs::write(folder.join("share/raskjomi/installed"), list).expect("a list");
    folder
}

/// Runs with a `mv` that does this at the call with the number.
fn with_mv(command: &mut Command, tools: &Path, number: u32, what: &str) {
    let calls = tools.join("calls");
    let _ = fs::remove_file(&calls);
    let counted = format!(
        "n=$(cat {0} 2>/dev/null || echo 0); echo $((n + 1)) >{0}\n[ $n -ne {number} ] || {{ {what}; }}\nexec /bin/mv \"$@\"",
        calls.display()
    );
    with_program(command, tools, "mv", &counted);
}

#[test]
fn an_install_replaces_an_earlier_one_and_is_removed() {
    let folder = earlier("replaced");
    let (destdir, prefix) =
        (word(&folder).strip_suffix("/replaced").expect("its name"), "/replaced");
    done(&mut install(&["--destdir", destdir, "--prefix", prefix]));
    let paths = |at: &Path| -> Vec<String> {
        content(at)
            .keys()
            .map(|path| word(path.strip_prefix(at).expect("below it")).to_string())
            .collect()
    };
    let mut expected = paths(installed());
    expected.push("bin/other".into());
    expected.sort();
    let mut found = paths(&folder);
    found.sort();
    assert_eq!(found, expected);
    let made = fs::read_to_string(folder.join("lib/pkgconfig/raskjomi.pc")).expect("the file");
    assert!(made.starts_with("prefix=/replaced\n"), "{made}");
    done(&mut install(&["--remove", "--prefix", word(&folder)]));
    assert_eq!(paths(&folder), ["bin", "bin/other"]);
    let told = failed(&mut install(&["--remove", "--prefix", word(&folder)]), 1);
    assert!(told.contains("no install in ") && told.lines().count() == 1, "{told}");
}

#[test]
fn removal_takes_a_folder_that_was_made_for_it() {
    let folder = fresh("made folder");
    done(&mut install(&["--prefix", word(&folder)]));
    done(&mut install(&["--remove", "--prefix", word(&folder)]));
    assert!(!folder.exists());
}

#[test]
fn an_interrupted_install_changes_nothing() {
    let (folder, tools) = (earlier("interrupted"), fresh("interrupted-tools"));
    let before = content(&folder);
    let mut command = install(&["--prefix", word(&folder)]);
    with_mv(&mut command, &tools, 20, "kill -TERM $PPID");
    let told = failed(&mut command, 130);
    assert!(told.starts_with("raskjomi: interrupted; nothing is changed in "), "{told}");
    assert_eq!(content(&folder), before);
}

/// Others may read what one user installs for all.
#[test]
fn everything_is_readable() {
    let folder = fresh("readable");
    let mut shell = Command::new("/bin/sh");
    shell.args(["-c", "umask 077; exec \"$0\" \"$@\""]).arg(root().join("install"));
    shell.args(["--program", env!("CARGO_BIN_EXE_raskjomi"), "--prefix"]).arg(&folder);
    done(&mut shell);
    for path in content(&folder).into_keys().filter(|path| !path.is_symlink()) {
        let mode = fs::metadata(&path).expect("it is there").permissions().mode() & 0o777;
        let is_run = path.is_dir() || path.ends_with("bin/raskjomi");
        assert_eq!(mode, if is_run { 0o755 } else { 0o644 }, "{}", path.display());
    }
}

/// One call of `mv` fails: the first, one that takes an old file away, one that puts a new file into place.
#[test]
fn an_install_that_fails_in_the_midst_changes_nothing() {
    let (folder, tools) = (earlier("failing"), fresh("failing-tools"));
    let before = content(&folder);
    for number in [0, 3, 20] {
        let mut command = install(&["--prefix", word(&folder)]);
        with_mv(&mut command, &tools, number, "exit 1");
        let told = failed(&mut command, 1);
        assert!(
            told.starts_with("raskjomi: can't ") && told.lines().count() == 1,
            "{number}: {told}"
        );
        assert_eq!(content(&folder), before, "{number}");
    }
}

/// Starts an install that is killed at a call of `mv`.
fn kill_at(number: u32, folder: &Path, tools: &Path) {
    let mut command = install(&["--prefix", word(folder)]);
    with_mv(&mut command, tools, number, "kill -KILL $PPID; sleep 0.1");
    assert!(!command.status().expect("it starts").success());
    assert!(folder.join(".raskjomi-install").exists(), "it is half done");
}

#[test]
fn a_killed_install_is_undone_by_the_next() {
    let (folder, tools) = (earlier("killed"), fresh("killed-tools"));
    let before = content(&folder);
    kill_at(20, &folder, &tools);
    // The next one can't be done either, and leaves what was there before both.
    let told = failed(&mut install(&["--prefix", word(&folder), "--program", "/bin/false"]), 1);
    assert!(told.contains("was broken off; what it had begun is undone"), "{told}");
    assert_eq!(content(&folder), before);
    kill_at(3, &folder, &tools);
    done(&mut install(&["--remove", "--prefix", word(&folder)]));
    assert_eq!(content(&folder).len(), 2, "bin and bin/other");
}
