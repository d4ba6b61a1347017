//! Links the proved archives, and makes them first where they are missing or made from other sources. Where RASKJOMI_ARCHIVES names a
//! folder of archives, it links those, and nothing is proved.

mod archives;
mod rattle;

use archives::{Archives, Needs};
use rattle::{Product, Verb};
use std::fs::{self, File};
use std::io;
use std::path::{Path, PathBuf};
use std::process::ExitCode;

/// The variable that names a folder of archives.
const GIVEN: &str = "RASKJOMI_ARCHIVES";

fn main() -> ExitCode {
    match link() {
        Ok(()) => ExitCode::SUCCESS,
        Err(what) => {
            eprintln!("raskjomi: {what}");
            ExitCode::FAILURE
        }
    }
}

/// Tells cargo what to link, or what is missing.
fn link() -> Result<(), String> {
    let host = PathBuf::from(variable("CARGO_MANIFEST_DIR")?);
    println!("cargo:rerun-if-env-changed={GIVEN}");
    let given = given()?;
    let folder = given.clone().map_or_else(|| proved(&host), Ok)?;
    let (archives, needs) = (Archives::read(&folder)?, needs(&host)?);
    if given.is_some() {
        archives.are_recorded(&needs.version)?;
    }
    archives.fit(&needs)?;
    let (at, fingerprint) = (folder.display(), archives.fingerprint());
    if given.is_some() {
        println!("cargo:warning=nothing is proved in this build; it links the archives of {at}, SHA-256 {fingerprint}");
    } else {
        archives.write_record(&needs.version)?;
    }
    let origin = if given.is_some() { "given" } else { "proved" };
    println!("cargo:rustc-env=RASKJOMI_ORIGIN={origin}");
    println!("cargo:rustc-env=RASKJOMI_FINGERPRINT={fingerprint}");
    println!("cargo:rustc-link-search=native={at}");
    for name in archives::CRATES {
        println!("cargo:rustc-link-lib=static={name}");
        println!("cargo:rerun-if-changed={}", folder.join(archives::file(name)).display());
    }
    Ok(())
}

/// A variable that cargo sets.
fn variable(name: &str) -> Result<String, String> {
    std::env::var(name).map_err(|_| "run this by cargo".to_string())
}

/// The folder of archives that the user names, if the variable isn't empty.
fn given() -> Result<Option<PathBuf>, String> {
    match std::env::var_os(GIVEN).filter(|name| !name.is_empty()).map(PathBuf::from) {
        Some(folder) if !folder.is_absolute() => {
            Err(format!("{GIVEN} is {folder:?}; name a folder by its whole path, from / on"))
        }
        folder => Ok(folder),
    }
}

/// What archives have to fit, for this build.
fn needs(host: &Path) -> Result<Needs, String> {
    let declarations = host.join("src/exports.rs");
    println!("cargo:rerun-if-changed={}", declarations.display());
    let text = fs::read_to_string(&declarations)
        .map_err(|error| format!("can't read {}: {error}", declarations.display()))?;
    Ok(Needs {
        version: variable("CARGO_PKG_VERSION")?,
        machine: variable("CARGO_CFG_TARGET_ARCH")?,
        exports: archives::exports(&text),
    })
}

/// Has the archives proved and made from the sources of the repository; their folder.
fn proved(host: &Path) -> Result<PathBuf, String> {
    let root = host.parent().ok_or("put the folder host into the repository")?;
    for source in rattle::SOURCES {
        if !root.join(source).exists() {
            return Err(format!(
                "no {source} beside the folder host; take the whole repository, or name a folder of archives by {GIVEN}"
            ));
        }
    }
    println!("cargo:rerun-if-changed={}", root.join("crates.txt").display());
    for folder in rattle::watched(root, &archives::CRATES)? {
        println!("cargo:rerun-if-changed={}", folder.display());
    }
    let made = archives::CRATES.map(|name| Product {
        file: format!("staticlib/{}", archives::file(name)),
        verb: Verb::Lib,
        name,
    });
    let kit = rattle::built(root, &made)?;
    println!("cargo:rustc-env=RASKJOMI_KIT={}", kit.trim());
    for product in &made {
        let _ = date_back(&root.join("target").join(&product.file), &root.join("crates.txt"));
    }
    Ok(root.join("target/staticlib"))
}

/// Makes a file as old as another. Cargo runs this script again, and compiles all, where a file is newer than the script's start.
fn date_back(file: &Path, other: &Path) -> io::Result<()> {
    File::options().append(true).open(file)?.set_modified(other.metadata()?.modified()?)
}
