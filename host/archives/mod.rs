// The proved archives that are linked, and the record beside them, by which a build can take them that has no toolchain. The build
// script and the tests share this folder.

mod object;
pub mod sha256;

use object::Archive;
use std::fs;
use std::path::{Path, PathBuf};

/// The crates of exports, each with an archive of its own.
pub const CRATES: [&str; 6] =
    ["abi", "abi_carry", "abi_governed", "abi_edit", "abi_verdict", "abi_large"];

/// The file beside the archives that has their version and, as `sha256sum` writes it, a line for each.
pub const RECORD: &str = "raskjomi.archives";

/// The file of a crate's archive.
pub fn file(name: &str) -> String {
    format!("lib{name}.a")
}

/// What archives have to fit.
pub struct Needs {
    pub version: String,
    pub machine: String,
    pub exports: Vec<String>,
}

/// The archives of a folder, in the sequence of their crates.
pub struct Archives {
    folder: PathBuf,
    bytes: Vec<Vec<u8>>,
}

impl Archives {
    /// Reads them, or says which is missing.
    pub fn read(folder: &Path) -> Result<Archives, String> {
        let bytes = CRATES.iter().map(|name| {
            let path = folder.join(file(name));
            fs::read(&path).map_err(|error| format!("can't read {}: {error}", path.display()))
        });
        Ok(Archives { folder: folder.into(), bytes: bytes.collect::<Result<_, String>>()? })
    }

    /// The SHA-256 of all their bytes, one archive after the other.
    pub fn fingerprint(&self) -> String {
        sha256::sum(&self.bytes.concat())
    }

    /// Whether they are for the machine and have each export.
    pub fn fit(&self, needs: &Needs) -> Result<(), String> {
        let mut archives = Vec::new();
        for (name, bytes) in CRATES.iter().zip(&self.bytes) {
            let path = self.folder.join(file(name)).display().to_string();
            let archive = Archive::parse(bytes)
                .ok_or_else(|| format!("{path} is no whole archive; take it anew"))?;
            if let Some(other) = archive.machines().iter().find(|other| **other != needs.machine) {
                let machine = &needs.machine;
                return Err(format!("{path} is for {other}, and this build is for {machine}; take archives for {machine}"));
            }
            archives.push(archive);
        }
        let lacks = |export: &&String| !archives.iter().any(|archive| archive.defines(export));
        match needs.exports.iter().find(lacks) {
            None => Ok(()),
            Some(export) => Err(format!(
                "no archive in {} has the export {export}; take archives that were made from this version's sources",
                self.folder.display()
            )),
        }
    }

    /// The text of the record.
    fn record(&self, version: &str) -> String {
        let line =
            |(name, bytes): (&&str, &Vec<u8>)| format!("{}  {}\n", sha256::sum(bytes), file(name));
        let lines: String = CRATES.iter().zip(&self.bytes).map(line).collect();
        format!(
            "# Proved archives of raskjomi {version}, for a build with RASKJOMI_ARCHIVES.\n{lines}"
        )
    }

    /// Writes the record beside them, where it isn't there already.
    pub fn write_record(&self, version: &str) -> Result<(), String> {
        let (path, text) = (self.folder.join(RECORD), self.record(version));
        if fs::read_to_string(&path).is_ok_and(|old| old == text) {
            return Ok(());
        }
        let half = self.folder.join(format!("{RECORD}.tmp-{}", std::process::id()));
        let written = fs::write(&half, text).and_then(|()| fs::rename(&half, &path));
        written.map_err(|error| format!("can't write {}: {error}", path.display()))
    }

    /// Whether the record beside them is theirs, and names the version.
    pub fn are_recorded(&self, version: &str) -> Result<(), String> {
        let path = self.folder.join(RECORD);
        let at = path.display();
        let text = fs::read_to_string(&path)
            .map_err(|error| format!("can't read {at}: {error}; name a folder that a build has written, as target/staticlib"))?;
        let (own, mut lines) = (self.record(version), text.lines());
        let first = lines.next().unwrap_or_default();
        if Some(first) != own.lines().next() {
            return Err(format!("{at} begins with `{first}`, and this is raskjomi {version}; take archives of this version"));
        }
        match CRATES
            .iter()
            .zip(own.lines().skip(1))
            .find(|(_, line)| !lines.clone().any(|other| other == *line))
        {
            None => Ok(()),
            Some((name, _)) => {
                Err(format!("{} isn't the archive that {at} records; take both anew", file(name)))
            }
        }
    }
}

/// The names of the exports, as the host declares them.
pub fn exports(declarations: &str) -> Vec<String> {
    let names =
        declarations.split("fn raskjomi_").skip(1).filter_map(|rest| rest.split('(').next());
    names.map(|name| format!("raskjomi_{name}")).collect()
}
