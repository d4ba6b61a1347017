// What the crates are made from, told by content and not by time.

use std::collections::{BTreeMap, BTreeSet};
use std::fs;
use std::hash::{DefaultHasher, Hasher};
use std::path::Path;

/// The folders of a crate that its proof and its code depend on.
pub const PARTS: [&str; 3] = ["src", "specs", "proofs"];

/// The crates of crates.txt, each with what its line says.
pub struct List(BTreeMap<String, Line>);

/// What stands behind a crate's name: the words before the colon, as `staticlib`, and the crates that it needs.
struct Line {
    kind: Vec<String>,
    needs: Vec<String>,
}

impl List {
    /// The list of the repository.
    pub fn read(root: &Path) -> Result<List, String> {
        let path = root.join("crates.txt");
        let text = fs::read_to_string(&path)
            .map_err(|error| format!("can't read {}: {error}", path.display()))?;
        let lines = text.lines().map(|line| line.split('#').next().unwrap_or_default());
        let words = |text: &str| text.split_whitespace().map(String::from).collect();
        let crates = lines.filter_map(|line| {
            let (head, needs) = line.split_once(':').unwrap_or((line, ""));
            let (name, kind) = head.trim().split_once(' ').unwrap_or((head.trim(), ""));
            let line = Line { kind: words(kind), needs: words(needs) };
            (!name.is_empty()).then(|| (name.to_string(), line))
        });
        Ok(List(crates.collect()))
    }

    /// These crates and all that they need, of those that are listed, by name.
    pub fn all_below<'a>(&self, names: impl Iterator<Item = &'a str>) -> BTreeSet<String> {
        let mut found = BTreeSet::new();
        let mut left: Vec<String> = names.map(String::from).collect();
        while let Some(name) = left.pop() {
            if let Some(line) = self.0.get(&name) {
                if found.insert(name) {
                    left.extend(line.needs.iter().cloned());
                }
            }
        }
        found
    }

    /// Those of the named crates that can't be proved before all that they need: some of them need each other.
    pub fn without_sequence(&self, mut names: BTreeSet<String>) -> BTreeSet<String> {
        loop {
            let waits = |name: &String| {
                self.0
                    .get(name)
                    .is_some_and(|line| line.needs.iter().any(|need| names.contains(need)))
            };
            let left: BTreeSet<String> = names.iter().filter(|name| waits(name)).cloned().collect();
            if left.len() == names.len() {
                return left;
            }
            names = left;
        }
    }
}

/// The list, the content of each crate, and the toolchain's version.
pub struct Sources {
    pub list: List,
    version: String,
    contents: BTreeMap<String, Content>,
}

/// The bytes of a crate's sources: how many, and a hash.
struct Content {
    size: u64,
    hash: String,
}

impl Sources {
    /// The sources as they are now.
    pub fn read(root: &Path, version: &str) -> Result<Sources, String> {
        let list = List::read(root)?;
        let content = |name: &String| (name.clone(), content(&root.join("crates").join(name)));
        let contents = list.0.keys().map(content).collect();
        Ok(Sources { list, version: version.into(), contents })
    }

    /// Tells apart what the crate is made from: the sources and lines of it and of all below it, and the version.
    pub fn fingerprint(&self, name: &str) -> String {
        let mut text = format!("{}\n{name}\n", self.version);
        for below in self.list.all_below([name].into_iter()) {
            let content = self.contents.get(&below).map_or("", |content| &content.hash);
            let [kind, needs] =
                self.list.0.get(&below).map_or([String::new(), String::new()], |line| {
                    [line.kind.join(" "), line.needs.join(" ")]
                });
            text += &format!("{below} {kind}: {needs}\n{content}\n");
        }
        hashed(text.as_bytes())
    }

    /// How much there is to prove, by the bytes of the sources of these crates.
    pub fn weight(&self, names: &BTreeSet<String>) -> u64 {
        names.iter().filter_map(|name| self.contents.get(name)).map(|content| content.size).sum()
    }
}

/// The content of the files below a crate's folder that count, with their names.
fn content(folder: &Path) -> Content {
    let mut all = Vec::new();
    for part in PARTS {
        add_files(&folder.join(part), part, &mut all);
    }
    Content { size: all.len() as u64, hash: hashed(&all) }
}

/// Adds name, length and bytes of each file, by name; of a file that can't be read, that it is so.
fn add_files(path: &Path, name: &str, all: &mut Vec<u8>) {
    if let Ok(entries) = fs::read_dir(path) {
        let names = entries.flatten().map(|entry| entry.file_name());
        for entry in names.collect::<BTreeSet<_>>() {
            let below = format!("{name}/{}", entry.to_string_lossy());
            add_files(&path.join(entry), &below, all);
        }
    } else if path.exists() {
        let bytes = fs::read(path);
        let length = bytes.as_ref().map_or("unreadable".into(), |bytes| bytes.len().to_string());
        all.extend(format!("\n{name} {length}\n").bytes());
        all.extend(bytes.unwrap_or_default());
    }
}

/// A number of 128 bits for the bytes, as text. It needn't be the same for another compiler: then the archives are made again.
pub fn hashed(bytes: &[u8]) -> String {
    let half = |first: u8| {
        let mut hasher = DefaultHasher::new();
        hasher.write_u8(first);
        hasher.write(bytes);
        hasher.finish()
    };
    format!("{:016x}{:016x}", half(0), half(1))
}
