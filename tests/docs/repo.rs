//! The repository's files, read once.
use std::collections::BTreeMap;
use std::fs;
use std::path::Path;

pub struct Repo {
    files: BTreeMap<String, String>,
    crates: Vec<String>,
}

/// What `rt` makes beside a crate's files.
const MADE: &str = "out";

/// The crate that a file under crates/ belongs to.
pub fn crate_of(file: &str) -> &str {
    file.split('/').nth(1).unwrap_or("")
}

fn gather(folder: &Path, files: &mut BTreeMap<String, String>) {
    let Ok(entries) = fs::read_dir(folder) else { return };
    for entry in entries.flatten() {
        let path = entry.path();
        if path.is_dir() {
            if !path.ends_with(MADE) {
                gather(&path, files);
            }
        } else if let Ok(text) = fs::read_to_string(&path) {
            files.insert(path.to_string_lossy().into_owned(), text);
        }
    }
}

impl Repo {
    /// The crates, and the files that the pages name beside them.
    pub fn read() -> Repo {
        let mut files = BTreeMap::new();
        for folder in ["crates", "include", "docs"] {
            gather(Path::new(folder), &mut files);
        }
        for file in ["Makefile", "crates.txt"] {
            files.insert(file.to_string(), fs::read_to_string(file).unwrap_or_default());
        }
        let listed = files["crates.txt"].lines().filter(|l| !l.starts_with('#'));
        let crates = listed.filter_map(|l| l.split(':').next()?.split_whitespace().next()).map(|n| n.to_string()).collect();
        Repo { files, crates }
    }

    pub fn files(&self) -> impl Iterator<Item = &String> {
        self.files.keys()
    }

    pub fn has(&self, file: &str) -> bool {
        self.files.contains_key(file)
    }

    /// A file's text; nothing where there is none.
    pub fn text(&self, file: &str) -> &str {
        self.files.get(file).map_or("", |t| t.as_str())
    }

    pub fn is_crate(&self, name: &str) -> bool {
        self.crates.iter().any(|c| c == name)
    }

    pub fn is_program(&self, name: &str) -> bool {
        self.is_crate(name) && self.has(&format!("crates/{name}/src/main.rt"))
    }

    /// The files of a folder under crates/, and of the folders in it.
    pub fn within(&self, folder: &str) -> Vec<&String> {
        let start = format!("{folder}/");
        self.files.keys().filter(|f| f.starts_with(&start)).collect()
    }

    pub fn library_sources(&self) -> Vec<&String> {
        let sources = self.files.keys().filter(|f| f.ends_with(".rt"));
        sources.filter(|f| self.is_crate(crate_of(f)) && !self.is_program(crate_of(f))).collect()
    }

    /// The file of a module, as crates/aes/src/tables.rt of aes::tables.
    pub fn module(&self, path: &str) -> Option<String> {
        let (name, below) = path.split_once("::").unwrap_or((path, ""));
        let file = match below {
            "" if self.is_program(name) => format!("crates/{name}/src/main.rt"),
            "" => format!("crates/{name}/src/lib.rt"),
            _ => format!("crates/{name}/src/{}.rt", below.replace("::", "/")),
        };
        (self.is_crate(name) && self.has(&file)).then_some(file)
    }

    /// The path in the repository of one that a page writes, which leaves out crates/.
    pub fn resolve(&self, written: &str) -> Option<String> {
        let bare = written.trim_end_matches('/');
        [format!("crates/{bare}"), bare.to_string()].into_iter().find(|p| Path::new(p).exists())
    }
}
