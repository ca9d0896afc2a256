//! Where a name stands: what the page writes before it, and whether it is there.
use crate::{antt, rattle, repo::Repo};

#[derive(Clone, PartialEq)]
pub enum Place {
    /// running text: the header's names
    Running,
    /// a cell that gives its names no place
    Missing,
    File(String),
    /// a crate's must-fail edits
    Edits(String),
    /// a program's sources and what it prints
    Program(String),
    /// a module's items
    Module(String),
    /// the declarations of the functions that the row is about
    Row,
}

/// A word without the punctuation around it.
pub fn bare(word: &str) -> &str {
    word.trim_matches(|c: char| "(),;:.\"".contains(c))
}

/// What a column's head gives its cells: a place for their names, and a folder for the files that they name without one.
pub struct Head {
    pub place: Option<Place>,
    pub folder: Option<String>,
}

impl Head {
    pub fn of(repo: &Repo, written: Option<&str>) -> Head {
        let none = Head { place: None, folder: None };
        let Some(written) = written else { return none };
        if repo.is_crate(written) {
            return Head { place: Some(Place::Module(written.to_string())), folder: Some(format!("{written}/proofs")) };
        }
        if written.ends_with('/') {
            return Head { place: None, folder: Some(written.trim_end_matches('/').to_string()) };
        }
        match (repo.resolve(written), written.rsplit_once('/')) {
            (Some(file), Some((folder, _))) => Head { place: Some(Place::File(file)), folder: Some(folder.to_string()) },
            _ => none,
        }
    }

    /// The path that a page means by a word: in the head's folder where it is a file's name alone.
    fn whole(&self, word: &str) -> String {
        match &self.folder {
            Some(folder) if !word.contains('/') => format!("{folder}/{word}"),
            _ => word.to_string(),
        }
    }

    /// Whether a word names a file that is not there.
    pub fn lost(&self, repo: &Repo, word: &str) -> bool {
        let word = bare(word);
        let first = word.split('/').next().unwrap_or("");
        let known = repo.is_crate(first) || std::path::Path::new(first).is_dir();
        let is_path = word.ends_with(".antt") || word.ends_with(".rt") || (word.contains('/') && !first.is_empty() && known);
        is_path && !first.starts_with("target") && repo.resolve(&self.whole(word)).is_none()
    }

    /// The place that a word right before a name gives it.
    pub fn place(&self, repo: &Repo, word: &str) -> Option<Place> {
        let word = word.trim_start_matches('(');
        if let Some(name) = word.strip_suffix("/must-fail") {
            return Some(Place::Edits(name.to_string()));
        }
        if repo.is_program(word) {
            return Some(Place::Program(word.to_string()));
        }
        let is_file = word.contains('.') || word.contains('/') || word == "Makefile";
        repo.resolve(&self.whole(word)).filter(|f| is_file && repo.has(f)).map(Place::File)
    }
}

/// Where a piece stands in a text as whole words: the end of each such place.
fn ends<'a>(piece: &'a str, text: &'a str) -> impl Iterator<Item = (usize, usize)> + 'a {
    let word = |c: Option<char>| c.is_some_and(char::is_alphanumeric);
    text.match_indices(piece).map(|(at, _)| (at, at + piece.len())).filter(move |(at, end)| {
        let cut_before = word(piece.chars().next()) && word(text[..*at].chars().next_back());
        let cut_after = word(piece.chars().next_back()) && word(text[*end..].chars().next());
        !cut_before && !cut_after
    })
}

/// Whether the pieces of a text between its `..` stand in another, in order and each near the one before.
fn stands(wanted: &str, text: &str) -> bool {
    const NEAR: usize = 120;
    let text = text.split_whitespace().collect::<Vec<_>>().join(" ");
    let pieces: Vec<&str> = wanted.split("..").map(str::trim).filter(|p| !p.is_empty()).collect();
    let Some(first) = pieces.first() else { return false };
    let found = ends(first, &text).any(|(_, start)| {
        let mut end = start;
        pieces[1..].iter().all(|piece| match ends(piece, &text[end..]).next() {
            Some((at, next)) if at <= NEAR => {
                end += next;
                true
            }
            _ => false,
        })
    });
    found
}

/// A name of one word is declared in the file; anything longer stands in its text.
pub fn in_file(repo: &Repo, file: &str, name: &str) -> bool {
    let text = repo.text(file);
    let one = !name.contains(' ');
    if one && file.ends_with(".antt") {
        antt::declarations(text).iter().any(|d| d.name == name)
    } else if one && file.ends_with(".rt") && name.chars().all(|c| c.is_alphanumeric() || c == '_') {
        rattle::items(text).iter().any(|i| i.name == name)
    } else {
        stands(name, text)
    }
}

pub fn in_program(repo: &Repo, program: &str, text: &str) -> bool {
    let files = repo.within(&format!("crates/{program}"));
    let mut own = files.iter().filter(|f| f.ends_with(".rt") || f.ends_with("/stdout"));
    own.any(|f| stands(text, repo.text(f)))
}

/// A name in the header, outside its comments: as it is, or with the prefix that every function there has.
pub fn in_header(repo: &Repo, name: &str) -> bool {
    let text = repo.text("include/ropeshadow.h");
    let code = text.split("/*").map(|part| part.split_once("*/").map_or(part, |(_, after)| after));
    let mut words = code.flat_map(|part| part.split(|c: char| !(c.is_alphanumeric() || c == '_')));
    words.any(|w| w == name || w.strip_prefix("ropeshadow_") == Some(name))
}
