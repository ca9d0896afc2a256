//! Every name in backticks of a page, looked for in its place.
use crate::page::{self, Name, Piece};
use crate::place::{self, Head, Place};
use crate::{antt, contract, rattle, repo::Repo, Report};
use std::collections::{BTreeMap, BTreeSet};

/// The kit's libraries: a function of theirs is one that some crate calls.
const KIT: [&str; 2] = ["std", "check"];

/// A function's own proof files.
const OF_FUNCTION: [&str; 3] = ["/Invariants.antt", "/Answers.antt", "/Proof.antt"];

struct Page<'a> {
    repo: &'a Repo,
    /// the declarations of the functions that the row at hand is about, those of its first cell
    row: Vec<String>,
    first: bool,
    /// the files that declare a name
    declared: BTreeMap<String, Vec<String>>,
    /// what was found: the file of an edit; FILE NAME of a function; CRATE * of all of a crate's
    found: BTreeSet<String>,
}

fn declared(repo: &Repo) -> BTreeMap<String, Vec<String>> {
    let mut all: BTreeMap<String, Vec<String>> = BTreeMap::new();
    for file in repo.files().filter(|f| !OF_FUNCTION.iter().any(|own| f.ends_with(own))) {
        let text = repo.text(file);
        let names: Vec<String> = match file.rsplit_once('.') {
            Some((_, "antt")) => antt::declarations(text).into_iter().map(|d| d.name).collect(),
            Some((_, "rt")) => rattle::items(text).into_iter().filter(|i| i.kind != "use").map(|i| i.name).collect(),
            _ => Vec::new(),
        };
        for name in names {
            all.entry(name).or_default().push(file.clone());
        }
    }
    all
}

/// Whether a name goes on with the list of the one before.
fn goes_on(before: &str) -> bool {
    before.split(|c: char| c == ',' || c.is_whitespace()).all(|w| ["", "and", "or", "to"].contains(&w))
}

/// A name of a function without what follows it, as `digest` of `digest(message) -> Hashed`.
fn called(name: &str) -> &str {
    name.split('(').next().unwrap_or(name)
}

impl Page<'_> {
    /// An item of a module, with the parameters and the result that the page gives it.
    fn item(&mut self, module: &str, name: &str) -> Result<(), String> {
        let Some(file) = self.repo.module(module) else { return Err(format!("there is no module {module}")) };
        let items = rattle::items(self.repo.text(&file));
        let Some(item) = items.iter().find(|i| i.name == called(name)) else {
            return Err(format!("{file} has no `{}`{}", called(name), self.elsewhere(called(name))));
        };
        if item.kind == "use" {
            let inner = item.head.rsplit_once("::").map_or("", |(path, _)| path);
            let root = module.split("::").next().unwrap_or(module);
            let within = if inner.starts_with("crate::") { inner.replacen("crate", root, 1) } else { format!("{module}::{inner}") };
            return self.item(&within, name);
        }
        self.found.insert(format!("{file} {}", item.name));
        if self.first {
            self.row.push(item.head.clone());
        }
        if let Some((_, rest)) = name.split_once('(') {
            let (listed, result) = rest.split_once(')').unwrap_or((rest, ""));
            let own = item.parameters().join(", ");
            if listed != own {
                return Err(format!("`{}` takes ({own}) in {file}:{}", item.name, item.line));
            }
            let result = result.trim_start_matches(" -> ");
            if !result.is_empty() && result != item.result() {
                return Err(format!("`{}` gives {} in {file}:{}", item.name, item.result(), item.line));
            }
        }
        Ok(())
    }

    /// Where else a name is declared, for the message.
    fn elsewhere(&self, name: &str) -> String {
        let files = self.declared.get(name).map_or(Vec::new(), |f| f.iter().take(3).map(|f| f.as_str()).collect());
        if files.is_empty() { String::new() } else { format!(" (it stands in {})", files.join(", ")) }
    }

    /// A path from a crate or a library of the kit.
    fn path(&mut self, name: &str) -> Option<Result<(), String>> {
        let (module, last) = called(name).rsplit_once("::")?;
        let first = module.split("::").next().unwrap_or("");
        if KIT.contains(&first) {
            let mut sources = self.repo.files().filter(|f| f.ends_with(".rt"));
            let used = sources.any(|f| self.repo.text(f).contains(name));
            return Some(if used { Ok(()) } else { Err(format!("no crate uses `{name}`")) });
        }
        if last == "*" && self.repo.is_crate(first) {
            self.found.insert(format!("{first} *"));
            return Some(Ok(()));
        }
        Some(self.item(module, &name[module.len() + 2..]))
    }

    /// What is the same wherever it stands: a target of make, a name of the C interface, a path.
    fn anywhere(&mut self, name: &str) -> Option<Result<(), String>> {
        if let Some(target) = name.strip_prefix("make ") {
            let there = self.repo.text("Makefile").lines().any(|l| l.split(':').next() == Some(target) && l.contains(':'));
            return Some(if there { Ok(()) } else { Err(format!("the Makefile has no target {target}")) });
        }
        if called(name).to_lowercase().starts_with("ropeshadow_") {
            if !place::in_header(self.repo, called(name)) {
                return Some(Err(format!("include/ropeshadow.h has no `{}`", called(name))));
            }
            return Some(if name.starts_with('R') { Ok(()) } else { self.item("capi", name).and_then(|()| self.item("capi_c", name)) });
        }
        if name.contains('/') && !name.contains(' ') {
            return Some(if self.repo.resolve(name).is_some() { Ok(()) } else { Err(format!("there is no {name}")) });
        }
        self.path(name)
    }

    fn look(&mut self, place: &Place, name: &str) -> Result<(), String> {
        if !matches!(place, Place::File(_) | Place::Program(_)) {
            if let Some(found) = self.anywhere(name) {
                return found;
            }
        }
        match place {
            Place::File(file) if !place::in_file(self.repo, file, name) => {
                Err(format!("{file} has no `{name}`{}", self.elsewhere(name)))
            }
            Place::Program(p) if !place::in_program(self.repo, p, name) => Err(format!("crates/{p} says `{name}` nowhere")),
            Place::Module(module) => self.item(module, name),
            Place::Edits(of) => self.edit(of, name),
            Place::Row if !self.row.iter().any(|d| contract::says(d, name)) => {
                Err(format!("no declaration of this row's functions says `{name}`"))
            }
            Place::Running if !place::in_header(self.repo, name) => Err(self.no_place(name)),
            Place::Missing => Err(self.no_place(name)),
            _ => Ok(()),
        }
    }

    fn edit(&mut self, of: &str, name: &str) -> Result<(), String> {
        let file = format!("crates/{of}/must-fail/{name}.edit");
        if !self.repo.has(&file) {
            return Err(format!("there is no {file}"));
        }
        self.found.insert(file);
        Ok(())
    }

    fn no_place(&self, name: &str) -> String {
        format!("`{name}` has no place: write before it the file, module or must-fail folder that has it{}", self.elsewhere(name))
    }

    /// The place of a name: the word right before it, else that of the list that it goes on with, else the cell's own.
    fn place(&self, head: &Head, own: &Place, last: Option<&Place>, name: &Name) -> Place {
        let word = name.before.split_whitespace().next_back().unwrap_or("");
        match (head.place(self.repo, word), last) {
            (Some(place), _) => place,
            (None, Some(place)) if goes_on(name.before) => place.clone(),
            _ => own.clone(),
        }
    }

    fn piece(&mut self, piece: &Piece, page: &str, report: &mut Report) {
        let head = Head::of(self.repo, piece.head.as_deref());
        for (word, line) in piece.words().into_iter().filter(|(w, _)| head.lost(self.repo, w)) {
            report.fault(page, line, format!("there is no {}", place::bare(word)));
        }
        let Some(names) = piece.names() else {
            return report.fault(page, piece.line(0), "a backtick has no partner".to_string());
        };
        let missing = if self.row.is_empty() { Place::Missing } else { Place::Row };
        let own = if piece.in_table { head.place.clone().unwrap_or(missing) } else { Place::Running };
        let mut last: Option<Place> = None;
        for name in names {
            let place = self.place(&head, &own, last.as_ref(), &name);
            report.names += 1;
            if let Err(what) = self.look(&place, name.text) {
                report.fault(page, name.line, what);
            }
            last = Some(match called(name.text).rsplit_once("::") {
                Some((module, _)) if self.repo.module(module).is_some() => Place::Module(module.to_string()),
                _ => place,
            });
        }
    }
}

/// The must-fail edits and the functions that the page names.
pub fn check(repo: &Repo, page: &str, report: &mut Report) -> BTreeSet<String> {
    let mut state = Page { repo, row: Vec::new(), first: true, declared: declared(repo), found: BTreeSet::new() };
    let mut row = 0;
    for piece in page::pieces(repo.text(page)) {
        if piece.row != row {
            row = piece.row;
            state.row.clear();
        }
        state.first = piece.column == 0;
        state.piece(&piece, page, report);
    }
    state.found
}
