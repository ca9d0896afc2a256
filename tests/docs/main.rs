//! Whether docs/AUDIT.md and docs/ENTRIES.md say what is there: every name, must-fail edit and public function; the header's answers; and
//! whether what C calls is declared as the library is. The pages say at their top how a name is written; a fault is one line, PAGE:LINE: what is wrong.
mod answers;
mod antt;
mod contract;
mod exports;
mod names;
mod page;
mod place;
mod rattle;
mod repo;
mod specs;

use std::collections::BTreeSet;

/// What was looked at, and what is wrong.
#[derive(Default)]
pub struct Report {
    pub faults: Vec<String>,
    pub names: usize,
}

impl Report {
    pub fn fault(&mut self, file: &str, line: usize, what: String) {
        self.faults.push(format!("{file}:{line}: {what}"));
    }
}

/// Every must-fail edit stands in AUDIT.
fn edits(repo: &repo::Repo, found: &BTreeSet<String>, report: &mut Report) -> usize {
    let all: Vec<&String> = repo.files().filter(|f| f.contains("/must-fail/") && f.ends_with(".edit")).collect();
    for file in &all {
        if !found.contains(*file) {
            report.fault(file, 1, "stands in no row of docs/AUDIT.md".to_string());
        }
    }
    all.len()
}

/// Every public function of a library stands in ENTRIES.
fn functions(repo: &repo::Repo, found: &BTreeSet<String>, report: &mut Report) -> usize {
    let mut count = 0;
    for file in repo.library_sources() {
        for f in rattle::items(repo.text(file)).iter().filter(|f| f.public && f.is_function()) {
            count += 1;
            if !found.contains(&format!("{file} {}", f.name)) && !found.contains(&format!("{} *", repo::crate_of(file))) {
                report.fault(file, f.line, format!("public `{}` stands in no row of docs/ENTRIES.md", f.name));
            }
        }
    }
    count
}

fn main() {
    let repo = repo::Repo::read();
    let mut report = Report::default();
    let audit = names::check(&repo, "docs/AUDIT.md", &mut report);
    let entries = names::check(&repo, "docs/ENTRIES.md", &mut report);
    let edits = edits(&repo, &audit, &mut report);
    let functions = functions(&repo, &entries, &mut report);
    let answers = answers::check(&repo, &mut report);
    exports::check(&repo, &mut report);
    specs::check(&repo, &mut report);
    for fault in &report.faults {
        eprintln!("{fault}");
    }
    if !report.faults.is_empty() {
        eprintln!("docs: {} places are not as they are written", report.faults.len());
        std::process::exit(1);
    }
    println!("docs: {} names, {edits} edits, {functions} functions, {answers} answers, as they are", report.names);
}
