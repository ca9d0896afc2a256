//! Each public function of crates/capi stands in crates/capi_c under its name and with its clauses, and no other does.
use crate::{rattle, repo::Repo, Report};

const LIBRARY: &str = "crates/capi/src/lib.rt";
const EXPORTED: &str = "crates/capi_c/src/lib.rt";

fn public(repo: &Repo, file: &str) -> Vec<rattle::Item> {
    rattle::items(repo.text(file)).into_iter().filter(|i| i.public && i.is_function()).collect()
}

pub fn check(repo: &Repo, report: &mut Report) {
    let (library, exported) = (public(repo, LIBRARY), public(repo, EXPORTED));
    for f in &library {
        match exported.iter().find(|e| e.name == f.name) {
            None => report.fault(LIBRARY, f.line, format!("`{}` is not in {EXPORTED}", f.name)),
            Some(e) if e.head != f.head => report.fault(EXPORTED, e.line, format!("`{}` is declared otherwise in {LIBRARY}", f.name)),
            _ => {}
        }
    }
    for e in exported.iter().filter(|e| !library.iter().any(|f| f.name == e.name)) {
        report.fault(EXPORTED, e.line, format!("`{}` is not in {LIBRARY}", e.name));
    }
}
