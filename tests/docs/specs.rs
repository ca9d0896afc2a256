//! One name means one thing across the specs: no two of their files define it, and no record of a proof file has it.
use crate::{antt, repo::Repo, Report};
use std::collections::BTreeMap;

pub fn check(repo: &Repo, report: &mut Report) {
    let mut defined: BTreeMap<String, String> = BTreeMap::new();
    let of = |folder: &str| -> Vec<&String> { repo.files().filter(|f| f.contains(folder) && f.ends_with(".antt")).collect() };
    for file in of("/specs/") {
        for d in antt::declarations(repo.text(file)).iter().filter(|d| d.outermost && d.definition) {
            let here = format!("{file}:{}", d.line);
            match defined.get(&d.name) {
                Some(there) => report.fault(file, d.line, format!("`{}` is defined in {there} too", d.name)),
                None => drop(defined.insert(d.name.clone(), here)),
            }
        }
    }
    for file in of("/proofs/") {
        for d in antt::declarations(repo.text(file)).iter().filter(|d| d.outermost && d.record && d.definition) {
            if let Some(there) = defined.get(&d.name) {
                report.fault(file, d.line, format!("record `{}` has the name of a definition, {there}", d.name));
            }
        }
    }
}
