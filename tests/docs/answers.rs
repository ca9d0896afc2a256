//! The header's answers beside the refusals of crates/answers and their numbers in the definitions, each both ways, and its schemes beside
//! those of crates/descriptor.
use crate::{repo::Repo, Report};

const HEADER: &str = "include/ropeshadow.h";
const CRATE: &str = "crates/answers/src/lib.rt";
const NUMBERS: &str = "crates/answers/specs/Refusals.antt";
const SCHEMES: &str = "crates/descriptor/src/lib.rt";

/// How the header's comment on its schemes begins; the answers stand before it.
const SCHEMES_BEGIN: &str = "/* The schemes:";

/// The refusals stand between this line and the brace that closes it.
const REFUSALS: &str = "pub enum Refusal {";

/// The header's answer that is no refusal.
const DONE: &str = "DONE";

/// Answers of the program alone, which the library never gives (01, no. 17).
const PROGRAM_ALONE: [&str; 1] = ["FILES"];

struct Answer {
    name: String,
    number: String,
    line: usize,
}

fn answer(line: &str, at: usize, before: &str) -> Option<Answer> {
    let rest = line.trim().strip_prefix(before)?;
    let (left, right) = rest.split_once(" = ")?;
    let name = left.split(':').next()?.to_string();
    let number = right.chars().take_while(|c| c.is_ascii_digit()).collect();
    Some(Answer { name, number, line: at + 1 })
}

fn read(text: &str, before: &str) -> Vec<Answer> {
    text.lines().enumerate().filter_map(|(at, line)| answer(line, at, before)).collect()
}

/// `INFO_SHORT` of `InfoShort`.
fn shouted(name: &str) -> String {
    let mut out = String::new();
    for c in name.chars() {
        if c.is_uppercase() && !out.is_empty() {
            out.push('_');
        }
        out.push(c.to_ascii_uppercase());
    }
    out
}

/// The same under the header's names.
fn as_header(answers: Vec<Answer>) -> Vec<Answer> {
    answers.into_iter().map(|a| Answer { name: shouted(&a.name), ..a }).collect()
}

/// The variants of `Refusal`.
fn refusals(text: &str) -> Vec<Answer> {
    let lines = text.lines().enumerate().skip_while(|(_, line)| *line != REFUSALS).take_while(|(_, line)| *line != "}");
    as_header(lines.filter(|(_, line)| !line.trim().starts_with("//")).filter_map(|(at, line)| answer(line, at, "")).collect())
}

/// Each of `these` has its like in `those`.
fn alike(these: &[Answer], of: &str, those: &[Answer], other: &str, report: &mut Report) {
    for a in these.iter().filter(|a| !PROGRAM_ALONE.contains(&a.name.as_str())) {
        match those.iter().find(|b| b.name == a.name) {
            None => report.fault(of, a.line, format!("{} = {} is not in {other}", a.name, a.number)),
            Some(b) if b.number != a.number => {
                report.fault(of, a.line, format!("{} = {}, in {other} it is {}", a.name, a.number, b.number))
            }
            _ => {}
        }
    }
}

pub fn check(repo: &Repo, report: &mut Report) -> usize {
    let mut header = read(repo.text(HEADER), "ROPESHADOW_");
    let end = repo.text(HEADER).lines().position(|line| line.starts_with(SCHEMES_BEGIN)).unwrap_or(usize::MAX);
    let schemes = header.split_off(header.partition_point(|a| a.line <= end));
    let refusals = refusals(repo.text(CRATE));
    let numbers = as_header(read(repo.text(NUMBERS), "number "));
    let (done, header): (Vec<_>, Vec<_>) = header.into_iter().partition(|a| a.name == DONE);
    if done.is_empty() {
        report.fault(HEADER, 1, format!("{DONE} = 0 is not there"));
    }
    for a in done.iter().filter(|a| a.number != "0") {
        report.fault(HEADER, a.line, format!("{DONE} is not 0"));
    }
    alike(&header, HEADER, &refusals, CRATE, report);
    alike(&refusals, CRATE, &header, HEADER, report);
    alike(&refusals, CRATE, &numbers, NUMBERS, report);
    alike(&numbers, NUMBERS, &refusals, CRATE, report);
    alike(&schemes, HEADER, &read(repo.text(SCHEMES), "pub const "), SCHEMES, report);
    for a in header.iter().filter(|a| PROGRAM_ALONE.contains(&a.name.as_str())) {
        report.fault(HEADER, a.line, format!("answer {} is the program's alone", a.name));
    }
    refusals.len()
}
