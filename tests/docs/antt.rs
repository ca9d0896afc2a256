//! The names that an antt file declares: definitions, laws, records with their fields, constructors.

pub struct Declared {
    /// a field's name has a dot before it
    pub name: String,
    pub line: usize,
    /// not inside a record or a section
    pub outermost: bool,
    pub record: bool,
    /// what a reader of specs/ meets by name: a record, a data type, or what is marked unfoldable or abbrev
    pub definition: bool,
}

fn indent(line: &str) -> usize {
    line.len() - line.trim_start().len()
}

/// The declaration that a line opens, if it does.
fn declared(line: &str, at: usize) -> Option<Declared> {
    let mut words = line.split_whitespace().peekable();
    let mut marks = Vec::new();
    while let Some(mark) = words.next_if(|w| ["pub", "unfoldable", "abbrev", "record", "data"].contains(w)) {
        marks.push(mark);
    }
    let name = words.next()?;
    let typed = marks.contains(&"record") || marks.contains(&"data");
    if name.starts_with("--") || !(typed || words.next() == Some(":")) {
        return None;
    }
    let definition = marks.contains(&"pub") && (typed || marks.contains(&"unfoldable") || marks.contains(&"abbrev"));
    let record = marks.contains(&"record");
    Some(Declared { name: name.to_string(), line: at + 1, outermost: indent(line) == 0, record, definition })
}

pub fn declarations(text: &str) -> Vec<Declared> {
    let mut all = Vec::new();
    let mut record: Option<usize> = None; // how far the record is set in whose fields may follow
    for (at, line) in text.lines().enumerate().filter(|(_, l)| !l.trim().is_empty()) {
        record = record.filter(|r| indent(line) > *r);
        let Some(mut d) = declared(line, at) else { continue };
        if record.is_some() {
            d.name = format!(".{}", d.name);
        }
        if d.record {
            record = Some(indent(line));
        }
        all.push(d);
    }
    all
}
