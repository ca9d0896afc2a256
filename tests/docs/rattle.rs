//! The items of a Rattle source, in the layout of `rt fmt`.

pub struct Item {
    pub name: String,
    /// `fn`, `const`, `struct`, `enum`, `type`, or `use` for one that is public here and stands elsewhere
    pub kind: String,
    pub public: bool,
    pub line: usize,
    /// a function's declaration with its contract; of a `use` the path
    pub head: String,
}

impl Item {
    pub fn is_function(&self) -> bool {
        self.kind == "fn"
    }

    /// What stands between a function's parentheses, a name for each parameter.
    pub fn parameters(&self) -> Vec<&str> {
        let inside = self.head.split_once('(').map_or("", |(_, rest)| rest);
        let list = &inside[..closing(inside)];
        list.split(',').filter_map(|p| p.split_once(':')).map(|(n, _)| n.trim().trim_start_matches("mut ")).collect()
    }

    pub fn result(&self) -> &str {
        let after = self.head.split_once('(').map_or("", |(_, rest)| &rest[closing(rest)..]);
        let first = after.split(" requires ").next().unwrap_or("").split(" ensures ").next().unwrap_or("");
        first.split_once("->").map_or("", |(_, t)| t.trim().trim_end_matches('{').trim())
    }
}

/// Where the parenthesis closes that was opened before the text.
fn closing(text: &str) -> usize {
    let mut depth = 1;
    for (at, c) in text.char_indices() {
        depth += (c == '(') as i32 - (c == ')') as i32;
        if depth == 0 {
            return at;
        }
    }
    text.len()
}

/// A function's declaration: its lines up to the brace that opens its body.
fn declaration(lines: &[&str]) -> String {
    let mut head = String::new();
    let mut contract = false;
    for line in lines {
        let part = line.trim();
        contract |= part.starts_with("requires") || part.starts_with("ensures");
        if part == "{" {
            break;
        }
        head.push_str(if head.is_empty() { part.split_once("fn ").map_or(part, |(_, rest)| rest) } else { part });
        head.push(' ');
        if !contract && part.ends_with('{') {
            break;
        }
    }
    head
}

/// What a line of `use` brings in, each name with its path: one, or those of a list in braces.
fn brought(path: &str) -> Vec<(String, String)> {
    let path = path.trim_end_matches(';');
    let (module, last) = path.rsplit_once("::").unwrap_or(("", path));
    let (module, list) = path.split_once("::{").map_or((module, last), |(module, list)| (module, list.trim_end_matches('}')));
    list.split(',').map(|n| n.trim()).map(|n| (n.to_string(), format!("{module}::{n}"))).collect()
}

pub fn items(source: &str) -> Vec<Item> {
    let lines: Vec<&str> = source.lines().collect();
    let mut found = Vec::new();
    for (at, line) in lines.iter().enumerate() {
        let mut words = line.trim().split_whitespace().peekable();
        let mut public = false;
        while let Some(word) = words.next_if(|w| w.starts_with("pub") || *w == "extern" || *w == "\"C\"") {
            public |= word.starts_with("pub");
        }
        let (Some(kind), Some(next)) = (words.next(), words.next()) else { continue };
        if !["fn", "const", "struct", "enum", "type", "use"].contains(&kind) || (kind == "use" && !public) {
            continue;
        }
        if kind == "use" {
            let (_, path) = line.split_once("use ").unwrap_or(("", line));
            found.extend(brought(path).into_iter().map(|(name, head)| Item { name, kind: kind.to_string(), public, line: at + 1, head }));
            continue;
        }
        let name: String = next.chars().take_while(|c| c.is_alphanumeric() || *c == '_').collect();
        let head = if kind == "fn" { declaration(&lines[at..]) } else { next.trim_end_matches(';').to_string() };
        found.push(Item { name, kind: kind.to_string(), public, line: at + 1, head });
    }
    found
}
