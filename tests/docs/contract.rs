//! A function's declaration in the words of a page: `out` is what a lent slice holds before the call and `out'` what it holds after,
//! and a definition's name stands without its file's.

/// What a clause projects from: the result, a method's value, the parameters and what a clause binds.
fn values(declaration: &str) -> Vec<&str> {
    let name = |c: char| !(c.is_alphanumeric() || c == '_');
    let parameters = declaration.split(':').filter_map(|part| part.rsplit(name).next());
    let bound = declaration.split("λ ").skip(1).filter_map(|part| part.split('.').next()).flat_map(str::split_whitespace);
    ["result", "self"].into_iter().chain(parameters).chain(bound).filter(|n| !n.is_empty()).collect()
}

/// The words and signs of a text.
fn signs(text: &str, values: &[&str]) -> Vec<String> {
    let mut signs = vec![String::new()];
    for c in text.chars().filter(|c| !"«»".contains(*c)) {
        if c.is_whitespace() {
            signs.push(String::new());
        } else if "(),:;[]{}&".contains(c) {
            signs.push(c.to_string());
            signs.push(String::new());
        } else {
            signs.last_mut().unwrap().push(c);
        }
    }
    signs.into_iter().filter(|s| !s.is_empty()).map(|s| plain(&s, values)).collect()
}

/// `hashed` of `fips.hashed`, `out'` of `out.new` and `out` of `out.old`; the field of a value, as `result.size`, and `..` stay.
fn plain(sign: &str, values: &[&str]) -> String {
    let (value, fields) = sign.split_once('.').unwrap_or((sign, ""));
    if values.contains(&value.trim_end_matches('\'')) {
        let after = if fields.split('.').any(|f| f == "new") { "'" } else { "" };
        let fields = fields.split('.').filter(|f| !["new", "old", "now", ""].contains(f));
        return fields.fold(format!("{value}{after}"), |all, field| format!("{all}.{field}"));
    }
    match sign.rsplit_once('.') {
        Some((file, name)) if !file.is_empty() && !file.ends_with('.') && name.starts_with(char::is_alphabetic) => name.to_string(),
        _ => sign.to_string(),
    }
}

/// The same, one word alone without the parentheses around it.
fn bare(signs: Vec<String>) -> Vec<String> {
    let mut out: Vec<String> = Vec::new();
    for sign in signs {
        out.push(sign);
        let n = out.len();
        if n >= 3 && out[n - 1] == ")" && out[n - 3] == "(" {
            let inner = out[n - 2].clone();
            out.truncate(n - 3);
            out.push(inner);
        }
    }
    out
}

/// Whether the declaration says it; `..` stands for anything.
pub fn says(declaration: &str, wanted: &str) -> bool {
    let values = values(declaration);
    let text = bare(signs(declaration, &values));
    let mut from = 0;
    bare(signs(wanted, &values)).split(|s| s == "..").filter(|piece| !piece.is_empty()).all(|piece| {
        let found = text[from..].windows(piece.len()).position(|w| w == piece);
        from += found.map_or(0, |n| n + piece.len());
        found.is_some()
    })
}
