//! A page as pieces, the cells of its tables and its paragraphs, and the names in backticks of a piece.

pub struct Piece {
    pub text: String,
    /// the line of the page that each line of the text is
    first: usize,
    /// what stands in parentheses at the end of the column's head
    pub head: Option<String>,
    /// the same for all cells of a row
    pub row: usize,
    pub column: usize,
    pub in_table: bool,
}

pub struct Name<'a> {
    pub text: &'a str,
    pub line: usize,
    /// what stands between it and the name before it, or the start of the piece
    pub before: &'a str,
}

impl Piece {
    /// The line of a place in the text.
    pub fn line(&self, at: usize) -> usize {
        self.first + self.text[..at].matches('\n').count()
    }

    /// None where a backtick has no partner.
    pub fn names(&self) -> Option<Vec<Name<'_>>> {
        let parts: Vec<&str> = self.text.split('`').collect();
        if parts.len() % 2 == 0 {
            return None;
        }
        let mut at = 0;
        let mut names = Vec::new();
        for pair in parts.chunks_exact(2) {
            let line = self.line(at + pair[0].len());
            names.push(Name { text: pair[1], line, before: pair[0] });
            at += pair[0].len() + pair[1].len() + 2;
        }
        Some(names)
    }

    /// The words outside backticks.
    pub fn words(&self) -> Vec<(&str, usize)> {
        let mut at = 0;
        let mut words = Vec::new();
        for (n, part) in self.text.split('`').enumerate() {
            let line = self.line(at);
            if n % 2 == 0 {
                for (k, text) in part.split('\n').enumerate() {
                    words.extend(text.split_whitespace().map(|w| (w, line + k)));
                }
            }
            at += part.len() + 1;
        }
        words
    }
}

/// The cells of a row; a bar in backticks is none of its bars.
fn cells(line: &str) -> Vec<String> {
    let mut cells = vec![String::new()];
    let mut quoted = false;
    for c in line.trim().trim_start_matches('|').trim_end_matches('|').chars() {
        quoted ^= c == '`';
        if c == '|' && !quoted {
            cells.push(String::new());
        } else {
            cells.last_mut().unwrap().push(c);
        }
    }
    cells.iter().map(|c| c.trim().to_string()).collect()
}

fn in_parentheses(head: &str) -> Option<String> {
    let inside = head.strip_suffix(')')?.rsplit_once('(')?.1;
    Some(inside.to_string())
}

pub fn pieces(page: &str) -> Vec<Piece> {
    let lines: Vec<&str> = page.lines().collect();
    let mut pieces: Vec<Piece> = Vec::new();
    let mut heads: Vec<Option<String>> = Vec::new();
    let mut open = false; // the paragraph before goes on
    for (at, line) in lines.iter().enumerate() {
        if line.starts_with('|') {
            let cells = cells(line);
            let is_head = lines.get(at + 1).is_some_and(|next| next.starts_with("|-"));
            if is_head {
                heads = cells.iter().map(|c| in_parentheses(c)).collect();
            }
            for (column, text) in cells.into_iter().enumerate().filter(|_| !line.starts_with("|-")) {
                let head = if is_head { None } else { heads.get(column).cloned().flatten() };
                pieces.push(Piece { text, first: at + 1, head, row: at, column, in_table: true });
            }
        } else if open && !line.is_empty() {
            let last = pieces.last_mut().unwrap();
            last.text.push('\n');
            last.text.push_str(line);
        } else if !line.is_empty() {
            pieces.push(Piece { text: line.to_string(), first: at + 1, head: None, row: at, column: 0, in_table: false });
        }
        open = !line.is_empty() && !line.starts_with('|') && !line.starts_with('#');
    }
    pieces
}
