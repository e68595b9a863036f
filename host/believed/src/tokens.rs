//! Words of antt text, and the tree of its brackets.

#[derive(Clone, Debug, PartialEq, Eq)]
pub struct Token {
    pub text: String,
    pub line: usize,
    /// White space stands before it.
    pub spaced: bool,
}

#[derive(Clone, Debug, PartialEq, Eq)]
pub enum Node {
    /// A name, an operator, a numeral or a reserved word.
    Name(String, usize),
    /// Names joined by dots.
    Path(Vec<String>, usize),
    /// A projection behind brackets, as in `(f x).y`; one behind a name is the path `x.y`.
    Field(String, usize),
    /// The dot behind the binders of a λ.
    Dot,
    /// The opening bracket and what it holds.
    Group(char, Vec<Node>, usize),
}

/// A line without its comment.
pub fn code(line: &str) -> &str {
    let mut from = 0;
    while let Some(at) = line[from..].find("--") {
        let at = from + at;
        let before = line[..at].chars().next_back();
        let after = line[at + 2..].chars().next();
        if before.is_none_or(char::is_whitespace) && after.is_none_or(|c| c.is_whitespace() || c == '-') {
            return line[..at].trim_end();
        }
        from = at + 2;
    }
    line.trim_end()
}

pub fn tokens(text: &str, line: usize) -> Vec<Token> {
    let mut found = Vec::new();
    let mut name = String::new();
    let mut spaced = true;
    let mut escaped = false;
    for c in text.chars().chain([' ']) {
        // What stands between « and » is one word, whatever it spells.
        escaped = c == '«' || (escaped && c != '»');
        let alone = !escaped && "(){}.;,@\"".contains(c);
        if escaped || (!alone && !c.is_whitespace()) {
            name.push(c);
            continue;
        }
        if !name.is_empty() {
            found.push(Token { text: std::mem::take(&mut name), line, spaced });
            spaced = false;
        }
        if alone {
            found.push(Token { text: c.to_string(), line, spaced });
        }
        spaced = c.is_whitespace();
    }
    found
}

fn closing(open: &str) -> Option<&'static str> {
    match open {
        "(" => Some(")"),
        "{" => Some("}"),
        "[" => Some("]"),
        _ => None,
    }
}

/// The tree of brackets, up to the closing bracket that is given.
fn group(tokens: &[Token], at: &mut usize, end: Option<&str>) -> Result<Vec<Node>, String> {
    let mut nodes: Vec<Node> = Vec::new();
    // The token before was a name or a path, or it closed brackets.
    let mut named = false;
    let mut closed = false;
    while let Some(token) = tokens.get(*at) {
        *at += 1;
        let text = token.text.as_str();
        if Some(text) == end {
            return Ok(nodes);
        }
        let next = tokens.get(*at).filter(|next| !next.spaced && !"(){};,@.".contains(next.text.as_str()));
        let behind = std::mem::take(&mut closed) && !token.spaced;
        match text {
            ")" | "}" | "]" | "\"" | "@" => return Err(format!("line {}: {text} is not read", token.line)),
            "." => match next {
                Some(field) if behind => {
                    nodes.push(Node::Field(field.text.clone(), field.line));
                    *at += 1;
                    // Another one may follow.
                    closed = true;
                }
                Some(part) if named && !token.spaced => {
                    let mut path = match nodes.pop() {
                        Some(Node::Name(name, _)) => vec![name],
                        Some(Node::Path(path, _)) => path,
                        _ => return Err(format!("line {}: a dot behind no name", token.line)),
                    };
                    path.push(part.text.clone());
                    nodes.push(Node::Path(path, part.line));
                    *at += 1;
                    continue;
                }
                _ => nodes.push(Node::Dot),
            },
            _ => match closing(text) {
                Some(close) => {
                    nodes.push(Node::Group(text.chars().next().unwrap_or('('), group(tokens, at, Some(close))?, token.line));
                    closed = true;
                }
                None => {
                    nodes.push(Node::Name(text.to_string(), token.line));
                    named = true;
                    continue;
                }
            },
        }
        named = false;
    }
    match end {
        Some(end) => Err(format!("a bracket {end} is missing")),
        None => Ok(nodes),
    }
}

pub fn tree(tokens: &[Token]) -> Result<Vec<Node>, String> {
    group(tokens, &mut 0, None)
}
