//! The data file: what is followed, and the few words that cannot be read off the sources.

#[derive(Clone, Debug, PartialEq, Eq)]
pub enum Root {
    /// Crate, file, name of a theorem or a definition.
    Theorem(String, String, String),
    /// Crate and name of a public function; without a name all that the crate exports to C.
    Function(String, Option<String>),
}

#[derive(Clone, Debug, Default)]
pub struct Roots {
    /// Each with what it says, in words.
    pub roots: Vec<(Root, String)>,
    statements: Vec<(String, String, String)>,
    /// A definition, and a theorem that is read in place of its body.
    told: Vec<((String, String, String), (String, String, String))>,
    pub to_move: Vec<(String, String, String)>,
    pub libraries: Vec<String>,
    pub prelude: Vec<String>,
    pub constructors: Vec<String>,
    pub kit_fields: Vec<String>,
    pub contract_words: Vec<String>,
}

impl Roots {
    pub fn read(text: &str) -> Result<Roots, String> {
        let mut found = Roots::default();
        for (i, line) in text.lines().enumerate() {
            if line.trim().is_empty() || line.starts_with('#') {
                continue;
            }
            let (left, says) = line.split_once(" : ").unwrap_or((line, ""));
            let words: Vec<&str> = left.split_whitespace().collect();
            let many = || words[1..].iter().map(|word| word.to_string());
            let three = |what: &[&str]| (what[0].to_string(), what[1].to_string(), what[2].to_string());
            match words.as_slice() {
                ["theorem", krate, file, name] => {
                    let (krate, file, name) = three(&[krate, file, name]);
                    found.roots.push((Root::Theorem(krate, file, name), says.to_string()));
                }
                ["function", krate, name] => {
                    found.roots.push((Root::Function(krate.to_string(), Some(name.to_string())), says.to_string()))
                }
                ["exports", krate] => found.roots.push((Root::Function(krate.to_string(), None), says.to_string())),
                ["statement", rest @ ..] if rest.len() == 3 => found.statements.push(three(rest)),
                ["told", a, b, c, "by", d, e, f] => found.told.push((three(&[a, b, c]), three(&[d, e, f]))),
                ["to-move", rest @ ..] if rest.len() == 3 => found.to_move.push(three(rest)),
                ["libraries", ..] => found.libraries.extend(many()),
                ["prelude", ..] => found.prelude.extend(many()),
                ["constructors", ..] => found.constructors.extend(many()),
                ["kit-fields", ..] => found.kit_fields.extend(many()),
                ["contract-words", ..] => found.contract_words.extend(many()),
                _ => return Err(format!("roots.txt line {}: not read", i + 1)),
            }
        }
        Ok(found)
    }

    /// Whether only the statement of this declaration counts.
    pub fn is_statement(&self, krate: &str, file: &str, name: &str) -> bool {
        self.statements.iter().any(|found| (found.0.as_str(), found.1.as_str(), found.2.as_str()) == (krate, file, name))
            || self.tellers(krate, file, name).next().is_some()
    }

    /// The theorems that are read in place of this definition's body.
    pub fn tellers<'a>(&'a self, krate: &'a str, file: &'a str, name: &'a str) -> impl Iterator<Item = &'a (String, String, String)> {
        let same = move |found: &(String, String, String)| (found.0.as_str(), found.1.as_str(), found.2.as_str()) == (krate, file, name);
        self.told.iter().filter(move |(what, _)| same(what)).map(|(_, by)| by)
    }
}
