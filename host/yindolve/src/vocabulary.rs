/// An action that a model declares.
#[non_exhaustive]
#[derive(Clone, Debug, PartialEq, Eq)]
pub struct Action {
    /// Its name.
    pub name: String,
    /// The names of its parameters, without their sign.
    pub parameters: Vec<String>,
    /// The names of its variants.
    pub variants: Vec<String>,
}

/// The names that a session's accepted lines declared, in their order.
///
/// ```
/// use yindolve::Session;
/// let mut session = Session::open();
/// for line in ["(constant hub)", "(predicate stock 1)", "(action fill !d)", "(variant done 75)"] {
///     session.line(line);
/// }
/// let vocabulary = session.vocabulary();
/// assert_eq!(vocabulary.constants(), ["hub"]);
/// assert_eq!(vocabulary.predicates(), [("stock".to_string(), 1)]);
/// assert_eq!(vocabulary.predicate("stock"), Some((1, 1)));
/// assert_eq!(vocabulary.actions()[0].parameters, ["d"]);
/// ```
#[derive(Clone, Debug, Default, PartialEq, Eq)]
pub struct Vocabulary {
    constants: Vec<String>,
    predicates: Vec<(String, u64)>,
    actions: Vec<Action>,
}

impl Vocabulary {
    /// The constants; the first is constant 0.
    pub fn constants(&self) -> &[String] {
        &self.constants
    }

    /// The predicates and their arities; the first is predicate 1.
    pub fn predicates(&self) -> &[(String, u64)] {
        &self.predicates
    }

    /// The actions.
    pub fn actions(&self) -> &[Action] {
        &self.actions
    }

    /// A predicate's number and arity.
    pub fn predicate(&self, name: &str) -> Option<(u64, u64)> {
        let at = self.predicates.iter().position(|(declared, _)| declared == name)?;
        Some((at as u64 + 1, self.predicates[at].1))
    }

    /// Takes note of a line that was accepted.
    pub(crate) fn note(&mut self, line: &str) {
        let mut words = line.split(['(', ')', ' ']).filter(|word| !word.is_empty());
        let (Some(kind), Some(name)) = (words.next(), words.next()) else {
            return;
        };
        let name = name.to_string();
        match kind {
            "constant" => self.constants.push(name),
            "predicate" => {
                let arity = words.next().and_then(|word| word.parse().ok());
                self.predicates.push((name, arity.expect("an accepted line has an arity")));
            }
            "action" => {
                let parameters = words.map(|word| word.trim_start_matches('!').to_string()).collect();
                self.actions.push(Action { name, parameters, variants: Vec::new() });
            }
            "variant" => self.actions.last_mut().expect("an accepted variant has an action").variants.push(name),
            _ => {}
        }
    }
}
