//! The names that a model has declared so far, and the words of a diagram looked up in them: 2, 3, 6, 4 word by word
//! (document 01, "Text" and "Refusals by trade word").

use crate::diagram::{Diagram, LARGEST};
use crate::refusal::{require, Refusal};
use crate::regress::Truths;
use crate::terms::{Arities, Term, VariableKind, EQUALITY, FIRST_PARAMETER, PREDICATES};
use crate::text::{WrittenAtom, WrittenDiagram, WrittenTerm};
use crate::tree::Tree;

#[derive(Clone, Debug)]
pub struct DeclaredVariant {
    pub name: String,
    pub weight: Diagram,
    pub truths: Truths,
}

#[derive(Clone, Debug)]
pub struct DeclaredAction {
    pub name: String,
    pub parameters: Vec<String>,
    pub variants: Vec<DeclaredVariant>,
}

impl DeclaredAction {
    /// The number of one of its variants.
    pub fn variant(&self, name: &str) -> Option<usize> {
        self.variants.iter().position(|variant| variant.name == name)
    }
}

/// W where no (total) line is accepted.
pub const DEFAULT_TOTAL: u64 = 100;
/// G and D where no (discount) line is accepted (document 02, L7).
pub const DEFAULT_DISCOUNT: (u64, u64) = (19, 20);

#[derive(Clone, Debug, Default)]
pub struct Declarations {
    pub constants: Vec<String>,
    /// Name and arity; the first is predicate 1.
    pub predicates: Vec<(String, u64)>,
    pub total: Option<u64>,
    pub discount: Option<(u64, u64)>,
    pub reward: Option<Diagram>,
    pub actions: Vec<DeclaredAction>,
}

/// The variables that a diagram may name, numbered in their order, kind by kind.
#[derive(Clone, Debug, Default, PartialEq, Eq)]
pub struct Variables {
    pub maximum: Vec<String>,
    pub minimum: Vec<String>,
}

impl Variables {
    pub const NONE: Variables = Variables { maximum: Vec::new(), minimum: Vec::new() };

    /// The arguments of a (becomes).
    pub fn arguments(names: &[String]) -> Variables {
        Variables { maximum: names.to_vec(), ..Variables::NONE }
    }

    pub fn of(&self, kind: VariableKind) -> &[String] {
        match kind {
            VariableKind::Maximum => &self.maximum,
            VariableKind::Minimum => &self.minimum,
        }
    }
}

impl Declarations {
    pub fn constant(&self, name: &str) -> Option<Term> {
        self.constants.iter().position(|n| n == name).map(|i| i as Term)
    }

    /// A predicate's number and arity.
    pub fn predicate(&self, name: &str) -> Option<(u64, u64)> {
        let at = self.predicates.iter().position(|(n, _)| n == name)?;
        Some((at as u64 + 1, self.predicates[at].1))
    }

    /// An action's number.
    pub fn action(&self, name: &str) -> Option<usize> {
        self.actions.iter().position(|action| action.name == name)
    }

    /// Constants and predicates share one set of names.
    pub fn is_new(&self, name: &str) -> bool {
        self.constant(name).is_none() && self.predicate(name).is_none()
    }

    pub fn arities(&self) -> Arities {
        let mut arities = [0; PREDICATES];
        arities[EQUALITY as usize] = 2;
        for (i, (_, arity)) in self.predicates.iter().enumerate() {
            arities[i + 1] = *arity;
        }
        arities
    }

    /// The rows of all model listings together.
    pub fn rows(&self) -> usize {
        let variants = self.actions.iter().flat_map(|action| &action.variants);
        let listings = variants.flat_map(|variant| std::iter::once(&variant.weight).chain(variant.truths.values()));
        self.reward.iter().chain(listings).map(|diagram| diagram.rows().len()).sum()
    }
}

/// Looks up the words of one line's diagram.
pub struct Lookup<'a> {
    declarations: &'a Declarations,
    parameters: &'a [String],
    variables: Variables,
}

impl<'a> Lookup<'a> {
    pub fn new(declarations: &'a Declarations, parameters: &'a [String], variables: Variables) -> Lookup<'a> {
        Lookup { declarations, parameters, variables }
    }

    pub fn diagram(&self, written: &WrittenDiagram) -> Result<Tree, Refusal> {
        match written {
            WrittenDiagram::Number(value) => {
                require(*value <= LARGEST, Refusal::Range)?;
                Ok(Tree::Number(*value))
            }
            WrittenDiagram::If(atom, yes, no) => {
                let (predicate, terms) = self.atom(atom)?;
                let yes = Box::new(self.diagram(yes)?);
                let no = Box::new(self.diagram(no)?);
                Ok(Tree::If { predicate, terms, yes, no })
            }
        }
    }

    fn atom(&self, atom: &WrittenAtom) -> Result<(u64, Vec<Term>), Refusal> {
        match atom {
            WrittenAtom::Equality(a, b) => Ok((EQUALITY, vec![self.term(a)?, self.term(b)?])),
            WrittenAtom::Predicate(name, terms) => {
                let (predicate, arity) = self.declarations.predicate(name).ok_or(Refusal::Name)?;
                require(terms.len() as u64 == arity, Refusal::Arity)?;
                let terms = terms.iter().map(|t| self.term(t)).collect::<Result<Vec<Term>, Refusal>>()?;
                Ok((predicate, terms))
            }
        }
    }

    fn term(&self, term: &WrittenTerm) -> Result<Term, Refusal> {
        match term {
            WrittenTerm::Constant(name) => self.declarations.constant(name).ok_or(Refusal::Name),
            WrittenTerm::Parameter(name) => {
                let place = self.parameters.iter().position(|p| p == name).ok_or(Refusal::Unbound)?;
                Ok(FIRST_PARAMETER + place as Term)
            }
            WrittenTerm::Variable(kind, name) => {
                let place = self.variables.of(*kind).iter().position(|n| n == name).ok_or(Refusal::Unbound)?;
                Ok(kind.first() + place as Term)
            }
        }
    }
}
