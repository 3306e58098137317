//! Whether a text has a derivation, by an Earley parser: for each place of the text the productions that may be under way there.

use std::collections::HashSet;

use super::productions::{Production, Symbol, PRODUCTIONS};

/// A production by its number, how many of its symbols are done, and where in the text it began.
type Item = (usize, usize, usize);

/// A symbol with the productions of a name by their numbers.
#[derive(Clone)]
enum Known {
    Name { rules: Vec<usize>, empty: bool },
    Byte(fn(u8) -> bool),
}

/// The productions, made ready.
pub struct Earley {
    rules: Vec<Vec<Known>>,
    names: Vec<&'static str>,
    goals: Vec<usize>,
}

impl Default for Earley {
    fn default() -> Self {
        Earley::new(PRODUCTIONS)
    }
}

impl Earley {
    /// A parser of these productions; the first one's name is the goal.
    fn new(productions: &[Production]) -> Earley {
        let named = |name: &str| -> Vec<usize> {
            let of = |(k, p): (usize, &Production)| (p.0 == name).then_some(k);
            productions.iter().enumerate().filter_map(of).collect()
        };
        let known = |symbol: &Symbol| match symbol {
            Symbol::Byte(test) => Known::Byte(*test),
            Symbol::Name(name) => Known::Name {
                rules: named(name),
                empty: is_empty(productions, name, &mut Vec::new()),
            },
        };
        Earley {
            rules: productions
                .iter()
                .map(|(_, symbols)| symbols.iter().map(known).collect())
                .collect(),
            names: productions.iter().map(|(name, _)| *name).collect(),
            goals: named(productions[0].0),
        }
    }

    /// The whole text has a derivation.
    pub fn derives(&self, text: &[u8]) -> bool {
        let mut sets: Vec<Vec<Item>> = vec![self.goals.iter().map(|&k| (k, 0, 0)).collect()];
        for at in 0..=text.len() {
            let mut next = Vec::new();
            self.fill(&mut sets, at, text.get(at).copied(), &mut next);
            sets.push(next);
        }
        let done = |&(rule, dot, from): &Item| {
            self.goals.contains(&rule) && dot == self.rules[rule].len() && from == 0
        };
        sets[text.len()].iter().any(done)
    }

    /// Adds to the set at a place all that follows from it; what goes over the byte there is put into `next`.
    fn fill(&self, sets: &mut [Vec<Item>], at: usize, byte: Option<u8>, next: &mut Vec<Item>) {
        let mut seen: HashSet<Item> = sets[at].iter().copied().collect();
        let mut k = 0;
        while let Some(&item) = sets[at].get(k) {
            for new in self.follows(sets, at, item, byte, next) {
                if seen.insert(new) {
                    sets[at].push(new);
                }
            }
            k += 1;
        }
    }

    /// What an item adds to its own set.
    fn follows(
        &self,
        sets: &[Vec<Item>],
        at: usize,
        (rule, dot, from): Item,
        byte: Option<u8>,
        next: &mut Vec<Item>,
    ) -> Vec<Item> {
        match self.rules[rule].get(dot) {
            Some(Known::Byte(test)) => {
                if byte.is_some_and(test) {
                    next.push((rule, dot + 1, from));
                }
                Vec::new()
            }
            Some(Known::Name { rules, empty }) => {
                let over = empty.then_some((rule, dot + 1, from));
                rules.iter().map(|&k| (k, 0, at)).chain(over).collect()
            }
            None => self.completed(&sets[from], self.names[rule]),
        }
    }

    /// The items that waited for a name that is done.
    fn completed(&self, waiting: &[Item], name: &str) -> Vec<Item> {
        let waits = |&&(rule, dot, _): &&Item| match self.rules[rule].get(dot) {
            Some(Known::Name { rules, .. }) => self.names[rules[0]] == name,
            _ => false,
        };
        let onward = |&(rule, dot, from): &Item| (rule, dot + 1, from);
        waiting.iter().filter(waits).map(onward).collect()
    }
}

/// A name derives the empty text. `inside` are the names under way.
fn is_empty(
    productions: &[Production],
    name: &'static str,
    inside: &mut Vec<&'static str>,
) -> bool {
    if inside.contains(&name) {
        return false;
    }
    inside.push(name);
    let empty = productions
        .iter()
        .filter(|p| p.0 == name)
        .any(|(_, symbols)| {
            symbols.iter().all(|symbol| match symbol {
                Symbol::Byte(_) => false,
                Symbol::Name(name) => is_empty(productions, name, inside),
            })
        });
    inside.pop();
    empty
}
