//! All that a reader has to believe: from the contracts and the promised theorems down through every definition that they name.

use crate::antt::Item;
use crate::free::Walk;
use crate::project::{Place, Project};
use crate::resolve::{in_code, in_contract, in_definitions, Meaning, Target};
use crate::rt;
use crate::trees::{place_of, trees, Node};
use std::collections::{BTreeMap, BTreeSet};

/// Words of a contract that no `use` line brings: what a function answers, a method's receiver, and memory that is lent: as it stands, as it was, as it is left.
pub const CONTRACT_WORDS: [&str; 5] = ["result", "self", "now", "old", "new"];

/// What a clause says of what is lent to be called, by its type: that it may be called, and what a call of it gives.
const CALLED: [&str; 2] = ["IsAlwaysCallable", "post"];

/// The names that a file's listed items have from its `use` lines, by path.
pub type Brought = BTreeMap<String, BTreeSet<String>>;

#[derive(Debug, Default)]
pub struct Reach {
    pub contracts: BTreeSet<Place>,
    /// Promised theorems: only their statements count.
    pub theorems: BTreeSet<Place>,
    /// Definitions: all of their text counts.
    pub definitions: BTreeSet<Place>,
    pub brought: BTreeMap<(usize, String), Brought>,
    pub faults: Vec<String>,
}

impl Reach {
    /// From the public functions, and from the items that the page names.
    pub fn from(project: &Project, named: &BTreeSet<Place>) -> Reach {
        let mut reach = Reach { contracts: project.calls().into_iter().collect(), ..Reach::default() };
        let mut ahead: Vec<Step> = Vec::new();
        for place in reach.contracts.clone() {
            ahead.extend(reach.follow_code(project, &place));
        }
        let as_named = |place: &Place| project.definition(place).is_some_and(Item::is_opaque);
        ahead.extend(named.iter().map(|place| Step { place: place.clone(), statement_only: as_named(place) }));
        while let Some(Step { place, statement_only }) = ahead.pop() {
            if reach.contracts.contains(&place) || reach.definitions.contains(&place) {
                continue;
            }
            let new = if statement_only {
                reach.theorems.insert(place.clone())
            } else {
                reach.theorems.remove(&place);
                reach.definitions.insert(place.clone())
            };
            if new {
                let in_code = project.code(&place).is_some();
                let next = if in_code {
                    reach.follow_code(project, &place)
                } else {
                    reach.follow_definition(project, &place, statement_only)
                };
                ahead.extend(next);
            }
        }
        reach
    }

    /// Where an item of a file of definitions leads. A theorem that only the text of a definition cites, as a proof in it, counts by its statement.
    fn follow_definition(&mut self, project: &Project, place: &Place, statement_only: bool) -> Vec<Step> {
        let Some(item) = project.definition(place) else { return Vec::new() };
        let stated = free_names(project, place, item, false);
        let all = if statement_only { stated.clone() } else { free_names(project, place, item, true) };
        let mut found = Vec::new();
        for name in all {
            let meaning = in_definitions(project, place.krate, &place.file, &name);
            let Some(target) = self.take(project, place, meaning) else { continue };
            let cited = project.definition(&target).is_some_and(Item::is_opaque) && says_proposition(project, &target);
            found.push(Step { place: target, statement_only: cited && !stated.contains(&name) });
        }
        found
    }

    /// The places that a function's contract, a type or a constant of code names.
    fn follow_code(&mut self, project: &Project, place: &Place) -> Vec<Step> {
        let Some(item) = project.code(place) else { return Vec::new() };
        let is_constructor = |_: &str| false;
        let mut walk = Walk::new(&is_constructor);
        item.parameters.iter().for_each(|name| walk.bind(name));
        CONTRACT_WORDS.iter().for_each(|word| walk.bind(word));
        item.clauses.iter().for_each(|(_, clause)| walk.expression(&trees(clause)));
        let (of_types, names): (BTreeSet<String>, BTreeSet<String>) =
            walk.found.into_iter().partition(|name| of_type_parameter(item, name));
        self.check_type_parameters(project, place, &of_types);
        let meanings: Vec<_> = names.iter().map(|name| in_contract(project, place.krate, &place.file, name)).collect();
        let mut found: Vec<Place> =
            meanings.into_iter().filter_map(|meaning| self.take(project, place, meaning)).collect();
        for path in &item.paths {
            match in_code(project, place.krate, &place.file, path) {
                Ok(Some(target)) => {
                    self.note_code(project, place, path, &target);
                    found.push(target);
                }
                Ok(None) => {}
                Err(fault) => self.fault(project, place, &fault),
            }
        }
        found.into_iter().map(|place| Step { place, statement_only: false }).collect()
    }

    /// A type parameter is the function's own: it has no other meaning there, and of it a clause names no more than `CALLED`.
    fn check_type_parameters(&mut self, project: &Project, place: &Place, named: &BTreeSet<String>) {
        let Some(item) = project.code(place) else { return };
        for name in &item.type_parameters {
            let in_code = in_code(project, place.krate, &place.file, std::slice::from_ref(name));
            if in_code.is_ok() || in_contract(project, place.krate, &place.file, name).is_ok() {
                self.fault(project, place, &format!("the type parameter {name} has another meaning"));
            }
        }
        for name in named {
            if name.split_once('.').is_some_and(|(_, said)| !CALLED.contains(&said)) {
                self.fault(project, place, &format!("the name {name} is not known"));
            }
        }
    }

    /// Notes where a name came from; gives its item where it is one of the repository.
    fn take(&mut self, project: &Project, place: &Place, meaning: Result<Meaning, String>) -> Option<Place> {
        match meaning {
            Err(fault) => {
                self.fault(project, place, &fault);
                None
            }
            Ok(meaning) => {
                if let Some((path, name)) = meaning.through {
                    self.brought
                        .entry((place.krate, place.file.clone()))
                        .or_default()
                        .entry(path)
                        .or_default()
                        .insert(name);
                }
                match meaning.target {
                    Target::Item(target) => Some(target),
                    Target::Kit => None,
                }
            }
        }
    }

    /// A type or constant of another file of code.
    fn note_code(&mut self, project: &Project, place: &Place, path: &[String], target: &Place) {
        if (target.krate, &target.file) != (place.krate, &place.file) {
            let home = project.path_of(target.krate, &target.file);
            self.brought
                .entry((place.krate, place.file.clone()))
                .or_default()
                .entry(home)
                .or_default()
                .insert(path.join("::"));
        }
    }

    fn fault(&mut self, project: &Project, place: &Place, fault: &str) {
        self.faults.push(format!("{}: {}: {fault}", project.path_of(place.krate, &place.file), project.name_of(place)));
    }
}

/// Whether a name is one of a function's type parameters, or what is said of one.
fn of_type_parameter(item: &rt::Item, name: &str) -> bool {
    let first = name.split('.').next().unwrap_or("");
    item.type_parameters.iter().any(|parameter| parameter == first)
}

/// An item that is to be looked at, and whether its statement alone counts.
struct Step {
    place: Place,
    statement_only: bool,
}

/// The names that an item neither binds nor has from the language.
fn free_names(project: &Project, place: &Place, item: &Item, whole: bool) -> BTreeSet<String> {
    let is_constructor =
        |word: &str| in_definitions(project, place.krate, &place.file, word).is_ok_and(|meaning| meaning.constructor);
    let mut walk = Walk::new(&is_constructor);
    walk.item(item, whole);
    walk.found.into_iter().collect()
}

/// Whether a function gives a proof: its last result is an equation, an order, a choice or an absurdity, or a predicate that says one. Of any other function
/// the value counts.
fn says_proposition(project: &Project, place: &Place) -> bool {
    let Some(item) = project.definition(place) else { return false };
    let mut kind = &item.head[place_of(&item.head, &[":"]).unwrap_or(0)..];
    while let Some(at) = place_of(kind, &["→", "×"]) {
        kind = &kind[at + 1..];
    }
    words_of(&trees(kind)).iter().any(|word| is_relation(word) || is_predicate(project, place, word))
}

fn is_relation(word: &str) -> bool {
    ["≡", "≢", "≤", "<", "⊎", "⊥", "¬"].contains(&word)
}

/// Whether a name is a function into types whose clauses say a relation.
fn is_predicate(project: &Project, place: &Place, word: &str) -> bool {
    let Ok(Meaning { target: Target::Item(target), .. }) = in_definitions(project, place.krate, &place.file, word)
    else {
        return false;
    };
    let Some(item) = project.definition(&target) else { return false };
    let gives_type = item.head.iter().rev().nth(1).is_some_and(|token| token.is_word("Type"));
    let words = item.parts.iter().flat_map(|part| part.iter().map(|token| token.text.as_str()));
    gives_type && words.into_iter().any(is_relation)
}

fn words_of(nodes: &[Node]) -> Vec<&str> {
    nodes
        .iter()
        .flat_map(|node| match node {
            Node::Word(word) => vec![word.as_str()],
            Node::Group(_, inner) => words_of(inner),
            _ => Vec::new(),
        })
        .collect()
}
