//! What could make a name mean another thing, or leave a file unproved, without a word of its text: `use` and `mod` lines, and axioms.

use crate::antt::{is_operator, pieces, Definitions, Use};
use crate::free::is_language;
use crate::project::{Crate, Project};
use crate::reach::CONTRACT_WORDS;
use crate::rt::{is_code_word, is_std_word, Code};
use crate::tokens::{tokens, Token};
use std::collections::BTreeSet;

/// The faults of all crates.
pub fn faults(project: &Project) -> Vec<String> {
    let libraries = libraries(project);
    let mut found = Vec::new();
    for krate in &project.crates {
        let mut add = |file: &str, fault: String| found.push(format!("crates/{}/{file}: {fault}", krate.name));
        faults_of(krate).into_iter().for_each(|(file, fault)| add(file, fault));
        krate.assuming.iter().for_each(|file| add(file, "has an axiom".to_string()));
        let in_proofs: BTreeSet<&str> = firsts(krate.proofs.values().flat_map(|file| &file.uses)).collect();
        let is_library =
            |name: &str| libraries.contains(name) || in_proofs.contains(name) || name.starts_with("Rattle");
        for (file, definitions) in krate.specs.iter().chain(&krate.proofs) {
            hidden(names_declared(definitions), is_own).into_iter().for_each(|fault| add(file, fault));
            let modules = names_of_modules(file, definitions);
            modules
                .iter()
                .filter(|name| is_library(name))
                .for_each(|name| add(file, format!("the module {name} has the name of a library")));
        }
        for (file, code) in &krate.code {
            hidden(names_brought(&code.ghost_uses), is_own_in_contract).into_iter().for_each(|fault| add(file, fault));
            hidden(names_in_code(code), is_own_in_code).into_iter().for_each(|fault| add(file, fault));
        }
    }
    found
}

/// The faults of a crate's lines, each with its file.
fn faults_of(krate: &Crate) -> Vec<(&String, String)> {
    let mut found = Vec::new();
    for (file, definitions) in &krate.specs {
        let faults = definitions.faults.iter().cloned().chain(misleading(definitions)).chain(unlisted(krate, file));
        found.extend(faults.map(|fault| (file, fault)));
    }
    for (file, code) in &krate.code {
        let ghost = Definitions { uses: code.ghost_uses.clone(), ..Definitions::default() };
        let faults = code.faults.iter().cloned().chain(misleading(&ghost)).chain(unlisted(krate, file));
        found.extend(faults.map(|fault| (file, fault)));
    }
    found
}

/// The libraries that paths of all definitions, theorems and contracts begin with. A module of that name would stand before the library in its crate.
fn libraries(project: &Project) -> BTreeSet<&str> {
    let specs = project.crates.iter().flat_map(|krate| krate.specs.values()).flat_map(|file| &file.uses);
    let ghost = project.crates.iter().flat_map(|krate| krate.code.values()).flat_map(|code| &code.ghost_uses);
    firsts(specs.chain(ghost)).chain(["lib", "mathlib", "Prim", "native", "borrow", "mir", "denote"]).collect()
}

/// The first words of paths.
fn firsts<'a>(uses: impl Iterator<Item = &'a Use>) -> impl Iterator<Item = &'a str> {
    uses.filter_map(|line| line.path.split('.').next())
}

/// The modules that a file is, stands in, lists or has inside.
fn names_of_modules<'a>(file: &'a str, definitions: &'a Definitions) -> BTreeSet<&'a str> {
    let path = file.trim_end_matches(".antt").split('/').skip(1);
    let headers = definitions.items.iter().flat_map(|item| &item.headers);
    let inside = headers.filter_map(|header| header.get(1)).map(|token| token.text.as_str());
    path.chain(definitions.modules.iter().map(String::as_str)).chain(inside).collect()
}

/// Faults for names that are taken for the language's own, and are never looked up.
fn hidden(names: BTreeSet<&str>, is_own: impl Fn(&str) -> bool) -> Vec<String> {
    names.into_iter().filter(|name| is_own(name)).map(|name| format!("{name} is a word of the language")).collect()
}

/// Whether a name is, or as an operator has, a word that is never looked up. The words of contracts are looked up in files of definitions.
fn is_own(name: &str) -> bool {
    has_word(name, &is_language)
}

fn is_own_in_contract(name: &str) -> bool {
    has_word(name, &|word| is_language(word) || CONTRACT_WORDS.contains(&word))
}

fn has_word(name: &str, is_word: &dyn Fn(&str) -> bool) -> bool {
    is_word(name) || (is_operator(name) && pieces(name).any(is_word))
}

fn is_own_in_code(name: &str) -> bool {
    is_code_word(name) || is_std_word(name) || is_language(name) || CONTRACT_WORDS.contains(&name)
}

/// The names that `use` lines bring.
fn names_brought(uses: &[Use]) -> BTreeSet<&str> {
    uses.iter()
        .flat_map(|line| line.names.iter().map(|(_, local)| local).chain(&line.alias))
        .map(String::as_str)
        .collect()
}

/// The names that a file of definitions or proofs brings and declares.
fn names_declared(definitions: &Definitions) -> BTreeSet<&str> {
    let mut names = names_brought(&definitions.uses);
    names.extend(definitions.rulesets.iter().map(String::as_str));
    for item in &definitions.items {
        names.insert(&item.name);
        names.extend(item.member_names());
    }
    names
}

/// The names that a file of code brings and declares.
fn names_in_code(code: &Code) -> BTreeSet<&str> {
    let declared =
        code.items.iter().flat_map(|item| item.variants.iter().chain(&item.type_parameters).chain([&item.name]));
    declared.chain(code.uses.iter().map(|(local, _)| local)).map(String::as_str).collect()
}

/// `use` lines that bring names which they don't list, and paths that begin with a name which the file itself brings: they would lead elsewhere.
fn misleading(definitions: &Definitions) -> Vec<String> {
    let mut found = Vec::new();
    for line in &definitions.uses {
        let first = line.path.split('.').next().unwrap_or("");
        let brought = definitions.uses.iter().any(|other| {
            other.alias.as_deref() == Some(first) && other.path != line.path
                || other.names.iter().any(|(_, local)| local == first)
        });
        if brought
            || definitions.modules.iter().any(|name| name == first)
            || definitions.items.iter().any(|item| item.name == first)
            || definitions.rulesets.iter().any(|name| name == first)
        {
            found.push(format!("the path {} begins with a name that the file brings", line.path));
        }
        if line.path.contains('*') {
            found.push(format!("{} brings names that it doesn't list", line.path));
        }
    }
    found
}

/// A file is proved only where the one above it lists it: the crate's first, or the one with the name of its folder.
fn unlisted(krate: &Crate, file: &str) -> Option<String> {
    const FIRST: [&str; 4] = ["specs/Lib.antt", "proofs/Lib.antt", "src/lib.rt", "src/main.rt"];
    if FIRST.contains(&file) {
        return None;
    }
    let (folder, name) = file.rsplit_once('/')?;
    let (name, ending) = name.rsplit_once('.')?;
    let is_top = ["specs", "proofs", "src"].contains(&folder);
    let above: Vec<String> = if is_top {
        FIRST.iter().filter(|list| list.split('/').next() == Some(folder)).map(|list| list.to_string()).collect()
    } else {
        vec![format!("{folder}.{ending}")]
    };
    let lists = |list: &String| {
        let definitions = krate.specs.get(list).or(krate.proofs.get(list)).map(|above| &above.modules);
        let modules = definitions.or(krate.code.get(list).map(|above| &above.modules));
        list.ends_with(ending) && modules.is_some_and(|modules| modules.iter().any(|module| module == name))
    };
    (!above.iter().any(lists)).then(|| "no file above lists it, so it isn't proved".to_string())
}

/// Whether a text declares an axiom, or uses one of the prelude's.
pub fn assumes(text: &str) -> bool {
    if !text.contains("axiom") && !text.contains("Axiom") {
        return false;
    }
    let words = tokens(text);
    let prelude = |three: &[Token]| three[0].text == "Prim" && three[1].text == "." && three[2].text == "Axiom";
    words.iter().any(|token| token.is_word("axiom")) || words.windows(3).any(prelude)
}
