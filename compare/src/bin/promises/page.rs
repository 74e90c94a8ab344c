//! docs/PROMISES.md: the names that it has in backquotes, each looked up by crate and file.
//!
//! A name is looked up in the crates that its section's heading names before the colon (`## clusters, verdict: the judge`), in the crate or type that it is
//! written behind (`rows::store_row`, `Rack::made`), or in the file said right after it (`(Number.antt)`, `(OnlyOne.antt of runs)`). In a table's column `Call`
//! it is a public function, and in the column of must-fail edits one of these, where there is one; elsewhere a definition, a theorem or a must-fail edit, and a
//! function or type only where there is none of these.
//! Paths and formulas are passed over.

use crate::project::{Place, Project};
use crate::rt::Form;
use std::collections::BTreeSet;

/// The section of functions that have no row in a table, and the heading in it under which stand those that may have no contract.
const EXCEPTIONS: &str = "## Exceptions";
const NO_CONTRACT: &str = "### Without a contract";

#[derive(Debug, Default)]
pub struct Page {
    /// Definitions, theorems and types that the page names.
    pub named: BTreeSet<Place>,
    /// Public functions that have a row, or are named as exceptions.
    pub called: BTreeSet<Place>,
    /// Those that it says have no contract.
    pub without_contract: BTreeSet<Place>,
    /// Must-fail edits that it names, by crate.
    pub edits: BTreeSet<(usize, String)>,
    /// How many names were looked up.
    pub tried: usize,
    pub faults: Vec<String>,
}

/// A name in backquotes, and what stands around it.
#[derive(Debug, PartialEq)]
struct Said<'a> {
    name: &'a str,
    /// A crate, type or module that it is written behind.
    prefix: Option<&'a str>,
    file: Option<&'a str>,
    krate: Option<&'a str>,
    is_call: bool,
    is_edit: bool,
}

/// What a name may be.
#[derive(Clone, Debug, PartialEq)]
enum Found {
    Item(Place),
    Call(Place),
    Edit(usize, String),
    Crate,
}

pub fn read(project: &Project, text: &str) -> Page {
    let mut page = Page::default();
    let mut crates: Vec<usize> = Vec::new();
    let mut columns: Vec<&str> = Vec::new();
    let (mut is_exception, mut excepted) = (false, false);
    for (number, line) in text.lines().enumerate() {
        if line.starts_with('#') {
            excepted = line == NO_CONTRACT;
            if line.starts_with("## ") {
                crates = crates_in(project, line);
                is_exception = line == EXCEPTIONS;
            }
            continue;
        }
        let in_table = line.starts_with('|');
        if !in_table || columns.is_empty() {
            columns = if in_table { cells(line) } else { Vec::new() };
        }
        let parts = if in_table { cells(line) } else { vec![line] };
        for (at, part) in parts.iter().enumerate() {
            let column = columns.get(at).copied().unwrap_or("");
            let is_call = column == "Call";
            for said in names(part, column) {
                page.tried += 1;
                match look_up(project, &crates, &said) {
                    Ok(found) => page.note(found, is_call || is_exception, excepted),
                    Err(fault) => {
                        page.faults.push(format!("docs/PROMISES.md: line {}: {}: {fault}", number + 1, said.name))
                    }
                }
            }
        }
    }
    page.check_calls(project);
    page.check_edits(project);
    page
}

impl Page {
    fn note(&mut self, found: Found, listed: bool, excepted: bool) {
        match found {
            Found::Item(place) => {
                self.named.insert(place);
            }
            Found::Call(place) => {
                if excepted {
                    self.without_contract.insert(place.clone());
                }
                if listed {
                    self.called.insert(place);
                }
            }
            Found::Edit(krate, name) => {
                self.edits.insert((krate, name));
            }
            Found::Crate => {}
        }
    }

    /// Every public function is on the page, and has a contract unless the page says that it has none.
    fn check_calls(&mut self, project: &Project) {
        for place in project.calls() {
            let Some(item) = project.code(&place) else { continue };
            let path = project.path_of(place.krate, &place.file);
            let promises = item.clauses.iter().any(|(word, _)| word == "ensures");
            if !self.called.contains(&place) {
                self.faults
                    .push(format!("{path}: the public function {} has no row on docs/PROMISES.md", item.full_name()));
            }
            if promises == self.without_contract.contains(&place) {
                let what =
                    if promises { "a contract, and docs/PROMISES.md says that it has none" } else { "no contract" };
                self.faults.push(format!("{path}: the public function {} has {what}", item.full_name()));
            }
        }
    }

    /// Every must-fail edit is on the page.
    fn check_edits(&mut self, project: &Project) {
        for (krate, read) in project.crates.iter().enumerate() {
            for name in read.edits.keys().filter(|name| !self.edits.contains(&(krate, name.to_string()))) {
                let path = project.path_of(krate, &format!("must-fail/{name}.edit"));
                self.faults.push(format!("{path}: docs/PROMISES.md doesn't name it"));
            }
        }
    }
}

/// The crates that a heading names before its colon.
fn crates_in(project: &Project, heading: &str) -> Vec<usize> {
    let before = heading.split(':').next().unwrap_or("");
    before.split(|c: char| !c.is_alphanumeric() && c != '_').filter_map(|word| project.crate_named(word)).collect()
}

fn cells(line: &str) -> Vec<&str> {
    line.trim().trim_matches('|').split('|').map(str::trim).collect()
}

/// The names in backquotes of a part of a line.
fn names<'a>(part: &'a str, column: &str) -> Vec<Said<'a>> {
    let pieces: Vec<&str> = part.split('`').collect();
    let quoted = (1..pieces.len()).step_by(2);
    quoted.filter_map(|at| said(pieces[at], pieces.get(at + 1).copied().unwrap_or(""), column)).collect()
}

/// A name that stands in backquotes, in a column of a table or in none; none for a path or a formula.
fn said<'a>(quoted: &'a str, after: &'a str, column: &str) -> Option<Said<'a>> {
    let called = quoted.ends_with(')');
    let whole = if called { quoted.split('(').next().unwrap_or("") } else { quoted };
    let (prefix, name) = whole.split_once("::").map_or((None, whole), |(prefix, name)| (Some(prefix), name));
    let is_name = name.starts_with(|c: char| c.is_ascii_alphabetic())
        && name.chars().all(|c| c.is_alphanumeric() || "_-'".contains(c));
    if !is_name || name == "pub" {
        return None;
    }
    let (file, krate) = file_said(after);
    let is_call = column == "Call" || called;
    Some(Said { name, prefix, file, krate, is_call, is_edit: column.starts_with("Must-fail edit") })
}

/// ` (Number.antt` or ` (OnlyOne.antt of runs`, right after a name.
fn file_said(after: &str) -> (Option<&str>, Option<&str>) {
    let Some(inside) = after.strip_prefix(" (") else { return (None, None) };
    let end = inside.find([')', ',', ';', ':']).unwrap_or(inside.len());
    let words: Vec<&str> = inside[..end].split(' ').collect();
    match words[..] {
        [file] if file.ends_with(".antt") => (Some(file), None),
        [file, "of", krate] if file.ends_with(".antt") => (Some(file), Some(krate)),
        _ => (None, None),
    }
}

/// The one thing that a name means on the page.
fn look_up(project: &Project, section: &[usize], said: &Said) -> Result<Found, String> {
    let named_crate = said.krate.or(said.prefix.filter(|prefix| project.crate_named(prefix).is_some()));
    let crates: Vec<usize> = match named_crate {
        Some(name) => vec![project.crate_named(name).ok_or_else(|| format!("there is no crate {name}"))?],
        None => section.to_vec(),
    };
    let owner = said.prefix.filter(|prefix| project.crate_named(prefix).is_none());
    let calls = calls_named(project, &crates, said.name, owner);
    if said.is_call || owner.is_some() {
        return only_one(calls);
    }
    let edits: Vec<Found> = crates
        .iter()
        .filter(|&&krate| project.crates[krate].edits.contains_key(said.name))
        .map(|&krate| Found::Edit(krate, said.name.to_string()))
        .collect();
    if said.is_edit && !edits.is_empty() {
        return only_one(edits);
    }
    let mut found = items_named(project, &crates, said, false);
    if said.file.is_none() {
        found.extend(edits);
    }
    if found.is_empty() {
        found = items_named(project, &crates, said, true);
    }
    if found.is_empty() && said.file.is_none() {
        found = calls;
        found.extend(types_named(project, &crates, said.name));
    }
    if found.is_empty() && project.crate_named(said.name).is_some() {
        found.push(Found::Crate);
    }
    only_one(found)
}

fn only_one(mut found: Vec<Found>) -> Result<Found, String> {
    match found.len() {
        0 => Err("not found".to_string()),
        1 => Ok(found.remove(0)),
        several => Err(format!("{several} things are named so")),
    }
}

/// Public functions of the crates; behind an owner, those of that type or module.
fn calls_named(project: &Project, crates: &[usize], name: &str, owner: Option<&str>) -> Vec<Found> {
    let fits = |place: &Place| {
        let item = project.code(place)?;
        let module = place.file.trim_start_matches("src/").trim_end_matches(".rt");
        let owned = owner.is_none_or(|owner| item.owner.as_deref() == Some(owner) || module == owner);
        Some(crates.contains(&place.krate) && item.name == name && owned)
    };
    project.calls().into_iter().filter(|place| fits(place) == Some(true)).map(Found::Call).collect()
}

/// Public definitions and theorems with this name, or the types that have a member with it.
fn items_named(project: &Project, crates: &[usize], said: &Said, as_member: bool) -> Vec<Found> {
    let mut found = Vec::new();
    for &krate in crates {
        for (file, definitions) in &project.crates[krate].specs {
            let fits_file = said.file.is_none_or(|name| file.rsplit('/').next() == Some(name));
            for (item, read) in definitions.items.iter().enumerate() {
                let public = read.marks.iter().any(|mark| mark == "pub");
                let named = if as_member {
                    read.members().iter().any(|member| member == said.name)
                } else {
                    read.name == said.name
                };
                if fits_file && public && named {
                    found.push(Found::Item(Place { krate, file: file.clone(), item }));
                }
            }
        }
    }
    found
}

/// Structs, enums and constants.
fn types_named(project: &Project, crates: &[usize], name: &str) -> Vec<Found> {
    let mut found = Vec::new();
    for &krate in crates {
        for (file, code) in &project.crates[krate].code {
            let fits = |&item: &usize| code.items[item].name == name && code.items[item].form != Form::Function;
            found.extend(
                (0..code.items.len()).filter(fits).map(|item| Found::Item(Place { krate, file: file.clone(), item })),
            );
        }
    }
    found
}

#[cfg(test)]
mod tests {
    use super::*;

    #[test]
    fn names_and_what_is_said_of_them() {
        let found = names("`runs::x-y` (OnlyOne.antt of runs), `f (g s)`, `put(a, b)` and `Tied` (Words.antt)", "");
        assert_eq!(found.len(), 3);
        assert_eq!(
            (found[0].prefix, found[0].file, found[0].krate),
            (Some("runs"), Some("OnlyOne.antt"), Some("runs"))
        );
        assert!(found[1].is_call && !found[2].is_call);
        assert_eq!(found[2].file, Some("Words.antt"));
        assert!(names("`x`", "Must-fail edits")[0].is_edit && names("`x`", "Call")[0].is_call);
    }
}
