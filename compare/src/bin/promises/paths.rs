//! Pages that name files of the sources: each file that they name is there, and declares the name that stands right before it.

use crate::antt::{Definitions, Item};
use crate::project::{Crate, Project};
use crate::rt::is_code_word;
use std::fs;
use std::io;
use std::path::Path;

pub const PAGES: [&str; 4] = ["docs/WHY-IT-HOLDS.md", "docs/DECISIONS.md", "docs/FORMAT.md", "docs/PROVING.md"];

/// The faults of the pages.
pub fn faults(project: &Project, root: &Path) -> io::Result<Vec<String>> {
    let mut found = Vec::new();
    for page in PAGES {
        let text = fs::read_to_string(root.join(page))?;
        for (name, path) in paths(&text) {
            if !root.join(path).is_file() {
                found.push(format!("{page}: there is no {path}"));
            } else if let Some(name) = name.filter(|name| !declares(project, path, name)) {
                found.push(format!("{page}: {path} doesn't declare {name}"));
            }
        }
    }
    Ok(found)
}

/// The paths of .antt and .rt files, each with the name in backquotes before it: `name` (crates/a/specs/B.antt).
fn paths(text: &str) -> Vec<(Option<&str>, &str)> {
    let mut found = Vec::new();
    for (at, _) in text.match_indices("crates/") {
        let is_path = |c: char| c.is_alphanumeric() || "_-./·".contains(c);
        let end = text[at..].find(|c| !is_path(c)).map_or(text.len(), |length| at + length);
        let path = text[at..end].trim_end_matches('.');
        if path.ends_with(".antt") || path.ends_with(".rt") {
            found.push((name_before(&text[..at]), path));
        }
    }
    found
}

/// The name in backquotes that a text ends with, before an open parenthesis.
fn name_before(text: &str) -> Option<&str> {
    let quoted = text.strip_suffix('(')?.trim_end().strip_suffix('`')?;
    let name = &quoted[quoted.rfind('`')? + 1..];
    name.rsplit("::").next()
}

/// Whether a file of the repository declares a name, or the language does.
fn declares(project: &Project, path: &str, name: &str) -> bool {
    let Some((krate, file)) = path.trim_start_matches("crates/").split_once('/') else { return false };
    let Some(krate) = project.crate_named(krate).map(|at| &project.crates[at]) else { return false };
    let definitions = krate.specs.get(file).or(krate.proofs.get(file));
    is_code_word(name) || definitions.is_some_and(|read| defines(read, name)) || codes(krate, file, name)
}

fn defines(definitions: &Definitions, name: &str) -> bool {
    let is_item = |item: &Item| item.name == name || item.member_names().any(|member| member == name);
    definitions.items.iter().any(is_item) || definitions.rulesets.iter().any(|ruleset| ruleset == name)
}

fn codes(krate: &Crate, file: &str, name: &str) -> bool {
    let Some(code) = krate.code.get(file) else { return false };
    let is_item =
        code.items.iter().any(|item| item.name == name || item.variants.iter().any(|variant| variant == name));
    is_item || code.functions.iter().any(|function| function == name)
}

#[cfg(test)]
mod tests {
    use super::*;

    #[test]
    fn paths_and_the_names_before_them() {
        let text = "`a`, `b::c`\n(crates/d/specs/E.antt, crates/f/src/lib.rt), in crates/g/specs/H.antt. And (crates/NAME/must-fail/)";
        let found = paths(text);
        assert_eq!(
            found,
            [(Some("c"), "crates/d/specs/E.antt"), (None, "crates/f/src/lib.rt"), (None, "crates/g/specs/H.antt")]
        );
    }
}
