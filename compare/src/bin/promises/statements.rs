//! docs/STATEMENTS.txt: all that has to be believed, written out, and what differs from what stands there.

use crate::antt::{Form, Item};
use crate::project::{Place, Project};
use crate::reach::Reach;
use crate::tokens::{as_lines, wrapped};
use std::collections::BTreeSet;

const HEADER: &str = "\
# What has to be believed, whole: the contract of every public function, what every theorem says that docs/PROMISES.md names, and every definition that
# these name, down to the kit's library. Written by `compare/promises --write`; the gate holds the sources to it (`compare/promises`), so that nothing here is
# removed, weakened or changed unseen. Each entry has the headers of the modules around it, whose parameters are hypotheses too. A line that ends with \\ goes on.
";

/// What ends a line that goes on with the next one.
const GOES_ON: &str = " \\";

const PARTS: [&str; 5] = [
    "Part 1: the contracts of the public functions",
    "Part 2: the theorems, what each says",
    "Part 3: the definitions, whole",
    "Part 4: where the names come from that a file has from its `use` lines",
    "Part 5: the must-fail edits: file, old text and new text",
];

/// The whole page.
pub fn write(project: &Project, reach: &Reach) -> String {
    let mut text = HEADER.to_string();
    for (part, places) in PARTS.iter().zip([&reach.contracts, &reach.theorems, &reach.definitions]) {
        text += &format!("\n== {part}\n");
        let mut last = String::new();
        for place in places {
            let path = project.path_of(place.krate, &place.file);
            if path != last {
                text += &format!("\n{path}\n");
                last = path;
            }
            for line in entry(project, place, *part == PARTS[1]) {
                add_line(&mut text, &format!("  {line}"));
            }
        }
    }
    text += &format!("\n== {}\n", PARTS[3]);
    for ((krate, file), brought) in &reach.brought {
        text += &format!("\n{}\n", project.path_of(*krate, file));
        for (path, names) in brought {
            let names: Vec<&str> = names.iter().map(String::as_str).collect();
            add_line(&mut text, &format!("  {path}: {}", names.join(", ")));
        }
    }
    text += &format!("\n== {}\n", PARTS[4]);
    for krate in &project.crates {
        for (name, lines) in &krate.edits {
            text += &format!("\ncrates/{}/must-fail/{name}.edit\n", krate.name);
            for line in lines {
                let indent = if line.starts_with("file:") { "  " } else { "    " };
                add_line(&mut text, &format!("{indent}{line}"));
            }
        }
    }
    text
}

/// Adds a line, broken where it is too long.
fn add_line(text: &mut String, line: &str) {
    let indent = " ".repeat(line.len() - line.trim_start().len() + 4);
    *text += &(wrapped(line, &indent, GOES_ON).join("\n") + "\n");
}

/// A page with its broken lines whole again.
fn joined(text: &str) -> String {
    let mut whole = String::new();
    let mut goes_on = false;
    for line in text.lines() {
        let said = if goes_on { line.trim_start() } else { line };
        goes_on = said.ends_with(GOES_ON);
        whole += said.strip_suffix(GOES_ON).unwrap_or(said);
        whole.push(if goes_on { ' ' } else { '\n' });
    }
    whole
}

/// An entry's lines: the first is not indented, all others are, or close a bracket.
fn entry(project: &Project, place: &Place, statement_only: bool) -> Vec<String> {
    match project.definition(place) {
        Some(item) => definition_lines(item, statement_only),
        None => project.code(place).map_or(Vec::new(), |item| item.text.clone()),
    }
}

/// The headers around an item, its statement, and its parts unless only the statement counts.
fn definition_lines(item: &Item, statement_only: bool) -> Vec<String> {
    let mut lines: Vec<String> = Vec::new();
    let mut indent = 0;
    for header in &item.headers {
        let column = header[0].column;
        lines.extend(as_lines(header, column).into_iter().map(|line| " ".repeat(indent) + &line));
        indent += 2;
    }
    let column = item.head[0].column;
    lines.extend(as_lines(&item.head, column).into_iter().map(|line| " ".repeat(indent) + &line));
    if statement_only && item.form == Form::Function {
        return lines;
    }
    for part in &item.parts {
        lines.extend(as_lines(part, part[0].column).into_iter().map(|line| " ".repeat(indent + 2) + &line));
    }
    lines
}

/// The entries of a page: part and file, and the entry's lines. An entry begins with a line that is indented by two spaces and closes no
/// bracket.
fn entries(text: &str) -> Vec<(String, String)> {
    let mut found: Vec<(String, String)> = Vec::new();
    let (mut part, mut file) = (String::new(), String::new());
    for line in text.lines().filter(|line| !line.is_empty() && !line.starts_with('#')) {
        if let Some(heading) = line.strip_prefix("== ") {
            part = heading.split(':').next().unwrap_or("").to_string();
        } else if !line.starts_with(' ') {
            file = format!("{part}, {line}");
        } else if line.starts_with("   ") || line.trim_start().starts_with(['}', ')']) {
            if let Some((_, entry)) = found.last_mut() {
                entry.push('\n');
                entry.push_str(line);
            }
        } else {
            found.push((file.clone(), line.to_string()));
        }
    }
    found
}

/// What was removed from the page that stands, and what is new, each with its file. A change is both.
pub fn differences(stands: &str, now: &str) -> Vec<String> {
    let (stands, now) = (joined(stands), joined(now));
    let (old, new): (BTreeSet<_>, BTreeSet<_>) =
        (entries(&stands).into_iter().collect(), entries(&now).into_iter().collect());
    let removed = old.difference(&new).map(|(file, entry)| (file, 0, entry));
    let added = new.difference(&old).map(|(file, entry)| (file, 1, entry));
    let mut both: Vec<(&String, usize, &String)> = removed.chain(added).collect();
    both.sort();
    let mut found: Vec<String> =
        both.iter().map(|(file, at, entry)| format!("{file}: {}:\n{entry}", ["removed", "added"][*at])).collect();
    if found.is_empty() && stands != now {
        found.push("docs/STATEMENTS.txt: another order, another header, or an entry twice".to_string());
    }
    found
}

#[cfg(test)]
mod tests {
    use super::*;

    #[test]
    fn a_changed_entry_is_removed_and_added() {
        let (old, new) = ("== Part 1: x\n\ncrates/a\n  f\n    g\n  h\n", "== Part 1: x\n\ncrates/a\n  f\n    k\n  h\n");
        assert_eq!(
            differences(old, new),
            ["Part 1, crates/a: removed:\n  f\n    g", "Part 1, crates/a: added:\n  f\n    k"]
        );
        assert!(differences(old, old).is_empty());
    }

    #[test]
    fn where_a_line_is_broken_is_no_difference() {
        let (old, new) = ("== Part 1: x\n\ncrates/a\n  f \\\n      g\n", "== Part 1: x\n\ncrates/a\n  f g\n");
        assert!(differences(old, new).is_empty());
    }
}
