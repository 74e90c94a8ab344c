//! Where definitions stand: what has to be read is in files directly in crates/*/specs/, and those hold nothing else; or in a file of its own in
//! crates/*/proofs/theorems/, where it is made of theorems. README.md lists them.

use crate::project::{Place, Project, THEOREMS};
use crate::reach::Reach;
use crate::tokens::wrapped;
use std::collections::{BTreeMap, BTreeSet};

const BEGIN: &str = "<!-- files to read -->";
const END: &str = "<!-- end of files to read -->";

fn is_below(file: &str) -> bool {
    file.matches('/').count() > 1
}

/// Files below a folder of specs/ that hold reached definitions, files directly in specs/ that hold anything else, and files of theorems that hold both. Lists of
/// modules hold nothing.
pub fn violations(project: &Project, reach: &Reach) -> Vec<String> {
    let mut found = Vec::new();
    for (krate, read) in project.crates.iter().enumerate() {
        for (file, definitions) in &read.specs {
            let is_reached = |item: usize| reach.definitions.contains(&Place { krate, file: file.clone(), item });
            let (reached, others): (Vec<usize>, Vec<usize>) =
                (0..definitions.items.len()).partition(|&item| is_reached(item));
            let names = |items: &[usize]| {
                items.iter().map(|&item| definitions.items[item].name.as_str()).collect::<Vec<_>>().join(", ")
            };
            let path = project.path_of(krate, file);
            if file.starts_with(THEOREMS) {
                if !reached.is_empty() && !others.is_empty() {
                    found.push(format!(
                        "{path}: reached, and beside theorems or what isn't reached: {}",
                        names(&reached)
                    ));
                }
            } else if is_below(file) && !reached.is_empty() {
                found.push(format!("{path}: reached, and not directly in specs/: {}", names(&reached)));
            } else if !is_below(file) && !others.is_empty() {
                let beside =
                    if reached.is_empty() { String::new() } else { format!(" beside the reached {}", names(&reached)) };
                found.push(format!(
                    "{path}: directly in specs/, and theorems or not reached: {}{beside}",
                    names(&others)
                ));
            }
        }
    }
    found
}

/// The files with reached definitions, by crate; code only where a type or a constant of it is reached.
pub fn files(project: &Project, reach: &Reach) -> BTreeMap<usize, BTreeSet<String>> {
    let mut found: BTreeMap<usize, BTreeSet<String>> = BTreeMap::new();
    for place in &reach.definitions {
        found.entry(place.krate).or_default().insert(project.path_of(place.krate, &place.file));
    }
    found
}

/// The files to read that README.md lists.
fn listed(readme: &str) -> Option<BTreeSet<String>> {
    let (_, after) = readme.split_once(BEGIN)?;
    let (block, _) = after.split_once(END)?;
    Some(block.split('`').skip(1).step_by(2).map(str::to_string).collect())
}

/// README.md's list held to the files that are reached.
pub fn check_readme(project: &Project, reach: &Reach, readme: &str) -> Vec<String> {
    let Some(listed) = listed(readme) else {
        return vec![format!("README.md: the lines {BEGIN} and {END} are missing")];
    };
    let reached: BTreeSet<String> = files(project, reach).into_values().flatten().collect();
    let missing =
        reached.difference(&listed).map(|file| format!("README.md: {file} has to be read, and is not listed"));
    let idle =
        listed.difference(&reached).map(|file| format!("README.md: {file} is listed, and no promise reaches it"));
    missing.chain(idle).collect()
}

/// README.md with its list written anew, an item for each crate; none where the markers are missing.
pub fn write_readme(project: &Project, reach: &Reach, readme: &str) -> Option<String> {
    let (before, after) = readme.split_once(BEGIN)?;
    let (_, behind) = after.split_once(END)?;
    let mut block = String::new();
    for (krate, files) in files(project, reach) {
        let names: Vec<String> = files.iter().map(|file| format!("`{file}`")).collect();
        let item = format!("- {}: {}", project.crates[krate].name, names.join(", "));
        block += &(wrapped(&item, "  ", "").join("\n") + "\n");
    }
    Some(format!("{before}{BEGIN}\n{block}{END}{behind}"))
}
