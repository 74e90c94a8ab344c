//! All crates of the repository, read and taken apart.

use crate::antt::{self, Definitions};
use crate::imports;
use crate::rt::{self, Code};
use std::collections::BTreeMap;
use std::fs;
use std::io;
use std::path::{Path, PathBuf};

#[derive(Debug, Default)]
pub struct Crate {
    pub name: String,
    /// Files of definitions and theorems, by their path in the crate: `specs/laws/Steps.antt`, `proofs/theorems/OnlyOne.antt`.
    pub specs: BTreeMap<String, Definitions>,
    /// Files of proofs. What they say counts for no promise; names that they bring or declare do.
    pub proofs: BTreeMap<String, Definitions>,
    /// Files of code: `src/lib.rt`.
    pub code: BTreeMap<String, Code>,
    /// Must-fail edits by name, each with its lines but comments.
    pub edits: BTreeMap<String, Vec<String>>,
    /// Files that assume something.
    pub assuming: Vec<String>,
}

/// Where theorems stand that can't stand in specs/, since a must-fail edit of a definition has to leave specs/ readable: `proofs/theorems.antt`, and the
/// folder.
pub const THEOREMS: &str = "proofs/theorems";

/// Where an item stands. The order is that of crates.txt, then files by name, then as in the file.
#[derive(Clone, Debug, PartialEq, Eq, PartialOrd, Ord)]
pub struct Place {
    pub krate: usize,
    pub file: String,
    pub item: usize,
}

#[derive(Debug, Default)]
pub struct Project {
    pub crates: Vec<Crate>,
    pub faults: Vec<String>,
}

impl Project {
    /// Reads the crates that stand in crates.txt.
    pub fn read(root: &Path) -> io::Result<Project> {
        let mut project = Project::default();
        for line in fs::read_to_string(root.join("crates.txt"))?.lines() {
            let said = line.split(['#', ':']).next().unwrap_or("");
            if let Some(name) = said.split_whitespace().next() {
                let krate = read_crate(root, name)?;
                project.crates.push(krate);
            }
        }
        for folder in entries_of(&root.join("crates"))? {
            let name = file_name(&folder);
            if folder.is_dir() && project.crate_named(&name).is_none() {
                project.faults.push(format!("crates/{name}: not in crates.txt"));
            }
        }
        project.faults.extend(imports::faults(&project));
        Ok(project)
    }

    pub fn crate_named(&self, name: &str) -> Option<usize> {
        self.crates.iter().position(|krate| krate.name == name)
    }

    /// The item of a file of definitions; none where the place is in code.
    pub fn definition(&self, place: &Place) -> Option<&antt::Item> {
        self.crates[place.krate].specs.get(&place.file)?.items.get(place.item)
    }

    /// The item of a file of code.
    pub fn code(&self, place: &Place) -> Option<&rt::Item> {
        self.crates[place.krate].code.get(&place.file)?.items.get(place.item)
    }

    pub fn name_of(&self, place: &Place) -> String {
        self.definition(place)
            .map(|item| item.name.clone())
            .or_else(|| self.code(place).map(rt::Item::full_name))
            .unwrap_or_default()
    }

    /// The file's path in the repository.
    pub fn path_of(&self, krate: usize, file: &str) -> String {
        format!("crates/{}/{file}", self.crates[krate].name)
    }

    /// The places of all public functions.
    pub fn calls(&self) -> Vec<Place> {
        let mut calls = Vec::new();
        for (krate, read) in self.crates.iter().enumerate() {
            for (file, code) in &read.code {
                let functions = (0..code.items.len()).filter(|&item| code.items[item].form == rt::Form::Function);
                calls.extend(functions.map(|item| Place { krate, file: file.clone(), item }));
            }
        }
        calls
    }
}

fn entries_of(folder: &Path) -> io::Result<Vec<PathBuf>> {
    let mut entries: Vec<PathBuf> =
        fs::read_dir(folder)?.map(|entry| entry.map(|entry| entry.path())).collect::<Result<_, _>>()?;
    entries.sort();
    Ok(entries)
}

fn file_name(path: &Path) -> String {
    path.file_name().map_or(String::new(), |name| name.to_string_lossy().into_owned())
}

/// All files below a folder whose names end so, each with its path from `base` on.
pub fn files_below(base: &Path, folder: &str, ending: &str) -> io::Result<Vec<(String, PathBuf)>> {
    let mut found = Vec::new();
    let path = base.join(folder);
    if !path.is_dir() {
        return Ok(found);
    }
    for entry in entries_of(&path)? {
        let below = format!("{folder}/{}", file_name(&entry));
        if entry.is_dir() {
            found.extend(files_below(base, &below, ending)?);
        } else if below.ends_with(ending) {
            found.push((below, entry));
        }
    }
    Ok(found)
}

fn read_crate(root: &Path, name: &str) -> io::Result<Crate> {
    let base = root.join("crates").join(name);
    let mut krate = Crate { name: name.to_string(), ..Crate::default() };
    for folder in ["specs", "proofs"] {
        for (file, path) in files_below(&base, folder, ".antt")? {
            let text = fs::read_to_string(path)?;
            if imports::assumes(&text) {
                krate.assuming.push(file.clone());
            }
            let states = folder == "specs" || file.starts_with(THEOREMS);
            let files = if states { &mut krate.specs } else { &mut krate.proofs };
            files.insert(file, antt::parse(&text));
        }
    }
    for (file, path) in files_below(&base, "src", ".rt")? {
        krate.code.insert(file, rt::parse(&fs::read_to_string(path)?));
    }
    for (file, path) in files_below(&base, "must-fail", ".edit")? {
        let name = file.trim_start_matches("must-fail/").trim_end_matches(".edit").to_string();
        let text = fs::read_to_string(path)?;
        let said = text.lines().filter(|line| !line.starts_with('#') && !line.trim().is_empty());
        krate.edits.insert(name, said.map(|line| line.trim_end().to_string()).collect());
    }
    Ok(krate)
}
