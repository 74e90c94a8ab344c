//! What a name means, by crate and file: an item of the file, or what its `use` lines bring. A bare name alone never decides.

use crate::antt::{is_operator, pieces, Definitions, Form, Use, PLACE};
use crate::project::{Place, Project};
use crate::rt;

/// Names that are there without a `use` line: those of the prelude `Prim`, its tactics too.
const PRELUDE: [&str; 11] = ["⊥", "¬◌", "Unit", "tt", "absurd", "Dec", "yes", "no", "omega", "rw", "cc"];

/// Constructors of the kit's library that patterns here are made of. Of the repository's own types they are known.
const KIT_CONSTRUCTORS: [&str; 18] = [
    "true",
    "false",
    "zero",
    "suc",
    "[]",
    "◌∷◌",
    "pos",
    "negsuc",
    "inl",
    "inr",
    "refl",
    "yes",
    "no",
    "tt",
    "None",
    "Some",
    "Ok",
    "Err",
];

#[derive(Clone, Debug, PartialEq)]
pub enum Target {
    Item(Place),
    /// Of the kit's library, or its prelude.
    Kit,
}

/// A name's meaning, and how it came.
#[derive(Clone, Debug, PartialEq)]
pub struct Meaning {
    pub target: Target,
    pub constructor: bool,
    /// The path and the name there, with the name here where it differs; none for an item of the same file or of the prelude.
    pub through: Option<(String, String)>,
}

/// Whether a word is this name, or a part of this operator.
fn says(name: &str, word: &str) -> bool {
    name == word || (is_operator(name) && pieces(name).any(|piece| piece == word.trim_matches(PLACE)))
}

/// The meaning of a word in a file of definitions. Behind a name dots may follow, and fields of what it names.
pub fn in_definitions(project: &Project, krate: usize, file: &str, word: &str) -> Result<Meaning, String> {
    let whole = defined(project, krate, file, word);
    match before_field(word).filter(|_| whole.is_err()) {
        Some(head) => in_definitions(project, krate, file, head),
        None => whole,
    }
}

/// What the last of the dots in a word stands behind.
fn before_field(word: &str) -> Option<&str> {
    word.rsplit_once('.').map(|(head, _)| head).filter(|_| !word.starts_with("Rattle."))
}

fn defined(project: &Project, krate: usize, file: &str, word: &str) -> Result<Meaning, String> {
    let definitions = &project.crates[krate].specs[file];
    let mut found: Vec<Meaning> = own_items(definitions, word)
        .map(|(item, constructor)| Meaning {
            target: Target::Item(Place { krate, file: file.to_string(), item }),
            constructor,
            through: None,
        })
        .collect();
    found.extend(through_uses(project, &definitions.uses, word)?);
    one_of(found, word)
}

/// The meaning of a word in a contract of a file of code: what its ghost lines bring, or a struct or enum that the code sees by that name.
pub fn in_contract(project: &Project, krate: usize, file: &str, word: &str) -> Result<Meaning, String> {
    let uses = &project.crates[krate].code[file].ghost_uses;
    let whole = through_uses(project, uses, word).and_then(|mut found| {
        let seen = type_seen(project, krate, file, word);
        let other = |meaning: &Meaning| found.iter().all(|brought| brought.target != meaning.target);
        found.extend(seen.filter(other));
        one_of(found, word)
    });
    match before_field(word).filter(|_| whole.is_err()) {
        Some(head) => in_contract(project, krate, file, head),
        None => whole,
    }
}

/// The struct or enum that the code of a file sees by this name.
fn type_seen(project: &Project, krate: usize, file: &str, word: &str) -> Option<Meaning> {
    let place = in_code(project, krate, file, &[word.to_string()]).ok().flatten()?;
    let item = project.code(&place)?;
    let is_type = item.name == word && matches!(item.form, rt::Form::Struct | rt::Form::Enum);
    let elsewhere = (place.krate, place.file.as_str()) != (krate, file);
    let through = elsewhere.then(|| (project.path_of(place.krate, &place.file), word.to_string()));
    is_type.then_some(Meaning { target: Target::Item(place), constructor: false, through })
}

/// Exactly one meaning, or the prelude's.
fn one_of(mut found: Vec<Meaning>, word: &str) -> Result<Meaning, String> {
    found.dedup();
    match found.len() {
        1 => Ok(found.remove(0)),
        0 => match PRELUDE.iter().find(|name| says(name, word)) {
            Some(name) => {
                Ok(Meaning { target: Target::Kit, constructor: KIT_CONSTRUCTORS.contains(name), through: None })
            }
            None => Err(format!("the name {word} is not known")),
        },
        _ => Err(format!("the name {word} has {} meanings", found.len())),
    }
}

/// The items of a file that a word names, and whether as a constructor.
fn own_items<'a>(definitions: &'a Definitions, word: &'a str) -> impl Iterator<Item = (usize, bool)> + 'a {
    definitions.items.iter().enumerate().filter_map(move |(at, item)| {
        if says(&item.name, word) {
            return Some((at, false));
        }
        let constructor = item.form == Form::Data && item.members().iter().any(|member| says(member, word));
        constructor.then_some((at, true))
    })
}

/// What the `use` lines give for a word, or for a path that begins with a name of theirs or with a library.
fn through_uses(project: &Project, uses: &[Use], word: &str) -> Result<Vec<Meaning>, String> {
    let mut found = Vec::new();
    for line in uses {
        for (original, local) in line.names.iter().filter(|(_, local)| says(local, word)) {
            let (target, constructor) = at_path(project, &line.path, original)?;
            let name = if original == local { original.clone() } else { format!("{original} as {local}") };
            found.push(Meaning { target, constructor, through: Some((line.path.clone(), name)) });
        }
    }
    let Some((head, name)) = word.rsplit_once('.').filter(|_| found.is_empty()) else { return Ok(found) };
    if let Some(line) = uses.iter().find(|line| line.alias.as_deref() == Some(head)) {
        let (target, constructor) = at_path(project, &line.path, name)?;
        found.push(Meaning {
            target,
            constructor,
            through: Some((format!("{} as {head}", line.path), name.to_string())),
        });
    } else if word.starts_with("Rattle.") {
        let (target, constructor) = at_path(project, head, name)?;
        found.push(Meaning { target, constructor, through: Some((head.to_string(), name.to_string())) });
    }
    Ok(found)
}

/// The item with a name at a module's path, and whether it is named as a constructor.
fn at_path(project: &Project, path: &str, name: &str) -> Result<(Target, bool), String> {
    let missing = || format!("{path} has no {name}");
    let segments: Vec<&str> = path.split('.').collect();
    let package = segments.get(1).filter(|_| segments[0] == "Rattle");
    let Some(krate) = package.and_then(|package| project.crate_named(package)) else {
        return Ok((Target::Kit, KIT_CONSTRUCTORS.contains(&name)));
    };
    match &segments[2..] {
        ["specs", "declared", kind, rest @ ..] => {
            let place = declared(project, krate, kind).ok_or_else(missing)?;
            let variants = &project.code(&place).ok_or_else(missing)?.variants;
            let as_variant = rest == ["TheVariants"] && variants.iter().any(|variant| variant == name);
            if as_variant || (rest.is_empty() && name == *kind) {
                return Ok((Target::Item(place), as_variant));
            }
            Err(missing())
        }
        [folder @ ("specs" | "proofs"), rest @ ..] => in_module(project, krate, folder, rest, name).ok_or_else(missing),
        _ => Err(missing()),
    }
}

/// The struct or enum of a crate that the specifications see under this name.
fn declared(project: &Project, krate: usize, kind: &str) -> Option<Place> {
    let mut found = project.crates[krate].code.iter().flat_map(|(file, code)| {
        let fits = |item: &rt::Item| item.name == kind && matches!(item.form, rt::Form::Struct | rt::Form::Enum);
        (0..code.items.len()).filter(move |&at| fits(&code.items[at])).map(move |item| Place {
            krate,
            file: file.clone(),
            item,
        })
    });
    let first = found.next()?;
    found.next().is_none().then_some(first)
}

/// An item of the file that the segments name, or a constructor of a type in it.
fn in_module(project: &Project, krate: usize, folder: &str, segments: &[&str], name: &str) -> Option<(Target, bool)> {
    let specs = &project.crates[krate].specs;
    for end in (1..=segments.len()).rev() {
        let file = format!("{folder}/{}.antt", segments[..end].join("/"));
        let Some(definitions) = specs.get(&file) else { continue };
        let kind = segments.get(end);
        let mut found = definitions.items.iter().enumerate().filter_map(|(at, item)| {
            let constructor = item.form == Form::Data && item.members().iter().any(|member| member == name);
            match kind {
                None if item.name == name => Some((at, false)),
                None => constructor.then_some((at, true)),
                Some(kind) => (item.name == *kind && constructor).then_some((at, true)),
            }
        });
        let (item, constructor) = found.next()?;
        return found.next().is_none().then_some((Target::Item(Place { krate, file, item }), constructor));
    }
    None
}

/// What a path of types and constants in code means. None where it is of a crate of the kit.
pub fn in_code(project: &Project, krate: usize, file: &str, path: &[String]) -> Result<Option<Place>, String> {
    let code = &project.crates[krate].code[file];
    let unknown = || format!("the name {} is not known", path.join("::"));
    let first = path.first().ok_or_else(unknown)?;
    if path.len() == 1 && rt::is_std_word(first) {
        return Ok(None);
    }
    let own = code
        .items
        .iter()
        .position(|item| item.name == *first && item.owner.is_none() && item.form != rt::Form::Function);
    if let Some(item) = own {
        let place = Place { krate, file: file.to_string(), item };
        return member_of(project, place, &path[1..]).map(Some).ok_or_else(unknown);
    }
    let mut whole: Vec<String> = path.to_vec();
    if let Some((_, used)) = code.uses.iter().find(|(local, _)| local == first) {
        whole = used.iter().chain(&path[1..]).cloned().collect();
    }
    let (home, rest) = match whole[0].as_str() {
        "crate" => (krate, &whole[1..]),
        name => match project.crate_named(name) {
            Some(home) => (home, &whole[1..]),
            None if path.len() == 1 && whole.len() == 1 => return Err(unknown()),
            None => return Ok(None),
        },
    };
    in_crate(project, home, rest).map(Some).ok_or_else(unknown)
}

/// The item of a crate at a path without the crate's name; modules on the way are passed over.
fn in_crate(project: &Project, krate: usize, path: &[String]) -> Option<Place> {
    let modules =
        path.iter().take_while(|name| project.crates[krate].code.contains_key(&format!("src/{name}.rt"))).count();
    let path = &path[modules..];
    for (file, code) in &project.crates[krate].code {
        let found = code.items.iter().position(|item| item.owner.is_none() && Some(&item.name) == path.first());
        if let Some(item) = found {
            return member_of(project, Place { krate, file: file.clone(), item }, &path[1..]);
        }
    }
    None
}

/// A type itself, its variant, or the constant that its `impl` declares.
fn member_of(project: &Project, place: Place, rest: &[String]) -> Option<Place> {
    let Some(name) = rest.first() else { return Some(place) };
    let item = project.code(&place)?;
    if item.variants.contains(name) {
        return Some(place);
    }
    for (file, code) in &project.crates[place.krate].code {
        let found =
            code.items.iter().position(|member| member.owner.as_ref() == Some(&item.name) && member.name == *name);
        if let Some(at) = found {
            return Some(Place { krate: place.krate, file: file.clone(), item: at });
        }
    }
    None
}
