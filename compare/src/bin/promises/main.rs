//! Holds docs/PROMISES.md, docs/STATEMENTS.txt and README.md's list of files to the sources. compare/README.md says what is checked.

#![forbid(unsafe_code)]

mod antt;
mod examine;
mod free;
mod imports;
mod layout;
mod page;
mod paths;
mod project;
mod reach;
mod resolve;
mod rt;
mod statements;
mod tokens;
mod trees;
mod weakenings;

use examine::Examined;
use std::io::{self, Write};
use std::path::Path;
use std::process::ExitCode;

const USAGE: &str = "usage: promises               holds the pages to the sources
       promises --write       writes docs/STATEMENTS.txt, and README.md's list of files to read, anew
       promises --files       prints the files to read
       promises --layout      also: what has to be read stands directly in specs/, and nothing else does
       promises --weakenings  weakens a copy of the sources in many ways, each of which has to be found";

fn main() -> ExitCode {
    let arguments: Vec<String> = std::env::args().skip(1).collect();
    let words: Vec<&str> = arguments.iter().map(String::as_str).collect();
    let root = Path::new(".");
    let done = match words[..] {
        [] => check(root, false),
        ["--layout"] => check(root, true),
        ["--write"] => write(root),
        ["--files"] => files(root),
        ["--weakenings"] => weakenings::run(root),
        _ => {
            eprintln!("{USAGE}");
            Ok(false)
        }
    };
    match done {
        Ok(true) => ExitCode::SUCCESS,
        Ok(false) => ExitCode::FAILURE,
        Err(error) => {
            eprintln!("promises: {error}");
            ExitCode::FAILURE
        }
    }
}

/// Prints a line. Whoever reads may stop before the end.
pub fn say(line: &str) {
    let _ = writeln!(io::stdout(), "{line}");
}

/// Prints each fault and the counts.
fn check(root: &Path, with_layout: bool) -> io::Result<bool> {
    let examined = Examined::read(root)?;
    let mut faults = examined.faults(root)?;
    if with_layout {
        faults.extend(layout::violations(&examined.project, &examined.reach));
    }
    print_all(&faults);
    let reach = &examined.reach;
    say(&format!("promises: {} names of docs/PROMISES.md looked up", examined.page.tried));
    let counts = (reach.contracts.len(), reach.theorems.len(), reach.definitions.len());
    let held = format!(
        "{} contracts, {} theorems and {} definitions held to docs/STATEMENTS.txt",
        counts.0, counts.1, counts.2
    );
    say(&format!("promises: {held}, {} faults", faults.len()));
    Ok(faults.is_empty())
}

fn print_all(faults: &[String]) {
    faults.iter().for_each(|fault| say(&format!("promises: {fault}")));
}

/// Writes what can be written; what then is still wrong is printed.
fn write(root: &Path) -> io::Result<bool> {
    let examined = Examined::read(root)?;
    std::fs::write(root.join(examine::STATEMENTS), &examined.statements)?;
    let readme = std::fs::read_to_string(root.join("README.md"))?;
    if let Some(text) = layout::write_readme(&examined.project, &examined.reach, &readme) {
        std::fs::write(root.join("README.md"), text)?;
    }
    let faults = examined.faults(root)?;
    print_all(&faults);
    say(&format!("promises: docs/STATEMENTS.txt is written, {} faults are left", faults.len()));
    Ok(faults.is_empty())
}

fn files(root: &Path) -> io::Result<bool> {
    let examined = Examined::read(root)?;
    layout::files(&examined.project, &examined.reach).into_values().flatten().for_each(|file| say(&file));
    Ok(true)
}
