//! One look at the sources and the pages, and all that is wrong with them.

use crate::layout;
use crate::page::{self, Page};
use crate::paths;
use crate::project::Project;
use crate::reach::Reach;
use crate::statements;
use std::fs;
use std::io;
use std::path::Path;

pub const STATEMENTS: &str = "docs/STATEMENTS.txt";

pub struct Examined {
    pub project: Project,
    pub page: Page,
    pub reach: Reach,
    /// What docs/STATEMENTS.txt has to say.
    pub statements: String,
}

impl Examined {
    pub fn read(root: &Path) -> io::Result<Examined> {
        let project = Project::read(root)?;
        let page = page::read(&project, &fs::read_to_string(root.join("docs/PROMISES.md"))?);
        let reach = Reach::from(&project, &page.named);
        let statements = statements::write(&project, &reach);
        Ok(Examined { project, page, reach, statements })
    }

    /// What was not understood, what the page names wrongly, what differs from docs/STATEMENTS.txt and from README.md's list, and
    /// files that other pages name wrongly.
    pub fn faults(&self, root: &Path) -> io::Result<Vec<String>> {
        let mut faults = self.project.faults.clone();
        faults.extend_from_slice(&self.page.faults);
        faults.extend_from_slice(&self.reach.faults);
        faults.extend(self.unproved());
        faults.extend(paths::faults(&self.project, root)?);
        let stands = fs::read_to_string(root.join(STATEMENTS)).unwrap_or_default();
        faults.extend(statements::differences(&stands, &self.statements));
        let readme = fs::read_to_string(root.join("README.md"))?;
        faults.extend(layout::check_readme(&self.project, &self.reach, &readme));
        Ok(faults)
    }

    /// Theorems without a proof, and axioms. The prover refuses the first; the second would be promised and not proved.
    fn unproved(&self) -> Vec<String> {
        let mut faults = Vec::new();
        for place in self.reach.theorems.iter().chain(&self.reach.definitions) {
            let Some(item) = self.project.definition(place) else { continue };
            let assumed = item.marks.iter().any(|mark| mark == "axiom");
            if assumed || (item.form == crate::antt::Form::Function && item.parts.is_empty()) {
                faults.push(format!("{}: {} has no proof", self.project.path_of(place.krate, &place.file), item.name));
            }
        }
        faults
    }
}
