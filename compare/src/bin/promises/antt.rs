//! A file of definitions and theorems (.antt), taken apart by its layout: `use` lines, and items with the headers of the modules around them.

use crate::tokens::{tokens, Kind, Token};
use crate::trees::place_of;

/// A `use` line: a path, and the names that it brings, each with the name that it has here; or a name for the whole path.
#[derive(Clone, Debug, Default)]
pub struct Use {
    pub path: String,
    pub names: Vec<(String, String)>,
    pub alias: Option<String>,
}

#[derive(Clone, Copy, Debug, PartialEq)]
pub enum Form {
    Function,
    Record,
    Data,
}

/// A definition or a theorem.
#[derive(Clone, Debug)]
pub struct Item {
    pub name: String,
    pub form: Form,
    /// `pub`, `abbrev`, `unfoldable`, `opaque`, `axiom`.
    pub marks: Vec<String>,
    /// The headers of the modules around it, outermost first: `module _ (..) where`.
    pub headers: Vec<Vec<Token>>,
    /// Its signature, marks and name too; of a record or data type all up to `where`.
    pub head: Vec<Token>,
    /// Clauses, fields or constructors.
    pub parts: Vec<Vec<Token>>,
}

impl Item {
    /// Whether it is a function without a mark: a theorem, unless a statement speaks of its value.
    pub fn is_opaque(&self) -> bool {
        self.form == Form::Function && !self.marks.iter().any(|mark| mark == "abbrev" || mark == "unfoldable")
    }

    /// The names of a data type's constructors, or of a record's fields.
    pub fn members(&self) -> Vec<String> {
        self.member_names().map(str::to_string).collect()
    }

    pub fn member_names(&self) -> impl Iterator<Item = &str> {
        let parts = if self.form == Form::Function { &[][..] } else { &self.parts[..] };
        parts.iter().flat_map(|part| member_words(part))
    }

    /// Where the name stands in the head: after the marks and `record` or `data`.
    pub fn name_place(&self) -> usize {
        self.marks.len() + usize::from(self.form != Form::Function)
    }
}

/// The names that a field or a constructor line declares.
pub fn member_names(part: &[Token]) -> Vec<String> {
    member_words(part).map(str::to_string).collect()
}

fn member_words(part: &[Token]) -> impl Iterator<Item = &str> {
    let end = place_of(part, &[":"]).unwrap_or(0);
    let words = part[..end].iter().filter(|token| token.kind == Kind::Word && token.text != "pub");
    words.map(|token| token.text.as_str())
}

/// What a file declares.
#[derive(Clone, Debug, Default)]
pub struct Definitions {
    pub uses: Vec<Use>,
    pub items: Vec<Item>,
    /// Lines of the kind `pub mod NAME`.
    pub modules: Vec<String>,
    /// The names of rulesets: lemmas that proofs ask for together, and no statement can name.
    pub rulesets: Vec<String>,
    /// What was not understood.
    pub faults: Vec<String>,
}

pub fn parse(source: &str) -> Definitions {
    let mut found = Definitions::default();
    read_block(&tokens(source), &[], &mut found);
    found
}

/// The chunks of a block: each begins at a line's first token that stands as far left as the block's first, in no bracket.
pub fn chunks(block: &[Token]) -> Vec<&[Token]> {
    let Some(first) = block.first() else { return Vec::new() };
    let mut starts: Vec<usize> = Vec::new();
    let mut depth = 0usize;
    for (at, token) in block.iter().enumerate() {
        let begins_line = at == 0 || block[at - 1].line != token.line;
        if begins_line && depth == 0 && token.column == first.column {
            starts.push(at);
        }
        match token.kind {
            Kind::Open => depth += 1,
            Kind::Close => depth = depth.saturating_sub(1),
            Kind::Word if token.text == "[" => depth += 1,
            Kind::Word if token.text == "]" => depth = depth.saturating_sub(1),
            _ => {}
        }
    }
    let ends = starts.iter().skip(1).copied().chain([block.len()]);
    starts.iter().zip(ends).map(|(&from, to)| &block[from..to]).collect()
}

const MARKS: [&str; 5] = ["pub", "abbrev", "unfoldable", "opaque", "axiom"];

/// Reads the items of a block into `found`.
pub fn read_block(block: &[Token], headers: &[Vec<Token>], found: &mut Definitions) {
    for chunk in chunks(block) {
        let marks: Vec<String> =
            chunk.iter().map(|token| token.text.clone()).take_while(|text| MARKS.contains(&text.as_str())).collect();
        let word = chunk.get(marks.len()).map_or("", |token| token.text.as_str());
        match word {
            "use" => found.uses.push(read_use(&chunk[marks.len() + 1..])),
            "mod" => found.modules.extend(chunk.last().map(|token| token.text.clone())),
            "module" => read_module(chunk, headers, found),
            "record" => read_type(chunk, Form::Record, marks, headers, found),
            "data" => read_type(chunk, Form::Data, marks, headers, found),
            "unfolding" => {}
            "ruleset" => read_ruleset(chunk, &marks, found),
            _ => read_function_part(chunk, marks, headers, found),
        }
    }
}

/// `ruleset NAME = (a, b)`, with `pub` before it or nothing.
fn read_ruleset(chunk: &[Token], marks: &[String], found: &mut Definitions) {
    let kind_at = |at: usize| chunk.get(at).map(|token| token.kind);
    let listed = marks.len() + 4;
    let named =
        kind_at(marks.len() + 1) == Some(Kind::Word) && chunk.get(marks.len() + 2).is_some_and(|t| t.is_word("="));
    let list = chunk.get(listed..chunk.len().saturating_sub(1)).unwrap_or(&[]);
    let plain =
        list.iter().enumerate().all(|(at, token)| token.kind == if at % 2 == 0 { Kind::Word } else { Kind::Comma });
    let closed = kind_at(listed - 1) == Some(Kind::Open) && chunk.last().is_some_and(|token| token.text == ")");
    if named && plain && closed && list.len() % 2 == 1 && marks.iter().all(|mark| mark == "pub") {
        found.rulesets.push(chunk[marks.len() + 1].text.clone());
    } else {
        found.faults.push(misunderstood(chunk));
    }
}

/// A module's header joins those of its items.
fn read_module(chunk: &[Token], headers: &[Vec<Token>], found: &mut Definitions) {
    let Some(end) = place_of(chunk, &["where"]).filter(|&end| end >= 2) else {
        found.faults.push(misunderstood(chunk));
        return;
    };
    let mut inner = headers.to_vec();
    inner.push(chunk[..=end].to_vec());
    read_block(&chunk[end + 1..], &inner, found);
}

/// A record or a data type.
fn read_type(chunk: &[Token], form: Form, marks: Vec<String>, headers: &[Vec<Token>], found: &mut Definitions) {
    let end = place_of(chunk, &["where"]).unwrap_or(chunk.len() - 1);
    let Some(name) = chunk.get(marks.len() + 1) else {
        found.faults.push(misunderstood(chunk));
        return;
    };
    let parts: Vec<Vec<Token>> = chunks(&chunk[end + 1..]).into_iter().map(<[Token]>::to_vec).collect();
    if let Some(part) = parts.iter().find(|part| member_names(part).is_empty()) {
        found.faults.push(misunderstood(part));
    }
    let head = chunk[..=end].to_vec();
    found.items.push(Item { name: name.text.clone(), form, marks, headers: headers.to_vec(), head, parts });
}

/// A signature, or a clause of the function whose signature came last.
fn read_function_part(chunk: &[Token], marks: Vec<String>, headers: &[Vec<Token>], found: &mut Definitions) {
    let name = &chunk[marks.len().min(chunk.len() - 1)].text;
    let colon = place_of(chunk, &[":", "="]).filter(|&at| chunk[at].text == ":" && marks.len() <= at);
    if colon.is_some_and(|at| is_signature(&chunk[marks.len()..at])) {
        let (name, head) = (name.clone(), chunk.to_vec());
        let headers = headers.to_vec();
        found.items.push(Item { name, form: Form::Function, marks, headers, head, parts: Vec::new() });
        return;
    }
    match found.items.last_mut() {
        Some(item) if item.form == Form::Function && marks.is_empty() && is_clause(chunk, &item.name) => {
            item.parts.push(chunk.to_vec());
        }
        _ => found.faults.push(misunderstood(chunk)),
    }
}

/// A name, and levels in braces or nothing.
fn is_signature(before_colon: &[Token]) -> bool {
    match before_colon {
        [name] => name.kind == Kind::Word,
        [name, open, .., close] => name.kind == Kind::Word && open.text == "{" && close.text == "}",
        _ => false,
    }
}

/// A clause begins with its function's name, or has a part of its operator on the left.
fn is_clause(chunk: &[Token], name: &str) -> bool {
    let Some(end) = place_of(chunk, &["="]) else { return false };
    chunk[0].is_word(name)
        || chunk[..end].iter().any(|token| is_operator(name) && pieces(name).any(|piece| token.is_word(piece)))
}

/// The place of an argument in an operator's name.
pub const PLACE: char = '◌';

pub fn is_operator(name: &str) -> bool {
    name.contains(PLACE)
}

/// The parts of an operator's name between its argument places.
pub fn pieces(name: &str) -> impl Iterator<Item = &str> {
    name.split(PLACE).filter(|piece| !piece.is_empty())
}

fn misunderstood(chunk: &[Token]) -> String {
    let words: Vec<&str> = chunk.iter().take(8).map(|token| token.text.as_str()).collect();
    format!("line {}: not understood: {}", chunk.first().map_or(0, |token| token.line + 1), words.join(" "))
}

/// A `use` line without its first word.
pub fn read_use(line: &[Token]) -> Use {
    let open = line.iter().position(|token| token.text == "{").unwrap_or(line.len());
    let mut path: String =
        line[..open].iter().filter(|token| token.text != ";").map(|token| token.text.as_str()).collect();
    if open == line.len() {
        let alias = line.iter().position(|token| token.is_word("as"));
        if let Some(at) = alias {
            path = line[..at].iter().map(|token| token.text.as_str()).collect();
        }
        let last = path.rsplit('.').next().map(str::to_string);
        return Use {
            alias: alias.and_then(|at| line.get(at + 1)).map(|token| token.text.clone()).or(last),
            path,
            names: Vec::new(),
        };
    }
    let close = line.iter().rposition(|token| token.text == "}").unwrap_or(line.len());
    let names = line[open + 1..close].split(|token| token.kind == Kind::Comma).filter_map(read_used_name).collect();
    Use { path: path.trim_end_matches('.').to_string(), names, alias: None }
}

/// `a`, or `a as b`.
fn read_used_name(part: &[Token]) -> Option<(String, String)> {
    let local = part.last()?.text.clone();
    let end = part.iter().position(|token| token.is_word("as")).unwrap_or(part.len());
    let original: String = part[..end].iter().map(|token| token.text.as_str()).collect();
    Some((original, local))
}

#[cfg(test)]
mod tests {
    use super::*;

    const SOURCE: &str = "\
use a.B.{c, d as e}
module _ (n : ℕ) where
  module _ {k : ℕ} where
    -- why
    pub thm : n ≡ k
        → k ≡ n
    unfolding f
    thm p = sym p

pub record R (x : A) : Type 0 where
  pub one : A
  pub two : B
";

    #[test]
    fn items_have_headers_and_parts() {
        let found = parse(SOURCE);
        assert!(found.faults.is_empty(), "{:?}", found.faults);
        assert_eq!(found.uses[0].names[1], ("d".to_string(), "e".to_string()));
        assert_eq!(found.items[0].name, "thm");
        assert_eq!(found.items[0].headers.len(), 2);
        assert_eq!(found.items[0].parts.len(), 1);
        assert_eq!(found.items[1].members(), ["one", "two"]);
    }

    #[test]
    fn rulesets_are_lists_of_names() {
        let found = parse("f : A\nf = g\npub ruleset steps = (one,\n    two)\nruleset step = (one)\n");
        assert!(found.faults.is_empty(), "{:?}", found.faults);
        assert_eq!(found.rulesets, ["steps", "step"]);
        assert_eq!((found.items.len(), found.items[0].parts.len()), (1, 1));
        let strange = [
            "ruleset",
            "ruleset r",
            "ruleset r =",
            "ruleset r = one",
            "ruleset r = ()",
            "ruleset r = (f x)",
            "axiom ruleset r = (f)",
        ];
        for source in strange {
            assert_eq!(parse(source).faults.len(), 1, "{source}");
        }
    }
}
