//! A file of code (.rt): its public functions with their contracts, its structs, enums, named types and constants, and its `use` lines.

use crate::antt::{read_use, Use};
use crate::tokens::{tokens, Token};

/// A word or a mark of the code; a contract's clause is one piece.
#[derive(Clone, Debug, PartialEq)]
enum Piece {
    Word(String),
    Mark(char),
    /// `requires` or `ensures` with its braces, and between them the clause's name where it has one.
    Clause(String),
    /// What stands behind `ghost use`, up to its semicolon.
    GhostUse(String),
    Quoted(String),
}

#[derive(Clone, Copy, Debug, PartialEq)]
pub enum Form {
    Function,
    Struct,
    Enum,
    Const,
}

/// A public function, or a type or constant, public or not.
#[derive(Clone, Debug)]
pub struct Item {
    pub name: String,
    pub form: Form,
    /// The type whose `impl` it stands in.
    pub owner: Option<String>,
    /// The text, up to a function's body: lines with single spaces, `impl` line first where there is one.
    pub text: Vec<String>,
    /// Paths of types and constants that it names, segments apart; of a function of an `impl` its type too.
    pub paths: Vec<Vec<String>>,
    /// An enum's variants.
    pub variants: Vec<String>,
    /// A function's parameters.
    pub parameters: Vec<String>,
    /// A function's parameters that are types.
    pub type_parameters: Vec<String>,
    /// A function's clauses: `requires` or `ensures`, and what they say.
    pub clauses: Vec<(String, Vec<Token>)>,
}

impl Item {
    /// The name behind its owner's.
    pub fn full_name(&self) -> String {
        self.owner.iter().chain([&self.name]).cloned().collect::<Vec<_>>().join("::")
    }
}

#[derive(Clone, Debug, Default)]
pub struct Code {
    pub ghost_uses: Vec<Use>,
    /// Ordinary `use` lines: the name here, and its path.
    pub uses: Vec<(String, Vec<String>)>,
    /// Lines of the kind `pub mod NAME;`.
    pub modules: Vec<String>,
    pub items: Vec<Item>,
    /// The names of all functions, public or not.
    pub functions: Vec<String>,
    /// What was not understood, or may not stand in code.
    pub faults: Vec<String>,
}

/// A piece, the place of its first character and that after its last.
type Placed = (Piece, usize, usize);

pub fn parse(source: &str) -> Code {
    let characters: Vec<char> = source.chars().collect();
    let all = pieces(&characters);
    let mut code = Code::default();
    read_items(&characters, &all, None, &mut code);
    code
}

/// The pieces of a file; comments are none.
fn pieces(source: &[char]) -> Vec<Placed> {
    let mut found: Vec<Placed> = Vec::new();
    let mut at = after_blank(source, 0);
    while at < source.len() {
        let (piece, end) = piece_at(source, at);
        found.push((piece, at, end));
        at = after_blank(source, end);
    }
    found
}

/// The next place that is in no space and in no comment.
fn after_blank(source: &[char], from: usize) -> usize {
    let mut at = from;
    while at < source.len() {
        let next = source.get(at + 1).copied().unwrap_or(' ');
        at = match (source[at], next) {
            ('/', '/') => place_after(source, at, '\n'),
            ('/', '*') => (at + 3..source.len())
                .find(|&end| source[end] == '/' && source[end - 1] == '*')
                .map_or(source.len(), |end| end + 1),
            (c, _) if c.is_whitespace() => at + 1,
            _ => return at,
        };
    }
    at
}

/// The piece at a place, and the place after it.
fn piece_at(source: &[char], at: usize) -> (Piece, usize) {
    let c = source[at];
    if c == '"' {
        let end = end_of_quoted(source, at, '"');
        return (Piece::Quoted(text_of(&source[at..end])), end);
    }
    let lifetime = source.get(at + 1) != Some(&'\\') && source.get(at + 2) != Some(&'\'');
    if c == '\'' && !lifetime {
        let end = end_of_quoted(source, at, '\'');
        return (Piece::Quoted(text_of(&source[at..end])), end);
    }
    if !is_word_character(c) && c != '\'' {
        return (Piece::Mark(c), at + 1);
    }
    let end = (at + 1..source.len()).find(|&end| !is_word_character(source[end])).unwrap_or(source.len());
    let word = text_of(&source[at..end]);
    match word.as_str() {
        "requires" | "ensures" => {
            let end = end_of_braces(source, end);
            (Piece::Clause(text_of(&source[at..end])), end)
        }
        "ghost" => match after_use(source, end) {
            Some(from) => {
                let end = place_after(source, from, ';');
                (Piece::GhostUse(text_of(&source[from..end])), end)
            }
            None => (Piece::Word(word), end),
        },
        _ => (Piece::Word(word), end),
    }
}

/// The place after the word `use`, where that comes next.
fn after_use(source: &[char], from: usize) -> Option<usize> {
    let rest = source[after_blank(source, from)..].strip_prefix(&['u', 's', 'e'])?;
    (!rest.first().is_some_and(|&c| is_word_character(c))).then_some(source.len() - rest.len())
}

fn is_word_character(c: char) -> bool {
    c.is_alphanumeric() || c == '_'
}

fn text_of(characters: &[char]) -> String {
    characters.iter().collect()
}

/// The place after the next such character.
fn place_after(source: &[char], from: usize, c: char) -> usize {
    (from..source.len()).find(|&at| source[at] == c).map_or(source.len(), |at| at + 1)
}

fn end_of_quoted(source: &[char], from: usize, quote: char) -> usize {
    let mut at = from + 1;
    while at < source.len() && source[at] != quote {
        at += if source[at] == '\\' { 2 } else { 1 };
    }
    (at + 1).min(source.len())
}

/// The place after the brace that closes the next open one.
fn end_of_braces(source: &[char], from: usize) -> usize {
    let mut depth = 0;
    for (at, c) in source.iter().enumerate().skip(from) {
        match c {
            '{' => depth += 1,
            '}' if depth == 1 => return at + 1,
            '}' => depth -= 1,
            _ => {}
        }
    }
    source.len()
}

fn is(piece: Option<&Placed>, word: &str) -> bool {
    matches!(piece, Some((Piece::Word(text), _, _)) if text == word)
}

fn is_mark(piece: Option<&Placed>, mark: char) -> bool {
    matches!(piece, Some((Piece::Mark(c), _, _)) if *c == mark)
}

/// Reads items one after the other: those of a file, or of an `impl`.
fn read_items(source: &[char], all: &[Placed], owner: Option<(&str, &str)>, code: &mut Code) {
    let mut at = 0;
    while at < all.len() {
        let end = item_end(all, at);
        if read_one(source, &all[at..end], owner, code).is_none() {
            code.faults.push(misunderstood(source, &all[at..end]));
        }
        at = end;
    }
}

/// Reads an item; none where it isn't understood.
fn read_one(source: &[char], item: &[Placed], owner: Option<(&str, &str)>, code: &mut Code) -> Option<()> {
    if let [(Piece::GhostUse(text), _, _)] = item {
        code.ghost_uses.push(read_use(&tokens(text)));
        return Some(());
    }
    if is_mark(item.get(1), '!') && matches!(attribute(&item[1..]), Some(("tactic", _))) {
        return Some(());
    }
    let item = without_tactics(item);
    let keyword = keyword_place(item)?;
    match word_of(&item[keyword].0)? {
        "impl" | "mod" if owner.is_none() => read_inner(source, item, keyword, code),
        "use" if owner.is_none() => read_code_use(item, keyword, code),
        word if ITEMS.contains(&word) => read_item(source, item, word, keyword, owner, code),
        _ => None,
    }
}

const ITEMS: [&str; 5] = ["fn", "struct", "enum", "const", "type"];

/// An item without what only says how the prover goes about it, as the line at a file's head does: `#[tactic(..)]`.
fn without_tactics(item: &[Placed]) -> &[Placed] {
    match attribute(item) {
        Some(("tactic", length)) => without_tactics(&item[length..]),
        _ => item,
    }
}

/// The first word of an attribute that stands first, and its length; of `#![..]` without its first mark.
fn attribute(item: &[Placed]) -> Option<(&str, usize)> {
    let begins = (is_mark(item.first(), '#') || is_mark(item.first(), '!')) && is_mark(item.get(1), '[');
    let name = item.get(2).filter(|_| begins).and_then(|(piece, _, _)| word_of(piece))?;
    let end = item.iter().position(|piece| is_mark(Some(piece), ']'))?;
    Some((name, end + 1))
}

/// The place of the word that says what an item is: only `#[unsafe(no_mangle)]`, `#[derive(..)]`, `pub`, `extern "C"` and, of a function, `const` may stand
/// before it.
fn keyword_place(item: &[Placed]) -> Option<usize> {
    let mut at = match attribute(item) {
        Some(("derive", length)) => length,
        Some(("unsafe", 7)) if is(item.get(4), "no_mangle") => 7,
        _ => 0,
    };
    at += usize::from(is(item.get(at), "pub"));
    let quoted = matches!(item.get(at + 1), Some((Piece::Quoted(_), _, _)));
    if is(item.get(at), "extern") && quoted && is(item.get(at + 2), "fn") {
        at += 2;
    }
    at += usize::from(is(item.get(at), "const") && is(item.get(at + 1), "fn"));
    (at < item.len()).then_some(at)
}

fn misunderstood(source: &[char], item: &[Placed]) -> String {
    let from = item[0].1;
    let line = source[..from].iter().filter(|&&c| c == '\n').count() + 1;
    let text: String = source[from..].iter().take_while(|&&c| c != '\n').take(60).collect();
    format!("line {line}: not understood: {text}")
}

/// An item ends with a semicolon, or with the brace that closes its own; a ghost line is one piece, and `#![..]` an item by itself.
fn item_end(all: &[Placed], from: usize) -> usize {
    if matches!(all[from].0, Piece::GhostUse(_)) {
        return from + 1;
    }
    if is_mark(all.get(from), '#') && is_mark(all.get(from + 1), '!') {
        return (from..all.len()).find(|&at| is_mark(all.get(at), ']')).map_or(all.len(), |at| at + 1);
    }
    let (mut round, mut curly) = (0, 0);
    for (at, (piece, _, _)) in all.iter().enumerate().skip(from) {
        match piece {
            Piece::Mark('(' | '[') => round += 1,
            Piece::Mark(')' | ']') => round -= 1,
            Piece::Mark('{') => curly += 1,
            Piece::Mark('}') => {
                curly -= 1;
                if curly == 0 && !is_mark(all.get(at + 1), ';') {
                    return at + 1;
                }
            }
            Piece::Mark(';') if round == 0 && curly == 0 => return at + 1,
            _ => {}
        }
    }
    all.len()
}

/// `use a::b::C;`, `use a::C as D;`, `use a::{C, D};`.
fn read_code_use(item: &[Placed], keyword: usize, code: &mut Code) -> Option<()> {
    let (last, line) = item[keyword + 1..].split_last()?;
    let open = line.iter().position(|piece| is_mark(Some(piece), '{')).unwrap_or(line.len());
    let (path, group) = (words_of(&line[..open])?, &line[open..]);
    let names = match group {
        [] => vec![Vec::new()],
        [_, inner @ .., close] if is_mark(Some(close), '}') => {
            let parts = inner.split(|piece| is_mark(Some(piece), ',')).filter(|part| !part.is_empty());
            parts.map(words_of).collect::<Option<Vec<_>>>()?
        }
        _ => return None,
    };
    if !is_mark(Some(last), ';') {
        return None;
    }
    for name in names {
        let words = [path.clone(), name].concat();
        let end = words.iter().position(|word| word == "as").unwrap_or(words.len());
        let local = words.last()?;
        if keyword > 0 {
            code.faults.push(format!("pub use {local}: a public name that docs/PROMISES.md can't have a row for"));
        }
        code.uses.push((local.clone(), words[..end].to_vec()));
    }
    Some(())
}

/// The words of a plain path; none where there is anything else in it.
fn words_of(path: &[Placed]) -> Option<Vec<String>> {
    let plain = path.iter().all(|(piece, _, _)| matches!(piece, Piece::Word(_) | Piece::Mark(':')));
    plain.then(|| path.iter().filter_map(|(piece, _, _)| word_of(piece)).map(str::to_string).collect())
}

fn word_of(piece: &Piece) -> Option<&str> {
    match piece {
        Piece::Word(word) => Some(word),
        _ => None,
    }
}

/// What stands in the braces of an `impl` or a module, or the name of a module that is a file of its own.
fn read_inner(source: &[char], item: &[Placed], keyword: usize, code: &mut Code) -> Option<()> {
    let is_impl = is(item.get(keyword), "impl");
    let open = item.iter().position(|piece| is_mark(Some(piece), '{')).unwrap_or(item.len());
    let said = &item[keyword + 1..open];
    let mut words = said.iter().filter_map(|(piece, _, _)| word_of(piece));
    if words.clone().any(|word| word == "for") {
        return None;
    }
    let name = words.find(|word| !word.starts_with('\''))?.to_string();
    if open == item.len() {
        let alone = said.len() == 2 && is_mark(said.last(), ';');
        code.modules.push(name);
        return (!is_impl && alone).then_some(());
    }
    if !is_mark(item.last(), '}') {
        return None;
    }
    let header = normal_lines(source, item[0].1, item[open].1).join(" ");
    let owner = is_impl.then_some((name.as_str(), header.as_str()));
    read_items(source, &item[open + 1..item.len() - 1], owner, code);
    Some(())
}

/// A public function, a type or a constant (a named type is read as one). Of other functions only the name counts: they are no part of what is promised.
fn read_item(
    source: &[char],
    item: &[Placed],
    word: &str,
    keyword: usize,
    owner: Option<(&str, &str)>,
    code: &mut Code,
) -> Option<()> {
    let form = match word {
        "fn" => Form::Function,
        "struct" => Form::Struct,
        "enum" => Form::Enum,
        _ => Form::Const,
    };
    let public = item[..keyword].iter().any(|piece| is(Some(piece), "pub"));
    let name = item.get(keyword + 1).and_then(|(piece, _, _)| word_of(piece))?;
    let has_ghost = item.iter().any(|piece| is(Some(piece), "ghost") || matches!(piece.0, Piece::GhostUse(_)));
    let has_end = is_mark(item.last(), '}') || (form != Form::Function && is_mark(item.last(), ';'));
    if has_ghost || !has_end {
        return None;
    }
    if form == Form::Function {
        code.functions.push(name.to_string());
        if !public {
            return Some(());
        }
    }
    let body = if form == Form::Function { item.iter().position(|piece| is_mark(Some(piece), '{')) } else { None };
    let said = &item[..body.unwrap_or(item.len())];
    let end = body.map_or(item[item.len() - 1].2, |at| item[at].1);
    let mut text: Vec<String> = owner.iter().map(|(_, header)| header.to_string()).collect();
    let indent = if owner.is_some() { "  " } else { "" };
    text.extend(lines_of(source, item, end).into_iter().map(|line| indent.to_string() + &line));
    let type_parameters = if form == Form::Function { type_parameters(&said[keyword + 2..])? } else { Vec::new() };
    let (mut paths, variants, mut parameters) = names_in(&said[keyword + 2..], form);
    paths.retain(|path| path.len() > 1 || !type_parameters.contains(&path[0]));
    parameters.retain(|name| !type_parameters.contains(name));
    let clauses = said.iter().filter_map(|(piece, _, _)| clause_of(piece)).collect();
    let owner = owner.map(|(name, _)| name.to_string());
    if form == Form::Function {
        paths.extend(owner.iter().map(|name| vec![name.clone()]));
    }
    code.items.push(Item {
        name: name.to_string(),
        form,
        owner,
        text,
        paths,
        variants,
        parameters,
        type_parameters,
        clauses,
    });
    Some(())
}

/// The types among what stands in angle brackets right behind a function's name: `<'a, F: FnOnce(u8) -> E, T>` has F and T. None where it isn't understood.
fn type_parameters(said: &[Placed]) -> Option<Vec<String>> {
    let mut found = Vec::new();
    if !is_mark(said.first(), '<') {
        return Some(found);
    }
    let (mut depth, mut begins) = (0, false);
    for (at, (piece, _, _)) in said.iter().enumerate() {
        let before = at.checked_sub(1).and_then(|at| said.get(at));
        match piece {
            Piece::Mark('<' | '(' | '[') => depth += 1,
            Piece::Mark('>') if is_mark(before, '-') => {}
            Piece::Mark('>' | ')' | ']') => depth -= 1,
            Piece::Word(word) if begins && !word.starts_with('\'') => {
                let ends = matches!(said.get(at + 1), Some((Piece::Mark(':' | ',' | '>'), _, _)));
                if is_code_word(word) || !ends {
                    return None;
                }
                found.push(word.clone());
            }
            Piece::Word(_) | Piece::Mark(_) => {}
            _ => return None,
        }
        if depth == 0 {
            return Some(found);
        }
        begins = depth == 1 && matches!(piece, Piece::Mark('<' | ','));
    }
    None
}

/// An item's lines up to a place. Its attribute stands on its first line.
fn lines_of(source: &[char], item: &[Placed], end: usize) -> Vec<String> {
    let Some((_, length)) = attribute(item) else { return normal_lines(source, item[0].1, end) };
    let said = normal_lines(source, item[0].1, item[length - 1].2).join(" ");
    let mut lines = item.get(length).map_or(Vec::new(), |piece| normal_lines(source, piece.1, end));
    match lines.first_mut() {
        Some(first) => first.insert_str(0, &(said + " ")),
        None => lines.push(said),
    }
    lines
}

/// The lines from a place to another without comments, with single spaces; each keeps how far it is indented beyond the first.
fn normal_lines(source: &[char], from: usize, to: usize) -> Vec<String> {
    let begin = source[..from].iter().rposition(|&c| c == '\n').map_or(0, |at| at + 1);
    let whole = text_of(&source[begin..to]);
    let lines = whole
        .lines()
        .map(|line| line.split("//").next().unwrap_or("").trim_end())
        .filter(|line| !line.trim().is_empty());
    let indent_of = |line: &str| line.len() - line.trim_start().len();
    let one_space = |line: &str| line.split_whitespace().collect::<Vec<_>>().join(" ");
    lines.map(|line| " ".repeat(indent_of(line).saturating_sub(from - begin)) + &one_space(line)).collect()
}

fn clause_of(piece: &Piece) -> Option<(String, Vec<Token>)> {
    let Piece::Clause(text) = piece else { return None };
    let (word, rest) = text.split_at(text.find('{')?);
    let word = word.split_whitespace().next()?.to_string();
    let said = rest.trim().strip_prefix('{')?.strip_suffix('}')?;
    Some((word, tokens(said)))
}

/// The paths, variants and parameters that an item names after its own name.
fn names_in(said: &[Placed], form: Form) -> (Vec<Vec<String>>, Vec<String>, Vec<String>) {
    let (mut paths, mut variants, mut parameters) = (Vec::new(), Vec::new(), Vec::new());
    let (mut at, mut depth) = (0, 0);
    let mut begins = false;
    while at < said.len() {
        match &said[at].0 {
            Piece::Mark('{' | '(' | '[') => {
                depth += 1;
                begins = depth == 1;
            }
            Piece::Mark('}' | ')' | ']') => depth -= 1,
            Piece::Mark(',') => begins = depth == 1,
            Piece::Word(word) if is_code_word(word) => {}
            Piece::Word(word) => {
                let (path, end) = path_at(said, at, word);
                let labels = is_mark(said.get(end), ':');
                if form == Form::Enum && begins && depth == 1 {
                    variants.push(word.clone());
                } else if labels && form == Form::Function {
                    parameters.push(word.clone());
                } else if !labels {
                    paths.push(path);
                }
                begins = false;
                at = end - 1;
            }
            _ => {}
        }
        at += 1;
    }
    (paths, variants, parameters)
}

/// `a::b::c` from a place on, and the place after it.
fn path_at(said: &[Placed], from: usize, first: &str) -> (Vec<String>, usize) {
    let mut path = vec![first.to_string()];
    let mut at = from + 1;
    while is_mark(said.get(at), ':') && is_mark(said.get(at + 1), ':') {
        let Some(word) = said.get(at + 2).and_then(|(piece, _, _)| word_of(piece)) else { break };
        path.push(word.to_string());
        at += 3;
    }
    (path, at)
}

/// Types and traits of std that are there without a `use` line. No file declares or brings one of them.
pub fn is_std_word(word: &str) -> bool {
    ["Option", "Result", "FnOnce"].contains(&word)
}

/// Words that name no item: those of the language, its own types, numbers and lifetimes.
pub fn is_code_word(word: &str) -> bool {
    const WORDS: [&str; 20] = [
        "pub", "mut", "self", "Self", "bool", "u8", "u16", "u32", "u64", "usize", "i8", "i16", "i32", "i64", "isize",
        "u128", "i128", "str", "as", "impl",
    ];
    WORDS.contains(&word) || word.starts_with(|c: char| c.is_ascii_digit() || c == '\'')
}

#[cfg(test)]
mod tests {
    use super::*;

    const SOURCE: &str = "\
#![tactic(auto)]
ghost use a.B.{c};
use method::{Held, Party};

#[derive(Clone, Copy)]
pub enum E {
    One(Cell, i32),
    Two { at: Held },
}

impl Rack {
    pub const N: usize = slots::SLOTS;

    // why
    #[tactic(auto, using(crate::proofs::Laws::n))]
    pub fn made(n: u32, rack: &mut [Rack; 8]) -> Made
        requires { n ≤ 4 }
        ensures value { result ≡ f (record { n = n }) }
    {
        if n < 1 { return '{'; }
    }
}
";

    #[test]
    fn items_of_code() {
        let code = parse(SOURCE);
        let names: Vec<String> = code.items.iter().map(Item::full_name).collect();
        assert_eq!(names, ["E", "Rack::N", "Rack::made"]);
        assert_eq!(code.items[0].variants, ["One", "Two"]);
        assert_eq!(code.items[0].text[0], "#[derive(Clone, Copy)] pub enum E {");
        assert_eq!(code.items[0].paths, [["Cell"], ["Held"]]);
        assert_eq!(code.items[1].paths, [["slots", "SLOTS"]]);
        assert_eq!(code.items[2].parameters, ["n", "rack"]);
        assert_eq!(code.items[2].paths, [["Rack"], ["Made"], ["Rack"]]);
        assert_eq!(code.items[2].clauses.len(), 2);
        assert_eq!(code.items[2].text[1], "  pub fn made(n: u32, rack: &mut [Rack; 8]) -> Made");
        assert_eq!(code.uses[1].1, ["method", "Party"]);
        assert!(code.faults.is_empty(), "{:?}", code.faults);
    }

    #[test]
    fn parts_of_named_types_and_numbers_of_variants() {
        let code = parse("pub type Found = Result<(Entry, usize), Refusal>;\n#[derive(Debug)]\npub enum Refusal {\n    One = 1,\n    Two = LIMIT,\n}");
        assert!(code.faults.is_empty(), "{:?}", code.faults);
        assert_eq!(code.items[0].paths, [["Result"], ["Entry"], ["Refusal"]]);
        assert_eq!(code.items[0].text, ["pub type Found = Result<(Entry, usize), Refusal>;"]);
        assert_eq!(code.items[1].variants, ["One", "Two"]);
        assert_eq!(code.items[1].paths, [["LIMIT"]]);
        assert!(code.items[1].text.iter().any(|line| line.trim() == "One = 1,"));
    }

    #[test]
    fn parameters_that_are_types() {
        let code = parse(
            "pub fn answer<'a, F: FnOnce(&[u8], Ending) -> Back, T>(input: &mut impl Read, say: F, t: Option<T>) {}",
        );
        assert!(code.faults.is_empty(), "{:?}", code.faults);
        assert_eq!(code.items[0].type_parameters, ["F", "T"]);
        assert_eq!(code.items[0].parameters, ["input", "say", "t"]);
        assert_eq!(code.items[0].paths, [["FnOnce"], ["Ending"], ["Back"], ["Read"], ["Option"]]);
    }

    #[test]
    fn what_is_not_understood_is_a_fault() {
        let strange = [
            "extern \"C\" {\n    fn f(n: u32) -> u32;\n}",
            "axiom fn f(n: u32) -> u32;",
            "impl T for Foo {}",
            "impl Foo {",
            "impl {}",
            "impl",
            "pub trait T {}",
            "pub fn f();",
            "pub fn",
            "pub use a::b as c;",
            "use a::{b, c::{d}};",
            "use a::*;",
            "use a::{b, *};",
            "ghost fn f() {}",
            "fn f() { ghost use a.{b}; }",
            "#[cfg(test)] pub fn f() {}",
            "#[derive(Drop)] #[cfg(test)] pub fn f() {}",
            "#[unsafe(naked)] pub fn f() {}",
            "#![allow(x)]",
            "}",
            "pub struct",
            "enum E {",
            "pub fn f() ensures",
            "pub fn f<const N: usize>() {}",
            "pub fn f<F() {}",
            "pub fn f<u8>() {}",
        ];
        for source in strange {
            assert_eq!(parse(source).faults.len(), 1, "{source}");
        }
    }

    #[test]
    fn spaces_in_a_ghost_line() {
        let code = parse("ghost  use lib.A.{b};\nghost\n /* why */ use lib.C.{d};");
        let paths: Vec<&str> = code.ghost_uses.iter().map(|line| line.path.as_str()).collect();
        assert_eq!(paths, ["lib.A", "lib.C"]);
    }
}
