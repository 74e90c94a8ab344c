//! The free names of an item: those that it neither binds nor has from the language.

use crate::antt::{is_operator, member_names, pieces, read_block, Definitions, Form, Item};
use crate::tokens::Token;
use crate::trees::{place_of, trees, Node};

/// Words and marks of the language, which no file declares. `×` forms pairs, `Type` is followed by a level.
const LANGUAGE: [&str; 17] =
    [":", "=", "→", "×", "λ", "let", "in", "record", "elim", "as", "Type", "_", "[", "]", "|", "↦", "⊔"];

/// A walk over an item's trees. What it needs to know of names is only which are constructors: in a pattern those are uses, all others binders.
pub struct Walk<'a> {
    is_constructor: &'a dyn Fn(&str) -> bool,
    bound: Vec<String>,
    /// The free names, each as it is written; a path keeps its dots.
    pub found: Vec<String>,
}

impl<'a> Walk<'a> {
    pub fn new(is_constructor: &'a dyn Fn(&str) -> bool) -> Walk<'a> {
        Walk { is_constructor, bound: Vec::new(), found: Vec::new() }
    }

    pub fn bind(&mut self, name: &str) {
        self.bound.push(name.to_string());
    }

    /// All of an item: the headers around it, its statement, and its parts unless only the statement counts.
    pub fn item(&mut self, item: &Item, with_parts: bool) {
        let outside = self.bound.len();
        for header in &item.headers {
            self.telescope(&trees(&header[2..header.len() - 1]));
        }
        let head = &item.head[item.name_place() + 1..];
        match item.form {
            Form::Function => {
                let mark = self.bound.len();
                let colon = place_of(head, &[":"]).unwrap_or(0);
                self.levels(&trees(&head[..colon]));
                self.expression(&trees(&head[colon..]));
                if with_parts {
                    item.parts.iter().for_each(|clause| self.clause(clause, &item.name));
                }
                self.bound.truncate(mark);
            }
            Form::Record | Form::Data => self.type_item(item, head),
        }
        self.bound.truncate(outside);
    }

    /// Level names, in braces right after a name.
    fn levels(&mut self, nodes: &[Node]) {
        for node in nodes {
            if let Node::Group('{', inner) = node {
                inner.iter().for_each(|level| self.pattern_node(level));
            }
        }
    }

    /// The parameters of a record or data type, its kind, then its fields, each in the sight of the earlier ones, or its constructors.
    fn type_item(&mut self, item: &Item, head: &[Token]) {
        let head = &head[..place_of(head, &["where"]).unwrap_or(head.len())];
        let colon = place_of(head, &[":"]).unwrap_or(head.len());
        self.telescope(&trees(&head[..colon]));
        self.expression(&trees(&head[colon..]));
        for part in &item.parts {
            let colon = place_of(part, &[":"]).unwrap_or(0);
            self.expression(&trees(&part[colon..]));
            if item.form == Form::Record {
                member_names(part).iter().for_each(|name| self.bind(name));
            }
        }
    }

    /// Binders one after the other. They stay bound.
    fn telescope(&mut self, nodes: &[Node]) {
        for node in nodes {
            match node {
                Node::Group(_, inner) => match binder(inner) {
                    Some((names, kind)) => self.bind_all(names, kind),
                    None => inner.iter().for_each(|level| self.pattern_node(level)),
                },
                other => self.expression(std::slice::from_ref(other)),
            }
        }
    }

    fn bind_all(&mut self, names: &[Node], kind: &[Node]) {
        self.expression(kind);
        for name in names {
            if let Node::Word(word) = name {
                self.bind(word);
            }
        }
    }

    /// A clause: its patterns, its body, and the helpers of its `where` block.
    fn clause(&mut self, clause: &[Token], function: &str) {
        let mark = self.bound.len();
        let equals = place_of(clause, &["="]).unwrap_or(clause.len() - 1);
        for node in trees(&clause[..equals]) {
            if !matches!(&node, Node::Word(word) if word == function || is_operator(function) && pieces(function).any(|piece| piece == word))
            {
                self.pattern_node(&node);
            }
        }
        let body = &clause[equals + 1..];
        let end = place_of(body, &["where"]).unwrap_or(body.len());
        let mut helpers = Definitions::default();
        read_block(body.get(end + 1..).unwrap_or(&[]), &[], &mut helpers);
        helpers.items.iter().for_each(|helper| self.bind(&helper.name));
        helpers.items.iter().for_each(|helper| self.item(helper, true));
        self.found.append(&mut helpers.faults);
        self.expression(&trees(&body[..end]));
        self.bound.truncate(mark);
    }

    /// An expression; what it binds is bound in it alone.
    pub fn expression(&mut self, nodes: &[Node]) {
        let mark = self.bound.len();
        let mut at = 0;
        while at < nodes.len() {
            at = self.up_to(nodes, at, &[]).max(at + 1);
        }
        self.bound.truncate(mark);
    }

    /// Walks on up to one of the words in `stops`, or to the end. What is bound on the way stays bound.
    fn up_to(&mut self, nodes: &[Node], from: usize, stops: &[&str]) -> usize {
        let mut at = from;
        while at < nodes.len() {
            at = match &nodes[at] {
                Node::Word(word) if stops.contains(&word.as_str()) => return at,
                Node::Word(word) if word == "λ" => self.lambda(nodes, at + 1),
                Node::Word(word) if word == "let" => self.let_in(nodes, at + 1),
                Node::Word(word) if word == "[" => self.cases(nodes, at + 1),
                Node::Word(word) if word == "record" => self.record(nodes, at + 1),
                Node::Word(word) => self.word(word, nodes, at + 1),
                Node::Group(open, inner) => self.group(*open, inner, at + 1),
                // a projection: the field is its record's
                Node::Dot(_) => at + 2,
                Node::Semicolon | Node::Comma | Node::Quoted => at + 1,
            };
        }
        nodes.len()
    }

    /// A word, and the path that it begins where dots follow it without a space: one of modules, or projections of what the word names.
    fn word(&mut self, word: &str, nodes: &[Node], next: usize) -> usize {
        let mut path = word.to_string();
        let mut at = next;
        while let (Some(Node::Dot(true)), Some(Node::Word(more))) = (nodes.get(at), nodes.get(at + 1)) {
            path = path + "." + more;
            at += 2;
        }
        if !is_language(word) && !self.is_bound(word) {
            self.found.push(path);
        }
        at
    }

    fn is_bound(&self, word: &str) -> bool {
        self.bound.iter().any(|name| name == word || (is_operator(name) && pieces(name).any(|piece| piece == word)))
    }

    /// What stands in brackets: a binder for all that follows, an argument by name, or expressions with commas between.
    fn group(&mut self, open: char, inner: &[Node], next: usize) -> usize {
        if let Some((names, kind)) = binder(inner) {
            self.bind_all(names, kind);
        } else if open == '{' && inner.get(1).is_some_and(|node| node.is_word("=")) {
            self.expression(&inner[2..]);
        } else {
            inner.split(|node| matches!(node, Node::Comma)).for_each(|part| self.expression(part));
        }
        next
    }

    /// The binders of a `λ`, up to their dot.
    fn lambda(&mut self, nodes: &[Node], from: usize) -> usize {
        let end = (from..nodes.len()).find(|&at| matches!(nodes[at], Node::Dot(_))).unwrap_or(nodes.len());
        nodes[from..end].iter().for_each(|node| self.pattern_node(node));
        end + 1
    }

    /// `let x = e in`, `let x : T = e in`; x is bound in what follows.
    fn let_in(&mut self, nodes: &[Node], from: usize) -> usize {
        let mark = self.bound.len();
        let name_end =
            (from..nodes.len()).find(|&at| nodes[at].is_word(":") || nodes[at].is_word("=")).unwrap_or(nodes.len());
        let equals = self.up_to(nodes, name_end, &["="]);
        self.bound.truncate(mark);
        let end = self.up_to(nodes, equals + 1, &["in"]);
        self.bound.truncate(mark);
        nodes[from..name_end].iter().for_each(|node| self.pattern_node(node));
        end + 1
    }

    /// The cases of an `elim`: `[ pattern ↦ body | .. ]`.
    fn cases(&mut self, nodes: &[Node], from: usize) -> usize {
        let mut at = from;
        while at < nodes.len() && !nodes[at].is_word("]") {
            let mark = self.bound.len();
            let arrow = (at..nodes.len()).find(|&at| nodes[at].is_word("↦")).unwrap_or(nodes.len());
            nodes[at..arrow].iter().for_each(|node| self.pattern_node(node));
            at = self.up_to(nodes, arrow + 1, &["|", "]"]);
            self.bound.truncate(mark);
            if at < nodes.len() && nodes[at].is_word("|") {
                at += 1;
            }
        }
        at + 1
    }

    /// A record's value, `record { x = a; .. }`, or a type without a name, `record { x : A; .. }`.
    fn record(&mut self, nodes: &[Node], from: usize) -> usize {
        let Some(Node::Group('{', inner)) = nodes.get(from) else { return from };
        let mark = self.bound.len();
        for part in inner.split(|node| matches!(node, Node::Semicolon)) {
            match part {
                [Node::Word(_), equals, value @ ..] if equals.is_word("=") => self.expression(value),
                [Node::Word(name), colon, kind @ ..] if colon.is_word(":") => {
                    self.expression(kind);
                    self.bind(name);
                }
                other => self.expression(other),
            }
        }
        self.bound.truncate(mark);
        from + 1
    }

    /// A pattern: constructors are uses, all other names are bound.
    fn pattern_node(&mut self, node: &Node) {
        match node {
            Node::Word(word) if is_language(word) => {}
            Node::Word(word) if (self.is_constructor)(word) => self.found.push(word.clone()),
            Node::Word(word) => self.bind(word),
            Node::Group(_, inner) => match binder(inner) {
                Some((names, kind)) => self.bind_all(names, kind),
                None if inner.get(1).is_some_and(|node| node.is_word("=")) => self.record_pattern(inner),
                None => inner.iter().for_each(|node| self.pattern_node(node)),
            },
            _ => {}
        }
    }

    /// `{ x = pattern; .. }`: the names on the left are fields or implicit parameters.
    fn record_pattern(&mut self, inner: &[Node]) {
        for part in inner.split(|node| matches!(node, Node::Semicolon)) {
            part.iter().skip(2).for_each(|node| self.pattern_node(node));
        }
    }
}

/// Names, a colon and a type: the names and the type.
fn binder(inner: &[Node]) -> Option<(&[Node], &[Node])> {
    let colon = inner.iter().position(|node| node.is_word(":"))?;
    let (names, kind) = inner.split_at(colon);
    names.iter().all(|node| matches!(node, Node::Word(_))).then_some((names, &kind[1..]))
}

/// A word of the language, or a number.
pub fn is_language(word: &str) -> bool {
    LANGUAGE.contains(&word) || word.starts_with(|c: char| c.is_ascii_digit())
}

#[cfg(test)]
mod tests {
    use super::*;
    use crate::antt::parse;

    fn free(source: &str) -> Vec<String> {
        let constructors = |word: &str| ["suc", "zero", "Go", "∷"].contains(&word);
        let mut walk = Walk::new(&constructors);
        parse(source).items.iter().for_each(|item| walk.item(item, true));
        walk.found.sort();
        walk.found.dedup();
        walk.found
    }

    #[test]
    fn binders_are_not_free() {
        assert_eq!(
            free("t : (x y : A) → {z : B x} → P x y .held z\nt x y (Go p) = let q : C = f x in λ w. (q, w, p .r.s)"),
            ["A", "B", "C", "Go", "P", "f"]
        );
        assert_eq!(free("f : List N\nf = record { a = g; b = h {A = K} }"), ["K", "List", "N", "g", "h"]);
        assert_eq!(
            free("module _ (n : M) where\n  pub t : n ≡ k\n  t = elim n [ zero ↦ u | suc m ↦ m ]"),
            ["M", "k", "suc", "u", "zero", "≡"]
        );
    }

    #[test]
    fn later_fields_see_earlier_ones() {
        assert_eq!(free("record R (p : A) : Type 0 where\n  pub a : B p\n  pub c : D a"), ["A", "B", "D"]);
    }

    #[test]
    fn helpers_are_bound() {
        assert_eq!(free("f : A\nf = go x\n  where\n    go : B\n    go = y"), ["A", "B", "x", "y"]);
    }
}
