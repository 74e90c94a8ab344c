//! Tokens with their brackets closed.

use crate::tokens::{Kind, Token};

/// A token, or all that stands in a pair of brackets.
#[derive(Clone, Debug)]
pub enum Node {
    Word(String),
    /// The opening bracket, and what stands inside.
    Group(char, Vec<Node>),
    /// A dot, and whether it stands right behind what comes before it.
    Dot(bool),
    Semicolon,
    Comma,
    Quoted,
}

impl Node {
    pub fn is_word(&self, text: &str) -> bool {
        matches!(self, Node::Word(word) if word == text)
    }
}

/// The trees of all the tokens. Brackets that don't match are closed where the tokens end: the prover would refuse them.
pub fn trees(tokens: &[Token]) -> Vec<Node> {
    let mut at = 0;
    let mut nodes = Vec::new();
    while at < tokens.len() {
        let (mut more, next) = trees_up_to_close(tokens, at);
        nodes.append(&mut more);
        at = next + 1;
    }
    nodes
}

/// The trees from a place on up to the bracket that closes them, and the place of that bracket.
fn trees_up_to_close(tokens: &[Token], from: usize) -> (Vec<Node>, usize) {
    let mut nodes = Vec::new();
    let mut at = from;
    while at < tokens.len() {
        let token = &tokens[at];
        match token.kind {
            Kind::Close => break,
            Kind::Open => {
                let (inner, close) = trees_up_to_close(tokens, at + 1);
                nodes.push(Node::Group(if token.text == "(" { '(' } else { '{' }, inner));
                at = close;
            }
            Kind::Word => nodes.push(Node::Word(token.text.clone())),
            Kind::Dot => nodes.push(Node::Dot(!token.spaced)),
            Kind::Semicolon => nodes.push(Node::Semicolon),
            Kind::Comma => nodes.push(Node::Comma),
            Kind::Quoted => nodes.push(Node::Quoted),
        }
        at += 1;
    }
    (nodes, at)
}

/// The place of the first of these words that stands in no bracket.
pub fn place_of(tokens: &[Token], words: &[&str]) -> Option<usize> {
    let mut depth = 0usize;
    for (at, token) in tokens.iter().enumerate() {
        match token.kind {
            Kind::Open => depth += 1,
            Kind::Close => depth = depth.saturating_sub(1),
            Kind::Word if depth == 0 && words.contains(&token.text.as_str()) => return Some(at),
            _ => {}
        }
    }
    None
}
