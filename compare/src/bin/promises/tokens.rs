//! The words of a text in the language of definitions (.antt files, and the contracts of .rt files), each with its place.

/// What a token is. A name is any run of characters but spaces and `( ) { } . ; , " « »`, so operators and literals are words too.
#[derive(Clone, Copy, Debug, PartialEq)]
pub enum Kind {
    Word,
    Open,
    Close,
    Dot,
    Semicolon,
    Comma,
    Quoted,
}

/// A token: its text, the line and column where it begins (from 0), and whether a space or a line's begin stands before it.
#[derive(Clone, Debug)]
pub struct Token {
    pub kind: Kind,
    pub text: String,
    pub line: usize,
    pub column: usize,
    pub spaced: bool,
}

impl Token {
    pub fn is_word(&self, text: &str) -> bool {
        self.kind == Kind::Word && self.text == text
    }
}

/// Where the lexer stands in the text.
struct Reader<'a> {
    rest: std::iter::Peekable<std::str::Chars<'a>>,
    line: usize,
    column: usize,
}

impl Reader<'_> {
    fn take(&mut self) -> Option<char> {
        let c = self.rest.next()?;
        if c == '\n' {
            self.line += 1;
            self.column = 0;
        } else {
            self.column += 1;
        }
        Some(c)
    }

    /// Takes characters as long as they pass the test.
    fn take_while(&mut self, test: impl Fn(char) -> bool) -> String {
        let mut taken = String::new();
        while let Some(&c) = self.rest.peek() {
            if !test(c) {
                break;
            }
            taken.push(c);
            self.take();
        }
        taken
    }

    /// Passes over a block comment whose `{-` is taken, comments inside it too.
    fn block_comment(&mut self) {
        let mut depth = 1;
        let mut last = ' ';
        while depth > 0 {
            let Some(c) = self.take() else { return };
            match (last, c) {
                ('{', '-') => depth += 1,
                ('-', '}') => depth -= 1,
                _ => {}
            }
            last = c;
        }
    }

    fn quoted(&mut self) -> String {
        let mut text = String::from("\"");
        while let Some(c) = self.take() {
            text.push(c);
            if c == '\\' {
                text.extend(self.take());
            } else if c == '"' {
                break;
            }
        }
        text
    }
}

fn is_name_character(c: char) -> bool {
    !c.is_whitespace() && !"(){}.;,\"«»".contains(c)
}

fn kind_of(c: char) -> Kind {
    match c {
        '(' | '{' => Kind::Open,
        ')' | '}' => Kind::Close,
        '.' => Kind::Dot,
        ';' => Kind::Semicolon,
        ',' => Kind::Comma,
        '"' => Kind::Quoted,
        _ => Kind::Word,
    }
}

/// All tokens of a text; comments are none.
pub fn tokens(source: &str) -> Vec<Token> {
    let mut reader = Reader { rest: source.chars().peekable(), line: 0, column: 0 };
    let mut found: Vec<Token> = Vec::new();
    let mut spaced = true;
    while let Some(&c) = reader.rest.peek() {
        if c.is_whitespace() {
            reader.take();
            spaced = true;
            continue;
        }
        let (line, column) = (reader.line, reader.column);
        let kind = kind_of(c);
        let text = match c {
            '"' => {
                reader.take();
                reader.quoted()
            }
            '«' => reader.take_while(|c| c != '»') + &reader.take().map_or(String::new(), String::from),
            c if is_name_character(c) => reader.take_while(is_name_character),
            _ => reader.take().map_or(String::new(), String::from),
        };
        if text == "{" && reader.rest.peek() == Some(&'-') {
            reader.take();
            reader.block_comment();
            continue;
        }
        if text.starts_with("--") {
            reader.take_while(|c| c != '\n');
            continue;
        }
        found.push(Token { kind, text, line, column, spaced });
        spaced = false;
    }
    found
}

/// The tokens as text: single spaces, lines as in the source, each indented by how far it stands right of `column`.
pub fn as_lines(tokens: &[Token], column: usize) -> Vec<String> {
    let mut lines: Vec<String> = Vec::new();
    let mut at = usize::MAX;
    for token in tokens {
        if token.line != at {
            at = token.line;
            let indent = if lines.is_empty() { 0 } else { token.column.saturating_sub(column) };
            lines.push(" ".repeat(indent) + &token.text);
        } else if let Some(line) = lines.last_mut() {
            if token.spaced {
                line.push(' ');
            }
            line.push_str(&token.text);
        }
    }
    lines
}

/// How long a line of a page is at most.
const WIDTH: usize = 180;

/// A line, broken at spaces where it is too long: what follows begins with `indent`, and a line that goes on ends with `mark`.
pub fn wrapped(line: &str, indent: &str, mark: &str) -> Vec<String> {
    let mut lines = Vec::new();
    let mut rest = line.to_string();
    while rest.chars().count() > WIDTH {
        let begin = rest.len() - rest.trim_start().len();
        let ends = rest.char_indices().take(WIDTH + 1 - mark.len()).filter(|&(at, c)| c == ' ' && at > begin);
        let Some((at, _)) = ends.last() else { break };
        lines.push(rest[..at].to_string() + mark);
        rest = indent.to_string() + &rest[at + 1..];
    }
    lines.push(rest);
    lines
}

#[cfg(test)]
mod tests {
    use super::*;

    fn words(source: &str) -> Vec<String> {
        tokens(source).into_iter().map(|token| token.text).collect()
    }

    #[test]
    fn names_and_marks() {
        assert_eq!(words("λ x. r .field ∷ []"), ["λ", "x", ".", "r", ".", "field", "∷", "[]"]);
        assert_eq!(words("f {A = ℕ} -- why\n{- {- in -} -} g"), ["f", "{", "A", "=", "ℕ", "}", "g"]);
    }

    #[test]
    fn long_lines_are_broken_at_spaces() {
        let line = "  ".to_string() + &"word ".repeat(50);
        let lines = wrapped(line.trim_end(), "    ", " \\");
        assert_eq!(lines.len(), 2);
        assert!(lines.iter().all(|line| line.len() <= WIDTH));
        assert_eq!(lines.concat().replace(" \\   ", ""), line.trim_end());
    }

    #[test]
    fn lines_keep_their_indent() {
        let all = tokens("  f :  A\n      → B\n");
        assert_eq!(as_lines(&all, 2), ["f : A", "    → B"]);
    }
}
