//! The tokens of a source file, without its comments, contracts, imports and attributes.

/// A token: its line, where it starts there, and its text.
#[derive(Clone, PartialEq)]
pub struct Token {
    pub line: usize,
    pub start: usize,
    pub text: String,
}

const LONG_OPERATORS: [&str; 20] = [
    "..=", "->", "=>", "==", "!=", "<=", ">=", "&&", "||", "+=", "-=", "*=", "|=", "&=", "^=",
    "<<", ">>", "::", "..", "//",
];
const CONTRACT_WORDS: [&str; 7] = [
    "requires",
    "ensures",
    "invariant",
    "decreases",
    "ghost",
    "use",
    "mod",
];
const KEYWORDS: [&str; 18] = [
    "if", "else", "while", "for", "in", "match", "return", "let", "mut", "as", "true", "false",
    "fn", "const", "loop", "break", "continue", "ref",
];

/// All tokens of a file but those of contracts, imports and attributes.
pub fn tokens_of_file(text: &str) -> Vec<Token> {
    let mut tokens = Vec::new();
    let mut open = 0;
    for (line, text) in text.lines().enumerate() {
        let found = tokens_of(line, text);
        let contract = found
            .first()
            .is_some_and(|t| CONTRACT_WORDS.contains(&t.text.as_str()) || t.text == "#");
        if contract || open > 0 {
            // A contract may go on until its last brace.
            open += found.iter().filter(|t| t.text == "{").count();
            open -= found.iter().filter(|t| t.text == "}").count().min(open);
        } else {
            tokens.extend(found);
        }
    }
    tokens
}

/// The tokens of a line, up to its comment.
fn tokens_of(line: usize, text: &str) -> Vec<Token> {
    let mut tokens = Vec::new();
    let mut at = 0;
    while at < text.len() {
        let rest = &text[at..];
        let length = token_length(rest);
        let token = &rest[..length];
        if token == "//" {
            break;
        }
        if !token.starts_with(' ') {
            tokens.push(Token {
                line,
                start: at,
                text: token.to_string(),
            });
        }
        at += length;
    }
    tokens
}

fn token_length(rest: &str) -> usize {
    let first = rest.chars().next().unwrap();
    for quote in ["b'", "b\"", "\""] {
        if rest.starts_with(quote) {
            return quoted_length(rest, quote);
        }
    }
    if first.is_ascii_alphanumeric() || first == '_' {
        return rest
            .find(|c: char| !c.is_ascii_alphanumeric() && c != '_')
            .unwrap_or(rest.len());
    }
    let long = LONG_OPERATORS
        .iter()
        .find(|operator| rest.starts_with(**operator));
    long.map_or(first.len_utf8(), |operator| operator.len())
}

/// The length of a literal with its quotes; what follows a backslash does not end it.
fn quoted_length(rest: &str, quote: &str) -> usize {
    let end = quote.as_bytes()[quote.len() - 1];
    let bytes = rest.as_bytes();
    let mut at = quote.len();
    while at < bytes.len() && bytes[at] != end {
        at += if bytes[at] == b'\\' { 2 } else { 1 };
    }
    (at + 1).min(bytes.len())
}

/// Whether a token is a name, and neither a keyword nor a literal.
pub fn is_name(text: &str) -> bool {
    text.starts_with(|c: char| c.is_ascii_alphabetic() || c == '_')
        && !text.starts_with("b'")
        && !text.starts_with("b\"")
        && !KEYWORDS.contains(&text)
}
