//! The edits of a source file: for each token that may change, the other texts that it could have.

use crate::regions::{regions_of, Region};
use crate::tokens::{is_name, tokens_of_file, Token};

/// Another text for a token.
pub struct Edit {
    pub file: usize,
    pub in_constant: bool,
    pub line: usize,
    pub start: usize,
    pub old: String,
    pub new: String,
    pub kind: Kind,
}

/// The draw takes one of each kind in turn.
#[derive(Clone, Copy, PartialEq, Eq, Hash, PartialOrd, Ord)]
pub enum Kind {
    Comparison,
    Literal,
    Operator,
    Name,
    Field,
    Path,
}

const COMPARISONS: [&str; 6] = ["<", "<=", ">", ">=", "==", "!="];
const BIT_OPERATORS: [&str; 3] = ["&", "|", "^"];

/// All edits of a file, each token's in a row.
pub fn edits_of(file: usize, text: &str) -> Vec<Vec<Edit>> {
    let mut sites = Vec::new();
    for region in regions_of(&tokens_of_file(text)) {
        for (i, token) in region.tokens.iter().enumerate() {
            if region.fixed[i] {
                continue;
            }
            let Some((kind, news)) = others(&region, i) else {
                continue;
            };
            let edit = |new| Edit {
                file,
                in_constant: region.is_constant,
                line: token.line,
                start: token.start,
                old: token.text.clone(),
                new,
                kind,
            };
            sites.push(news.into_iter().map(edit).collect());
        }
    }
    sites
}

/// The other texts for token i.
fn others(region: &Region, i: usize) -> Option<(Kind, Vec<String>)> {
    let text = region.tokens[i].text.as_str();
    if COMPARISONS.contains(&text) {
        return Some((Kind::Comparison, all_but(&COMPARISONS, text)));
    }
    if BIT_OPERATORS.contains(&text) && is_binary(region, i) {
        return Some((Kind::Operator, all_but(&BIT_OPERATORS, text)));
    }
    let operator = match text {
        "+" => "-",
        "-" => "+",
        "+=" => "-=",
        "-=" => "+=",
        "&&" => "||",
        "||" => "&&",
        _ => "",
    };
    if !operator.is_empty() {
        return Some((Kind::Operator, vec![operator.to_string()]));
    }
    if let Some(literals) = other_literals(region, i) {
        return Some((Kind::Literal, literals));
    }
    if is_name(text) {
        return other_names(region, i);
    }
    None
}

fn all_but(texts: &[&str], text: &str) -> Vec<String> {
    texts
        .iter()
        .filter(|t| **t != text)
        .map(|t| t.to_string())
        .collect()
}

/// Whether the token stands between two operands, as a reference's `&` does not.
fn is_binary(region: &Region, i: usize) -> bool {
    i > 0 && {
        let before = region.tokens[i - 1].text.as_str();
        is_name(before) || before == ")" || before == "]"
    }
}

fn other_literals(region: &Region, i: usize) -> Option<Vec<String>> {
    let text = region.tokens[i].text.as_str();
    match text {
        "true" => return Some(vec!["false".to_string()]),
        "false" => return Some(vec!["true".to_string()]),
        _ => {}
    }
    if let Some(byte) = text.strip_prefix("b'").and_then(|t| t.strip_suffix('\'')) {
        return Some(vec![format!("b'{}'", other_byte(byte)?)]);
    }
    if let Some(word) = text.strip_prefix("b\"").and_then(|t| t.strip_suffix('"')) {
        let front = &word[..word.len().checked_sub(1)?];
        return Some(vec![format!(
            "b\"{front}{}\"",
            other_byte(&word[front.len()..])?
        )]);
    }
    if i > 0 && region.tokens[i - 1].text == "." || !text.starts_with(|c: char| c.is_ascii_digit())
    {
        return None;
    }
    let end = text
        .find(|c: char| !c.is_ascii_digit())
        .unwrap_or(text.len());
    let number: u128 = text[..end].parse().ok()?;
    let suffix = &text[end..];
    let mut literals = vec![format!("{}{suffix}", number + 1)];
    if number > 0 {
        literals.push(format!("{}{suffix}", number - 1));
    }
    Some(literals)
}

/// The byte after it; of the two that are written with a backslash, the other.
fn other_byte(byte: &str) -> Option<String> {
    match byte {
        "\\t" => Some("\\n".to_string()),
        "\\n" => Some("\\t".to_string()),
        _ if byte.len() == 1 => {
            let next = char::from(byte.as_bytes()[0] + 1);
            next.is_ascii_graphic().then(|| next.to_string())
        }
        _ => None,
    }
}

/// The names of the same sort that stand in the same function, but for those whose type is known to be another.
fn other_names(region: &Region, i: usize) -> Option<(Kind, Vec<String>)> {
    let (kind, head) = sort_of_name(&region.tokens, i)?;
    let own = &region.tokens[i].text;
    let mut names: Vec<String> = Vec::new();
    for j in 0..region.tokens.len() {
        // A name in a pattern or a type stands for no value; a case of an enum does.
        let stands = kind == Kind::Path || !region.fixed[j];
        if stands && sort_of_name(&region.tokens, j) == Some((kind, head.clone())) {
            names.push(region.tokens[j].text.clone());
        }
    }
    if kind == Kind::Name {
        names.extend(region.bound.iter().cloned());
        let known = region.types.get(own);
        names.retain(|name| {
            known.is_none() || region.types.get(name).is_none_or(|t| Some(t) == known)
        });
    }
    names.retain(|name| name != own);
    names.sort();
    names.dedup();
    Some((kind, names))
}

/// Whether the name is a variable's or constant's, a field's, or the end of a path with this head; nothing if it is
/// that of a call, a type, a pattern's case, or the label of a field.
fn sort_of_name(tokens: &[Token], i: usize) -> Option<(Kind, String)> {
    let text = |j: usize| tokens.get(j).map_or("", |t| t.text.as_str());
    let before = if i == 0 { "" } else { text(i - 1) };
    let after = text(i + 1);
    if !is_name(text(i)) || ["(", "::", "!"].contains(&after) {
        return None;
    }
    match before {
        "." => Some((Kind::Field, String::new())),
        "::" => Some((Kind::Path, text(i.checked_sub(2)?).to_string())),
        _ => {
            let is_type = text(i).starts_with(|c: char| c.is_ascii_uppercase()) && after == "{";
            let is_label = after == ":";
            let is_both =
                ["{", ","].contains(&before) && [",", "}"].contains(&after) && in_braces(tokens, i);
            (!is_type && !is_label && !is_both).then(|| (Kind::Name, String::new()))
        }
    }
}

/// Whether the innermost bracket around token i is a brace, as it is around a field that is named by its value.
fn in_braces(tokens: &[Token], i: usize) -> bool {
    let mut depth = 0;
    for token in tokens[..i].iter().rev() {
        match token.text.as_str() {
            ")" | "]" | "}" => depth += 1,
            "(" | "[" | "{" if depth > 0 => depth -= 1,
            "(" | "[" => return false,
            "{" => return true,
            _ => {}
        }
    }
    false
}
