//! The functions and constants of a source file: what an edit may change in them, and what is known of their names.

use crate::tokens::{is_name, Token};
use std::collections::HashMap;

/// What a function or a constant is made of.
#[derive(Default)]
pub struct Region {
    pub is_constant: bool,
    pub tokens: Vec<Token>,
    /// Which tokens stay: patterns, types, lengths of arrays.
    pub fixed: Vec<bool>,
    /// Parameters and what is bound, beside the names that stand in the tokens.
    pub bound: Vec<String>,
    pub types: HashMap<String, String>,
}

/// The functions' bodies and the constants' values of a file.
pub fn regions_of(tokens: &[Token]) -> Vec<Region> {
    let types = constant_types(tokens);
    let mut regions = Vec::new();
    let mut at = 0;
    while at < tokens.len() {
        let (opener, body) = match tokens[at].text.as_str() {
            "fn" => ("{", true),
            "const" => ("=", false),
            _ => {
                at += 1;
                continue;
            }
        };
        let Some(ahead) = tokens[at..].iter().position(|t| t.text == opener) else {
            break;
        };
        let start = at + ahead + 1;
        let end = start + region_length(&tokens[start..], body);
        let mut region = Region {
            is_constant: !body,
            tokens: tokens[start..end].to_vec(),
            types: types.clone(),
            ..Region::default()
        };
        if body {
            bind_parameters(&mut region, &tokens[at..start]);
        }
        fix_tokens(&mut region);
        regions.push(region);
        at = end;
    }
    regions
}

/// How many tokens there are before the brace that ends a body, or the semicolon that ends a value.
fn region_length(tokens: &[Token], body: bool) -> usize {
    let mut depth = 0;
    for (i, token) in tokens.iter().enumerate() {
        match token.text.as_str() {
            "}" if body && depth == 0 => return i,
            ";" if !body && depth == 0 => return i,
            "(" | "[" | "{" => depth += 1,
            ")" | "]" | "}" => depth -= 1,
            _ => {}
        }
    }
    tokens.len()
}

fn constant_types(tokens: &[Token]) -> HashMap<String, String> {
    let mut types = HashMap::new();
    for (i, token) in tokens.iter().enumerate() {
        if token.text == "const" && i + 2 < tokens.len() {
            types.insert(tokens[i + 1].text.clone(), type_text(&tokens[i + 3..]));
        }
    }
    types
}

/// A type as it is written, up to what ends it.
fn type_text(tokens: &[Token]) -> String {
    let mut text = String::new();
    let mut depth = 0;
    for token in tokens {
        match token.text.as_str() {
            "," | "=" | ")" | "{" if depth == 0 => break,
            "[" | "(" => depth += 1,
            "]" | ")" => depth -= 1,
            _ => {}
        }
        text.push_str(&token.text);
        text.push(' ');
    }
    text
}

fn bind_parameters(region: &mut Region, signature: &[Token]) {
    let Some(open) = signature.iter().position(|t| t.text == "(") else {
        return;
    };
    for i in open + 1..signature.len() {
        let name = &signature[i].text;
        if name == "self" || is_name(name) && signature.get(i + 1).is_some_and(|t| t.text == ":") {
            region.bound.push(name.clone());
            if name != "self" {
                region
                    .types
                    .insert(name.clone(), type_text(&signature[i + 2..]));
            }
        }
    }
}

/// Marks the tokens that an edit may not change, and notes what is bound.
fn fix_tokens(region: &mut Region) {
    let tokens = &region.tokens;
    let mut fixed = vec![false; tokens.len()];
    let mut open: Vec<&str> = Vec::new();
    let mut until_equals = false;
    let mut until_in = false;
    let mut in_length = 0;
    for i in 0..tokens.len() {
        let text = tokens[i].text.as_str();
        match text {
            "let" => until_equals = true,
            "=" => until_equals = false,
            "for" => until_in = true,
            "in" => until_in = false,
            "(" | "[" | "{" => open.push(text),
            ")" | "]" | "}" => {
                if open.len() == in_length {
                    in_length = 0;
                }
                open.pop();
            }
            ";" if open.last() == Some(&"[") && in_length == 0 => in_length = open.len(),
            _ => {}
        }
        let cast = i > 0 && tokens[i - 1].text == "as";
        let pattern = tokens[i..]
            .iter()
            .take_while(|t| t.line == tokens[i].line)
            .any(|t| t.text == "=>");
        fixed[i] = until_equals || until_in || in_length > 0 || cast || pattern;
        if until_in && is_name(text) {
            region.bound.push(text.to_string());
        }
        if until_equals && is_bound(tokens, i) {
            region.bound.push(text.to_string());
            if tokens.get(i + 1).is_some_and(|t| t.text == ":") {
                region
                    .types
                    .insert(text.to_string(), type_text(&tokens[i + 2..]));
            }
        }
    }
    region.fixed = fixed;
}

/// Whether a token between `let` and `=` is a name that is bound there, and none of a type or a case.
fn is_bound(tokens: &[Token], i: usize) -> bool {
    let text = &tokens[i].text;
    let in_type = tokens[..i]
        .iter()
        .rev()
        .take_while(|t| t.text != "let")
        .any(|t| t.text == ":");
    !in_type && is_name(text) && text.starts_with(|c: char| c.is_ascii_lowercase())
}
