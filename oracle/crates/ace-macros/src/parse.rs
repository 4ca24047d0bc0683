//! Reads an enum with `frame` attributes from its tokens.

use proc_macro::{Delimiter, TokenStream, TokenTree};

use crate::frame_arguments;

pub struct Enum {
    pub name: String,
    pub error: String,
    pub variants: Vec<Variant>,
}

#[derive(Default)]
pub struct Variant {
    pub name: String,
    pub pattern: String,
    pub field: Option<String>,
    pub decode_inner: bool,
}

pub fn parse_enum(input: TokenStream) -> Enum {
    let mut error = None;
    let mut name = None;
    let mut variants = Vec::new();
    let mut tokens = input.into_iter();
    while let Some(token) = tokens.next() {
        match token {
            TokenTree::Group(g) if g.delimiter() == Delimiter::Bracket => {
                let arguments = frame_arguments(&g).map(arguments).unwrap_or_default();
                error = arguments
                    .into_iter()
                    .find(|(k, _)| k == "error")
                    .map(|(_, v)| v)
                    .or(error);
            }
            TokenTree::Ident(word) if word.to_string() == "enum" => {
                name = tokens.next().map(|t| t.to_string());
            }
            TokenTree::Group(g) if g.delimiter() == Delimiter::Brace => {
                variants = parse_variants(g.stream());
            }
            _ => {}
        }
    }
    Enum {
        name: name.expect("FrameCodec: an enum"),
        error: error.expect("FrameCodec: frame(error = ..) on the enum"),
        variants,
    }
}

fn parse_variants(body: TokenStream) -> Vec<Variant> {
    let mut variants = Vec::new();
    let mut now = Variant::default();
    for token in body {
        match token {
            TokenTree::Punct(p) if p.as_char() == ',' => finish(&mut variants, &mut now),
            TokenTree::Group(g) if g.delimiter() == Delimiter::Bracket => {
                if let Some(stream) = frame_arguments(&g) {
                    read_variant_arguments(&mut now, stream);
                }
            }
            TokenTree::Group(g) if g.delimiter() == Delimiter::Parenthesis => {
                now.field = Some(g.stream().to_string());
            }
            TokenTree::Ident(word) if now.name.is_empty() => now.name = word.to_string(),
            _ => {}
        }
    }
    finish(&mut variants, &mut now);
    variants
}

fn finish(variants: &mut Vec<Variant>, now: &mut Variant) {
    let done = std::mem::take(now);
    if done.name.is_empty() {
        return;
    }
    assert!(
        !done.pattern.is_empty(),
        "FrameCodec: {} has an id or an id_pat",
        done.name
    );
    variants.push(done);
}

fn read_variant_arguments(now: &mut Variant, stream: TokenStream) {
    for (key, value) in arguments(stream) {
        match key.as_str() {
            "id" | "id_pat" => now.pattern = value,
            "decode_inner" => now.decode_inner = true,
            other => panic!("FrameCodec: frame({other}) is not known"),
        }
    }
}

/// `key = value` and bare `key` parts, with the quotes of a string value taken off.
fn arguments(stream: TokenStream) -> Vec<(String, String)> {
    let mut parts = Vec::new();
    let mut key = String::new();
    let mut value = String::new();
    for token in stream {
        match token {
            TokenTree::Punct(p) if p.as_char() == ',' => {
                parts.push((std::mem::take(&mut key), std::mem::take(&mut value)));
            }
            TokenTree::Punct(p) if p.as_char() == '=' => {}
            TokenTree::Literal(l) => value = l.to_string().trim_matches('"').to_string(),
            other => key = other.to_string(),
        }
    }
    if !key.is_empty() {
        parts.push((key, value));
    }
    parts
}
