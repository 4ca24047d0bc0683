//! Stand-in for `ace_macros::FrameCodec`, the derive that the published service list uses.
//!
//! Only reading is made: nothing published writes these enums. Attributes as the published text uses them:
//! `#[frame(error = "E")]` on the enum; on a variant `id = 0x50` or `id = "0x7F"` (that byte),
//! `id_pat = "a | b..=c"` (a match pattern on that byte) and `decode_inner` (the field reads the same byte).
//! Forced: callers decode from a slice of exactly one byte, so the field of an `id_pat` variant can only be
//! that byte, and an inner enum whose own ids are that byte must be handed it unread.

use proc_macro::{Delimiter, Group, TokenStream, TokenTree};

mod parse;

use parse::{Enum, Variant};

#[proc_macro_derive(FrameCodec, attributes(frame))]
pub fn frame_codec(input: TokenStream) -> TokenStream {
    let parsed = parse::parse_enum(input);
    render(&parsed)
        .parse()
        .expect("FrameCodec: the rendered impl parses")
}

fn render(parsed: &Enum) -> String {
    let arms: String = parsed.variants.iter().map(|v| arm(v) + "\n").collect();
    format!(
        "impl<'a> ::ace_core::codec::FrameRead<'a> for {name} {{
            type Error = {error};
            #[allow(unreachable_patterns)]
            fn decode(buf: &mut &'a [u8]) -> Result<Self, Self::Error> {{
                let Some(&id) = buf.first() else {{
                    return Err({error}::from(::ace_core::codec::CodecError::Empty));
                }};
                match id {{
                    {arms}
                    _ => Err({error}::from(::ace_core::codec::CodecError::UnknownId(id))),
                }}
            }}
        }}",
        name = parsed.name,
        error = parsed.error,
    )
}

fn arm(v: &Variant) -> String {
    let take = "*buf = &buf[1..];";
    match (&v.field, v.decode_inner) {
        (Some(ty), true) => format!(
            "{} => <{ty} as ::ace_core::codec::FrameRead<'a>>::decode(buf).map(Self::{}),",
            v.pattern, v.name
        ),
        (Some(_), false) => format!("{} => {{ {take} Ok(Self::{}(id)) }}", v.pattern, v.name),
        (None, _) => format!("{} => {{ {take} Ok(Self::{}) }}", v.pattern, v.name),
    }
}

/// The contents of `frame(..)` in one attribute's brackets, if it is that attribute.
fn frame_arguments(attribute: &Group) -> Option<TokenStream> {
    let mut tokens = attribute.stream().into_iter();
    match tokens.next() {
        Some(TokenTree::Ident(name)) if name.to_string() == "frame" => {}
        _ => return None,
    }
    match tokens.next() {
        Some(TokenTree::Group(g)) if g.delimiter() == Delimiter::Parenthesis => Some(g.stream()),
        _ => None,
    }
}
