//! Behaviour of ours: `#[derive(thiserror::Error)]` over std's proc_macro alone. It makes what the crate's files use:
//! `Display` (the literal text, or the inner error's where it is transparent), `Error`, and `From` for a `#[from]`
//! field. It stops the build at a form that it does not know.

use proc_macro::{Delimiter, Group, TokenStream, TokenTree};

#[proc_macro_derive(Error, attributes(error, from, source))]
pub fn derive(item: TokenStream) -> TokenStream {
    let item = Item::parse(item);
    let name = &item.name;
    let (display, conversions) = match &item.variants {
        None => (display(&item.text, "self"), String::new()),
        Some(variants) => enum_code(name, variants.clone()),
    };
    format!(
        "impl ::std::fmt::Display for {name} {{
            fn fmt(&self, f: &mut ::std::fmt::Formatter<'_>) -> ::std::fmt::Result {{ {display} }}
        }}
        impl ::std::error::Error for {name} {{}}
        {conversions}"
    )
    .parse()
    .unwrap()
}

/// What stands in `#[error(..)]`.
type Text = Option<String>;

struct Item {
    name: String,
    text: Text,
    /// the body of an enum
    variants: Option<TokenStream>,
}

impl Item {
    fn parse(item: TokenStream) -> Self {
        let (mut name, mut text, mut variants, mut is_enum) = (String::new(), None, None, false);
        let mut tokens = item.into_iter();
        while let Some(token) = tokens.next() {
            match token {
                TokenTree::Punct(p) if p.as_char() == '#' => {
                    text = error_text(tokens.next()).or(text);
                }
                TokenTree::Punct(p) if p.as_char() == '<' => panic!("stand-in thiserror: generics"),
                TokenTree::Ident(word) if ["enum", "struct"].contains(&&*word.to_string()) => {
                    is_enum = word.to_string() == "enum";
                    name = tokens.next().expect("the type's name").to_string();
                }
                TokenTree::Group(g) if is_enum && g.delimiter() == Delimiter::Brace => {
                    variants = Some(g.stream());
                }
                _ => {}
            }
        }
        Self {
            name,
            text,
            variants,
        }
    }
}

/// The text of an attribute's brackets, where it is `error`.
fn error_text(brackets: Option<TokenTree>) -> Text {
    let Some(TokenTree::Group(attribute)) = brackets else {
        panic!("stand-in thiserror: a # with no attribute");
    };
    let mut tokens = attribute.stream().into_iter();
    match (tokens.next(), tokens.next()) {
        (Some(TokenTree::Ident(word)), Some(TokenTree::Group(text)))
            if word.to_string() == "error" =>
        {
            Some(text.stream().to_string())
        }
        _ => None,
    }
}

fn display(text: &Text, inner: &str) -> String {
    match text.as_deref() {
        Some("transparent") => format!("::std::fmt::Display::fmt({inner}, f)"),
        Some(s) if s.starts_with('"') && !s.contains('{') => format!("f.write_str({s})"),
        other => panic!("stand-in thiserror: {other:?}"),
    }
}

/// The body of `fmt`, and an `impl From` for each field marked `#[from]`.
fn enum_code(name: &str, variants: TokenStream) -> (String, String) {
    let (mut arms, mut conversions) = (String::new(), String::new());
    let mut text = None;
    let mut tokens = variants.into_iter().peekable();
    while let Some(token) = tokens.next() {
        match token {
            TokenTree::Punct(p) if p.as_char() == '#' => {
                text = error_text(tokens.next()).or(text);
            }
            TokenTree::Punct(p) if p.as_char() == ',' => {}
            TokenTree::Ident(variant) => {
                let text = text.take();
                if let Some(TokenTree::Group(fields)) = tokens.peek() {
                    assert_eq!(fields.delimiter(), Delimiter::Parenthesis);
                    arms += &format!("Self::{variant}(x) => {},", display(&text, "x"));
                    if let Some(field) = converted(fields) {
                        conversions += &format!(
                            "impl ::core::convert::From<{field}> for {name} {{
                                fn from(x: {field}) -> Self {{ Self::{variant}(x) }}
                            }}"
                        );
                    }
                    tokens.next();
                } else {
                    arms += &format!("Self::{variant} => {},", display(&text, "self"));
                }
            }
            other => panic!("stand-in thiserror: {other}"),
        }
    }
    (format!("match self {{ {arms} }}"), conversions)
}

/// The type of a field that is marked `#[from]`.
fn converted(fields: &Group) -> Option<TokenStream> {
    let tokens: Vec<TokenTree> = fields.stream().into_iter().collect();
    match &tokens[..] {
        [TokenTree::Punct(p), TokenTree::Group(mark), field @ ..]
            if p.as_char() == '#' && mark.stream().to_string() == "from" =>
        {
            Some(field.iter().cloned().collect())
        }
        _ => None,
    }
}
