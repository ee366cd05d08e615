//! Stand-in for thiserror: the derive `Error` for what errors.rs has, a struct with one `#[from]` field and an enum whose variants have one
//! field each. Display writes the text of `#[error(..)]`, `source` gives the `#[from]` field, and each of these fields has its `From`.
use proc_macro::{Delimiter, TokenStream, TokenTree};

struct Part {
    name: String,
    text: Option<String>,
    from: bool,
    /// The field's type, or a struct's field with its type.
    field: Option<String>,
}

fn is_punct(token: &TokenTree, c: char) -> bool {
    matches!(token, TokenTree::Punct(p) if p.as_char() == c)
}

/// The attributes at the front: the text of `error`, whether there is a `from`, and what stands behind them.
fn attributes(mut tokens: &[TokenTree]) -> (Option<String>, bool, &[TokenTree]) {
    let (mut text, mut from) = (None, false);
    while tokens.len() > 1 && is_punct(&tokens[0], '#') {
        if let TokenTree::Group(g) = &tokens[1] {
            let inside: Vec<TokenTree> = g.stream().into_iter().collect();
            match (inside[0].to_string().as_str(), inside.get(1)) {
                ("error", Some(TokenTree::Group(literal))) => text = Some(literal.stream().to_string()),
                ("from", None) => from = true,
                _ => {}
            }
        }
        tokens = &tokens[2..];
    }
    (text, from, tokens)
}

fn joined(tokens: &[TokenTree]) -> String {
    tokens.iter().cloned().collect::<TokenStream>().to_string()
}

fn variant(tokens: &[TokenTree]) -> Part {
    let (text, _, rest) = attributes(tokens);
    let (mut from, mut field) = (false, None);
    if let Some(TokenTree::Group(g)) = rest.get(1) {
        let inside: Vec<TokenTree> = g.stream().into_iter().collect();
        let (_, is_from, of) = attributes(&inside);
        (from, field) = (is_from, Some(joined(of)));
    }
    Part { name: rest[0].to_string(), text, from, field }
}

fn of_enum(name: &str, parts: &[Part]) -> String {
    let (mut shown, mut source, mut from) = (String::new(), String::new(), String::new());
    for p in parts {
        let text = p.text.as_deref().expect("a variant without #[error]");
        match text.contains("{0}") {
            true => shown += &format!("Self::{}(field) => write!(f, {text}, field),", p.name),
            false => shown += &format!("Self::{} {{ .. }} => write!(f, {text}),", p.name),
        }
        if p.from {
            source += &format!("Self::{}(field) => Some(field),", p.name);
            let field = p.field.as_deref().unwrap();
            from += &format!("impl From<{field}> for {name} {{ fn from(field: {field}) -> Self {{ Self::{}(field) }} }}", p.name);
        }
    }
    format!(
        "impl std::fmt::Display for {name} {{ fn fmt(&self, f: &mut std::fmt::Formatter<'_>) -> std::fmt::Result {{ match self {{ {shown} }} }} }}
        impl std::error::Error for {name} {{ fn source(&self) -> Option<&(dyn std::error::Error + 'static)> {{ match self {{ {source} _ => None }} }} }}
        {from}"
    )
}

fn of_struct(name: &str, text: &str, part: &Part) -> String {
    let (field, of) = part.field.as_deref().unwrap().split_once(':').expect("a named field");
    format!(
        "impl std::fmt::Display for {name} {{ fn fmt(&self, f: &mut std::fmt::Formatter<'_>) -> std::fmt::Result {{ write!(f, {text}) }} }}
        impl std::error::Error for {name} {{ fn source(&self) -> Option<&(dyn std::error::Error + 'static)> {{ Some(&self.{field}) }} }}
        impl From<{of}> for {name} {{ fn from({field}: {of}) -> Self {{ Self {{ {field} }} }} }}"
    )
}

#[proc_macro_derive(Error, attributes(error, from))]
pub fn derive(item: TokenStream) -> TokenStream {
    let tokens: Vec<TokenTree> = item.into_iter().collect();
    let (text, _, rest) = attributes(&tokens);
    let at = rest.iter().position(|t| matches!(t.to_string().as_str(), "struct" | "enum")).expect("a struct or an enum");
    let name = rest[at + 1].to_string();
    let body = rest.iter().find_map(|t| match t {
        TokenTree::Group(g) if g.delimiter() == Delimiter::Brace => Some(g.stream().into_iter().collect::<Vec<_>>()),
        _ => None,
    });
    let body = body.expect("a body in braces");
    let parts = body.split(|t| is_punct(t, ',')).filter(|p| !p.is_empty());
    let code = if rest[at].to_string() == "enum" {
        of_enum(&name, &parts.map(variant).collect::<Vec<_>>())
    } else {
        let fields: Vec<Part> = parts
            .map(|p| {
                let (_, from, of) = attributes(p);
                Part { name: String::new(), text: None, from, field: Some(joined(of)) }
            })
            .collect();
        assert!(fields.len() == 1 && fields[0].from, "one field with #[from]");
        of_struct(&name, &text.expect("a struct without #[error]"), &fields[0])
    };
    code.parse().expect("code")
}
