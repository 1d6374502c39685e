//! Stand-in for `thiserror`: `derive(Error)` gives the `From` of each `#[from]` field and nothing else.
//!
//! One thing more, which the real one doesn't do: on the type `NetworkError`, which stands in the module of the `Nlme`, it also calls the
//! harness's macro `probe!`. What that writes lands inside the module, where it may read private fields and call private functions.
use proc_macro::{Delimiter, TokenStream, TokenTree};

#[proc_macro_derive(Error, attributes(error, from, source))]
pub fn derive_error(input: TokenStream) -> TokenStream {
    let tokens: Vec<TokenTree> = input.into_iter().collect();
    let at = tokens.iter().position(|t| matches!(t, TokenTree::Ident(i) if i.to_string() == "enum")).expect("an enum");
    let name = tokens[at + 1].to_string();
    let body = tokens
        .iter()
        .find_map(|t| match t {
            TokenTree::Group(g) if g.delimiter() == Delimiter::Brace => Some(g.stream()),
            _ => None,
        })
        .expect("a body");

    let mut out = String::new();
    let mut variant = String::new();
    for t in body {
        match t {
            TokenTree::Ident(i) => variant = i.to_string(),
            TokenTree::Group(g) if g.delimiter() == Delimiter::Parenthesis => {
                if let Some(ty) = from_type(g.stream()) {
                    out.push_str(&format!(
                        "impl ::core::convert::From<{ty}> for {name} {{ fn from(e: {ty}) -> Self {{ Self::{variant}(e) }} }}\n"
                    ));
                }
            }
            _ => (),
        }
    }
    if name == "NetworkError" {
        out.push_str("probe! {}\n");
    }
    out.parse().expect("tokens")
}

// the type of a field that starts with `#[from]`
fn from_type(field: TokenStream) -> Option<String> {
    let mut from = false;
    let mut ty = TokenStream::new();
    let mut it = field.into_iter().peekable();
    while let Some(t) = it.next() {
        if matches!(&t, TokenTree::Punct(p) if p.as_char() == '#') {
            if let Some(TokenTree::Group(g)) = it.next() {
                from |= g.stream().to_string() == "from";
            }
            continue;
        }
        ty.extend([t]);
    }
    from.then(|| ty.to_string())
}
