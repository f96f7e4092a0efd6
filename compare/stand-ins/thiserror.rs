//! Stands for the crate thiserror, which is not in docs/src: derive(Error) on the enum `ZlfError` of zlf/reader.rs.
//!
//! It writes what `?` and `Box<dyn Error>` need: `Display` and `Error` by `Debug`, and `From` for each variant of the form
//! `Name(#[from] Type)`. The text of an error differs from the real crate's, and the oracle reads no text: it tells errors
//! apart by their variant, which docs/src chooses. The tokens are read by hand, since no other crate is at hand.
extern crate proc_macro;
use proc_macro::{Delimiter, TokenStream, TokenTree};

#[proc_macro_derive(Error, attributes(error, from, source, backtrace))]
pub fn error(input: TokenStream) -> TokenStream {
    let mut it = input.into_iter();
    let mut name = String::new();
    let mut body = None;
    while let Some(t) = it.next() {
        match t {
            TokenTree::Ident(i) if i.to_string() == "enum" => name = it.next().unwrap().to_string(),
            TokenTree::Group(g) if g.delimiter() == Delimiter::Brace && !name.is_empty() => {
                body = Some(g.stream())
            }
            _ => {}
        }
    }
    let mut out = format!(
        "impl ::std::fmt::Display for {name} {{ fn fmt(&self, f: &mut ::std::fmt::Formatter<'_>) -> ::std::fmt::Result \
         {{ ::std::fmt::Debug::fmt(self, f) }} }}\nimpl ::std::error::Error for {name} {{}}\n"
    );
    let mut last = String::new();
    for t in body.expect("an enum").into_iter() {
        match t {
            TokenTree::Ident(i) => last = i.to_string(),
            TokenTree::Group(g) if g.delimiter() == Delimiter::Parenthesis && !last.is_empty() => {
                let text: Vec<TokenTree> = g.stream().into_iter().collect();
                if let (Some(TokenTree::Punct(p)), Some(TokenTree::Group(a))) = (text.first(), text.get(1)) {
                    if p.as_char() == '#' && a.stream().to_string() == "from" {
                        let ty: TokenStream = text[2..].iter().cloned().collect();
                        out += &format!(
                            "impl ::std::convert::From<{ty}> for {name} {{ fn from(e: {ty}) -> Self {{ {name}::{last}(e) }} }}\n"
                        );
                    }
                }
            }
            _ => last.clear(),
        }
    }
    out.parse().unwrap()
}
