//! `derive(Error)`: the error's text is its debug form.
use proc_macro::{TokenStream, TokenTree};

#[proc_macro_derive(Error, attributes(error))]
pub fn error(item: TokenStream) -> TokenStream {
    let mut after = false;
    for token in item {
        let TokenTree::Ident(word) = token else { continue };
        let word = word.to_string();
        if after {
            return format!(
                "impl ::std::fmt::Display for {word} {{
                    fn fmt(&self, f: &mut ::std::fmt::Formatter<'_>) -> ::std::fmt::Result {{ ::std::fmt::Debug::fmt(self, f) }}
                }}
                impl ::std::error::Error for {word} {{}}"
            )
            .parse()
            .expect("an impl");
        }
        after = word == "enum" || word == "struct";
    }
    TokenStream::new()
}
