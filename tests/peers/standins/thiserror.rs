//! A stand-in for thiserror: its derive, with texts that are empty. No workload displays an error.
extern crate proc_macro;
use proc_macro::{TokenStream, TokenTree};

#[proc_macro_derive(Error, attributes(error, from, source))]
pub fn derive_error(input: TokenStream) -> TokenStream {
    let mut tokens = input.into_iter();
    while let Some(token) = tokens.next() {
        if let TokenTree::Ident(word) = &token {
            if matches!(word.to_string().as_str(), "struct" | "enum") {
                let name = tokens.next().unwrap().to_string();
                return format!(
                    "impl ::core::fmt::Display for {name} {{
                         fn fmt(&self, _: &mut ::core::fmt::Formatter<'_>) -> ::core::fmt::Result {{ Ok(()) }}
                     }}
                     impl ::core::error::Error for {name} {{}}"
                )
                .parse()
                .unwrap();
            }
        }
    }
    TokenStream::new()
}
