//! A stand-in for `datafusion_macros`: a documented function has no documentation.

use proc_macro::{TokenStream, TokenTree};

#[proc_macro_attribute]
pub fn user_doc(_doc: TokenStream, item: TokenStream) -> TokenStream {
    let mut tokens = item.clone().into_iter();
    tokens
        .by_ref()
        .find(|token| matches!(token, TokenTree::Ident(word) if word.to_string() == "struct"));
    let name = tokens.next().expect("a struct has a name");
    let doc = format!(
        "impl {name} {{
            fn doc(&self) -> Option<&datafusion_expr::Documentation> {{ None }}
        }}"
    );
    let doc: TokenStream = doc.parse().expect("an impl");
    item.into_iter().chain(doc).collect()
}
