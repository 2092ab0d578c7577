//! The derive of the stand-in `get_size2`, for types without parameters.

use proc_macro::{TokenStream, TokenTree};

#[proc_macro_derive(GetSize)]
pub fn get_size(item: TokenStream) -> TokenStream {
    let name = name_of(item);
    format!("impl ::get_size2::GetSize for {name} {{}}")
        .parse()
        .expect("an impl")
}

/// The word after `struct` or `enum`.
fn name_of(item: TokenStream) -> String {
    let mut words = item.into_iter().filter_map(|token| match token {
        TokenTree::Ident(word) => Some(word.to_string()),
        _ => None,
    });
    words
        .find(|word| word == "struct" || word == "enum")
        .and_then(|_| words.next())
        .expect("a struct or an enum")
}
