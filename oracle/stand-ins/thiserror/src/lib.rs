//! Stand-in for `thiserror`: an error that is displayed as it is debugged. Messages are not compared.

use proc_macro::{TokenStream, TokenTree};

#[proc_macro_derive(Error, attributes(error, source))]
pub fn error(item: TokenStream) -> TokenStream {
    let name = name_of(item);
    format!(
        "impl ::std::fmt::Display for {name} {{
            fn fmt(&self, f: &mut ::std::fmt::Formatter<'_>) -> ::std::fmt::Result {{
                ::std::fmt::Debug::fmt(self, f)
            }}
        }}
        impl ::std::error::Error for {name} {{}}"
    )
    .parse()
    .expect("two impls")
}

/// The word after `struct` or `enum`.
fn name_of(item: TokenStream) -> String {
    let mut words = item.into_iter().filter_map(|token| match token {
        TokenTree::Ident(word) => Some(word.to_string()),
        _ => None,
    });
    words
        .find(|word| word == "struct" || word == "enum")
        .and_then(|_| words.next())
        .expect("a struct or an enum")
}
