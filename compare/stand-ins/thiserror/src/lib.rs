//! Stands in for the `thiserror` derive: the error traits, and `From` for a variant marked `#[from]`.

use proc_macro::{Delimiter, TokenStream, TokenTree};

/// Messages are left out: `Display` shows the debug form.
#[proc_macro_derive(Error, attributes(error, from))]
pub fn derive_error(input: TokenStream) -> TokenStream {
    let tokens: Vec<TokenTree> = input.into_iter().collect();
    let at = tokens.iter().position(|t| t.to_string() == "enum").expect("the derive is for enums");
    let name = tokens[at + 1].to_string();
    let Some(TokenTree::Group(body)) = tokens.last() else { panic!("an enum ends with its variants") };
    let mut code = format!(
        "impl std::fmt::Display for {name} {{
            fn fmt(&self, f: &mut std::fmt::Formatter<'_>) -> std::fmt::Result {{ write!(f, \"{{self:?}}\") }}
        }}
        impl std::error::Error for {name} {{}}"
    );
    let mut variant = String::new();
    for token in body.stream() {
        match token {
            TokenTree::Ident(ident) => variant = ident.to_string(),
            TokenTree::Group(fields) if fields.delimiter() == Delimiter::Parenthesis => {
                let parts: Vec<String> = fields.stream().into_iter().map(|t| t.to_string()).collect();
                if parts.len() > 2 && parts[0] == "#" && parts[1] == "[from]" {
                    let source = parts[2..].concat();
                    code += &format!(
                        "impl From<{source}> for {name} {{ fn from(e: {source}) -> Self {{ {name}::{variant}(e) }} }}"
                    );
                }
            }
            _ => {}
        }
    }
    code.parse().expect("the derive writes Rust")
}
