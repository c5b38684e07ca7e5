//! Stands in for the crate `thiserror`, so that the original's error.rs compiles unchanged.
//! The derive adds nothing: no text of an error is compared.
use proc_macro::TokenStream;

#[proc_macro_derive(Error, attributes(error))]
pub fn error(_item: TokenStream) -> TokenStream {
    TokenStream::new()
}
