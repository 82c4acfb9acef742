//! Stand-in for the crate of the same name: `#[derive(Error)]` is accepted, with its helper
//! attributes, and generates nothing. The one conversion that the originals need from it
//! (`#[from] WallError`) is written out in the judge's `probe` module.

use proc_macro::TokenStream;

#[proc_macro_derive(Error, attributes(error, from, source))]
pub fn error(_: TokenStream) -> TokenStream {
    TokenStream::new()
}
