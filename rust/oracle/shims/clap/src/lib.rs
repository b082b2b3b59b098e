//! Stands in for clap: options.rs needs its derive to exist. It adds nothing.
use proc_macro::TokenStream;

#[proc_macro_derive(Parser, attributes(arg, command))]
pub fn parser(_input: TokenStream) -> TokenStream {
    TokenStream::new()
}
