//! Two derives that make nothing; the version number is never serialized here.

use proc_macro::TokenStream;

#[proc_macro_derive(Serialize_repr)]
pub fn serialize_repr(_: TokenStream) -> TokenStream {
    TokenStream::new()
}

#[proc_macro_derive(Deserialize_repr)]
pub fn deserialize_repr(_: TokenStream) -> TokenStream {
    TokenStream::new()
}
