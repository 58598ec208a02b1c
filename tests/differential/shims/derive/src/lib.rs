//! The derives that the Rust names. They take its attributes and emit nothing: no comparison
//! writes or reads JSON or TOML.

use proc_macro::TokenStream;

#[proc_macro_derive(Serialize, attributes(serde))]
pub fn serialize(_item: TokenStream) -> TokenStream {
    TokenStream::new()
}

#[proc_macro_derive(Deserialize, attributes(serde))]
pub fn deserialize(_item: TokenStream) -> TokenStream {
    TokenStream::new()
}

#[proc_macro_derive(JsonSchema)]
pub fn json_schema(_item: TokenStream) -> TokenStream {
    TokenStream::new()
}
