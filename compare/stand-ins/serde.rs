//! Stands for the crate serde, which is not in docs/src: the two derives that its types name.
//!
//! They write nothing, so a type has the fields and the code of docs/src and nothing else. Nothing that the oracle calls
//! turns a value into text or back, so no answer can depend on them.
extern crate proc_macro;
use proc_macro::TokenStream;

#[proc_macro_derive(Serialize, attributes(serde))]
pub fn serialize(_: TokenStream) -> TokenStream {
    TokenStream::new()
}

#[proc_macro_derive(Deserialize, attributes(serde))]
pub fn deserialize(_: TokenStream) -> TokenStream {
    TokenStream::new()
}
