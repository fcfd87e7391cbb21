//! Stand-in for the derive `Resource` of the original's entity system: it
//! derives nothing, for nothing here is stored in a world.

use proc_macro::TokenStream;

#[proc_macro_derive(Resource)]
pub fn resource(_item: TokenStream) -> TokenStream {
    TokenStream::new()
}
