//! Stands in for `defmt`'s derive: a type that derives `Format` gets nothing by it.

#[proc_macro_derive(Format)]
pub fn format(_item: proc_macro::TokenStream) -> proc_macro::TokenStream {
    proc_macro::TokenStream::new()
}
