//! Derives FromPrimitive and ToPrimitive for enums whose variants all carry
//! their number, as those of log_batch.rs and pipe_log.rs do.

use proc_macro::{Delimiter, TokenStream, TokenTree};

struct Enum {
    name: String,
    variants: Vec<(String, String)>,
}

fn read_enum(input: TokenStream) -> Enum {
    let mut name = String::new();
    let mut after_enum = false;
    for t in input {
        match t {
            TokenTree::Ident(i) if after_enum => {
                name = i.to_string();
                after_enum = false;
            }
            TokenTree::Ident(i) if i.to_string() == "enum" => after_enum = true,
            TokenTree::Group(g) if g.delimiter() == Delimiter::Brace => {
                return Enum { name, variants: read_variants(g.stream()) };
            }
            _ => {}
        }
    }
    panic!("an enum with a body is expected")
}

/// Reads `Name = number` pairs; attributes are brackets and fall away.
fn read_variants(body: TokenStream) -> Vec<(String, String)> {
    let mut out = Vec::new();
    let mut name = None;
    for t in body {
        match t {
            TokenTree::Ident(i) => name = Some(i.to_string()),
            TokenTree::Literal(l) => out.push((name.take().expect("a variant"), l.to_string())),
            _ => {}
        }
    }
    assert!(name.is_none(), "a variant without a number");
    out
}

#[proc_macro_derive(FromPrimitive)]
pub fn from_primitive(input: TokenStream) -> TokenStream {
    let e = read_enum(input);
    let mut arms = String::new();
    for (v, n) in &e.variants {
        arms += &format!("{} => Some({}::{}),", n, e.name, v);
    }
    let text = format!(
        "impl num_traits::FromPrimitive for {} {{ \
            fn from_u64(n: u64) -> Option<Self> {{ match n {{ {} _ => None }} }} }}",
        e.name, arms
    );
    text.parse().unwrap()
}

#[proc_macro_derive(ToPrimitive)]
pub fn to_primitive(input: TokenStream) -> TokenStream {
    let e = read_enum(input);
    let mut arms = String::new();
    for (v, n) in &e.variants {
        arms += &format!("{}::{} => Some({}),", e.name, v, n);
    }
    let text = format!(
        "impl num_traits::ToPrimitive for {} {{ \
            fn to_u64(&self) -> Option<u64> {{ match self {{ {} }} }} }}",
        e.name, arms
    );
    text.parse().unwrap()
}
