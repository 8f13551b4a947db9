//! Stands in for the derive macro `P9WireFormat`, which is not in the text given.
//!
//! It reads and writes the fields in declared order. It also implements our own `Show` and
//! `Record`, because the seller's `Debug` prints data as a mere count; and `Draw` and `Flat`, to
//! make records to try and to take them apart.

use proc_macro::{Delimiter, TokenStream, TokenTree};

struct Record {
    name: String,
    fields: Vec<String>,
}

#[proc_macro_derive(P9WireFormat)]
pub fn p9_wire_format(input: TokenStream) -> TokenStream {
    let code = match record(input) {
        Some(record) => wire_format(&record) + &show(&record) + &draw(&record) + &flat(&record),
        None => "compile_error!(\"this stand-in knows structs with named fields only\");".into(),
    };
    code.parse().expect("the derived text is Rust")
}

fn record(input: TokenStream) -> Option<Record> {
    let is_struct = |token: &TokenTree| token.to_string() == "struct";
    let mut tokens = input.into_iter().skip_while(|token| !is_struct(token));
    tokens.next()?;
    let name = tokens.next()?.to_string();
    match tokens.next()? {
        TokenTree::Group(body) if body.delimiter() == Delimiter::Brace => Some(Record {
            name,
            fields: fields(body.stream()),
        }),
        _ => None,
    }
}

/// A field's name is the last word before the colon that opens its type, whatever attributes
/// and visibility stand before it. A comma between angle brackets ends no field.
fn fields(body: TokenStream) -> Vec<String> {
    let mut names = Vec::new();
    let mut word = String::new();
    let mut in_type = false;
    let mut angles = 0;
    for token in body {
        match token {
            TokenTree::Ident(ident) => word = ident.to_string(),
            TokenTree::Punct(mark) => match mark.as_char() {
                ':' if !in_type => {
                    names.push(word.clone());
                    in_type = true;
                }
                ',' if angles == 0 => in_type = false,
                '<' => angles += 1,
                '>' => angles -= 1,
                _ => {}
            },
            _ => {}
        }
    }
    names
}

/// The sum is left unchecked, so that it wraps in release and panics in debug as the seller's
/// own sums do.
fn wire_format(Record { name, fields }: &Record) -> String {
    const WIRE: &str = "crate::protocol::wire_format::WireFormat";
    let each = |line: &dyn Fn(&String) -> String| fields.iter().map(line).collect::<String>();
    let sizes = each(&|field| format!(" + {WIRE}::byte_size(&self.{field})"));
    let encodes = each(&|field| format!("{WIRE}::encode(&self.{field}, writer)?; "));
    let decodes = each(&|field| format!("{field}: {WIRE}::decode(reader)?, "));
    format!(
        "impl {WIRE} for {name} {{
            fn byte_size(&self) -> u32 {{ 0{sizes} }}
            fn encode<W: std::io::Write>(&self, writer: &mut W) -> std::io::Result<()> {{
                {encodes} Ok(())
            }}
            fn decode<R: std::io::Read>(reader: &mut R) -> std::io::Result<Self> {{
                Ok(Self {{ {decodes} }})
            }}
        }}
        "
    )
}

fn show(Record { name, fields }: &Record) -> String {
    let pairs: String = fields
        .iter()
        .map(|field| format!("({field:?}, &self.{field} as &dyn crate::show::Show), "))
        .collect();
    format!(
        "impl crate::show::Show for {name} {{
            fn show(&self, out: &mut String) {{ crate::show::fields(&[{pairs}], out) }}
        }}
        impl crate::show::Record for {name} {{
            const NAME: &'static str = {name:?};
        }}
        "
    )
}

/// In declared order too, so that a seed gives the same records for as long as the fields stay.
fn draw(Record { name, fields }: &Record) -> String {
    let draws: String = fields
        .iter()
        .map(|field| format!("{field}: crate::draw::Draw::draw(draws), "))
        .collect();
    format!(
        "impl crate::draw::Draw for {name} {{
            fn draw(draws: &mut crate::draw::Draws) -> Self {{ Self {{ {draws} }} }}
        }}
        "
    )
}

fn flat(Record { name, fields }: &Record) -> String {
    let flats: String = fields
        .iter()
        .map(|field| format!("crate::flat::Flat::flat(&self.{field}, values); "))
        .collect();
    format!(
        "impl crate::flat::Flat for {name} {{
            fn flat<'a>(&'a self, values: &mut Vec<crate::flat::Value<'a>>) {{ {flats} }}
        }}
        "
    )
}
