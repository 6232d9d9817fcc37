//! Derives under the names that the original uses: `EnumCount`, `EnumIter` and `Display` of strum, and of `Error` the
//! conversions. `Arbitrary` gives a function that is never called; `Serialize`, `Deserialize` and `GetSize` give nothing.

use proc_macro::{Delimiter, TokenStream, TokenTree};

/// A type's name, its parameters with and without bounds, and an enum's variants.
struct Item {
    name: String,
    parameters: String,
    arguments: String,
    variants: Vec<Variant>,
}

struct Variant {
    name: String,
    fields: Vec<Vec<TokenTree>>,
}

fn is(token: &TokenTree, mark: char) -> bool {
    matches!(token, TokenTree::Punct(punct) if punct.as_char() == mark)
}

fn text(tokens: &[TokenTree]) -> String {
    tokens.iter().cloned().collect::<TokenStream>().to_string()
}

/// The parts between commas, without an empty last one.
fn parts(tokens: &[TokenTree]) -> Vec<Vec<TokenTree>> {
    let split = tokens.split(|token| is(token, ',')).map(<[TokenTree]>::to_vec);
    split.filter(|part| !part.is_empty()).collect()
}

fn without_attributes(mut tokens: &[TokenTree]) -> &[TokenTree] {
    while tokens.first().is_some_and(|token| is(token, '#')) {
        tokens = &tokens[2..];
    }
    tokens
}

fn variant(tokens: &[TokenTree]) -> Variant {
    let tokens = without_attributes(tokens);
    let fields = match tokens.get(1) {
        Some(TokenTree::Group(group)) => parts(&group.stream().into_iter().collect::<Vec<_>>()),
        _ => vec![],
    };
    Variant { name: tokens[0].to_string(), fields }
}

fn item(input: TokenStream) -> Item {
    let tokens: Vec<TokenTree> = input.into_iter().collect();
    let keyword = tokens.iter().position(|token| matches!(token.to_string().as_str(), "enum" | "struct")).unwrap();
    let name = tokens[keyword + 1].to_string();
    let rest = &tokens[keyword + 2..];
    let body = rest.iter().position(|token| matches!(token, TokenTree::Group(group) if group.delimiter() == Delimiter::Brace));
    let body = body.unwrap_or(rest.len());
    let generics = if body > 1 && is(&rest[0], '<') { &rest[1..body - 1] } else { &[] };
    let names: Vec<String> = parts(generics).iter().map(|part| part[0].to_string()).collect();
    let variants = match rest.get(body) {
        Some(TokenTree::Group(group)) if tokens[keyword].to_string() == "enum" => {
            parts(&group.stream().into_iter().collect::<Vec<_>>()).iter().map(|part| variant(part)).collect()
        }
        _ => vec![],
    };
    Item { name, parameters: text(generics), arguments: names.join(", "), variants }
}

impl Item {
    fn implement(&self, of: &str, body: &str) -> TokenStream {
        let Item { name, parameters, arguments, .. } = self;
        format!("impl<{parameters}> {of} for {name}<{arguments}> {{ {body} }}").parse().unwrap()
    }
}

#[proc_macro_derive(EnumCount)]
pub fn enum_count(input: TokenStream) -> TokenStream {
    let item = item(input);
    item.implement("::assorted::EnumCount", &format!("const COUNT: usize = {};", item.variants.len()))
}

/// Every variant once, in order, its fields at their defaults.
#[proc_macro_derive(EnumIter)]
pub fn enum_iter(input: TokenStream) -> TokenStream {
    let item = item(input);
    let all: Vec<String> = item.variants.iter().map(Variant::by_default).collect();
    let body = format!("fn iter() -> ::std::vec::IntoIter<Self> {{ vec![{}].into_iter() }}", all.join(", "));
    item.implement("::assorted::IntoEnumIterator", &body)
}

impl Variant {
    fn by_default(&self) -> String {
        let fields = vec!["::std::default::Default::default()"; self.fields.len()].join(", ");
        if fields.is_empty() { format!("Self::{}", self.name) } else { format!("Self::{}({fields})", self.name) }
    }

    /// The type of the one field, if it is marked `#[from]`.
    fn from(&self) -> Option<String> {
        let [field] = self.fields.as_slice() else { return None };
        let marked = field.len() > 2 && is(&field[0], '#') && field[1].to_string() == "[from]";
        marked.then(|| text(&field[2..]))
    }
}

#[proc_macro_derive(Display)]
pub fn display(input: TokenStream) -> TokenStream {
    let body = "fn fmt(&self, f: &mut ::std::fmt::Formatter<'_>) -> ::std::fmt::Result { ::std::fmt::Debug::fmt(self, f) }";
    item(input).implement("::std::fmt::Display", body)
}

/// The conversions from fields that are marked `#[from]`; no messages.
#[proc_macro_derive(Error, attributes(error, from))]
pub fn error(input: TokenStream) -> TokenStream {
    let item = item(input);
    let conversion = |variant: &Variant| {
        let from = variant.from()?;
        let body = format!("fn from(inner: {from}) -> Self {{ Self::{}(inner) }}", variant.name);
        Some(item.implement(&format!("::std::convert::From<{from}>"), &body))
    };
    item.variants.iter().filter_map(conversion).collect()
}

#[proc_macro_derive(Arbitrary)]
pub fn arbitrary(input: TokenStream) -> TokenStream {
    let Item { name, parameters, arguments, .. } = item(input);
    let body = "fn arbitrary(_: &mut ::assorted::Unstructured<'a>) -> ::assorted::Result<Self> { unimplemented!() }";
    format!("impl<'a, {parameters}> ::assorted::Arbitrary<'a> for {name}<{arguments}> {{ {body} }}").parse().unwrap()
}

#[proc_macro_derive(Serialize)]
pub fn serialize(_: TokenStream) -> TokenStream {
    TokenStream::new()
}

#[proc_macro_derive(Deserialize)]
pub fn deserialize(_: TokenStream) -> TokenStream {
    TokenStream::new()
}

#[proc_macro_derive(GetSize)]
pub fn get_size(_: TokenStream) -> TokenStream {
    TokenStream::new()
}
