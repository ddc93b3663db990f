//! Stands in for the crate `enum_bitset`: `#[derive(EnumBitset)]` on `Xxx` makes `XxxSet`, visited in rising order.

use proc_macro::{Delimiter, TokenStream, TokenTree};

// Only the methods that the carried source calls; the capital words are filled in below.
const SET: &str = "
#[derive(Debug, Clone, Copy, PartialEq, Eq)]
VISIBILITY struct ELEMENTSet(u32);

impl ELEMENTSet {
    // By number, which need not be the place in the declaration.
    pub const NUMBERED: [Option<ELEMENT>; 32] = {
        let declared = [VARIANTS];
        let mut numbered = [None; 32];
        let mut at = 0;
        while at < declared.len() {
            numbered[declared[at] as usize] = Some(declared[at]);
            at += 1;
        }
        numbered
    };

    pub const fn new() -> Self {
        Self(0)
    }

    pub const fn from_array<const N: usize>(elements: [ELEMENT; N]) -> Self {
        let mut set = Self::new();
        let mut at = 0;
        while at < N {
            set.insert(elements[at]);
            at += 1;
        }
        set
    }

    pub const fn insert(&mut self, element: ELEMENT) {
        self.0 |= 1 << element as u32;
    }

    pub const fn remove(&mut self, element: ELEMENT) {
        self.0 &= !(1 << element as u32);
    }

    pub const fn contains(&self, element: ELEMENT) -> bool {
        self.contains_const(&element)
    }

    pub const fn contains_const(&self, element: &ELEMENT) -> bool {
        self.0 >> *element as u32 & 1 == 1
    }

    pub const fn union(&self, other: &Self) -> Self {
        Self(self.0 | other.0)
    }

    pub const fn intersection(&self, other: &Self) -> Self {
        Self(self.0 & other.0)
    }

    pub const fn is_subset_of(&self, other: &Self) -> bool {
        self.0 & other.0 == self.0
    }

    pub const fn is_superset_of(&self, other: &Self) -> bool {
        other.is_subset_of(self)
    }

    pub const fn is_disjoint(&self, other: &Self) -> bool {
        self.intersection(other).is_empty()
    }

    pub const fn is_empty(&self) -> bool {
        self.0 == 0
    }

    pub const fn len(&self) -> usize {
        self.0.count_ones() as usize
    }

    pub fn iter(&self) -> ELEMENTSetIter {
        ELEMENTSetIter(*self)
    }
}

VISIBILITY struct ELEMENTSetIter(ELEMENTSet);

impl Iterator for ELEMENTSetIter {
    type Item = ELEMENT;

    fn next(&mut self) -> Option<ELEMENT> {
        let lowest = self.0.0.trailing_zeros() as usize;
        let element = *ELEMENTSet::NUMBERED.get(lowest)?;
        self.0.0 &= self.0.0 - 1;
        element
    }
}

impl IntoIterator for ELEMENTSet {
    type Item = ELEMENT;
    type IntoIter = ELEMENTSetIter;

    fn into_iter(self) -> ELEMENTSetIter {
        self.iter()
    }
}

impl FromIterator<ELEMENT> for ELEMENTSet {
    fn from_iter<I: IntoIterator<Item = ELEMENT>>(elements: I) -> Self {
        let mut set = Self::new();
        for element in elements {
            set.insert(element);
        }
        set
    }
}
";

#[proc_macro_derive(EnumBitset)]
pub fn enum_bitset(item: TokenStream) -> TokenStream {
    let (visibility, name, body) = parts(item);
    let variants: Vec<String> = variants(body)
        .iter()
        .map(|variant| format!("{name}::{variant}"))
        .collect();
    SET.replace("VISIBILITY", &visibility)
        .replace("VARIANTS", &variants.join(", "))
        .replace("ELEMENT", &name)
        .parse()
        .expect("the filled-in text is Rust")
}

/// The visibility, the name and the braced body of an enum, past its attributes.
fn parts(item: TokenStream) -> (String, String, TokenStream) {
    let mut tokens = without_attributes(item).into_iter();
    let visibility: TokenStream = tokens
        .by_ref()
        .take_while(|token| token.to_string() != "enum")
        .collect();
    let name = tokens.next().expect("an enum has a name").to_string();
    match tokens.next() {
        Some(TokenTree::Group(body)) if body.delimiter() == Delimiter::Brace => {
            (visibility.to_string(), name, body.stream())
        }
        _ => panic!("{name} is no plain enum"),
    }
}

/// The first word between commas; what stands behind it is a discriminant.
fn variants(body: TokenStream) -> Vec<String> {
    let tokens: Vec<String> = without_attributes(body)
        .iter()
        .map(TokenTree::to_string)
        .collect();
    tokens
        .split(|token| token == ",")
        .filter_map(|variant| variant.first().cloned())
        .collect()
}

/// An attribute is a `#` and the group behind it.
fn without_attributes(tokens: TokenStream) -> Vec<TokenTree> {
    let mut kept = Vec::new();
    let mut tokens = tokens.into_iter();
    while let Some(token) = tokens.next() {
        if token.to_string() == "#" {
            tokens.next();
        } else {
            kept.push(token);
        }
    }
    kept
}
