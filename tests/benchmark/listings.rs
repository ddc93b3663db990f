//! Listings: the sets of a text, beside the same search in plain Rust, where the suffix of each rooted set is made and
//! compared. Both are first held to an inverse of all suffixes, on the texts that are then timed.

use std::collections::BTreeMap;

use crate::chords::{Set, of_one_root, rooted, rooted_of};
use crate::host;
use crate::turns::{Times, in_turns};

/// The most sets of one suffix, in bytes.
const ROOM: usize = 32;

/// No suffix is longer.
const LONGEST: usize = 27;

pub fn every_suffix() -> Times {
    let texts: Vec<String> = inverse(&rooted()).into_keys().collect();
    assert_eq!(texts.len(), 1_171, "suffixes");
    of_texts(&texts)
}

/// The suffixes of the sets of so many classes.
pub fn suffixes_of(classes: usize) -> Times {
    let texts = inverse(&rooted_of(classes..=classes)).into_keys();
    of_texts(&texts.collect::<Vec<_>>())
}

/// Suffixes with one byte made an `x`, which none has: a comparison goes on to the place of it.
pub fn no_suffix() -> Times {
    let texts: Vec<String> = inverse(&rooted())
        .into_keys()
        .filter(|text| !text.is_empty())
        .enumerate()
        .map(|(at, text)| damaged(&text, at))
        .collect();
    of_texts(&texts)
}

pub fn too_long() -> Times {
    let texts: Vec<String> = (1..=100).map(|more| "6".repeat(LONGEST + more)).collect();
    of_texts(&texts)
}

fn damaged(text: &str, at: usize) -> String {
    let place = at % text.len();
    format!("{}x{}", &text[..place], &text[place + 1..])
}

fn of_texts(texts: &[String]) -> Times {
    let sets = rooted();
    let known = inverse(&sets);
    let mut out = [0; ROOM];
    for text in texts {
        let found = search(&sets, text);
        let length = host::listing(text.as_bytes(), &mut out);
        let length = usize::try_from(length).expect("the library refuses none of these");
        let wanted = known.get(text).cloned().unwrap_or_default();
        assert_eq!(wanted, found, "of {text}");
        assert_eq!(wanted, numbers(&out[..length]), "of {text}");
    }
    in_turns(
        texts,
        |text| search(&sets, text),
        |text| host::listing(text.as_bytes(), &mut out),
    )
}

fn search(sets: &[Set], text: &str) -> Vec<u32> {
    sets.iter()
        .filter(|set| of_one_root(set) == text)
        .map(|set| set.number)
        .collect()
}

fn inverse(sets: &[Set]) -> BTreeMap<String, Vec<u32>> {
    let mut inverse = BTreeMap::<String, Vec<u32>>::new();
    for set in sets {
        inverse
            .entry(of_one_root(set))
            .or_default()
            .push(set.number);
    }
    inverse
}

fn numbers(listed: &[u8]) -> Vec<u32> {
    assert!(listed.len() % 2 == 0, "a set is two bytes");
    let number = |pair: &[u8]| 256 * u32::from(pair[0]) + u32::from(pair[1]);
    listed.chunks_exact(2).map(number).collect()
}
