//! Candidates, suffixes and qualities. Each is first held to the Rust's answers, on the inputs that are then timed. The
//! Rust's own types are made before; the library writes into one buffer, which is not cleared between calls.

use std::borrow::Cow;
use std::ops::RangeInclusive;

use crate::chord::quality::{ChordQuality, PcSet};
use crate::host;
use crate::inference::descriptors_from_midi_codes;
use crate::lines::{joined, sharpened};
use crate::shown;
use crate::turns::{Times, in_turns};

/// More than any answer takes.
pub const ROOM: usize = 1200;

pub fn text(out: &[u8], length: i64) -> Cow<'_, str> {
    let length = usize::try_from(length).expect("the library refuses none of these");
    String::from_utf8_lossy(&out[..length])
}

pub fn candidates(lists: &[Vec<u8>]) -> Times {
    candidates_beside(
        descriptors_from_midi_codes,
        str::to_owned,
        host::candidates,
        lists,
    )
}

pub fn candidates_strict(lists: &[Vec<u8>]) -> Times {
    candidates_beside(of_keys, str::to_owned, host::candidates_strict, lists)
}

/// The Rust has flat names alone: what is timed makes these, and they are renamed to be compared.
pub fn candidates_sharp(lists: &[Vec<u8>]) -> Times {
    candidates_beside(
        descriptors_from_midi_codes,
        sharpened,
        host::candidates_sharp,
        lists,
    )
}

/// The Rust takes any code: in front of its call stands a search for one that is no key.
fn of_keys(codes: &[u8]) -> Vec<String> {
    match codes.iter().position(|&code| code > 127) {
        Some(_) => Vec::new(),
        None => descriptors_from_midi_codes(codes),
    }
}

fn candidates_beside(
    rust: impl Fn(&[u8]) -> Vec<String>,
    named: impl Fn(&str) -> String,
    ours: impl Fn(&[u8], &mut [u8]) -> i64,
    lists: &[Vec<u8>],
) -> Times {
    let mut out = [0; ROOM];
    for list in lists {
        let lines = joined(&rust(list), &named);
        let length = ours(list, &mut out);
        assert_eq!(lines, text(&out, length), "of {list:?}");
    }
    in_turns(lists, |list| rust(list), |list| ours(list, &mut out))
}

/// A set as the library takes it, and as the Rust does.
pub struct Set {
    pub number: u32,
    pub classes: PcSet,
    codes: Vec<u8>,
}

pub fn set(number: u32) -> Set {
    let codes: Vec<u8> = (0..12).filter(|at| number >> at & 1 == 1).collect();
    Set {
        number,
        classes: codes
            .iter()
            .filter_map(|&code| PcSet::NUMBERED[code as usize])
            .collect(),
        codes,
    }
}

pub fn rooted() -> Vec<Set> {
    (1..4096).step_by(2).map(set).collect()
}

/// The rooted sets of so many classes.
pub fn rooted_of(classes: RangeInclusive<usize>) -> Vec<Set> {
    let mut sets = rooted();
    sets.retain(|set| classes.contains(&set.classes.len()));
    sets
}

/// What `descriptors_from_midi_codes` does for one root, its name aside.
pub fn of_one_root(set: &Set) -> String {
    shown::suffix(set.classes)
}

/// The Rust's public way to a suffix: all candidates, of which the first is `C` and the suffix.
fn of_first_candidate(set: &Set) -> String {
    let mut descriptor = descriptors_from_midi_codes(&set.codes).swap_remove(0);
    descriptor.remove(0);
    descriptor
}

pub fn suffix(classes: RangeInclusive<usize>) -> Times {
    suffix_of(&rooted_of(classes))
}

pub fn suffix_of(sets: &[Set]) -> Times {
    suffix_beside(of_one_root, sets)
}

pub fn suffix_beside_public_call() -> Times {
    suffix_beside(of_first_candidate, &rooted())
}

fn suffix_beside(rust: impl Fn(&Set) -> String, sets: &[Set]) -> Times {
    let mut out = [0; ROOM];
    for set in sets {
        let length = host::suffix(set.number, &mut out);
        assert_eq!(rust(set), text(&out, length), "of {}", set.number);
    }
    in_turns(sets, rust, |set| host::suffix(set.number, &mut out))
}

pub fn quality() -> Times {
    let sets: Vec<Set> = (0..4096).map(set).collect();
    let rust = |set: &Set| ChordQuality::from(&set.classes);
    let ours = |set: &Set| host::hemotusap_quality(set.number);
    for set in &sets {
        assert_eq!(rust(set) as i64, ours(set), "of {}", set.number);
    }
    in_turns(&sets, rust, ours)
}
