//! What each candidate of a list is made of.

use crate::chord::quality::PcSet;
use crate::inference::descriptors_from_midi_codes;
use crate::{notes, shown};

pub struct Parts {
    pub root: u8,
    pub bass: Option<u8>,
    /// The list's classes, seen from the root.
    pub set: u16,
}

/// Those of every candidate, in the order of the descriptors.
pub fn of_candidates(codes: &[u8]) -> Vec<Parts> {
    let mut parts = Vec::<Parts>::new();
    for code in codes {
        let root = code % 12;
        if parts.iter().all(|known| known.root != root) {
            let bass = (!parts.is_empty()).then_some(codes[0] % 12);
            let set = seen_from(root, codes);
            parts.push(Parts { root, bass, set });
        }
    }
    parts
}

/// The same, held to the descriptors that the Rust gives.
pub fn of_descriptors(codes: &[u8]) -> Result<Vec<Parts>, String> {
    let parts = of_candidates(codes);
    let descriptors: Vec<String> = parts.iter().map(descriptor).collect::<Result<_, _>>()?;
    if descriptors != descriptors_from_midi_codes(codes) {
        return Err(format!("the Rust's descriptors are not {descriptors:?}"));
    }
    Ok(parts)
}

fn seen_from(root: u8, codes: &[u8]) -> u16 {
    let above = |code: &u8| (code % 12 + 12 - root) % 12;
    codes.iter().fold(0, |set, code| set | 1 << above(code))
}

impl Parts {
    /// The set, as the Rust has it.
    pub fn classes(&self) -> PcSet {
        let is_in = |class: &usize| self.set >> class & 1 == 1;
        let of_class = |class| PcSet::NUMBERED[class];
        (0..12).filter(is_in).filter_map(of_class).collect()
    }
}

fn descriptor(parts: &Parts) -> Result<String, String> {
    let mut text = notes::named(parts.root)?.to_string() + &shown::suffix(parts.classes());
    if let Some(bass) = parts.bass {
        text = format!("{text}/{}", notes::named(bass)?);
    }
    Ok(text)
}
