//! Harmony elements. The Rust has none: beside the library stands the oracle's writer, plain Rust over the Rust's own functions,
//! to which each element is first held.

use std::ops::RangeInclusive;

use crate::chord::note::Note;
use crate::chords::{ROOM, Set, rooted_of, set, suffix_of, text};
use crate::draws::Draws;
use crate::turns::{Times, in_turns};
use crate::{harmony, host, notes, parts};

/// Drawn, since branches are learned where sets come in their order.
const CHORDS: usize = 4_096;

/// A chord on its root, as the library takes it and as the Rust does.
struct Chord {
    root: u32,
    bass: u32,
    set: Set,
    root_note: Note,
    bass_note: Option<Note>,
}

fn note(class: u8) -> Note {
    notes::named(class).expect("a class is below 12")
}

/// On any root; half have a bass.
fn chord(set: Set, draws: &mut Draws) -> Chord {
    let root = draws.below(12) as u8;
    let bass = (draws.below(2) == 0).then_some(draws.below(12) as u8);
    Chord {
        root: root.into(),
        bass: bass.map_or(host::NO_BASS, u32::from),
        set,
        root_note: note(root),
        bass_note: bass.map(note),
    }
}

fn drawn_sets() -> Vec<Set> {
    let mut draws = Draws(1);
    let drawn = |_| set(2 * draws.below(2_048) as u32 + 1);
    (0..CHORDS).map(drawn).collect()
}

/// The sets of the row below, for their suffixes.
pub fn suffix() -> Times {
    suffix_of(&drawn_sets())
}

pub fn harmony() -> Times {
    of_sets(drawn_sets())
}

pub fn of_classes(classes: RangeInclusive<usize>) -> Times {
    of_sets(rooted_of(classes))
}

fn of_sets(sets: Vec<Set>) -> Times {
    let mut draws = Draws(2);
    let chords: Vec<Chord> = sets.into_iter().map(|set| chord(set, &mut draws)).collect();
    let mut out = [0; ROOM];
    let rust = |at: &Chord| harmony::element(at.root_note, at.bass_note, at.set.classes);
    for at in &chords {
        let length = host::harmony(at.root, at.bass, at.set.number, &mut out);
        assert_eq!(rust(at), text(&out, length), "of {}", at.set.number);
    }
    in_turns(&chords, rust, |at| {
        host::harmony(at.root, at.bass, at.set.number, &mut out)
    })
}

/// From keys to elements: all candidates of a list, by their parts.
pub fn of_lists(lists: &[Vec<u8>]) -> Times {
    let mut out = [0; ROOM];
    for list in lists {
        let mut elements = Vec::new();
        library_elements(list, &mut out, |length, out| {
            elements.push(text(out, length).into_owned());
        });
        assert_eq!(rust_elements(list), elements, "of {list:?}");
    }
    in_turns(
        lists,
        |list| rust_elements(list),
        |list| library_elements(list, &mut out, |_, _| ()),
    )
}

fn rust_elements(list: &[u8]) -> Vec<String> {
    let element =
        |of: &parts::Parts| harmony::element(note(of.root), of.bass.map(note), of.classes());
    parts::of_candidates(list).iter().map(element).collect()
}

/// Each is handed over in the buffer, with the answer that counts it.
fn library_elements(list: &[u8], out: &mut [u8], mut each: impl FnMut(i64, &[u8])) {
    let mut number = 0;
    loop {
        let found = host::candidate(list, number) as u32;
        if found == 0 {
            return;
        }
        let bass = match found >> 16 {
            15 => host::NO_BASS,
            bass => bass,
        };
        let length = host::harmony(found >> 12 & 15, bass, found & 4095, out);
        each(length, out);
        number += 1;
    }
}
