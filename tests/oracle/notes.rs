//! Notes by their classes, those of a chord above its root, and what is told of a note.

use std::sync::LazyLock;

use crate::chord::interval::IntervalSet;
use crate::chord::note::{Note, NoteLiteral, NoteModifier};
use crate::inference::descriptors_from_midi_codes;

static NAMED: LazyLock<[Note; 12]> = LazyLock::new(|| std::array::from_fn(find_named));

fn naturals_and_flats() -> impl Iterator<Item = Note> {
    let of_letter = |letter| {
        [None, Some(NoteModifier(-1))]
            .map(|modifier| Note::new(NoteLiteral::from_u8(letter), modifier))
    };
    (0..7).flat_map(of_letter)
}

/// Any note of the class will do: voicings see a note through `to_semitone` alone.
pub fn of_class(class: u8) -> Result<Note, String> {
    naturals_and_flats()
        .find(|note| note.to_semitone() == class)
        .ok_or_else(|| format!("no note of class {class}"))
}

/// The note by which the Rust names a class.
pub fn named(class: u8) -> Result<Note, String> {
    let note = NAMED.get(usize::from(class)).copied();
    note.ok_or_else(|| format!("no class {class}"))
}

/// The table of names is private there, but descriptors begin with them, and those of one code differ in no more.
fn find_named(class: usize) -> Note {
    let of_code = |code| descriptors_from_midi_codes(&[code]).swap_remove(0);
    let of_c = of_code(0);
    let behind = of_c.strip_prefix('C').expect("the first name is C");
    let wanted = of_code(class as u8);
    naturals_and_flats()
        .find(|note| format!("{note}{behind}") == wanted)
        .expect("each class has a name")
}

pub fn above(root: Note, intervals: IntervalSet) -> impl Iterator<Item = Note> {
    intervals
        .into_iter()
        .map(move |interval| root.get_note(interval.st(), interval.to_degree().numeric()))
}

pub fn lettered(note: Note) -> String {
    format!("{} {}", note.literal, count(note))
}

pub fn numbered(note: Note) -> String {
    format!("{} {}", note.literal as u8, count(note))
}

fn count(note: Note) -> i8 {
    note.modifier.map_or(0, |modifier| modifier.0)
}
