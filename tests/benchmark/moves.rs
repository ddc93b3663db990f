//! Note moves: every note by every interval, the whole domain.

use crate::chord::note::{Note, NoteLiteral, NoteModifier};
use crate::host;
use crate::turns::{Times, in_turns};

/// As the Rust takes it; the library takes the same as plain numbers.
struct Move {
    note: Note,
    semitones: u8,
    degree: u8,
}

pub fn get_note() -> Times {
    let moves = moves();
    for at in &moves {
        assert_eq!(number(moved(at)), library_moved(at), "{:?}", at.note);
    }
    in_turns(&moves, moved, library_moved)
}

fn moved(at: &Move) -> Note {
    at.note.get_note(at.semitones, at.degree)
}

fn library_moved(at: &Move) -> i64 {
    let letter = at.note.literal as u32;
    host::hemotusap_get_note(
        letter,
        count(at.note),
        at.semitones.into(),
        at.degree.into(),
    )
}

fn moves() -> Vec<Move> {
    let mut moves = Vec::new();
    for note in notes() {
        for semitones in 0..=24 {
            moves.extend((1..=14).map(|degree| Move {
                note,
                semitones,
                degree,
            }));
        }
    }
    moves
}

fn notes() -> Vec<Note> {
    let of_letter = |letter| {
        (-6..=6).map(move |count: i8| {
            let modifier = (count != 0).then_some(NoteModifier(count));
            Note::new(NoteLiteral::from_u8(letter), modifier)
        })
    };
    (0..7).flat_map(of_letter).collect()
}

fn count(note: Note) -> i32 {
    note.modifier.map_or(0, |modifier| modifier.0.into())
}

/// How the library hands a note back.
fn number(note: Note) -> i64 {
    16 * note.literal as i64 + i64::from(count(note)) + 6
}
