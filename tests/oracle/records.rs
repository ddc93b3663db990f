//! Chord records, as the voicing generator takes them.

use crate::chord::Chord;
use crate::chord::interval::{Interval, IntervalSet};
use crate::chord::note::Note;
use crate::chord::quality::PcSet;
use crate::notes;

/// All that the generator looks at.
pub fn record(root: Note, bass: Option<Note>, notes: Vec<Note>, intervals: Vec<Interval>) -> Chord {
    Chord::builder("", root)
        .bass(bass)
        .notes(notes)
        .normalized_intervals(intervals)
        .build()
}

/// The chord of a rooted set: the intervals that the Rust reads from its classes.
pub fn of_set(root: Note, bass: Option<Note>, set: PcSet) -> Chord {
    let intervals: IntervalSet = set.into();
    let notes = notes::above(root, intervals).collect();
    record(root, bass, notes, intervals.iter().collect())
}

/// Its notes, as the library takes them.
pub fn classes(chord: &Chord) -> Vec<u8> {
    chord.notes.iter().map(Note::to_semitone).collect()
}

/// Its intervals, as the library takes them.
pub fn intervals(chord: &Chord) -> Vec<u8> {
    let intervals = chord.normalized_intervals.iter();
    intervals.map(|&interval| interval as u8).collect()
}
