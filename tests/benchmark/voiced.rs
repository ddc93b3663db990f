//! Voicings of the chords of rooted sets. Each is first held to the Rust's, of which the record is made before.

use std::ops::RangeInclusive;

use crate::chord::Chord;
use crate::chords::{Set, rooted_of};
use crate::draws::Draws;
use crate::host;
use crate::notes;
use crate::records;
use crate::turns::{Times, in_turns};
use crate::voicings::generate_voicing;

/// More than a voicing has.
const ROOM: usize = 64;

const NO_LEAD: u32 = 256;

/// A chord and its lead, as the Rust takes them and as the library does.
struct Voiced {
    record: Chord,
    lead: Option<u8>,
    ours: host::Chord,
}

/// In the order of their sets, chords of few and of many tones stand beside each other.
pub fn of_tones(tones: RangeInclusive<usize>) -> Times {
    let mut draws = Draws(1);
    let sets = rooted_of(tones);
    let voiced = |set| voiced(set, &mut draws);
    in_turns_of(&sets.iter().map(voiced).collect::<Vec<_>>())
}

/// On any root; half have a bass, and half a lead, which is a key of the range.
fn voiced(set: &Set, draws: &mut Draws) -> Voiced {
    let note = |class: usize| notes::of_class(class as u8).expect("a class is below 12");
    let root = note(draws.below(12));
    let bass = (draws.below(2) == 0).then_some(note(draws.below(12)));
    let lead = (draws.below(2) == 0).then_some(51 + draws.below(29) as u8);
    let record = records::of_set(root, bass, set.classes);
    let ours = host::Chord {
        root: root.to_semitone().into(),
        bass: bass.map_or(host::NO_BASS, |bass| bass.to_semitone().into()),
        classes: records::classes(&record),
        intervals: records::intervals(&record),
        lead: lead.map_or(NO_LEAD, u32::from),
    };
    Voiced { record, lead, ours }
}

fn in_turns_of(chords: &[Voiced]) -> Times {
    let mut out = [0; ROOM];
    for chord in chords {
        let wanted = generate_voicing(&chord.record, chord.lead);
        let length = host::voicing(&chord.ours, &mut out);
        let length = usize::try_from(length).expect("the library refuses none of these");
        assert_eq!(wanted, out[..length], "of {:?}", chord.record);
    }
    in_turns(
        chords,
        |chord| generate_voicing(&chord.record, chord.lead),
        |chord| host::voicing(&chord.ours, &mut out),
    )
}
