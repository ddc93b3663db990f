//! A chord as one `harmony` element. Intervals, their degrees and semitones, the quality and the names of notes are the
//! Rust's; the kinds with their tones, the dominant chord from which an added degree is counted, and the element itself are
//! MusicXML's (4.0), in the order that paper 02 gives them.

use crate::chord::interval::{Interval, IntervalSet};
use crate::chord::note::Note;
use crate::chord::quality::{ChordQuality, PcSet};
use crate::shown;

/// Room for most elements, so that few grow.
const USUAL: usize = 1024;

/// A degree of a chord, and its semitones above the root.
type Tone = (u8, u8);

struct Kind {
    name: &'static str,
    triad: [Tone; 3],
    fourth: Option<Tone>,
}

const MAJOR: [Tone; 3] = [(1, 0), (3, 4), (5, 7)];
const MINOR: [Tone; 3] = [(1, 0), (3, 3), (5, 7)];
const AUGMENTED: [Tone; 3] = [(1, 0), (3, 4), (5, 8)];
const DIMINISHED: [Tone; 3] = [(1, 0), (3, 3), (5, 6)];

impl Kind {
    fn of(quality: ChordQuality) -> Kind {
        let (name, triad, fourth) = match quality {
            ChordQuality::Maj => ("major", MAJOR, None),
            ChordQuality::Maj6 => ("major-sixth", MAJOR, Some((6, 9))),
            ChordQuality::Maj7 => ("major-seventh", MAJOR, Some((7, 11))),
            ChordQuality::Dominant7 => ("dominant", MAJOR, Some((7, 10))),
            ChordQuality::Mi => ("minor", MINOR, None),
            ChordQuality::Mi6 => ("minor-sixth", MINOR, Some((6, 9))),
            ChordQuality::Mi7 => ("minor-seventh", MINOR, Some((7, 10))),
            ChordQuality::MiMaj7 => ("major-minor", MINOR, Some((7, 11))),
            ChordQuality::Augmented => ("augmented", AUGMENTED, None),
            ChordQuality::Diminished => ("diminished", DIMINISHED, None),
            ChordQuality::Diminished7 => ("diminished-seventh", DIMINISHED, Some((7, 9))),
            ChordQuality::Power | ChordQuality::Bass => unreachable!("a third was supplied"),
        };
        Kind {
            name,
            triad,
            fourth,
        }
    }

    fn tones(&self) -> impl Iterator<Item = Tone> {
        self.triad.into_iter().chain(self.fourth)
    }

    fn has(&self, interval: Interval) -> bool {
        self.tones().any(|(_, above)| above == interval.st() % 12)
    }
}

/// A degree of the dominant chord, up to its thirteenth: a major scale with a minor seventh.
fn in_a_dominant_chord(degree: u8) -> u8 {
    match degree {
        1 => 0,
        2 => 2,
        3 => 4,
        4 => 5,
        5 => 7,
        6 => 9,
        7 => 10,
        8.. => 12 + in_a_dominant_chord(degree - 7),
        0 => unreachable!("degrees are counted from 1"),
    }
}

pub fn element(root: Note, bass: Option<Note>, classes: PcSet) -> String {
    let intervals: IntervalSet = classes.into();
    let kind = Kind::of(shown::quality(classes, intervals));
    let mut text = String::with_capacity(USUAL);
    text.push_str("<harmony>");
    put_note(
        &mut text,
        ["<root>", "</root>"],
        ["root-step", "root-alter"],
        root,
    );
    put(&mut text, "kind", kind.name);
    if let Some(bass) = bass {
        put_note(
            &mut text,
            ["<bass>", "</bass>"],
            ["bass-step", "bass-alter"],
            bass,
        );
    }
    for added in intervals.iter().filter(|interval| !kind.has(*interval)) {
        let degree = added.to_degree().numeric();
        let alter = added.st() as i8 - in_a_dominant_chord(degree) as i8;
        put_degree(&mut text, degree, alter, "add");
    }
    let sounds = |above| intervals.iter().any(|interval| interval.st() % 12 == above);
    for (degree, _) in kind.tones().filter(|(_, above)| !sounds(*above)) {
        put_degree(&mut text, degree, 0, "subtract");
    }
    text.push_str("</harmony>");
    text
}

fn put(text: &mut String, name: &str, inside: &str) {
    for part in ["<", name, ">", inside, "</", name, ">"] {
        text.push_str(part);
    }
}

fn put_note(text: &mut String, [open, close]: [&str; 2], [step, alter]: [&str; 2], note: Note) {
    text.push_str(open);
    put(text, step, note.literal.as_ref());
    if let Some(modifier) = note.modifier {
        put(text, alter, &modifier.0.to_string());
    }
    text.push_str(close);
}

fn put_degree(text: &mut String, value: u8, alter: i8, kind: &str) {
    text.push_str("<degree>");
    put(text, "degree-value", &value.to_string());
    put(text, "degree-alter", &alter.to_string());
    put(text, "degree-type", kind);
    text.push_str("</degree>");
}
