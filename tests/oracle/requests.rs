//! Requests and answers. A request is a word and decimal numbers, one space between:
//!
//! - `quality SET`: the quality's number, in the order of quality.rs
//! - `suffix SET`: what stands behind the root's name for a rooted set
//! - `candidates N CODE..`: the descriptors, a tab between
//! - `candidate_parts N CODE..`: of each of them `ROOT BASS SET`, a tab between
//! - `tones ROOT SET`: of each note of a rooted set's intervals `NAME COUNT`, a space between
//! - `note_text LETTER COUNT`: `NAME COUNT`
//! - `get_note LETTER COUNT SEMITONES DEGREE`: `LETTER COUNT`
//! - `transpose FROM.. NOTE.. TO..`, each `LETTER COUNT`: `LETTER COUNT`
//! - `harmony ROOT BASS SET`: the element of MusicXML
//! - `voicing ROOT BASS LEAD N CLASS.. M INTERVAL..` (a lead above 255 is none): the keys, a space between
//! - `voicing_within ROOT BASS LOWEST HIGHEST LEAD N CLASS.. M INTERVAL..`: the same of the copy with these bounds
//! - `set_voicing ROOT BASS LEAD SET`: `N CLASS.. M INTERVAL..` of the chord of a rooted set, then its keys
//!
//! A count of 0 is no modifier and a bass of 255 none, in requests and in answers. A NAME is a letter's: how a count is written is the
//! asker's (docs/DIFFERENCES.md).

use crate::chord::Chord;
use crate::chord::interval::{Interval, IntervalSet};
use crate::chord::note::{Note, NoteLiteral, NoteModifier};
use crate::chord::quality::{ChordQuality, PcSet};
use crate::inference::descriptors_from_midi_codes;
use crate::numbers::{behind_count, below, byte, bytes, counted, end_of, number, spaced, unless};
use crate::voicings::generate_voicing;
use crate::{harmony, notes, parts, ranges, records};

type Answer = Result<String, String>;

const NO_BASS: i64 = 255;
const LAST_LEAD: i64 = 255;

pub fn answer(request: &str) -> Answer {
    let mut words = request.split(' ');
    let name = words.next().unwrap_or_default();
    let numbers = words.map(number).collect::<Result<Vec<i64>, String>>()?;
    match (name, numbers.as_slice()) {
        ("quality", &[set]) => quality(set),
        ("suffix", &[set]) => suffix(set),
        ("candidates", list) => candidates(list),
        ("candidate_parts", list) => candidate_parts(list),
        ("tones", &[root, set]) => tones(root, set),
        ("note_text", &[letter, count]) => Ok(notes::lettered(note(letter, count)?)),
        ("harmony", &[root, bass, set]) => harmony(root, bass, set),
        ("get_note", &[letter, count, semitones, degree]) => {
            get_note(note(letter, count)?, semitones, degree)
        }
        ("transpose", &[fl, fc, l, c, tl, tc]) => {
            let moved = note(fl, fc)?.transpose(&note(l, c)?, &note(tl, tc)?);
            Ok(notes::numbered(moved))
        }
        ("voicing", &[root, bass, lead, ref lists @ ..]) => {
            Ok(spaced(&keys(&chord(root, bass, lists)?, lead)?))
        }
        ("voicing_within", &[root, bass, lowest, highest, lead, ref lists @ ..]) => {
            let generate = ranges::generator(lowest, highest)?;
            Ok(spaced(&generate(&chord(root, bass, lists)?, wish(lead)?)))
        }
        ("set_voicing", &[root, bass, lead, set]) => {
            set_voicing(&chord_of_set(root, bass, set)?, lead)
        }
        _ => Err("no such request".to_string()),
    }
}

fn quality(set: i64) -> Answer {
    let set = pc_set(&classes_in(set)?);
    Ok((ChordQuality::from(&set) as u8).to_string())
}

/// Class 0 comes first, so the first descriptor is `C`, the suffix, and no bass.
fn suffix(set: i64) -> Answer {
    descriptors_from_midi_codes(&rooted_classes_in(set)?)[0]
        .strip_prefix('C')
        .map(str::to_string)
        .ok_or("the descriptor does not begin with C".to_string())
}

fn candidates(list: &[i64]) -> Answer {
    Ok(descriptors_from_midi_codes(&codes(list)?).join("\t"))
}

fn candidate_parts(list: &[i64]) -> Answer {
    let told = |of: &parts::Parts| {
        let bass = of.bass.map_or(NO_BASS, i64::from);
        format!("{} {bass} {}", of.root, of.set)
    };
    let parts = parts::of_descriptors(&codes(list)?)?;
    Ok(parts.iter().map(told).collect::<Vec<_>>().join("\t"))
}

fn codes(list: &[i64]) -> Result<Vec<u8>, String> {
    let (codes, behind) = counted(list)?;
    end_of(behind)?;
    bytes(codes)
}

fn tones(root: i64, set: i64) -> Answer {
    let set = pc_set(&rooted_classes_in(set)?);
    let root = notes::named(byte(root)?)?;
    let tones: Vec<String> = notes::above(root, set.into()).map(notes::lettered).collect();
    Ok(tones.join(" "))
}

fn harmony(root: i64, bass: i64, set: i64) -> Answer {
    let named = |class| notes::named(byte(class)?);
    let bass = unless(NO_BASS, bass).map(named).transpose()?;
    let set = pc_set(&rooted_classes_in(set)?);
    Ok(harmony::element(named(root)?, bass, set))
}

fn get_note(from: Note, semitones: i64, degree: i64) -> Answer {
    Ok(notes::numbered(from.get_note(byte(semitones)?, byte(degree)?)))
}

fn set_voicing(chord: &Chord, lead: i64) -> Answer {
    let classes = behind_count(&records::classes(chord));
    let intervals = behind_count(&records::intervals(chord));
    Ok(spaced(&[classes, intervals, keys(chord, lead)?].concat()))
}

fn keys(chord: &Chord, lead: i64) -> Result<Vec<u8>, String> {
    Ok(generate_voicing(chord, wish(lead)?))
}

fn wish(lead: i64) -> Result<Option<u8>, String> {
    let lead = (lead <= LAST_LEAD).then_some(lead);
    lead.map(byte).transpose()
}

fn chord(root: i64, bass: i64, lists: &[i64]) -> Result<Chord, String> {
    let (classes, behind) = counted(lists)?;
    let (intervals, behind) = counted(behind)?;
    end_of(behind)?;
    let notes = classes.iter().map(|&class| note_of_class(class));
    let intervals = intervals.iter().map(interval);
    Ok(records::record(
        note_of_class(root)?,
        bass_note(bass)?,
        notes.collect::<Result<_, _>>()?,
        intervals.collect::<Result<_, _>>()?,
    ))
}

fn chord_of_set(root: i64, bass: i64, set: i64) -> Result<Chord, String> {
    let set = pc_set(&rooted_classes_in(set)?);
    Ok(records::of_set(note_of_class(root)?, bass_note(bass)?, set))
}

fn bass_note(bass: i64) -> Result<Option<Note>, String> {
    unless(NO_BASS, bass).map(note_of_class).transpose()
}

fn note(letter: i64, count: i64) -> Result<Note, String> {
    let letter = below(7, letter)? as u8;
    let count = i8::try_from(count).map_err(|_| format!("{count} is no count"))?;
    let modifier = (count != 0).then_some(NoteModifier(count));
    Ok(Note::new(NoteLiteral::from_u8(letter), modifier))
}

fn note_of_class(class: i64) -> Result<Note, String> {
    notes::of_class(byte(class)?)
}

fn interval(number: &i64) -> Result<Interval, String> {
    IntervalSet::NUMBERED[below(IntervalSet::NUMBERED.len(), *number)?]
        .ok_or_else(|| format!("no interval {number}"))
}

fn classes_in(set: i64) -> Result<Vec<u8>, String> {
    let set = below(4096, set)?;
    Ok((0..12).filter(|class| set >> class & 1 == 1).collect())
}

fn rooted_classes_in(set: i64) -> Result<Vec<u8>, String> {
    let classes = classes_in(set)?;
    match classes.first() {
        Some(0) => Ok(classes),
        _ => Err("the set is not rooted".to_string()),
    }
}

fn pc_set(classes: &[u8]) -> PcSet {
    let numbered = classes.iter().map(|&class| PcSet::NUMBERED[class as usize]);
    numbered.flatten().collect()
}
