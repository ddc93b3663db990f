//! Candidates as the lines of a listing, with flat names and with sharp ones, and a candidate's line in a key. The Rust has no call
//! for this: beside the library stands a search in plain Rust over the same two listings, to which each answer is first held.

use crate::draws::Draws;
use crate::host;
use crate::inference::descriptors_from_midi_codes;
use crate::turns::{Times, in_turns};

/// The names that differ, flat and sharp.
const NAMES: [(&str, &str); 5] = [
    ("Db", "C#"),
    ("Eb", "D#"),
    ("Gb", "F#"),
    ("Ab", "G#"),
    ("Bb", "A#"),
];

/// A candidate of the Rust's with sharp names: its root's, which it begins with, and its bass's, behind the last '/'.
pub fn sharpened(candidate: &str) -> String {
    match candidate.rsplit_once('/') {
        Some((chord, bass)) => format!("{}/{}", sharpened_front(chord), sharpened_front(bass)),
        None => sharpened_front(candidate),
    }
}

fn sharpened_front(text: &str) -> String {
    for (flat, sharp) in NAMES {
        if let Some(rest) = text.strip_prefix(flat) {
            return format!("{sharp}{rest}");
        }
    }
    text.to_owned()
}

pub fn joined(candidates: &[String], named: impl Fn(&str) -> String) -> String {
    candidates.iter().map(|each| named(each) + "\n").collect()
}

/// A candidate of two listings by its number, and a key by its sharps, or its flats below 0.
struct Asked<'a> {
    flat: &'a str,
    sharp: &'a str,
    number: u32,
    fifths: i32,
}

/// Any candidate of each list, in any key.
pub fn of_lists(lists: &[Vec<u8>]) -> Times {
    let mut draws = Draws(2);
    let listings: Vec<[String; 2]> = lists.iter().map(|list| listings(list)).collect();
    let asked: Vec<Asked> = listings.iter().map(|of| asked(of, &mut draws)).collect();
    for at in &asked {
        assert_eq!(found(at), told(at), "of {} in {}", at.flat, at.fifths);
    }
    in_turns(&asked, found, library_part)
}

fn listings(list: &[u8]) -> [String; 2] {
    let candidates = descriptors_from_midi_codes(list);
    [
        joined(&candidates, str::to_owned),
        joined(&candidates, sharpened),
    ]
}

fn asked<'a>([flat, sharp]: &'a [String; 2], draws: &mut Draws) -> Asked<'a> {
    Asked {
        flat,
        sharp,
        number: draws.below(flat.lines().count()) as u32,
        fifths: draws.below(15) as i32 - 7,
    }
}

fn found<'a>(at: &Asked<'a>) -> &'a str {
    let listing = match at.fifths {
        -7..=0 => at.flat,
        1..=7 => at.sharp,
        _ => return "",
    };
    let line = listing.split_inclusive('\n').nth(at.number as usize);
    line.and_then(|line| line.strip_suffix('\n')).unwrap_or("")
}

fn library_part(at: &Asked) -> host::Part {
    host::candidate_line(
        at.flat.as_bytes(),
        at.sharp.as_bytes(),
        at.number,
        at.fifths,
    )
}

/// What the library's part holds.
fn told<'a>(at: &Asked<'a>) -> &'a str {
    let part = library_part(at);
    let listing = [at.flat, at.sharp][part.names as usize];
    &listing[part.start as usize..][..part.length as usize]
}
