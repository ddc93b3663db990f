//! The benchmark: the carried Rust, unchanged, and the library's archive in one program.

// Most of the carried source is never measured here, so unused items say nothing.
#[allow(dead_code)]
#[path = "../../docs/src/src/chord/mod.rs"]
mod chord;
mod chords;
mod draws;
mod elements;
#[path = "../oracle/harmony.rs"]
mod harmony;
mod host;
#[allow(dead_code)]
#[path = "../../docs/src/src/inference/mod.rs"]
mod inference;
mod lines;
mod listings;
mod moves;
#[path = "../oracle/notes.rs"]
mod notes;
#[allow(dead_code)]
#[path = "../oracle/stand-ins/parsing.rs"]
mod parsing;
#[allow(dead_code)]
#[path = "../oracle/parts.rs"]
mod parts;
#[path = "../oracle/records.rs"]
mod records;
#[path = "../oracle/shown.rs"]
mod shown;
mod turns;
mod voiced;
#[path = "../../docs/src/src/voicings/mod.rs"]
mod voicings;

use chords::candidates;
use draws::Draws;
use turns::Times;

/// Lengths of lists, and how many lists: where memory allows, more than a predictor of branches learns by heart.
const LENGTHS: [(&str, usize, usize); 6] = [
    ("candidates of 1 code", 1, 1_000),
    ("candidates of 10 codes", 10, 1_000),
    ("candidates of 100 codes", 100, 1_000),
    ("candidates of 1,000 codes", 1_000, 1_000),
    ("candidates of 10,000 codes", 10_000, 200),
    ("candidates of 100,000 codes", 100_000, 20),
];

fn main() {
    println!("nanoseconds per call                          Rust     Hemotusap     ratio");
    calls();
    println!("\nby the number of classes, each as Rust, Hemotusap, ratio");
    println!(
        "          candidates               suffix              listing              voicing              harmony"
    );
    for classes in 1..=12 {
        by_classes(classes);
    }
}

fn calls() {
    let mut draws = Draws(1);
    row(
        "candidates of 1 to 10 codes",
        candidates(&draws.lists_up_to(1_000, 10)),
    );
    for (what, length, count) in LENGTHS {
        row(what, candidates(&draws.lists(count, length)));
    }
    row(
        "candidates_strict of 1 to 10 codes",
        chords::candidates_strict(&Draws(1).lists_up_to(1_000, 10)),
    );
    row(
        "candidates_strict of 1,000 codes",
        chords::candidates_strict(&Draws(1).lists(1_000, 1_000)),
    );
    row(
        "candidates_sharp of 1 to 10 codes",
        chords::candidates_sharp(&Draws(1).lists_up_to(1_000, 10)),
    );
    row(
        "candidate_line, of 1 to 10 codes",
        lines::of_lists(&Draws(1).lists_up_to(1_000, 10)),
    );
    row("suffix, 2,048 rooted sets", chords::suffix(1..=12));
    row(
        "suffix, the Rust by its public call",
        chords::suffix_beside_public_call(),
    );
    row("suffix, 4,096 drawn sets", elements::suffix());
    row("harmony, on drawn roots and basses", elements::harmony());
    row(
        "candidate and harmony, 1 to 10 codes",
        elements::of_lists(&Draws(1).lists_up_to(1_000, 10)),
    );
    row("listing, all 1,171 suffixes", listings::every_suffix());
    row("listing, texts that no set has", listings::no_suffix());
    row("listing, longer than any suffix", listings::too_long());
    row("voicing, chords of 3 to 8 tones", voiced::of_tones(3..=8));
    row("quality, 4,096 sets", chords::quality());
    row("get_note, 31,850 moves", moves::get_note());
}

fn row(what: &str, times: Times) {
    let Times { rust, ours } = times;
    println!("{what:<36}{rust:>14.1}{ours:>14.1}{:>10.2}", rust / ours);
}

/// Lists of so many keys of different classes, and the rooted sets of so many classes.
fn by_classes(classes: usize) {
    let lists = Draws(1).lists_of_classes(1_000, classes);
    print!("{classes:<4}");
    for Times { rust, ours } in [
        candidates(&lists),
        chords::suffix(classes..=classes),
        listings::suffixes_of(classes),
        voiced::of_tones(classes..=classes),
        elements::of_classes(classes..=classes),
    ] {
        print!("{rust:>9.0}{ours:>7.0}{:>5.1}", rust / ours);
    }
    println!();
}
