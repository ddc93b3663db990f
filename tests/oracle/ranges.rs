//! The carried voicing with other bounds than its own: tests/oracle/bounds.bash has made the copies.

use crate::chord::Chord;

// A copy is the voicing but for two numbers.
#[path = "../../target/oracle/ranges/mod.rs"]
mod copies;

type Generator = fn(&Chord, Option<u8>) -> Vec<u8>;

/// A lowest and a highest key, and the voicing that keeps to them.
type Bounded = ((i64, i64), Generator);

pub fn generator(lowest: i64, highest: i64) -> Result<Generator, String> {
    let mut copies = copies::GENERATORS.iter();
    copies
        .find(|(range, _)| *range == (lowest, highest))
        .map(|(_, generator)| *generator)
        .ok_or_else(|| format!("no copy has the bounds {lowest} and {highest}"))
}
