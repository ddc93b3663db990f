//! What a rooted set is shown as: the Rust's steps for one root of `descriptors_from_midi_codes`, its name aside.

use crate::chord::interval::{IntervalSet, THIRDS_SET};
use crate::chord::quality::{ChordQuality, Pc, PcSet};
use crate::inference::normalize::normalized_descriptor;

/// Of the set and its intervals; where there is no third among these, it is that of the set with one.
pub fn quality(mut classes: PcSet, intervals: IntervalSet) -> ChordQuality {
    if intervals.intersection(&THIRDS_SET).is_empty() {
        classes.insert(Pc::Pc4);
    }
    (&classes).into()
}

pub fn suffix(classes: PcSet) -> String {
    let intervals = classes.into();
    normalized_descriptor(intervals, quality(classes, intervals))
}
