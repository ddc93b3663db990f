//! The library, through the boundary that include/hemotusap.h declares.

/// What the boundary takes for no bass.
pub const NO_BASS: u32 = 255;

unsafe extern "C" {
    fn hemotusap_suffix(set: u32, out: *mut u8, room: usize) -> i64;
    fn hemotusap_listing(suffix: *const u8, length: usize, out: *mut u8, room: usize) -> i64;
    fn hemotusap_candidates(codes: *const u8, count: usize, out: *mut u8, room: usize) -> i64;
    fn hemotusap_candidates_strict(
        codes: *const u8,
        count: usize,
        out: *mut u8,
        room: usize,
    ) -> i64;
    fn hemotusap_candidates_sharp(codes: *const u8, count: usize, out: *mut u8, room: usize)
    -> i64;
    fn hemotusap_candidate_line(
        flat: *const u8,
        flat_length: usize,
        sharp: *const u8,
        sharp_length: usize,
        number: u32,
        fifths: i32,
        start: *mut u64,
        length: *mut u64,
    ) -> i64;
    fn hemotusap_candidate(codes: *const u8, count: usize, number: u32) -> i64;
    fn hemotusap_harmony(root: u32, bass: u32, set: u32, out: *mut u8, room: usize) -> i64;
    fn hemotusap_voicing(
        root: u32,
        bass: u32,
        classes: *const u8,
        class_count: usize,
        intervals: *const u8,
        interval_count: usize,
        lead: u32,
        out: *mut u8,
        room: usize,
    ) -> i64;
    pub safe fn hemotusap_quality(set: u32) -> i64;
    pub safe fn hemotusap_get_note(
        letter: u32,
        accidental: i32,
        semitones: u32,
        degree: u32,
    ) -> i64;
}

// A borrowed range is valid memory of its length, and a mutable one overlaps no other: that is all the boundary asks.

#[inline]
pub fn suffix(set: u32, out: &mut [u8]) -> i64 {
    unsafe { hemotusap_suffix(set, out.as_mut_ptr(), out.len()) }
}

#[inline]
pub fn listing(suffix: &[u8], out: &mut [u8]) -> i64 {
    unsafe { hemotusap_listing(suffix.as_ptr(), suffix.len(), out.as_mut_ptr(), out.len()) }
}

#[inline]
pub fn candidates(codes: &[u8], out: &mut [u8]) -> i64 {
    unsafe { hemotusap_candidates(codes.as_ptr(), codes.len(), out.as_mut_ptr(), out.len()) }
}

#[inline]
pub fn candidates_strict(codes: &[u8], out: &mut [u8]) -> i64 {
    unsafe { hemotusap_candidates_strict(codes.as_ptr(), codes.len(), out.as_mut_ptr(), out.len()) }
}

#[inline]
pub fn candidates_sharp(codes: &[u8], out: &mut [u8]) -> i64 {
    unsafe { hemotusap_candidates_sharp(codes.as_ptr(), codes.len(), out.as_mut_ptr(), out.len()) }
}

/// A part of a listing: of the flat one, 0, or the sharp, 1.
pub struct Part {
    pub names: i64,
    pub start: u64,
    pub length: u64,
}

#[inline]
pub fn candidate_line(flat: &[u8], sharp: &[u8], number: u32, fifths: i32) -> Part {
    let (mut start, mut length) = (0, 0);
    let names = unsafe {
        hemotusap_candidate_line(
            flat.as_ptr(),
            flat.len(),
            sharp.as_ptr(),
            sharp.len(),
            number,
            fifths,
            &mut start,
            &mut length,
        )
    };
    Part {
        names,
        start,
        length,
    }
}

#[inline]
pub fn candidate(codes: &[u8], number: u32) -> i64 {
    unsafe { hemotusap_candidate(codes.as_ptr(), codes.len(), number) }
}

#[inline]
pub fn harmony(root: u32, bass: u32, set: u32, out: &mut [u8]) -> i64 {
    unsafe { hemotusap_harmony(root, bass, set, out.as_mut_ptr(), out.len()) }
}

/// A chord as the boundary's voicing takes it.
pub struct Chord {
    pub root: u32,
    pub bass: u32,
    pub classes: Vec<u8>,
    pub intervals: Vec<u8>,
    pub lead: u32,
}

#[inline]
pub fn voicing(chord: &Chord, out: &mut [u8]) -> i64 {
    unsafe {
        hemotusap_voicing(
            chord.root,
            chord.bass,
            chord.classes.as_ptr(),
            chord.classes.len(),
            chord.intervals.as_ptr(),
            chord.intervals.len(),
            chord.lead,
            out.as_mut_ptr(),
            out.len(),
        )
    }
}
