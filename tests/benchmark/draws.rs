//! Numbers and lists of MIDI codes, drawn by the tests' one generator, the same in each run.

// Of tests/draws/draw.c.
unsafe extern "C" {
    safe fn draw_below(state: &mut u64, limit: u32) -> u32;
}

pub struct Draws(pub u64);

impl Draws {
    pub fn below(&mut self, limit: usize) -> usize {
        draw_below(&mut self.0, limit as u32) as usize
    }

    /// Codes of MIDI 1.0, which stops at 127.
    fn list(&mut self, length: usize) -> Vec<u8> {
        (0..length).map(|_| self.below(128) as u8).collect()
    }

    pub fn lists(&mut self, count: usize, length: usize) -> Vec<Vec<u8>> {
        (0..count).map(|_| self.list(length)).collect()
    }

    /// As many classes, each once and at any octave.
    fn list_of_classes(&mut self, classes: usize) -> Vec<u8> {
        let mut left: Vec<usize> = (0..12).collect();
        let mut drawn = || left.swap_remove(self.below(left.len()));
        let classes: Vec<usize> = (0..classes).map(|_| drawn()).collect();
        let code = |class| (class + 12 * self.below(10)) as u8;
        classes.into_iter().map(code).collect()
    }

    pub fn lists_of_classes(&mut self, count: usize, classes: usize) -> Vec<Vec<u8>> {
        (0..count).map(|_| self.list_of_classes(classes)).collect()
    }

    pub fn lists_up_to(&mut self, count: usize, longest: usize) -> Vec<Vec<u8>> {
        (0..count)
            .map(|_| {
                let length = 1 + self.below(longest);
                self.list(length)
            })
            .collect()
    }
}
