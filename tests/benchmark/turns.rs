//! Two ways to the same answers, timed in turns, so that what slows the machine for a while slows both.

use std::hint::black_box;
use std::time::{Duration, Instant};

const ROUNDS: usize = 15;

/// What is timed lasts at least this long, beside which the clock's own grain is nothing.
const STRETCH: Duration = Duration::from_millis(5);

/// Nanoseconds per call, the median of the rounds.
pub struct Times {
    pub rust: f64,
    pub ours: f64,
}

/// One of the two: a call, the inputs of a pass, and how many passes make a stretch.
struct Side<'a, Input, Call> {
    inputs: &'a [Input],
    call: Call,
    passes: u32,
    nanoseconds: Vec<f64>,
}

impl<'a, Input, Answer, Call: FnMut(&Input) -> Answer> Side<'a, Input, Call> {
    /// Finding out how long a pass takes is the warm-up too.
    fn warmed_up(inputs: &'a [Input], call: Call) -> Self {
        let mut side = Side {
            inputs,
            call,
            passes: 1,
            nanoseconds: Vec::new(),
        };
        while side.stretch() < STRETCH {
            side.passes *= 2;
        }
        side
    }

    fn stretch(&mut self) -> Duration {
        let start = Instant::now();
        for _ in 0..self.passes {
            for input in self.inputs {
                black_box((self.call)(black_box(input)));
            }
        }
        start.elapsed()
    }

    fn round(&mut self) {
        let nanoseconds = self.stretch().as_secs_f64() * 1e9;
        let calls = f64::from(self.passes) * self.inputs.len() as f64;
        self.nanoseconds.push(nanoseconds / calls);
    }

    fn median(mut self) -> f64 {
        self.nanoseconds.sort_by(f64::total_cmp);
        self.nanoseconds[ROUNDS / 2]
    }
}

pub fn in_turns<Input, A, B>(
    inputs: &[Input],
    rust: impl FnMut(&Input) -> A,
    ours: impl FnMut(&Input) -> B,
) -> Times {
    let mut rust = Side::warmed_up(inputs, rust);
    let mut ours = Side::warmed_up(inputs, ours);
    for _ in 0..ROUNDS {
        rust.round();
        ours.round();
    }
    Times {
        rust: rust.median(),
        ours: ours.median(),
    }
}
