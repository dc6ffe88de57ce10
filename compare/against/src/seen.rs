//! Which answers each code was seen to get: a comparison that met too little says little.

/// The answers that 01 has for each code; at 0 those of an unknown one.
const ANSWERS: [&[u8]; 15] = [
    &[19],
    &[0, 1, 4, 5, 15, 16],
    &[0, 3, 4, 5, 15, 16],
    &[0, 1, 3, 5, 15, 16],
    &[0, 4, 15, 16],
    &[0, 3, 15, 16],
    &[0, 1, 4, 5, 15, 16],
    &[0, 3, 4, 5, 15, 16],
    &[0, 2, 3, 5, 15, 16],
    &[0, 4, 15, 16],
    &[0, 3, 15, 16],
    &[0, 3, 5, 15, 16],
    &[0, 1, 3, 5, 15, 16],
    &[0],
    &[0, 1, 17, 18],
];

/// How often each code got each answer.
pub struct Seen([[u64; 256]; 15]);

impl Default for Seen {
    fn default() -> Seen {
        Seen([[0; 256]; 15])
    }
}

impl Seen {
    /// Counts the answers to events.
    pub fn count(&mut self, events: &[u8], answers: &[u8]) {
        for (event, answer) in events.chunks_exact(80).zip(answers.chunks_exact(80)) {
            let code = if event[0] <= 14 { event[0] } else { 0 };
            self.0[code as usize][answer[0] as usize] += 1;
        }
    }

    /// Adds another count.
    pub fn add(&mut self, other: &Seen) {
        let cells = self.0.iter_mut().flatten();
        for (cell, more) in cells.zip(other.0.iter().flatten()) {
            *cell += more;
        }
    }

    /// The answer seen least often among those that there are: code, answer, and how often.
    pub fn rarest(&self) -> (usize, u8, u64) {
        let pairs = ANSWERS.iter().enumerate();
        pairs
            .flat_map(|(code, answers)| answers.iter().map(move |&answer| (code, answer)))
            .map(|(code, answer)| (code, answer, self.0[code][answer as usize]))
            .min_by_key(|&(_, _, times)| times)
            .expect("there are answers")
    }
}
