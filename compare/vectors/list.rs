//! A list of cases with their answers, and the texts that cases are made of.

use std::fmt::Write;

/// As much as the program `replay` reads at a time.
const BLOCK: usize = 65_536;

/// What a lent buffer is filled with before a call.
const FILL: u8 = 0xaa;

#[derive(Default)]
pub struct List {
    cases: String,
    answers: String,
    count: usize,
}

impl List {
    /// A line that is answered by itself.
    pub fn title(&mut self, text: &str) {
        self.put(&format!("# {text}"), &format!("# {text}"));
    }

    pub fn case(&mut self, case: &str, answer: &str) {
        self.count += 1;
        self.put(case, answer);
    }

    fn put(&mut self, case: &str, answer: &str) {
        let used = self.cases.len() % BLOCK;

        if used + case.len() + 1 > BLOCK {
            self.cases.push_str(&"\n".repeat(BLOCK - used));
        }

        self.cases.push_str(case);
        self.cases.push('\n');
        self.answers.push_str(answer);
        self.answers.push('\n');
    }

    pub fn len(&self) -> usize {
        self.count
    }

    pub fn cases(&self) -> &str {
        &self.cases
    }

    pub fn answers(&self) -> &str {
        &self.answers
    }
}

/// A text in hex, `-` for the empty one.
pub fn hex(text: &[u8]) -> String {
    if text.is_empty() {
        return "-".into();
    }

    text.iter().fold(String::new(), |mut s, b| {
        write!(s, "{b:02x}").expect("a string takes any text");
        s
    })
}

/// What a writer of `text` answers that is lent `room` bytes, and what it leaves in them.
pub fn written(text: &[u8], room: usize) -> String {
    if text.len() <= room {
        let mut left = text.to_vec();
        left.resize(room, FILL);
        format!("= {} {} ", text.len(), hex(&left))
    } else {
        format!("! 22 {} {} ", text.len(), hex(&vec![FILL; room]))
    }
}

/// What a writer answers that refuses by a number, and what it leaves in its room.
pub fn refused(number: u8, room: usize) -> String {
    format!("! {number} {} ", hex(&vec![FILL; room]))
}

/// Numbers that look random and are the same each time: xorshift, Marsaglia 2003.
pub struct Dice(u64);

impl Dice {
    pub fn new(seed: u64) -> Self {
        Self(seed)
    }

    pub fn below(&mut self, n: usize) -> usize {
        self.0 ^= self.0 << 13;
        self.0 ^= self.0 >> 7;
        self.0 ^= self.0 << 17;
        (self.0 % n as u64) as usize
    }

    /// A text of so many bytes of an alphabet.
    pub fn text(&mut self, len: usize, alphabet: &[u8]) -> Vec<u8> {
        (0..len).map(|_| alphabet[self.below(alphabet.len())]).collect()
    }
}
