//! Texts to compare on: every short one, random ones around the lengths where code changes its way, good lines, and damage.

mod good;

pub use good::{attributes, line, lines};

/// Lengths beside which code may change its way: windows of 16 bytes, and 20 digits.
const EDGES: [usize; 9] = [0, 1, 16, 20, 32, 48, 64, 128, 256];

/// Every byte there is.
pub const BYTES: [u8; 256] = {
    let mut bytes = [0; 256];
    let mut b = 0;

    while b < 256 {
        bytes[b] = b as u8;
        b += 1;
    }

    bytes
};

/// Numbers that look random and are the same for the same seed: splitmix64, Steele, Lea and Flood 2014.
pub struct Dice(u64);

impl Dice {
    /// Dice that give each of the words a throw of its own, so that a case depends on its own number alone.
    pub fn new(words: [u64; 3]) -> Self {
        let mut dice = Self(0);

        for word in words {
            dice.0 ^= word;
            dice.0 = dice.next();
        }

        dice
    }

    fn next(&mut self) -> u64 {
        self.0 = self.0.wrapping_add(0x9e37_79b9_7f4a_7c15);
        let z = (self.0 ^ (self.0 >> 30)).wrapping_mul(0xbf58_476d_1ce4_e5b9);
        let z = (z ^ (z >> 27)).wrapping_mul(0x94d0_49bb_1331_11eb);
        z ^ (z >> 31)
    }

    pub fn number(&mut self) -> u64 {
        self.next()
    }

    pub fn below(&mut self, n: usize) -> usize {
        (self.next() % n as u64) as usize
    }

    pub fn between(&mut self, low: usize, high: usize) -> usize {
        low + self.below(high - low + 1)
    }

    /// True once in `n` throws.
    pub fn once_in(&mut self, n: usize) -> bool {
        self.below(n) == 0
    }

    pub fn one_of<T: Copy>(&mut self, items: &[T]) -> T {
        items[self.below(items.len())]
    }

    /// A length: beside an edge, or any short one, or now and then a long one.
    pub fn len(&mut self) -> usize {
        match self.below(16) {
            0..8 => (self.one_of(&EDGES) + self.below(3)).saturating_sub(1),
            8..15 => self.below(70),
            _ => self.below(2000),
        }
    }

    /// A text of so many bytes of an alphabet.
    pub fn text(&mut self, len: usize, alphabet: &[u8]) -> Vec<u8> {
        (0..len).map(|_| self.one_of(alphabet)).collect()
    }

    /// A cursor into a text: in it, at its end, just beyond it, or far.
    pub fn cursor(&mut self, len: usize) -> usize {
        match self.below(16) {
            0 => len,
            1 => len + self.between(1, 20),
            2 => usize::MAX - self.below(3),
            _ => self.below(len + 1),
        }
    }
}

/// Hands out every text of so many bytes of an alphabet.
pub fn every(alphabet: &[u8], len: usize, mut f: impl FnMut(&[u8])) {
    let mut digits = vec![0; len];
    let mut text = vec![alphabet[0]; len];

    loop {
        f(&text);

        let Some(last) = digits.iter().rposition(|&d| d + 1 < alphabet.len()) else {
            return;
        };

        digits[last] += 1;
        text[last] = alphabet[digits[last]];
        digits[last + 1..].fill(0);
        text[last + 1..].fill(alphabet[0]);
    }
}

/// A text of so many bytes, those of an alphabet in turn, so that a byte copied from another place is seen.
pub fn turns(alphabet: &[u8], len: usize) -> Vec<u8> {
    alphabet.iter().copied().cycle().take(len).collect()
}

/// One to three damages: a byte changed, bytes put in, taken out or doubled, or the text cut.
pub fn damage(dice: &mut Dice, text: &mut Vec<u8>, marks: &[u8]) {
    for _ in 0..dice.between(1, 3) {
        let at = dice.below(text.len() + 1);
        let to = (at + dice.between(1, 4)).min(text.len());
        let byte = if dice.once_in(3) {
            dice.one_of(&BYTES)
        } else {
            dice.one_of(marks)
        };

        match dice.below(6) {
            0 if at < text.len() => text[at] = byte,
            1 | 2 => text.insert(at, byte),
            3 => drop(text.drain(at..to)),
            4 => {
                let doubled = text[at..to].to_vec();
                text.splice(to..to, doubled);
            }
            5 if dice.once_in(3) => text.truncate(at),
            _ => {}
        }
    }
}

/// Hands out the numbers beside those where a reader has to stop, or where a number of 32 or 64 bits begins anew, with zeros
/// before them and digits behind them.
pub fn beside_greatest(mut f: impl FnMut(&str)) {
    let ends = (0..=5)
        .flat_map(|k| [k << 32, k << 64])
        .chain([10_u128.pow(19), 10_u128.pow(20)]);

    for n in ends.flat_map(|end| end.saturating_sub(11)..=end + 11) {
        for zeros in (0..3).chain([9, 10, 18, 19, 20, 21, 40]) {
            for behind in ["", "0", "1", "9", "00", "16"] {
                f(&format!("{}{n}{behind}", "0".repeat(zeros)));
            }
        }
    }
}

/// Digits: of any count, with zeros before them, or beside a number where a reader has to stop.
pub fn digits(dice: &mut Dice) -> Vec<u8> {
    let near = [1, 10, 1 << 32, 1 << 53, 10_u128.pow(19), 1 << 64, 1 << 65];
    let mut text = Vec::new();

    if dice.once_in(4) {
        text.resize(dice.below(24), b'0');
    }

    match dice.below(4) {
        0 => {
            let len = dice.between(1, 22);
            text.extend(dice.text(len, b"0123456789"));
        }
        1 => text.extend(dice.number().to_string().bytes()),
        2 => {
            let n = dice.one_of(&near) + dice.below(20) as u128;
            text.extend(n.saturating_sub(10).to_string().bytes());
            let len = dice.below(3);
            text.extend(dice.text(len, b"0123456789"));
        }
        _ => text.extend(dice.below(1000).to_string().bytes()),
    }

    text
}
