//! Cases of a text that comes in parts. The Rust gets the whole text, and each of its lines of more than 65,536 bytes counts as 25.

use oracle::io::api::lines;

use crate::list::{Dice, List, hex};

/// The most bytes of a line that comes in parts.
const HOLD: usize = 65_536;

pub fn parts(list: &mut List) {
    list.title("P TEXT LENGTH FRONT: each line, or 25, and a dot; letters and the text come in parts of this length");

    for text in short() {
        for length in 0..=text.len() {
            list.case(&format!("P {} {length}", hex(&text)), &told(&text));
        }
    }

    let mut dice = Dice::new(13);

    for i in 0..60 {
        let text = dice.text(i, b"abcdefgh\r\r\n\n");
        let length = dice.below(20);
        list.case(&format!("P {} {length}", hex(&text)), &told(&text));
    }

    for (front, end, length) in LONG {
        let text = [&letters(front), end.as_bytes()].concat();
        list.case(&format!("P {} {length} {front}", hex(end.as_bytes())), &told(&text));
    }
}

/// Lines around the limit: letters, what stands behind them, and the length of a part. Two are handed out, each in 131,072 digits.
const LONG: [(usize, &str, usize); 13] = [
    (HOLD, "\r\n", 4096),
    (HOLD - 1, "\r\r\n", 4096),
    (HOLD, "\r", 4096),
    (HOLD, "\r\r\n", 4096),
    (HOLD, "\r\r\n", HOLD + 1),
    (HOLD, "\ra\n", 4096),
    (HOLD, "\ra\n", HOLD + 1),
    (HOLD, "b\r\n", HOLD),
    (HOLD + 1, "", 4096),
    (HOLD + 1, "\n", 4096),
    (HOLD + 1, "\r\n\na\r\nb\r", 4096),
    (HOLD + 1, "\r\n\na\r\nb\r", HOLD + 2),
    (HOLD + 500, "\r\r\n\r\na", 1000),
];

/// Every text of up to four bytes, each an `a`, a space, a carriage return or a line feed.
fn short() -> impl Iterator<Item = Vec<u8>> {
    (0..=4).flat_map(|len| {
        (0..4_usize.pow(len)).map(move |n| (0..len).map(|i| b"a \r\n"[n / 4_usize.pow(i) % 4]).collect())
    })
}

/// The letters that the program puts before a text.
fn letters(n: usize) -> Vec<u8> {
    (b'a'..=b'w').cycle().take(n).collect()
}

fn told(text: &[u8]) -> String {
    let told: String = lines::read_lines(text)
        .iter()
        .map(|line| {
            if line.len() > HOLD {
                "! 25 ".into()
            } else {
                format!("{} ", hex(line))
            }
        })
        .collect();
    format!("{told}. ")
}
