//! Shows answers of the oracle as text: a byte string in quotes, `-` for nothing, `!` before a refusal.

use std::io;

use oracle::io::api::attributes::{RawField, Step, Value};

/// An answer that can be shown.
pub trait Show {
    /// The answer as text.
    fn show(&self) -> String;
}

impl Show for [u8] {
    fn show(&self) -> String {
        format!("'{}'", self.escape_ascii())
    }
}

impl Show for Vec<u8> {
    fn show(&self) -> String {
        self.as_slice().show()
    }
}

impl Show for str {
    fn show(&self) -> String {
        self.to_owned()
    }
}

impl Show for bool {
    fn show(&self) -> String {
        if *self { "yes" } else { "no" }.to_owned()
    }
}

macro_rules! numbers {
    ($($t:ty),*) => {$(
        impl Show for $t {
            fn show(&self) -> String {
                self.to_string()
            }
        }
    )*};
}

numbers!(u8, u32, u64, usize, f32);

impl<T: Show + ?Sized> Show for &T {
    fn show(&self) -> String {
        (**self).show()
    }
}

impl<T: Show> Show for Option<T> {
    fn show(&self) -> String {
        self.as_ref().map_or("-".to_owned(), Show::show)
    }
}

impl<T: Show> Show for Result<T, u8> {
    fn show(&self) -> String {
        self.as_ref().map_or_else(|n| format!("!{n}"), Show::show)
    }
}

impl<T: Show> Show for io::Result<T> {
    fn show(&self) -> String {
        self.as_ref().map_or_else(|e| format!("!{}", e.kind()), Show::show)
    }
}

impl<A: Show, B: Show> Show for (A, B) {
    fn show(&self) -> String {
        format!("({}, {})", self.0.show(), self.1.show())
    }
}

impl<A: Show, B: Show, C: Show> Show for (A, B, C) {
    fn show(&self) -> String {
        format!("({}, {}, {})", self.0.show(), self.1.show(), self.2.show())
    }
}

impl<T: Show, const N: usize> Show for [T; N] {
    fn show(&self) -> String {
        list(self)
    }
}

impl Show for Vec<Vec<u8>> {
    fn show(&self) -> String {
        list(self)
    }
}

impl Show for Value {
    fn show(&self) -> String {
        match self {
            Self::String(s) => s.show(),
            Self::Array(values) => values.show(),
        }
    }
}

impl Show for Step<'_> {
    fn show(&self) -> String {
        match self {
            Self::Done => "done".to_owned(),
            Self::Refused(left) => format!("!5, {left} left"),
            Self::Field(tag, value, left) => (*tag, *value, *left).show(),
        }
    }
}

/// A walk's answer.
impl Show for (Vec<RawField<'_>>, Option<usize>) {
    fn show(&self) -> String {
        let place = self.1.map_or(String::new(), |at| format!(" !5 at {at}"));
        list(&self.0) + &place
    }
}

/// A walk's answer, decoded.
impl Show for (Vec<(Vec<u8>, Value)>, Option<u8>) {
    fn show(&self) -> String {
        let refusal = self.1.map_or(String::new(), |n| format!(" !{n}"));
        list(&self.0) + &refusal
    }
}

fn list(items: &[impl Show]) -> String {
    let shown: Vec<_> = items.iter().map(Show::show).collect();
    format!("[{}]", shown.join(", "))
}
