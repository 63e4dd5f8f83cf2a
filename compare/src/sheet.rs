//! The field sheet, from the sentences of RULES 9.1 alone: sections in a fixed order, each after its count of four bytes, low byte
//! first; then the attributes, each a tag, a count of values that is not 0, and the values.

/// A tag and its values.
pub type Attribute = (Vec<u8>, Vec<Vec<u8>>);

#[derive(Clone, Debug, Default, Eq, PartialEq)]
pub struct Sheet {
    pub name: Vec<u8>,
    pub source: Vec<u8>,
    pub ty: Vec<u8>,
    /// Empty where it is missing.
    pub score: Vec<u8>,
    pub attributes: Vec<Attribute>,
}

impl Sheet {
    pub fn bytes(&self) -> Vec<u8> {
        let mut out = Vec::new();

        for section in [&self.name, &self.source, &self.ty, &self.score] {
            put_text(&mut out, section);
        }

        put_count(&mut out, self.attributes.len());

        for (tag, values) in &self.attributes {
            put_text(&mut out, tag);
            put_count(&mut out, values.len());

            for value in values {
                put_text(&mut out, value);
            }
        }

        out
    }

    /// Nothing where the bytes are no sheet.
    pub fn read(mut bytes: &[u8]) -> Option<Self> {
        let rest = &mut bytes;
        let sheet = Self {
            name: text(rest)?,
            source: text(rest)?,
            ty: text(rest)?,
            score: text(rest)?,
            attributes: attributes(rest)?,
        };

        rest.is_empty().then_some(sheet)
    }
}

fn put_count(out: &mut Vec<u8>, n: usize) {
    out.extend(u32::try_from(n).expect("the text is short").to_le_bytes());
}

fn put_text(out: &mut Vec<u8>, text: &[u8]) {
    put_count(out, text.len());
    out.extend(text);
}

fn count(rest: &mut &[u8]) -> Option<usize> {
    let (four, behind) = rest.split_first_chunk()?;
    *rest = behind;
    Some(u32::from_le_bytes(*four) as usize)
}

fn text(rest: &mut &[u8]) -> Option<Vec<u8>> {
    let n = count(rest)?;
    let (text, behind) = rest.split_at_checked(n)?;
    *rest = behind;
    Some(text.to_vec())
}

fn attributes(rest: &mut &[u8]) -> Option<Vec<Attribute>> {
    let n = count(rest)?;
    (0..n).map(|_| Some((text(rest)?, values(rest)?))).collect()
}

fn values(rest: &mut &[u8]) -> Option<Vec<Vec<u8>>> {
    let n = count(rest)?;

    if n == 0 {
        return None;
    }

    (0..n).map(|_| text(rest)).collect()
}
