//! The words of the command line.

/// When a run ends.
#[derive(Debug)]
pub enum End {
    Seconds(u64),
    /// So many random cases of each group.
    Cases(u64),
}

#[derive(Debug)]
pub struct Options {
    pub end: End,
    pub seed: u64,
    pub only: Option<String>,
}

impl Options {
    pub fn read(mut words: impl Iterator<Item = String>, groups: &[&str]) -> Result<Self, String> {
        let mut options = Self {
            end: End::Seconds(60),
            seed: 1,
            only: None,
        };

        while let Some(name) = words.next() {
            let word = words.next().ok_or(format!("{name} wants a word after it"))?;
            let number = || word.parse().map_err(|_| format!("{name} wants a number, not '{word}'"));

            match name.as_str() {
                "--seconds" => options.end = End::Seconds(number()?),
                "--cases" => options.end = End::Cases(number()?),
                "--seed" => options.seed = number()?,
                "--only" if groups.contains(&word.as_str()) => options.only = Some(word),
                "--only" => return Err(format!("no such group: '{word}'")),
                _ => return Err(format!("no such option: '{name}'")),
            }
        }

        Ok(options)
    }
}
