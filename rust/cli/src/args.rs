//! The words behind a command: names of things, and options anywhere between them.

use crate::failure::Failure;

pub struct Args {
    pub plain: Vec<String>,
    flags: Vec<String>,
    values: Vec<(String, String)>,
}

impl Args {
    /// Splits the words. `flags` stand alone, `valued` have a word behind them. At least `least` and at most `most` plain words.
    pub fn of(words: &[String], flags: &[&str], valued: &[&str], least: usize, most: usize) -> Result<Args, Failure> {
        let mut args = Args { plain: vec![], flags: vec![], values: vec![] };
        let mut words = words.iter();
        while let Some(word) = words.next() {
            if flags.contains(&word.as_str()) {
                args.flags.push(word.clone());
            } else if valued.contains(&word.as_str()) {
                let value = words.next().ok_or_else(|| Failure::Usage(format!("{word} needs a word behind it")))?;
                args.values.push((word.clone(), value.clone()));
            } else if word.starts_with("--") {
                return Err(Failure::Usage(format!("no option {word:?} here")));
            } else {
                args.plain.push(word.clone());
            }
        }
        if args.plain.len() < least || args.plain.len() > most {
            return Err(Failure::Usage(format!("{} words where {least} to {most} are asked", args.plain.len())));
        }
        Ok(args)
    }

    pub fn has(&self, flag: &str) -> bool {
        self.flags.iter().any(|f| f == flag)
    }

    pub fn value(&self, option: &str) -> Option<&str> {
        self.values.iter().rev().find(|(name, _)| name == option).map(|(_, value)| value.as_str())
    }

    pub fn number(&self, option: &str) -> Result<Option<usize>, Failure> {
        self.value(option).map(number).transpose()
    }
}

pub fn number(text: &str) -> Result<usize, Failure> {
    text.parse().map_err(|_| Failure::Usage(format!("{text:?} is no number")))
}
