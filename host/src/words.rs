//! The words of a command: options with a value each, and the files.

use crate::failure::Failure;
use std::fmt::Display;
use std::path::PathBuf;
use std::str::FromStr;

pub struct Words {
    options: Vec<(String, String)>,
    files: Vec<PathBuf>,
}

impl Words {
    /// Takes the words apart; only these options may stand there, each once and with a value.
    pub fn parse(words: &[String], known: &[&str]) -> Result<Words, Failure> {
        let mut all = Words { options: Vec::new(), files: Vec::new() };
        let mut words = words.iter();
        while let Some(word) = words.next() {
            if !word.starts_with("--") {
                all.files.push(word.into());
                continue;
            }
            if !known.contains(&word.as_str()) {
                return Err(Failure::Usage(format!("no option {word} here")));
            }
            if all.options.iter().any(|(name, _)| name == word) {
                return Err(Failure::Usage(format!("{word} is given twice")));
            }
            let value = words.next().ok_or_else(|| Failure::Usage(format!("{word} has no value")))?;
            all.options.push((word.clone(), value.clone()));
        }
        Ok(all)
    }

    fn value(&self, name: &str) -> Option<&str> {
        self.options.iter().find(|(option, _)| option == name).map(|(_, value)| value.as_str())
    }

    /// A number that may be left out; `most` is the greatest of its type.
    pub fn optional<T: FromStr + Display>(&self, name: &str, most: T) -> Result<Option<T>, Failure> {
        let parsed = |value: &str| {
            value.parse().map_err(|_| Failure::Usage(format!("{name} {value}: expected a number, 0 to {most}")))
        };
        self.value(name).map(parsed).transpose()
    }

    pub fn number<T: FromStr + Display>(&self, name: &str, most: T) -> Result<T, Failure> {
        self.optional(name, most)?.ok_or_else(|| Failure::Usage(format!("{name} is not given")))
    }

    /// Numbers with commas between, which may be left out.
    pub fn list<T: FromStr + Display>(&self, name: &str, most: T) -> Result<Option<Vec<T>>, Failure> {
        let parsed = |value: &str| {
            let all = value.split(',').map(str::parse).collect::<Result<Vec<T>, _>>();
            all.map_err(|_| {
                Failure::Usage(format!("{name} {value}: expected numbers, 0 to {most}, with commas between"))
            })
        };
        self.value(name).map(parsed).transpose()
    }

    /// What one of these words means; the option may be left out.
    pub fn one_of<T: Copy>(&self, name: &str, known: &[(&str, T)]) -> Result<Option<T>, Failure> {
        let meant = |value: &str| {
            known.iter().find(|(word, _)| *word == value).map(|&(_, meant)| meant).ok_or_else(|| {
                let words: Vec<&str> = known.iter().map(|&(word, _)| word).collect();
                Failure::Usage(format!("{name} {value}: expected {}", words.join(" or ")))
            })
        };
        self.value(name).map(meant).transpose()
    }

    pub fn path(&self, name: &str) -> Option<PathBuf> {
        self.value(name).map(PathBuf::from)
    }

    /// The two files that each command takes.
    pub fn files(&self, names: &str) -> Result<[PathBuf; 2], Failure> {
        let expected = |_| Failure::Usage(format!("expected two files, {names}; {} are given", self.files.len()));
        self.files.clone().try_into().map_err(expected)
    }
}
