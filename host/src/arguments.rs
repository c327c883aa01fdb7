//! The command line: `--name VALUE`, `--name=VALUE`, `--flag`, and what stands by itself.

use morgnet::{posting, Problem};
use std::ffi::{OsStr, OsString};
use std::path::PathBuf;
use std::str::FromStr;

/// An option that a command takes: its name, and whether a value follows.
pub type Known = (&'static str, bool);

/// A command line, taken apart.
pub struct Arguments {
    values: Vec<(&'static str, OsString)>,
    flags: Vec<&'static str>,
    rest: Vec<OsString>,
}

fn usage(text: String) -> Problem {
    Problem::Usage(text)
}

impl Arguments {
    /// Takes the words after the command apart. No option stands twice.
    pub fn parse(words: Vec<OsString>, known: &[Known]) -> Result<Arguments, Problem> {
        let mut found = Arguments { values: vec![], flags: vec![], rest: vec![] };
        let mut words = words.into_iter();
        while let Some(word) = words.next() {
            let text = word.to_str().unwrap_or_default();
            if text == "--" {
                found.rest.extend(words.by_ref());
                break;
            }
            if !text.starts_with('-') || text == "-" {
                found.rest.push(word);
                continue;
            }
            let (name, joined) = match text.split_once('=') {
                Some((name, value)) => (name, Some(OsString::from(value))),
                None => (text, None),
            };
            let Some(&(name, takes)) = known.iter().find(|(known, _)| *known == name) else {
                return Err(usage(format!("there is no option '{name}' here; --help has them")));
            };
            if found.flags.contains(&name) || found.values.iter().any(|(n, _)| *n == name) {
                return Err(usage(format!("{name} is given twice")));
            }
            match (takes, joined) {
                (false, None) => found.flags.push(name),
                (false, Some(_)) => return Err(usage(format!("{name} takes no value"))),
                (true, Some(value)) => found.values.push((name, value)),
                (true, None) => match words.next() {
                    Some(value) => found.values.push((name, value)),
                    None => return Err(usage(format!("{name} wants a value after it"))),
                },
            }
        }
        Ok(found)
    }

    pub fn flag(&self, name: &str) -> bool {
        self.flags.contains(&name)
    }

    fn value(&self, name: &str) -> Option<&OsStr> {
        self.values.iter().find(|(n, _)| *n == name).map(|(_, value)| value.as_os_str())
    }

    pub fn has(&self, name: &str) -> bool {
        self.value(name).is_some()
    }

    /// A file that must be named.
    pub fn path(&self, name: &str) -> Result<PathBuf, Problem> {
        self.path_if(name)?
            .ok_or_else(|| usage(format!("{name} is missing; --help has an example")))
    }

    /// A file that may be named.
    pub fn path_if(&self, name: &str) -> Result<Option<PathBuf>, Problem> {
        match self.value(name) {
            Some(value) if value.is_empty() => Err(usage(format!("{name} has an empty name"))),
            value => Ok(value.map(PathBuf::from)),
        }
    }

    /// A number that must be given.
    pub fn number(&self, name: &str) -> Result<u64, Problem> {
        self.number_if(name)?
            .ok_or_else(|| usage(format!("{name} is missing; --help has an example")))
    }

    /// A number that may be given.
    pub fn number_if(&self, name: &str) -> Result<Option<u64>, Problem> {
        let Some(value) = self.value(name) else { return Ok(None) };
        posting::number(value.as_encoded_bytes())
            .map(Some)
            .map_err(|why| usage(format!("{name} '{}': {why}", value.to_string_lossy())))
    }

    /// `CELL,VALUE`.
    pub fn pair(&self, name: &str) -> Result<(u64, u64), Problem> {
        let value = self.value(name).unwrap_or_default();
        let number = |text: Option<&str>| {
            posting::number(text.unwrap_or_default().as_bytes())
                .map_err(|why| usage(format!("{name} '{}': {why}", value.to_string_lossy())))
        };
        let mut parts = value.to_str().unwrap_or_default().splitn(2, ',');
        Ok((number(parts.next())?, number(parts.next())?))
    }

    /// A word that may be given, as what it stands for.
    pub fn word_if<T: FromStr>(&self, name: &str, wanted: &str) -> Result<Option<T>, Problem> {
        let Some(value) = self.value(name) else { return Ok(None) };
        value
            .to_str()
            .and_then(|text| text.parse().ok())
            .map(Some)
            .ok_or_else(|| usage(format!("{name} wants {wanted}")))
    }

    /// The files named by themselves, at least `least`.
    pub fn files(&self, least: usize, what: &str) -> Result<Vec<PathBuf>, Problem> {
        if self.rest.len() < least {
            return Err(usage(format!("{what}; --help has an example")));
        }
        if self.rest.iter().any(|word| word.is_empty()) {
            return Err(usage("a file has an empty name".into()));
        }
        Ok(self.rest.iter().map(PathBuf::from).collect())
    }

    /// Nothing stands by itself.
    pub fn no_files(&self) -> Result<(), Problem> {
        match self.rest.first() {
            None => Ok(()),
            Some(word) => {
                Err(usage(format!("'{}' is not understood here", word.to_string_lossy())))
            }
        }
    }
}
