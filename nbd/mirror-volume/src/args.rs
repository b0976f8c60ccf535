//! The parameters of a command: NAME=VALUE, as the nbdkit plugin takes them, and
//! options.

use std::ffi::{OsStr, OsString};
use std::os::unix::ffi::OsStrExt;
use std::path::PathBuf;

use crate::failure::Failure;
use crate::shape::Role;
use crate::size;

/// The parameters that were given to a command, each by its name.
#[derive(Debug, Default)]
pub struct Arguments {
    values: Vec<(String, OsString)>,
}

/// What a command takes.
pub struct Accepted {
    /// Names of parameters, NAME=VALUE.
    pub parameters: &'static [&'static str],
    /// Options with a value behind them.
    pub with_value: &'static [&'static str],
    /// Options without one.
    pub flags: &'static [&'static str],
}

impl Arguments {
    pub fn parse(words: Vec<OsString>, accepted: &Accepted) -> Result<Arguments, Failure> {
        let mut arguments = Arguments::default();
        let mut words = words.into_iter();
        while let Some(word) = words.next() {
            let text = word.to_string_lossy().into_owned();
            if accepted.flags.contains(&text.as_str()) {
                arguments.add(&text, OsString::new())?;
            } else if accepted.with_value.contains(&text.as_str()) {
                let value = words.next().ok_or_else(|| {
                    wrong_use(
                        format!("{text} has no value"),
                        &format!("give {text} VALUE"),
                    )
                })?;
                arguments.add(&text, value)?;
            } else {
                arguments.add_parameter(&word, accepted)?;
            }
        }
        Ok(arguments)
    }

    fn add_parameter(&mut self, word: &OsStr, accepted: &Accepted) -> Result<(), Failure> {
        let bytes = word.as_bytes();
        let equals = bytes.iter().position(|&byte| byte == b'=');
        let (name, value) = match equals {
            Some(at) => (&bytes[..at], &bytes[at + 1..]),
            None => (bytes, &b""[..]),
        };
        let name = String::from_utf8_lossy(name);
        if equals.is_none() || !accepted.parameters.contains(&name.as_ref()) {
            let known = accepted.parameters.join("=, ");
            return Err(wrong_use(
                format!(
                    "{:?} is no parameter of this command",
                    word.to_string_lossy()
                ),
                &format!("it takes {known}= (see --help)"),
            ));
        }
        self.add(&name, OsStr::from_bytes(value).to_owned())
    }

    fn add(&mut self, name: &str, value: OsString) -> Result<(), Failure> {
        if self.has(name) {
            return Err(wrong_use(format!("{name} is given twice"), "give it once"));
        }
        self.values.push((name.to_string(), value));
        Ok(())
    }

    pub fn has(&self, name: &str) -> bool {
        self.value(name).is_some()
    }

    fn value(&self, name: &str) -> Option<&OsStr> {
        let found = self.values.iter().find(|(known, _)| known == name);
        found.map(|(_, value)| value.as_os_str())
    }

    /// The text of a parameter, if it was given.
    pub fn text(&self, name: &str) -> Option<String> {
        let value = self.value(name)?;
        Some(value.to_string_lossy().into_owned())
    }

    /// The file that a parameter or an option names, if it was given.
    pub fn optional_path(&self, name: &str) -> Option<PathBuf> {
        self.value(name).map(PathBuf::from)
    }

    /// The file that a parameter names.
    pub fn path(&self, name: &str) -> Result<PathBuf, Failure> {
        match self.optional_path(name) {
            Some(path) if !path.as_os_str().is_empty() => Ok(path),
            _ => Err(missing(name, "FILE")),
        }
    }

    /// The three files of the disk, by their roles.
    pub fn disk_paths(&self) -> Result<[PathBuf; 3], Failure> {
        let [local, tags, remote] = Role::ALL.map(|role| self.path(role.name()));
        Ok([local?, tags?, remote?])
    }

    /// A number, if it was given.
    pub fn number(&self, name: &str) -> Result<Option<u64>, Failure> {
        self.parsed(
            name,
            size::parse_number,
            "decimal digits of a number below 2^64",
        )
    }

    /// A number of bytes, if it was given.
    pub fn bytes(&self, name: &str) -> Result<Option<u64>, Failure> {
        let what = "decimal digits, and K, M, G or T behind them, of a number below 2^64";
        self.parsed(name, size::parse, what)
    }

    /// A yes or no, no if it was not given.
    pub fn truth(&self, name: &str) -> Result<bool, Failure> {
        let parse = |text: &str| match text {
            "true" => Some(true),
            "false" => Some(false),
            _ => None,
        };
        Ok(self.parsed(name, parse, "true or false")?.unwrap_or(false))
    }

    fn parsed<T>(
        &self,
        name: &str,
        parse: impl Fn(&str) -> Option<T>,
        what: &str,
    ) -> Result<Option<T>, Failure> {
        let Some(text) = self.text(name) else {
            return Ok(None);
        };
        match parse(&text) {
            Some(value) => Ok(Some(value)),
            None => Err(wrong_use(
                format!("{name}={text} is no value"),
                &format!("give {what}"),
            )),
        }
    }
}

/// A command that was not given what it needs.
pub fn missing(name: &str, value: &str) -> Failure {
    let what_to_do = format!("give {name}={value} (see --help)");
    Failure::new(format!("{name}= is missing"), what_to_do)
}

fn wrong_use(what_is_wrong: String, what_to_do: &str) -> Failure {
    Failure::new(what_is_wrong, what_to_do)
}

#[cfg(test)]
mod tests {
    use super::*;

    const ACCEPTED: Accepted = Accepted {
        parameters: &["local", "size", "lost"],
        with_value: &["--svg"],
        flags: &["--json"],
    };

    fn parse(words: &[&str]) -> Result<Arguments, Failure> {
        let words = words.iter().map(OsString::from).collect();
        Arguments::parse(words, &ACCEPTED)
    }

    #[test]
    fn parameters_and_options_are_found() {
        let arguments = parse(&["local=a=b", "--svg", "local=c", "--json", "size=2K"]).unwrap();
        assert_eq!(arguments.path("local").unwrap(), PathBuf::from("a=b"));
        assert_eq!(
            arguments.optional_path("--svg").unwrap(),
            PathBuf::from("local=c")
        );
        assert!(arguments.has("--json"));
        assert_eq!(arguments.bytes("size").unwrap(), Some(2048));
        assert!(!arguments.truth("lost").unwrap());
    }

    #[test]
    fn wrong_words_are_refused() {
        for words in [
            &["other=1"][..],
            &["local"],
            &["--other"],
            &["--svg"],
            &["local=a", "local=b"],
            &["--json", "--json"],
        ] {
            assert!(parse(words).is_err(), "{words:?}");
        }
        assert!(parse(&["local="]).unwrap().path("local").is_err());
        assert!(parse(&["size=x"]).unwrap().bytes("size").is_err());
        assert!(parse(&["lost=yes"]).unwrap().truth("lost").is_err());
    }
}
