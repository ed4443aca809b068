// The words of the command line: `--name value`, `--name=value` and flags.

use std::collections::BTreeMap;
use std::ffi::{OsStr, OsString};
use std::os::unix::ffi::OsStrExt;
use std::path::Path;
use std::str::FromStr;

/// The options that were given.
#[derive(Debug, Default)]
pub struct Args {
    values: BTreeMap<&'static str, OsString>,
    flags: Vec<&'static str>,
}

impl Args {
    /// Reads the words as options: `valued` ones take a value, `flags` none. Each may be given once. A value is not empty, and no option
    /// itself.
    pub fn parse(
        words: impl IntoIterator<Item = OsString>,
        valued: &[&'static str],
        flags: &[&'static str],
    ) -> Result<Args, String> {
        let mut args = Args::default();
        let mut words = words.into_iter();
        while let Some(word) = words.next() {
            let (name, attached) = split(&word);
            if let Some(flag) = flags.iter().find(|flag| name == **flag) {
                if attached.is_some() {
                    return Err(format!("{flag} takes no value"));
                }
                if args.flags.contains(flag) {
                    return Err(format!("{flag} is given twice"));
                }
                args.flags.push(flag);
            } else if let Some(option) = valued.iter().find(|option| name == **option) {
                let option_itself = |word: &OsString| valued.iter().chain(flags).any(|option| split(word).0 == *option);
                let value = attached.or_else(|| words.next().filter(|word| !option_itself(word)));
                let Some(value) = value.filter(|value| !value.is_empty()) else {
                    return Err(format!("{option} needs a value"));
                };
                if args.values.insert(option, value).is_some() {
                    return Err(format!("{option} is given twice"));
                }
            } else {
                return Err(format!("{} is not an option here", word.to_string_lossy()));
            }
        }
        Ok(args)
    }

    pub fn flag(&self, name: &str) -> bool {
        self.flags.contains(&name)
    }

    pub fn path(&self, name: &str) -> Option<&Path> {
        self.values.get(name).map(Path::new)
    }

    pub fn required(&self, name: &str) -> Result<&Path, String> {
        self.path(name).ok_or_else(|| format!("{name} is missing"))
    }

    pub fn number<T: FromStr>(&self, name: &str, what: &str) -> Result<Option<T>, String> {
        let Some(value) = self.values.get(name) else {
            return Ok(None);
        };
        let number = value.to_str().and_then(|text| text.parse().ok());
        number.map(Some).ok_or_else(|| format!("{name} {} is not {what}", value.to_string_lossy()))
    }
}

/// A word before and after its first `=`. A name that is not text names no option.
fn split(word: &OsStr) -> (&str, Option<OsString>) {
    let mut parts = word.as_bytes().splitn(2, |byte| *byte == b'=');
    let name = parts.next().and_then(|name| std::str::from_utf8(name).ok()).unwrap_or("");
    (name, parts.next().map(|value| OsStr::from_bytes(value).to_os_string()))
}

#[cfg(test)]
mod tests {
    use super::*;

    fn parse(words: &[&str]) -> Result<Args, String> {
        Args::parse(words.iter().map(OsString::from), &["--mask", "--scale"], &["--causal"])
    }

    #[test]
    fn options_and_flags() {
        let args = parse(&["--mask=m.npy", "--causal", "--scale", "0.5"]).unwrap();
        assert!(args.flag("--causal"));
        assert_eq!(args.path("--mask"), Some(Path::new("m.npy")));
        assert_eq!(args.number::<f32>("--scale", "a number"), Ok(Some(0.5)));
        assert_eq!(parse(&["--scale", "-1"]).unwrap().number("--scale", "a number"), Ok(Some(-1.0)));
    }

    #[test]
    fn values_of_any_bytes() {
        for (word, value) in [("--mask=a=b", "a=b"), ("--mask==", "="), ("--mask=--other", "--other")] {
            assert_eq!(parse(&[word]).unwrap().path("--mask"), Some(Path::new(value)));
        }
        let word = OsStr::from_bytes(b"--mask=\xFF.npy").to_os_string();
        let args = Args::parse([word], &["--mask"], &[]).unwrap();
        assert_eq!(args.path("--mask").unwrap().as_os_str().as_bytes(), b"\xFF.npy");
    }

    #[test]
    fn faults_in_words() {
        assert_eq!(parse(&["--other"]).unwrap_err(), "--other is not an option here");
        assert_eq!(parse(&["--mask"]).unwrap_err(), "--mask needs a value");
        for words in [&["--mask="][..], &["--mask", ""], &["--mask", "--causal"], &["--mask", "--scale=1"], &["--mask", "--mask"]]
        {
            assert_eq!(parse(words).unwrap_err(), "--mask needs a value");
        }
        assert_eq!(parse(&["--causal=1"]).unwrap_err(), "--causal takes no value");
        assert_eq!(parse(&["--causal", "--causal"]).unwrap_err(), "--causal is given twice");
        assert_eq!(parse(&["--mask=a", "--mask=b"]).unwrap_err(), "--mask is given twice");
        let args = parse(&["--scale", "x"]).unwrap();
        assert_eq!(args.number::<f32>("--scale", "a number").unwrap_err(), "--scale x is not a number");
        assert_eq!(args.required("--mask").unwrap_err(), "--mask is missing");
    }
}
