//! The words after a command: options and files, in any order.

use std::ffi::{OsStr, OsString};
use std::os::unix::ffi::OsStrExt;

use crate::input::shown;
use crate::status::Failure;

/// An option that a command knows.
#[derive(Clone, Copy, Debug)]
pub struct Opt {
    /// Without its dashes.
    pub long: &'static str,
    pub short: Option<char>,
    /// What its value is called, if it takes one.
    pub value: Option<&'static str>,
    pub says: &'static str,
}

/// What was typed.
#[derive(Debug)]
pub struct Words {
    command: &'static str,
    given: Vec<(Opt, OsString)>,
    files: Vec<OsString>,
}

impl Words {
    /// `--` ends the options, `-` is a file, and a value may stand in the same word or in the next
    /// one: `--output=FILE`, `--output FILE`, `-oFILE`, `-o FILE`.
    pub fn read(
        command: &'static str,
        known: &'static [Opt],
        words: &[OsString],
    ) -> Result<Self, Failure> {
        let (given, files) = (Vec::new(), Vec::new());
        let mut read = Self {
            command,
            given,
            files,
        };
        let mut rest = words.iter();
        while let Some(word) = rest.next() {
            match word.as_bytes() {
                b"--" => read.files.extend(rest.by_ref().cloned()),
                [b'-', b'-', long @ ..] => read.long(known, long, &mut rest)?,
                [b'-', short, value @ ..] => read.short(known, *short, value, word, &mut rest)?,
                _ => read.files.push(word.clone()),
            }
        }
        Ok(read)
    }

    pub fn has(&self, long: &str) -> bool {
        self.value(long).is_some()
    }

    /// The option's value, "" for one that takes none.
    pub fn value(&self, long: &str) -> Option<&OsStr> {
        let mut given = self.given.iter();
        let (_, value) = given.find(|(option, _)| option.long == long)?;
        Some(value)
    }

    pub fn files(&self) -> &[OsString] {
        &self.files
    }

    /// What is wrong with the words, to be said with the command's name.
    pub fn wrong(&self, what: String) -> Failure {
        Failure::usage(self.command, what)
    }

    fn long<'a>(
        &mut self,
        known: &[Opt],
        word: &[u8],
        rest: &mut impl Iterator<Item = &'a OsString>,
    ) -> Result<(), Failure> {
        let end = word.iter().position(|byte| *byte == b'=');
        let (name, value) = match end {
            Some(end) => (&word[..end], Some(OsStr::from_bytes(&word[end + 1..]))),
            None => (word, None),
        };
        let named = format!("--{}", shown(OsStr::from_bytes(name)));
        let option = known.iter().find(|option| option.long.as_bytes() == name);
        self.take(option, &named, value, rest)
    }

    fn short<'a>(
        &mut self,
        known: &[Opt],
        short: u8,
        value: &[u8],
        word: &OsStr,
        rest: &mut impl Iterator<Item = &'a OsString>,
    ) -> Result<(), Failure> {
        let mut known = known.iter();
        let option = known.find(|option| option.short == Some(char::from(short)));
        let named = match option {
            Some(_) => format!("-{}", char::from(short)),
            None => shown(word),
        };
        let value = Some(OsStr::from_bytes(value)).filter(|value| !value.is_empty());
        self.take(option, &named, value, rest)
    }

    fn take<'a>(
        &mut self,
        option: Option<&Opt>,
        named: &str,
        value: Option<&OsStr>,
        rest: &mut impl Iterator<Item = &'a OsString>,
    ) -> Result<(), Failure> {
        let Some(option) = option else {
            return Err(self.wrong(format!("unknown option '{named}'")));
        };
        let value = match (option.value, value) {
            (None, None) => OsString::new(),
            (None, Some(_)) => return Err(self.wrong(format!("option '{named}' takes no value"))),
            (Some(_), Some(value)) => value.into(),
            (Some(what), None) => match rest.next() {
                Some(value) => value.clone(),
                None => return Err(self.wrong(format!("option '{named}' needs a {what}"))),
            },
        };
        // Of two values one would be dropped unseen.
        if option.value.is_some() && self.has(option.long) {
            return Err(self.wrong(format!("option '{named}' is given twice")));
        }
        self.given.push((*option, value));
        Ok(())
    }
}

#[cfg(test)]
mod tests {
    use super::*;

    const KNOWN: &[Opt] = &[
        Opt {
            long: "json",
            short: None,
            value: None,
            says: "",
        },
        Opt {
            long: "output",
            short: Some('o'),
            value: Some("FILE"),
            says: "",
        },
    ];

    /// Which options, which value of `--output`, which files; or what is wrong.
    fn read(words: &[&str]) -> Result<String, String> {
        let words: Vec<OsString> = words.iter().map(OsString::from).collect();
        match Words::read("list", KNOWN, &words) {
            Ok(read) => Ok(format!(
                "{} {:?} {:?}",
                read.has("json"),
                read.value("output"),
                read.files()
            )),
            Err(Failure::Usage { what, .. }) => Err(what),
            Err(other) => Err(format!("{other:?}")),
        }
    }

    #[test]
    fn options_stand_before_and_after_files() {
        let told = Ok(r#"true Some("out") ["a", "b"]"#.into());
        for words in [
            ["--json", "-o", "out", "a", "b"].as_slice(),
            &["a", "b", "-oout", "--json"],
            &["a", "--output=out", "b", "--json"],
            &["a", "--output", "out", "--json", "--", "b"],
        ] {
            assert_eq!(read(words), told, "{words:?}");
        }
        assert_eq!(read(&["-"]), Ok(r#"false None ["-"]"#.into()));
        let told = Ok(r#"false None ["--json", "-", "--"]"#.into());
        assert_eq!(read(&["--", "--json", "-", "--"]), told);
        let told = Ok(r#"false Some("-") ["a"]"#.into());
        assert_eq!(read(&["-o", "-", "a"]), told);
        let told = Ok(r#"false Some("") []"#.into());
        assert_eq!(read(&["--output="]), told);
    }

    #[test]
    fn each_wrong_word_is_named() {
        for (words, told) in [
            (["--jsno"].as_slice(), "unknown option '--jsno'"),
            (&["a", "-x", "b"], "unknown option '-x'"),
            (&["-json"], "unknown option '-json'"),
            (&["--jsno=1"], "unknown option '--jsno'"),
            (&["--json=1"], "option '--json' takes no value"),
            (&["a", "-o"], "option '-o' needs a FILE"),
            (&["--output"], "option '--output' needs a FILE"),
            (&["-oa", "-ob", "c"], "option '-o' is given twice"),
            (&["--\u{1b}[2J"], "unknown option '--\\u{1b}[2J'"),
        ] {
            assert_eq!(read(words), Err(told.into()), "{words:?}");
        }
    }
}
