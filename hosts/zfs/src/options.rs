//! Options, as getopt(3) reads them: bundled, after operands too, and long ones where a command has them.

use crate::failure::{Failure, Outcome};
use crate::usage::Usage;
use std::fmt;

/// An option, with its argument where it takes one.
#[derive(Clone, Debug, PartialEq, Eq)]
pub struct Found {
    pub letter: char,
    pub argument: String,
}

/// What is wrong with the options.
#[derive(Clone, Debug, PartialEq, Eq)]
pub enum Mistake {
    Unknown(char),
    UnknownLong(String),
    NoArgument(char),
}

impl fmt::Display for Mistake {
    fn fmt(&self, f: &mut fmt::Formatter<'_>) -> fmt::Result {
        match self {
            Mistake::Unknown(letter) => write!(f, "invalid option '{letter}'"),
            Mistake::UnknownLong(word) => write!(f, "invalid option '--{word}'"),
            Mistake::NoArgument(letter) => write!(f, "missing argument for '{letter}' option"),
        }
    }
}

/// Options and operands.
#[derive(Clone, Debug, Default, PartialEq, Eq)]
pub struct Options {
    pub found: Vec<Found>,
    pub operands: Vec<String>,
    /// What was wrong after those that were found; nothing was read after it.
    pub mistake: Option<Mistake>,
}

/// A long option and the letter that it stands for.
pub type Long = (&'static str, char);

impl Options {
    /// Reads words. In `letters` an option that takes an argument has a colon after it. With `is_posix` options end at the first operand.
    pub fn read(words: &[String], letters: &str, long: &[Long], is_posix: bool) -> Options {
        let mut options = Options::default();
        options.mistake = options.read_words(words, letters, long, is_posix).err();
        options
    }

    fn read_words(&mut self, words: &[String], letters: &str, long: &[Long], is_posix: bool) -> Result<(), Mistake> {
        let mut rest = words.iter();
        while let Some(word) = rest.next() {
            if is_posix && !self.operands.is_empty() {
                self.operands.push(word.clone());
                continue;
            }
            match word.strip_prefix('-') {
                Some("-") => self.operands.extend(rest.by_ref().cloned()),
                Some(name) if name.starts_with('-') && !long.is_empty() => self.read_long(&name[1..], letters, long, &mut rest)?,
                Some(bundle) if !bundle.is_empty() => self.read_bundle(bundle, letters, &mut rest)?,
                _ => self.operands.push(word.clone()),
            }
        }
        Ok(())
    }

    fn read_bundle<'a>(&mut self, bundle: &str, letters: &str, rest: &mut impl Iterator<Item = &'a String>) -> Result<(), Mistake> {
        let mut characters = bundle.chars();
        while let Some(letter) = characters.next() {
            let takes = takes_argument(letters, letter).ok_or(Mistake::Unknown(letter))?;
            let mut argument = String::new();
            if takes {
                argument = characters.as_str().to_owned();
                characters = "".chars();
                if argument.is_empty() {
                    argument = rest.next().ok_or(Mistake::NoArgument(letter))?.clone();
                }
            }
            self.found.push(Found { letter, argument });
        }
        Ok(())
    }

    fn read_long<'a>(&mut self, name: &str, letters: &str, long: &[Long], rest: &mut impl Iterator<Item = &'a String>) -> Result<(), Mistake> {
        let (name, given) = name.split_once('=').map_or((name, None), |(name, argument)| (name, Some(argument)));
        let exact = long.iter().find(|(word, _)| *word == name);
        let unknown = || Mistake::UnknownLong(name.to_owned());
        let &(_, letter) = exact.or_else(|| only(long.iter().filter(|(word, _)| word.starts_with(name)))).ok_or_else(unknown)?;
        let takes = takes_argument(letters, letter).unwrap_or(false);
        let argument = match (takes, given) {
            (true, Some(argument)) => argument.to_owned(),
            (true, None) => rest.next().ok_or(Mistake::NoArgument(letter))?.clone(),
            (false, Some(_)) => return Err(unknown()),
            (false, None) => String::new(),
        };
        self.found.push(Found { letter, argument });
        Ok(())
    }

    /// Fails where there was a mistake. As getopt(3) has it, a missing argument is told as such where the letters begin with a colon.
    pub fn check(&self, letters: &str, usage: Usage) -> Outcome {
        match &self.mistake {
            None => Ok(()),
            Some(Mistake::NoArgument(letter)) if !letters.starts_with(':') => Err(Failure::Usage(usage, Mistake::Unknown(*letter).to_string())),
            Some(mistake) => Err(Failure::Usage(usage, mistake.to_string())),
        }
    }

    pub fn has(&self, letter: char) -> bool {
        self.found.iter().any(|found| found.letter == letter)
    }

    /// The argument of the last option of this letter.
    pub fn argument(&self, letter: char) -> Option<&str> {
        self.arguments(letter).last()
    }

    pub fn arguments(&self, letter: char) -> impl Iterator<Item = &str> {
        self.found.iter().filter(move |found| found.letter == letter).map(|found| found.argument.as_str())
    }
}

fn only<T>(mut items: impl Iterator<Item = T>) -> Option<T> {
    let first = items.next()?;
    items.next().is_none().then_some(first)
}

/// Whether an option takes an argument; none where there is no such option.
fn takes_argument(letters: &str, letter: char) -> Option<bool> {
    let letters = letters.trim_start_matches(':');
    if letter == ':' {
        return None;
    }
    letters.find(letter).map(|place| letters[place + letter.len_utf8()..].starts_with(':'))
}

#[cfg(test)]
mod tests {
    use super::*;

    fn read(line: &str) -> Result<Options, Mistake> {
        let words: Vec<String> = line.split_whitespace().map(str::to_owned).collect();
        let options = Options::read(&words, "Hrpt:d:", &[("replicate", 'r'), ("token", 't')], false);
        options.mistake.clone().map_or(Ok(options), Err)
    }

    #[test]
    fn posix_options_end_at_the_first_operand() {
        let words = ["-H", "all", "-r"].map(String::from);
        assert_eq!(Options::read(&words, "Hr", &[], true).operands, ["all", "-r"]);
        assert_eq!(Options::read(&words, "Hr", &[], false).operands, ["all"]);
    }

    #[test]
    fn options_may_be_bundled_and_follow_operands() {
        let options = read("-Hrpt snapshot creation -d1 tank").unwrap();
        assert_eq!(options.operands, ["creation", "tank"]);
        assert!(options.has('H') && options.has('r') && options.has('p'));
        assert_eq!((options.argument('t'), options.argument('d')), (Some("snapshot"), Some("1")));
    }

    #[test]
    fn two_dashes_end_options() {
        assert_eq!(read("-H -- -r -").unwrap().operands, ["-r", "-"]);
    }

    #[test]
    fn long_options_stand_for_letters() {
        let options = read("--repl --token=abc x").unwrap();
        assert!(options.has('r'));
        assert_eq!(options.argument('t'), Some("abc"));
        assert_eq!(read("--nothing"), Err(Mistake::UnknownLong("nothing".into())));
    }

    #[test]
    fn what_stands_before_a_mistake_is_found() {
        let words = ["-H", "-x", "-r"].map(String::from);
        let options = Options::read(&words, "Hr", &[], false);
        assert!(options.has('H') && !options.has('r'));
        assert_eq!(options.mistake, Some(Mistake::Unknown('x')));
        assert_eq!(Options::read(&["--long".to_owned()], "l", &[], false).mistake, Some(Mistake::Unknown('-')));
    }

    #[test]
    fn mistakes_name_the_option() {
        assert_eq!(read("-Hx"), Err(Mistake::Unknown('x')));
        assert_eq!(read("-t"), Err(Mistake::NoArgument('t')));
        assert_eq!(read("-:"), Err(Mistake::Unknown(':')));
    }
}
