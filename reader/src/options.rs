//! The arguments of the command line.

use std::ffi::OsString;
use std::path::PathBuf;

use crate::answer::Floats;
use crate::run::Wanted;

/// Read by the script `lanegravel` too: a line that begins with two spaces and `-` names an option,
/// and a word of capitals after it is its argument, in brackets where it may be left out.
pub const HELP: &str = include_str!("help.txt");

/// What the program is asked to do.
#[derive(Debug, PartialEq)]
pub enum Task {
    Help,
    Version,
    Card,
    /// Writes the page text of a form drawn from this seed.
    Example(u64),
    Answer(Answering),
}

/// Texts to be answered.
#[derive(Debug, Default, PartialEq)]
pub struct Answering {
    pub wanted: Wanted,
    pub settings: Option<PathBuf>,
    /// In order; `-` is standard input, and so is none.
    pub files: Vec<PathBuf>,
}

/// What these arguments ask for, or what is wrong with them.
pub fn task(arguments: impl IntoIterator<Item = OsString>) -> Result<Task, String> {
    let mut rest = arguments.into_iter();
    let mut asked = Answering::default();
    while let Some(argument) = rest.next() {
        let mut file = |option: &str| -> Result<Option<PathBuf>, String> {
            let file = rest.next().ok_or(format!("{option} needs a file"))?;
            Ok(Some(file.into()))
        };
        match argument.to_str() {
            Some("--help" | "-h") => return Ok(Task::Help),
            Some("--version") => return Ok(Task::Version),
            Some("--card") => return Ok(Task::Card),
            Some("--example") => return example(rest.next(), rest.next()),
            Some("--sets") => asked.wanted.sets = true,
            Some("--report") => asked.wanted.report = true,
            Some("--decimal") => asked.wanted.floats = Floats::Decimal,
            Some("--picture") => asked.wanted.picture = file("--picture")?,
            Some("--levelled") => asked.wanted.levelled = file("--levelled")?,
            Some("--scan") => asked.wanted.scan = file("--scan")?,
            Some("--settings") => asked.settings = file("--settings")?,
            Some(option) if option.starts_with('-') && option != "-" => {
                return Err(format!(
                    "unknown option {option}; --help says which there are"
                ));
            }
            _ => asked.files.push(argument.into()),
        }
    }
    Ok(Task::Answer(asked))
}

fn example(seed: Option<OsString>, more: Option<OsString>) -> Result<Task, String> {
    let seed = seed.unwrap_or("1".into());
    let digits = seed.to_str().filter(|seed| !seed.starts_with('+'));
    let number = digits
        .filter(|_| more.is_none())
        .and_then(|digits| digits.parse().ok());
    let message = "--example takes a whole number of 64 bits and nothing more";
    number.map(Task::Example).ok_or(message.into())
}

#[cfg(test)]
mod tests {
    use super::{HELP, Task, task};

    fn asked(arguments: &str) -> Result<Task, String> {
        task(arguments.split_whitespace().map(Into::into))
    }

    /// The options of the help text, each with its argument.
    fn helped() -> impl Iterator<Item = (&'static str, Option<&'static str>)> {
        let lines = HELP.lines().filter_map(|line| line.strip_prefix("  "));
        let options = lines.filter(|line| line.starts_with('-'));
        options.map(|line| {
            let (option, rest) = line.split_once(' ').unwrap_or((line, ""));
            (
                option,
                rest.split(' ').next().filter(|word| !word.is_empty()),
            )
        })
    }

    #[test]
    fn every_option_of_the_help_text_is_known() {
        assert_eq!(helped().count(), 12);
        for (option, argument) in helped() {
            let argument = argument.unwrap_or_default();
            let value = if argument == "[SEED]" { "7" } else { "name" };
            let value = if argument.is_empty() { "" } else { value };
            assert!(asked(&format!("{option} {value}")).is_ok(), "{option}");
            if argument == "FILE" {
                assert!(asked(option).is_err(), "{option}");
            }
        }
    }

    #[test]
    fn files_stand_in_order() {
        let Ok(Task::Answer(asked)) = asked("--sets a - --decimal b") else {
            panic!("texts are to be answered");
        };
        assert_eq!(asked.files, ["a", "-", "b"].map(std::path::PathBuf::from));
        assert!(asked.wanted.sets);
    }

    #[test]
    fn seeds() {
        assert_eq!(asked("--example"), Ok(Task::Example(1)));
        assert_eq!(asked("--example 7"), Ok(Task::Example(7)));
        for bad in ["x", "-1", "+1", "1.5", "18446744073709551616", "7 8"] {
            assert!(asked(&format!("--example {bad}")).is_err(), "{bad}");
        }
    }

    #[test]
    fn unknown_options() {
        for bad in ["--frobnicate", "-x", "--", "--Sets", "--set", "--help=all"] {
            assert!(asked(bad).is_err(), "{bad}");
        }
    }
}
