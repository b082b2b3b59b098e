//! The command line.
use crate::source::shown;
use std::ffi::OsString;

/// What the command can be told.
pub const USAGE: &str = include_str!("../usage.txt");

#[derive(Debug, Default)]
pub struct Options {
    /// The file, or '-' for standard input.
    pub file: OsString,
    pub keeps_going: bool,
    /// The number or name of a choice.
    pub roster: Option<String>,
    /// The number or name of a chooser.
    pub chooser: Option<String>,
    pub has_model: bool,
    pub is_json: bool,
}

/// What a command line asks for.
#[derive(Debug)]
pub enum Request {
    Day(Options),
    Help,
    Version,
}

impl Request {
    /// Reads the words of a command line, or says what is wrong with them.
    pub fn read(mut words: impl Iterator<Item = OsString>) -> Result<Self, String> {
        let mut options = Options::default();
        let mut files = Vec::new();
        while let Some(word) = words.next() {
            match word.to_str() {
                Some("--help" | "-h") => return Ok(Self::Help),
                Some("--version") => return Ok(Self::Version),
                Some("--keep-going") => options.keeps_going = true,
                Some("--model") => options.has_model = true,
                Some("--json") => options.is_json = true,
                Some("--roster") => options.roster = Some(value("--roster", &mut words)?),
                Some("--chooser") => options.chooser = Some(value("--chooser", &mut words)?),
                Some("--") => files.extend(words.by_ref()),
                Some(word) if word.starts_with('-') && word != "-" => {
                    return Err(format!("'{}' is no option", shown(word)));
                }
                _ => files.push(word),
            }
        }
        match <[OsString; 1]>::try_from(files) {
            Ok([file]) => Self::Day(Options { file, ..options }).fits(),
            Err(files) => Err(format!("there are {} files, and one is taken", files.len())),
        }
    }

    fn fits(self) -> Result<Self, String> {
        match &self {
            Self::Day(own) if own.is_json && (own.roster.is_some() || own.chooser.is_some()) => {
                Err("--json has every roster: --roster and --chooser are for text".to_owned())
            }
            _ => Ok(self),
        }
    }
}

fn value(option: &str, words: &mut impl Iterator<Item = OsString>) -> Result<String, String> {
    let word = words.next().ok_or_else(|| format!("{option} stands without a value"))?;
    word.into_string().map_err(|_| format!("the value of {option} is no text in UTF-8"))
}
