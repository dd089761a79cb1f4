//! What may be typed. A new verb is a case of `Verb`, a line in `parse` and one in help.txt.
use crate::trouble::Trouble;
use std::ffi::{OsStr, OsString};
use std::path::PathBuf;

/// The script shows the same file before the program is built.
pub const HELP: &str = include_str!("../help.txt");

pub enum Verb {
    Help,
    Sample,
    Cut(Cut),
}

pub struct Cut {
    pub font: PathBuf,
    pub ids: OsString,
    pub out: PathBuf,
    pub face: u32,
}

pub fn parse(words: &[OsString]) -> Result<Verb, Trouble> {
    let Some((verb, rest)) = words.split_first() else { return Ok(Verb::Sample) };
    match verb.to_str() {
        Some("help" | "--help" | "-h") => Ok(Verb::Help),
        Some("cut") => cut(rest).map(Verb::Cut),
        _ => Err(Trouble::Usage(format!("there is no verb {verb:?}"))),
    }
}

fn cut(words: &[OsString]) -> Result<Cut, Trouble> {
    let (mut face, mut named) = (None, vec![]);
    let mut words = words.iter();
    while let Some(word) = words.next() {
        let text = word.to_string_lossy();
        if text == "--face" {
            let number = words.next().ok_or(Trouble::Usage("--face needs a number".into()))?;
            set_face(&mut face, number)?;
        } else if let Some(number) = text.strip_prefix("--face=") {
            set_face(&mut face, OsStr::new(number))?;
        } else if text.starts_with('-') && text != "-" {
            return Err(Trouble::Usage(format!("there is no option {word:?}")));
        } else {
            named.push(word.clone());
        }
    }
    let Ok([font, ids, out]) = <[OsString; 3]>::try_from(named) else {
        return Err(Trouble::Usage("cut needs three words: FONT IDS OUT".into()));
    };
    if font == "-" || out == "-" {
        return Err(Trouble::Usage("FONT and OUT are files; only IDS may be -".into()));
    }
    Ok(Cut { font: font.into(), ids, out: out.into(), face: face.unwrap_or(0) })
}

fn set_face(face: &mut Option<u32>, word: &OsStr) -> Result<(), Trouble> {
    let number = word.to_str().filter(|text| text.bytes().all(|byte| byte.is_ascii_digit()));
    let number = number.and_then(|text| text.parse().ok());
    let number = number.ok_or_else(|| Trouble::Usage(format!("--face needs a number, not {word:?}")))?;
    match face.replace(number) {
        None => Ok(()),
        Some(_) => Err(Trouble::Usage("--face stands twice".into())),
    }
}
