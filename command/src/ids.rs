//! Lists of ids: `3,39,8-20`, typed or in a file.
use crate::files;
use crate::trouble::Trouble;
use std::ffi::OsStr;
use std::io::{self, IsTerminal, Read};
use std::path::Path;

/// The list that a word stands for: standard input, the list itself, or a file.
pub fn read(word: &OsStr) -> Result<Vec<u16>, Trouble> {
    if word == "-" {
        return parse(&standard_input()?, " on standard input");
    }
    if word.is_empty() {
        return Err(Trouble::Ids(String::new(), "it is empty; 0 keeps glyph 0 alone".into()));
    }
    let Some(path) = file(word) else { return parse(word.as_encoded_bytes(), "") };
    if !path.exists() {
        let what = format!("{word:?} is neither ids, such as 3,39,8-20, nor a file that is there");
        return Err(Trouble::Ids(String::new(), what));
    }
    parse(&files::read(path)?, &format!(" in {path:?}"))
}

/// The file that a word stands for, if it does.
pub fn file(word: &OsStr) -> Option<&Path> {
    if word == "-" {
        return Some(Path::new("/dev/stdin"));
    }
    (!looks_like_list(word)).then_some(Path::new(word))
}

/// Digits, commas, hyphens and spaces only. The rest is taken for a file's name.
fn looks_like_list(word: &OsStr) -> bool {
    word.as_encoded_bytes().iter().all(|byte| byte.is_ascii_digit() || b",- ".contains(byte))
}

fn standard_input() -> Result<Vec<u8>, Trouble> {
    let mut input = io::stdin().lock();
    if input.is_terminal() {
        eprintln!("pitavele: type the ids, then Ctrl-D on a line of its own");
    }
    let mut bytes = vec![];
    match input.read_to_end(&mut bytes) {
        Ok(_) => Ok(bytes),
        Err(why) => Err(Trouble::CannotRead("standard input".into(), why)),
    }
}

/// Ids and ranges with commas, spaces or new lines between them. A list without any is a list:
/// glyph 0 is kept in any case.
fn parse(bytes: &[u8], place: &str) -> Result<Vec<u16>, Trouble> {
    let bad = |what: String| Trouble::Ids(place.into(), what);
    let mut ids = vec![];
    if bytes.trim_ascii().is_empty() {
        return Ok(ids);
    }
    for part in bytes.split(|&byte| byte == b',') {
        if part.trim_ascii().is_empty() {
            return Err(bad("a comma without an id on each side".into()));
        }
        for word in part.split(u8::is_ascii_whitespace).filter(|word| !word.is_empty()) {
            let (first, last) = range(word).map_err(bad)?;
            ids.extend(first..=last);
        }
    }
    Ok(ids)
}

fn range(word: &[u8]) -> Result<(u16, u16), String> {
    let Some(hyphen) = word.iter().position(|&byte| byte == b'-') else {
        let only = id(word, word)?;
        return Ok((only, only));
    };
    let (first, last) = (id(&word[..hyphen], word)?, id(&word[hyphen + 1..], word)?);
    if first > last {
        return Err(format!("{} goes down; a range goes up", shown(word)));
    }
    Ok((first, last))
}

/// `part` of `word` as an id.
fn id(part: &[u8], word: &[u8]) -> Result<u16, String> {
    if part.is_empty() || !part.iter().all(u8::is_ascii_digit) {
        return Err(format!("{} is neither an id nor a range such as 8-20", shown(word)));
    }
    let digits = part.iter().skip_while(|&&byte| byte == b'0');
    let number = digits.take(6).fold(0u32, |number, &byte| 10 * number + u32::from(byte - b'0'));
    u16::try_from(number).map_err(|_| format!("{} is too large; ids go from 0 to 65535", shown(part)))
}

/// The start of a word, in quotes, whatever it holds.
fn shown(word: &[u8]) -> String {
    const SHOWN: usize = 24;
    let dots = if word.len() > SHOWN { "…" } else { "" };
    format!("{:?}{dots}", String::from_utf8_lossy(&word[..word.len().min(SHOWN)]))
}

#[cfg(test)]
mod tests {
    use super::*;

    fn list(text: &str) -> Result<Vec<u16>, String> {
        parse(text.as_bytes(), "").map_err(|trouble| trouble.to_string())
    }

    #[test]
    fn lists() {
        for (text, ids) in [
            ("3,39,8-11", vec![3, 39, 8, 9, 10, 11]),
            ("3\n39\r\n 8-9 , 3\n", vec![3, 39, 8, 9, 3]),
            ("", vec![]),
            (" \n", vec![]),
            ("0000065535", vec![65_535]),
            ("7-7", vec![7]),
            ("65534-65535", vec![65_534, 65_535]),
        ] {
            assert_eq!(list(text).as_ref(), Ok(&ids), "{text:?}");
        }
        assert_eq!(list("0-65535").unwrap().len(), 65_536);
    }

    #[test]
    fn no_lists() {
        for (text, part) in [
            ("3,,4", "a comma without"),
            (",3", "a comma without"),
            ("3,", "a comma without"),
            ("65536", "too large"),
            ("99999999999999999999", "too large"),
            ("1-65536", "too large"),
            ("9-8", "goes down"),
            ("8-", "neither an id"),
            ("-8", "neither an id"),
            ("1-2-3", "neither an id"),
            ("1 - 3", "neither an id"),
            ("+1", "neither an id"),
            ("½", "neither an id"),
            ("a\u{7}", "neither an id"),
        ] {
            assert!(list(text).is_err_and(|what| what.contains(part)), "{text:?}");
        }
    }
}
