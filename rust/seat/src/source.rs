//! The text of a file: its lines as words, or what is wrong with them.

/// What is wrong with a file, and in which line, counted from 1.
#[derive(Debug, Clone)]
pub struct Fault {
    pub line: usize,
    pub reason: String,
}

/// Something with the line that says it.
#[derive(Debug, Clone, Copy)]
pub struct Located<T> {
    pub line: usize,
    pub value: T,
}

impl<T> Located<T> {
    pub fn fault(&self, reason: String) -> Fault {
        Fault { line: self.line, reason }
    }
}

/// The longest part of a word that a message shows.
const MOST_SHOWN: usize = 40;

/// The words of each line that has any, with the number of the line.
pub fn lines(bytes: &[u8]) -> Result<Vec<Located<Vec<&str>>>, Fault> {
    begins_as_text(bytes)?;
    let mut lines = Vec::new();
    for (place, bytes) in bytes.split(|&byte| byte == b'\n').enumerate() {
        let line = place + 1;
        let value = words(bytes).map_err(|reason| Fault { line, reason })?;
        if !value.is_empty() {
            lines.push(Located { line, value });
        }
    }
    Ok(lines)
}

/// How many lines there are. A last one without an end counts.
pub fn count(bytes: &[u8]) -> usize {
    let ends = bytes.iter().filter(|&&byte| byte == b'\n').count();
    ends.max(1) + usize::from(ends > 0 && bytes.last() != Some(&b'\n'))
}

/// Editors of other systems mark the encoding of a file in its first bytes.
fn begins_as_text(bytes: &[u8]) -> Result<(), Fault> {
    let reason = match bytes {
        [0xEF, 0xBB, 0xBF, ..] => "the file begins with a byte order mark: save it without one",
        [0xFF, 0xFE, ..] | [0xFE, 0xFF, ..] => "the file is in UTF-16: save it as UTF-8",
        _ => return Ok(()),
    };
    Err(Fault { line: 1, reason: reason.to_owned() })
}

/// The words of a line before its comment.
fn words(bytes: &[u8]) -> Result<Vec<&str>, String> {
    if bytes.contains(&b'\r') {
        return Err("the line has a carriage return (CR): save the file with LF line ends".into());
    }
    let no_text = |_| "the line is no text in UTF-8: save the file as UTF-8".to_owned();
    let line = str::from_utf8(bytes).map_err(no_text)?;
    let text = line.split('#').next().unwrap_or_default();
    let is_bad = |letter: &char| *letter != '\t' && !is_visible(*letter);
    let controls = line.chars().filter(|letter| letter.is_control());
    if let Some(letter) = text.chars().chain(controls).find(is_bad) {
        let code = u32::from(letter);
        return Err(format!("the line has the invisible character U+{code:04X}: take it out"));
    }
    Ok(text.split([' ', '\t']).filter(|word| !word.is_empty()).collect())
}

/// Whether a terminal shows the character as itself.
pub fn is_visible(letter: char) -> bool {
    matches!(letter, '"' | '\'' | '\\') || letter.escape_debug().count() == 1
}

/// Text as it may go to a terminal: what is invisible is written as its code, and
/// what is very long is cut.
pub fn shown(text: &str) -> String {
    let mut shown = String::new();
    for letter in text.chars().take(MOST_SHOWN) {
        if is_visible(letter) {
            shown.push(letter);
        } else {
            shown.extend(letter.escape_unicode());
        }
    }
    if text.chars().nth(MOST_SHOWN).is_some() { shown + ".." } else { shown }
}

#[cfg(test)]
mod tests {
    use super::{count, is_visible, shown};

    #[test]
    fn invisible_characters_are_written_as_codes() {
        assert_eq!(shown("a\u{1b}[31m\u{202e}"), "a\\u{1b}[31m\\u{202e}");
        assert_eq!(shown("Åsa 'x'"), "Åsa 'x'");
        assert!(is_visible(' ') && !is_visible('\u{a0}') && !is_visible('\u{feff}'));
    }

    #[test]
    fn lines_are_counted() {
        let counts = ["", "a", "a\n", "a\nb", "a\nb\n"].map(|text| count(text.as_bytes()));
        assert_eq!(counts, [1, 1, 1, 2, 2]);
    }
}
