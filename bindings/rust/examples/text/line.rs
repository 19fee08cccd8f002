//! Reads single lines of the text.

use rights::{BoxKind, Mode, Sign};

/// The words of the text, which are no names.
const WORDS: [&str; 9] = [
    "user", "file", "group", "folder", "mode", "inside", "arrow", "positive", "negative",
];

/// What a line says. Boxes and modes that it asks for are still words.
pub enum Statement<'a> {
    /// A box: its kind and its name.
    Box(BoxKind, &'a str),
    /// A mode and its name.
    Mode(Mode, &'a str),
    /// A containment: the inner box, the outer box.
    Inside(&'a str, &'a str),
    /// An arrow: tail, head and mode; sign.
    Arrow([&'a str; 3], Sign),
}

/// What a line says, or nothing if there is only a comment or nothing in it.
pub fn statement(line: &[u8]) -> Result<Option<Statement<'_>>, String> {
    let Ok(line) = std::str::from_utf8(line) else {
        return Err("this line is not UTF-8".to_string());
    };
    let line = line.strip_suffix('\r').unwrap_or(line);
    if line.contains('\r') {
        return Err("a carriage return stands within this line".to_string());
    }
    let before_comment = line.split('#').next().unwrap_or_default();
    let words: Vec<&str> = before_comment.split_whitespace().collect();
    Ok(Some(match *words {
        [] => return Ok(None),
        ["user", word] => Statement::Box(BoxKind::User, name(word)?),
        ["file", word] => Statement::Box(BoxKind::File, name(word)?),
        ["group", word] => Statement::Box(BoxKind::Group, name(word)?),
        ["folder", word] => Statement::Box(BoxKind::Folder, name(word)?),
        ["mode", number, word] => Statement::Mode(mode(number)?, name(word)?),
        ["arrow", tail, head, mode, word] => Statement::Arrow([tail, head, mode], sign(word)?),
        [inner, "inside", outer] => Statement::Inside(inner, outer),
        _ => return Err(misshapen(&words)),
    }))
}

/// What is wrong with words that make up no statement.
fn misshapen(words: &[&str]) -> String {
    let form = match *words {
        ["user", ..] => "user NAME",
        ["file", ..] => "file NAME",
        ["group", ..] => "group NAME",
        ["folder", ..] => "folder NAME",
        ["mode", ..] => "mode NUMBER NAME",
        ["arrow", ..] => "arrow TAIL HEAD MODE SIGN",
        ["inside", ..] | [_, "inside", ..] => "INNER inside OUTER",
        _ => {
            return format!(
                "unknown statement {}; a line is user, file, group or folder NAME, mode NUMBER \
                 NAME, INNER inside OUTER, or arrow TAIL HEAD MODE SIGN",
                quoted(&words.join(" "))
            )
        }
    };
    let (asked, given) = (form.split(' ').count(), words.len());
    format!("write '{form}': {asked} words, not {given}")
}

/// A word that may be a name.
fn name(word: &str) -> Result<&str, String> {
    let letter_or_digit = |c: char| c.is_alphabetic() || c.is_ascii_digit();
    let why = if WORDS.contains(&word) {
        "it is a word of the text"
    } else if number(word).is_some() {
        "it is a number"
    } else if !word.starts_with(letter_or_digit) {
        "a name begins with a letter or a digit"
    } else if !word
        .chars()
        .all(|c| letter_or_digit(c) || "-_.".contains(c))
    {
        "a name is made of letters, digits, '-', '_' and '.'"
    } else {
        return Ok(word);
    };
    Err(format!("{} can't be a name: {why}", quoted(word)))
}

/// The number that a word of digits stands for; the highest there is, if it has more digits.
pub fn number(word: &str) -> Option<usize> {
    let digits = word.bytes().all(|byte| byte.is_ascii_digit());
    digits.then(|| word.parse().unwrap_or(usize::MAX))
}

/// The mode of a number.
pub fn mode(word: &str) -> Result<Mode, String> {
    let number = number(word);
    let number = number.ok_or_else(|| format!("{} is not the number of a mode", quoted(word)))?;
    let mode = Mode::ALL.get(number).copied();
    mode.ok_or_else(|| format!("mode {} is above 7", shown(word)))
}

fn sign(word: &str) -> Result<Sign, String> {
    match word {
        "positive" | "1" | "+" => Ok(Sign::Positive),
        "negative" | "0" | "-" => Ok(Sign::Negative),
        _ => Err(format!(
            "unknown sign {}; a sign is positive, 1 or +, or negative, 0 or -",
            quoted(word)
        )),
    }
}

/// Words as messages show them: what can't be seen is escaped, and what is long is cut.
pub fn shown(words: &str) -> String {
    match words.char_indices().nth(40) {
        Some((end, _)) => format!("{}..", words[..end].escape_debug()),
        None => words.escape_debug().to_string(),
    }
}

/// The same in quotes.
pub fn quoted(words: &str) -> String {
    format!("'{}'", shown(words))
}
