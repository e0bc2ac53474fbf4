//! How wide words are in a picture. Readers have different fonts; the widest of the usual ones is taken.

/// By how much bold letters are wider.
pub const BOLD: f64 = 1.13;

/// The room that a name takes at most, in ems.
const NAME: f64 = 40.0;

const DOTS: &str = "...";

/// The width of a letter in ems.
fn letter(c: char) -> f64 {
    match c {
        'i' | 'j' | 'l' | 'f' | 't' | 'r' | 'I' | ' ' | '.' | ',' | ':' | ';' | '/' | '-' | '(' | ')' | '\'' => 0.42,
        'm' | 'w' | 'M' | 'W' | '@' | '%' => 1.0,
        'A'..='Z' => 0.76,
        '\0'..='\x7f' => 0.64,
        _ => 1.2,
    }
}

fn ems(words: &str) -> f64 {
    words.chars().map(letter).sum()
}

/// In pixels, at a size of the font.
pub fn width(words: &str, size: f64) -> f64 {
    ems(words) * size
}

/// The words in lines that have room, broken at spaces.
pub fn wrapped(words: &str, size: f64, room: f64) -> Vec<String> {
    let mut lines: Vec<String> = Vec::new();
    for word in words.split(' ') {
        match lines.last_mut() {
            Some(line) if width(line, size) + width(" ", size) + width(word, size) <= room => *line += &format!(" {word}"),
            _ => lines.push(word.to_string()),
        }
    }
    lines
}

/// A name without its middle, if it is long: a third from its start, the rest from its end, which tells files apart.
pub fn shortened(name: &str) -> String {
    if ems(name) <= NAME {
        return name.to_string();
    }
    let room = NAME - ems(DOTS);
    let start: String = fitting(name.chars(), room / 3.0).collect();
    let end: Vec<char> = fitting(name.chars().rev(), room - ems(&start)).collect();
    start + DOTS + &end.into_iter().rev().collect::<String>()
}

/// The first letters that have room, in ems.
fn fitting(letters: impl Iterator<Item = char>, mut room: f64) -> impl Iterator<Item = char> {
    letters.take_while(move |&c| {
        room -= letter(c);
        room >= 0.0
    })
}

#[cfg(test)]
mod tests {
    use super::*;

    #[test]
    fn a_long_name_loses_its_middle() {
        assert_eq!(shortened("sheets/g.sheet"), "sheets/g.sheet");
        let short = shortened(&format!("start-{}-end.sheet", "x".repeat(200)));
        assert!(short.starts_with("start-xxx") && short.contains("x...x") && short.ends_with("xxx-end.sheet"), "{short}");
        for wide in ["W".repeat(90), "\u{6f22}".repeat(90), "m.".repeat(90)] {
            assert!(shortened(&wide).contains(DOTS) && ems(&shortened(&wide)) <= NAME, "{wide}");
        }
    }

    #[test]
    fn lines_have_room() {
        let words = "one and two and three and four";
        let lines = wrapped(words, 12.0, 90.0);
        assert!(lines.len() > 2 && lines.iter().all(|line| width(line, 12.0) <= 90.0), "{lines:?}");
        assert_eq!((lines.join(" "), wrapped(words, 12.0, 900.0).len()), (words.to_string(), 1));
    }
}
