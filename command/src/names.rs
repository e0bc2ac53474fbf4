//! Names of files, shown so that none can pass for other words of a line.
use std::ffi::{OsStr, OsString};
use std::os::unix::ffi::OsStrExt;

#[derive(Clone, Debug, PartialEq, Eq)]
pub enum Name {
    StandardInput,
    StandardOutput,
    File(OsString),
}

impl Name {
    /// The name in a line of text; standard input is `-`, as it is given (a file of that name is given as `./-`).
    pub fn shown(&self) -> String {
        match self {
            Name::StandardInput => "-".to_string(),
            Name::StandardOutput => "standard output".to_string(),
            Name::File(name) => quoted_if_odd(name),
        }
    }

    /// The name in a message about the file as a whole.
    pub fn told(&self) -> String {
        match self {
            Name::StandardInput => "standard input".to_string(),
            _ => self.shown(),
        }
    }

    /// The name as it is, for a JSON string; bytes that are no UTF-8 are replaced.
    pub fn plain(&self) -> String {
        match self {
            Name::File(name) => name.to_string_lossy().into_owned(),
            _ => self.shown(),
        }
    }
}

/// The name itself, or in quotes with escapes if it has a space, a double quote, a backslash or anything that does not print.
pub fn quoted_if_odd(name: &OsStr) -> String {
    let escaped = escaped(name.as_bytes());
    let odd = escaped.is_empty() || escaped.as_bytes() != name.as_bytes() || escaped.contains(char::is_whitespace);
    if odd {
        format!("\"{escaped}\"")
    } else {
        escaped
    }
}

/// The text with double quotes, backslashes and all that does not print as escapes, and bytes that are no UTF-8 as `\xNN`.
pub fn escaped(bytes: &[u8]) -> String {
    let part = |chunk: std::str::Utf8Chunk| {
        let valid: String = chunk.valid().chars().map(escaped_char).collect();
        let invalid: String = chunk.invalid().iter().map(|byte| format!("\\x{byte:02x}")).collect();
        valid + &invalid
    };
    bytes.utf8_chunks().map(part).collect()
}

fn escaped_char(c: char) -> String {
    match c {
        '\'' => c.to_string(),
        _ => c.escape_debug().to_string(),
    }
}

#[cfg(test)]
mod tests {
    use super::*;

    fn shown(bytes: &[u8]) -> String {
        Name::File(OsStr::from_bytes(bytes).to_owned()).shown()
    }

    #[test]
    fn plain_names_stay() {
        assert_eq!(shown(b"sheets/f.sheet"), "sheets/f.sheet");
        assert_eq!(shown("kran-ä.sheet".as_bytes()), "kran-ä.sheet");
    }

    #[test]
    fn names_cannot_fake_a_line() {
        assert_eq!(shown(b"x\nf.sheet: holds, 2 tasks"), r#""x\nf.sheet: holds, 2 tasks""#);
        assert_eq!(shown(b"14 sheets"), r#""14 sheets""#);
        assert_eq!(shown("a\u{202e}b".as_bytes()), r#""a\u{202e}b""#);
        assert_eq!(shown(b"a\"b\\c"), r#""a\"b\\c""#);
        assert_eq!(shown(b"\xff"), r#""\xff""#);
        assert_eq!(shown(b""), r#""""#);
    }
}
