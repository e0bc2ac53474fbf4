//! JSON values as text.

/// An object in the making; fields stand in the order in which they are given.
pub struct Object(String);

impl Object {
    pub fn new() -> Self {
        Object(String::new())
    }

    /// A field whose value is JSON already.
    pub fn raw(mut self, key: &str, value: &str) -> Self {
        if !self.0.is_empty() {
            self.0.push(',');
        }
        self.0.push_str(&string(key));
        self.0.push(':');
        self.0.push_str(value);
        self
    }

    pub fn text(self, key: &str, value: &str) -> Self {
        self.raw(key, &string(value))
    }

    pub fn number(self, key: &str, value: impl Into<u64>) -> Self {
        self.raw(key, &value.into().to_string())
    }

    pub fn truth(self, key: &str, value: bool) -> Self {
        self.raw(key, if value { "true" } else { "false" })
    }

    /// A task number, or null where there is none.
    pub fn task(self, key: &str, task: Option<usize>) -> Self {
        self.raw(key, &task.map_or("null".to_string(), |task| task.to_string()))
    }

    pub fn close(self) -> String {
        format!("{{{}}}", self.0)
    }
}

pub fn array<T: ToString>(values: impl IntoIterator<Item = T>) -> String {
    let values: Vec<String> = values.into_iter().map(|value| value.to_string()).collect();
    format!("[{}]", values.join(","))
}

/// The text in quotes, with escapes for control characters and for all that ends a line anywhere.
pub fn string(text: &str) -> String {
    format!("\"{}\"", text.chars().map(escaped).collect::<String>())
}

fn escaped(c: char) -> String {
    match c {
        '"' | '\\' => format!("\\{c}"),
        '\u{2028}' | '\u{2029}' => format!("\\u{:04x}", u32::from(c)),
        _ if c.is_control() => format!("\\u{:04x}", u32::from(c)),
        _ => c.to_string(),
    }
}

#[cfg(test)]
mod tests {
    use super::*;

    #[test]
    fn strings_are_escaped() {
        assert_eq!(string("a\"b\\c\n\u{1}\u{7f}ä"), r#""a\"b\\c\u000a\u0001\u007fä""#);
    }

    #[test]
    fn objects_keep_their_order() {
        let text = Object::new().text("file", "f").number("tasks", 2u32).task("task", None).raw("order", &array([0, 1])).close();
        assert_eq!(text, r#"{"file":"f","tasks":2,"task":null,"order":[0,1]}"#);
    }
}
