//! A strict reader of JSON, as far as the command writes it: whole numbers, no key twice.

#[derive(Clone, Debug, PartialEq, Eq)]
pub enum Value {
    Null,
    Truth(bool),
    Number(u64),
    Text(String),
    Array(Vec<Value>),
    Object(Vec<(String, Value)>),
}

impl Value {
    /// A field, which must be there.
    pub fn get(&self, key: &str) -> &Value {
        self.find(key).unwrap_or_else(|| panic!("no field {key} in {self:?}"))
    }

    pub fn find(&self, key: &str) -> Option<&Value> {
        let Value::Object(fields) = self else { panic!("{self:?} is no object") };
        fields.iter().find(|(name, _)| name == key).map(|(_, value)| value)
    }

    pub fn keys(&self) -> Vec<&str> {
        let Value::Object(fields) = self else { panic!("{self:?} is no object") };
        fields.iter().map(|(name, _)| name.as_str()).collect()
    }

    pub fn number(&self) -> u64 {
        let Value::Number(number) = self else { panic!("{self:?} is no number") };
        *number
    }

    pub fn text(&self) -> &str {
        let Value::Text(text) = self else { panic!("{self:?} is no text") };
        text
    }

    pub fn items(&self) -> &[Value] {
        let Value::Array(items) = self else { panic!("{self:?} is no array") };
        items
    }

    pub fn numbers(&self) -> Vec<u64> {
        self.items().iter().map(Value::number).collect()
    }
}

/// A number, or null for none.
pub fn number_or_null(number: Option<usize>) -> Value {
    number.map_or(Value::Null, |number| Value::Number(number as u64))
}

struct Reader<'a> {
    rest: &'a str,
}

/// The object on each line; every line has one and nothing else.
pub fn lines(text: &str) -> Vec<Value> {
    assert!(text.is_empty() || text.ends_with('\n'), "{text:?}");
    text.split_terminator('\n').map(object).collect()
}

pub fn object(line: &str) -> Value {
    let mut reader = Reader { rest: line };
    let value = reader.value();
    assert_eq!(reader.rest, "", "after the value of {line}");
    assert!(matches!(value, Value::Object(_)));
    value
}

impl Reader<'_> {
    fn takes(&mut self, start: &str) -> bool {
        match self.rest.strip_prefix(start) {
            Some(rest) => {
                self.rest = rest;
                true
            }
            None => false,
        }
    }

    fn must_take(&mut self, start: &str) {
        assert!(self.takes(start), "{start:?} expected at {:?}", self.rest);
    }

    fn value(&mut self) -> Value {
        match self.rest.chars().next().expect("a value") {
            '{' => self.fields(),
            '[' => self.array(),
            '"' => Value::Text(self.string()),
            '0'..='9' => self.number(),
            _ if self.takes("null") => Value::Null,
            _ if self.takes("true") => Value::Truth(true),
            _ => {
                self.must_take("false");
                Value::Truth(false)
            }
        }
    }

    fn number(&mut self) -> Value {
        let end = self.rest.find(|c: char| !c.is_ascii_digit()).unwrap_or(self.rest.len());
        let (digits, rest) = self.rest.split_at(end);
        assert!(digits == "0" || !digits.starts_with('0'), "{digits}");
        self.rest = rest;
        Value::Number(digits.parse().expect("a number"))
    }

    fn string(&mut self) -> String {
        self.must_take("\"");
        let mut text = String::new();
        loop {
            let c = self.rest.chars().next().expect("an end of the string");
            self.rest = &self.rest[c.len_utf8()..];
            match c {
                '"' => return text,
                '\\' => text.push(self.escape()),
                _ => {
                    assert!(!c.is_control(), "a bare control character");
                    text.push(c);
                }
            }
        }
    }

    fn escape(&mut self) -> char {
        let (c, rest) = (self.rest.chars().next().expect("an escape"), &self.rest[1..]);
        self.rest = rest;
        match c {
            '"' | '\\' | '/' => c,
            'n' => '\n',
            'u' => {
                let (digits, rest) = self.rest.split_at(4);
                self.rest = rest;
                char::from_u32(u32::from_str_radix(digits, 16).expect("four digits")).expect("a character")
            }
            _ => panic!("escape {c}"),
        }
    }

    fn array(&mut self) -> Value {
        self.must_take("[");
        let mut items = Vec::new();
        if self.takes("]") {
            return Value::Array(items);
        }
        loop {
            items.push(self.value());
            if self.takes("]") {
                return Value::Array(items);
            }
            self.must_take(",");
        }
    }

    fn fields(&mut self) -> Value {
        self.must_take("{");
        let mut fields: Vec<(String, Value)> = Vec::new();
        loop {
            let key = self.string();
            assert!(fields.iter().all(|(name, _)| *name != key), "{key} twice");
            self.must_take(":");
            fields.push((key, self.value()));
            if self.takes("}") {
                return Value::Object(fields);
            }
            self.must_take(",");
        }
    }
}
