//! A small strict reader of JSON, for the tests and the fuzzer. It takes what
//! the command may write and no more: one value, no key twice in an object, and
//! whole numbers only, since every number of the command is a whole one.

// Each program that has this file uses a part of it.
#![allow(dead_code)]

/// More nesting than the command writes.
const MOST_DEPTH: usize = 16;

#[derive(Clone, PartialEq, Eq, Debug)]
pub enum Json {
    Null,
    Bool(bool),
    Number(i64),
    Text(String),
    List(Vec<Json>),
    /// Fields in the order in which they stand.
    Object(Vec<(String, Json)>),
}

impl Json {
    /// The field of an object; nothing if it has none, or is no object.
    pub fn get(&self, key: &str) -> Option<&Json> {
        let mut fields = self.fields().iter();
        fields.find(|(name, _)| name == key).map(|(_, value)| value)
    }

    /// The fields of an object; none if it is no object.
    pub fn fields(&self) -> &[(String, Json)] {
        match self {
            Json::Object(fields) => fields,
            _ => &[],
        }
    }

    /// The keys of an object in the order in which they stand.
    pub fn keys(&self) -> Vec<&str> {
        self.fields().iter().map(|(key, _)| key.as_str()).collect()
    }

    pub fn number(&self) -> Option<i64> {
        match self {
            Json::Number(number) => Some(*number),
            _ => None,
        }
    }

    pub fn text(&self) -> Option<&str> {
        match self {
            Json::Text(text) => Some(text),
            _ => None,
        }
    }

    pub fn list(&self) -> Option<&[Json]> {
        match self {
            Json::List(items) => Some(items),
            _ => None,
        }
    }
}

/// What the command writes with `--json`: one object and a line feed.
pub fn read_output(bytes: &[u8]) -> Result<Json, String> {
    let text = std::str::from_utf8(bytes).map_err(|error| error.to_string())?;
    let text = text.strip_suffix('\n').ok_or("no line feed at the end")?;
    match read(text)? {
        object @ Json::Object(_) => Ok(object),
        _ => Err("no object".to_string()),
    }
}

/// One value, with nothing before it or after it.
pub fn read(text: &str) -> Result<Json, String> {
    let mut reader = Reader { rest: text };
    let value = reader.value(0)?;
    match reader.rest {
        "" => Ok(value),
        rest => Err(format!("after the value: {}", start(rest))),
    }
}

/// The first characters, to say where an error is.
fn start(rest: &str) -> String {
    format!("{:?}", rest.chars().take(20).collect::<String>())
}

struct Reader<'t> {
    rest: &'t str,
}

impl Reader<'_> {
    fn wrong<T>(&self, what: &str) -> Result<T, String> {
        Err(format!("{what} at {}", start(self.rest)))
    }

    /// Passes this text if it comes next.
    fn takes(&mut self, text: &str) -> bool {
        let after = self.rest.strip_prefix(text);
        self.rest = after.unwrap_or(self.rest);
        after.is_some()
    }

    fn space(&mut self) {
        self.rest = self.rest.trim_start_matches([' ', '\t', '\n', '\r']);
    }

    /// Takes the next character.
    fn next(&mut self) -> Option<char> {
        let mut chars = self.rest.chars();
        let taken = chars.next();
        self.rest = chars.as_str();
        taken
    }

    fn value(&mut self, depth: usize) -> Result<Json, String> {
        if depth > MOST_DEPTH {
            return self.wrong("too deep");
        }
        match self.rest.chars().next() {
            Some('{') => self.object(depth),
            Some('[') => self.items(depth),
            Some('"') => self.string().map(Json::Text),
            Some('-' | '0'..='9') => self.whole(),
            _ if self.takes("null") => Ok(Json::Null),
            _ if self.takes("true") => Ok(Json::Bool(true)),
            _ if self.takes("false") => Ok(Json::Bool(false)),
            _ => self.wrong("no value"),
        }
    }

    fn object(&mut self, depth: usize) -> Result<Json, String> {
        let mut fields: Vec<(String, Json)> = Vec::new();
        self.series("{", "}", |reader| {
            let key = reader.string()?;
            if fields.iter().any(|(known, _)| *known == key) {
                return reader.wrong("a key twice");
            }
            reader.space();
            if !reader.takes(":") {
                return reader.wrong("no colon");
            }
            reader.space();
            fields.push((key, reader.value(depth + 1)?));
            Ok(())
        })?;
        Ok(Json::Object(fields))
    }

    fn items(&mut self, depth: usize) -> Result<Json, String> {
        let mut items = Vec::new();
        self.series("[", "]", |reader| {
            items.push(reader.value(depth + 1)?);
            Ok(())
        })?;
        Ok(Json::List(items))
    }

    /// What stands between two brackets, parted by commas; it may be nothing.
    fn series(
        &mut self,
        open: &str,
        close: &str,
        mut member: impl FnMut(&mut Self) -> Result<(), String>,
    ) -> Result<(), String> {
        if !self.takes(open) {
            return self.wrong("no bracket");
        }
        self.space();
        if self.takes(close) {
            return Ok(());
        }
        loop {
            member(self)?;
            self.space();
            if self.takes(close) {
                return Ok(());
            }
            if !self.takes(",") {
                return self.wrong("no comma");
            }
            self.space();
        }
    }

    fn string(&mut self) -> Result<String, String> {
        if !self.takes("\"") {
            return self.wrong("no string");
        }
        let mut text = String::new();
        loop {
            match self.next() {
                None => return self.wrong("a string without an end"),
                Some('"') => return Ok(text),
                Some('\\') => text.push(self.escaped()?),
                Some(plain) if plain < ' ' => return self.wrong("a bare control character"),
                Some(plain) => text.push(plain),
            }
        }
    }

    /// What stands after a backslash.
    fn escaped(&mut self) -> Result<char, String> {
        match self.next() {
            Some(plain @ ('"' | '\\' | '/')) => Ok(plain),
            Some('b') => Ok('\u{8}'),
            Some('f') => Ok('\u{c}'),
            Some('n') => Ok('\n'),
            Some('r') => Ok('\r'),
            Some('t') => Ok('\t'),
            Some('u') => self.code_point(),
            _ => self.wrong("an unknown escape"),
        }
    }

    /// Four hexadecimal digits; characters past U+FFFF have two such codes.
    fn code_point(&mut self) -> Result<char, String> {
        let mut units = vec![self.code_unit()?];
        if matches!(units[0], 0xd800..=0xdbff) && self.takes("\\u") {
            units.push(self.code_unit()?);
        }
        match char::decode_utf16(units).next() {
            Some(Ok(character)) => Ok(character),
            _ => self.wrong("half a character"),
        }
    }

    fn code_unit(&mut self) -> Result<u16, String> {
        let digits = self.rest.get(..4).unwrap_or("");
        if !digits.bytes().all(|byte| byte.is_ascii_hexdigit()) {
            return self.wrong("no code");
        }
        let Ok(unit) = u16::from_str_radix(digits, 16) else {
            return self.wrong("no code");
        };
        self.rest = &self.rest[4..];
        Ok(unit)
    }

    /// A whole number without leading zeros; -0 is none.
    fn whole(&mut self) -> Result<Json, String> {
        let end = |c: char| !matches!(c, '-' | '+' | '.' | 'e' | 'E' | '0'..='9');
        let (token, rest) = self
            .rest
            .split_at(self.rest.find(end).unwrap_or(self.rest.len()));
        match token.parse::<i64>() {
            Ok(number) if number.to_string() == token => {
                self.rest = rest;
                Ok(Json::Number(number))
            }
            _ => self.wrong("no whole number"),
        }
    }
}
