//! JSON, as `serde_json` reads it: values within 127 others at most, and of a key that stands twice the last value.

const MOST_DEPTH: u32 = 127;

#[derive(Clone, Debug, PartialEq)]
pub enum Json {
    Null,
    Boolean,
    /// A whole number below 2^64 that has no sign, no point and no exponent; none for another one.
    Number(Option<u64>),
    Text(String),
    Array(Vec<Json>),
    /// Each key once.
    Object(Vec<(String, Json)>),
}

struct Reader<'a> {
    text: &'a str,
    at: usize,
}

/// The value of a text, if it is JSON.
pub fn read(text: &str) -> Option<Json> {
    let mut reader = Reader { text, at: 0 };
    let value = reader.value(MOST_DEPTH)?;
    reader.blanks();
    (reader.at == text.len()).then_some(value)
}

impl Reader<'_> {
    fn peek(&self) -> Option<u8> {
        self.text.as_bytes().get(self.at).copied()
    }

    fn takes(&mut self, byte: u8) -> bool {
        let is_there = self.peek() == Some(byte);
        self.at += usize::from(is_there);
        is_there
    }

    fn blanks(&mut self) {
        while matches!(self.peek(), Some(b' ' | b'\t' | b'\n' | b'\r')) {
            self.at += 1;
        }
    }

    fn value(&mut self, depth: u32) -> Option<Json> {
        self.blanks();
        match self.peek()? {
            b'[' => self.array(depth.checked_sub(1)?),
            b'{' => self.object(depth.checked_sub(1)?),
            b'"' => self.string().map(Json::Text),
            b'n' => self.word("null", Json::Null),
            b't' => self.word("true", Json::Boolean),
            b'f' => self.word("false", Json::Boolean),
            _ => self.number(),
        }
    }

    fn word(&mut self, word: &str, value: Json) -> Option<Json> {
        let is_there = self.text.as_bytes()[self.at..].starts_with(word.as_bytes());
        self.at += word.len();
        is_there.then_some(value)
    }

    fn array(&mut self, depth: u32) -> Option<Json> {
        self.at += 1;
        let mut items = Vec::new();
        self.blanks();
        if self.takes(b']') {
            return Some(Json::Array(items));
        }
        loop {
            items.push(self.value(depth)?);
            self.blanks();
            if self.takes(b']') {
                return Some(Json::Array(items));
            }
            self.takes(b',').then_some(())?;
        }
    }

    fn object(&mut self, depth: u32) -> Option<Json> {
        self.at += 1;
        let mut members: Vec<(String, Json)> = Vec::new();
        self.blanks();
        if self.takes(b'}') {
            return Some(Json::Object(members));
        }
        loop {
            self.blanks();
            let key = if self.peek() == Some(b'"') { self.string()? } else { return None };
            self.blanks();
            self.takes(b':').then_some(())?;
            let value = self.value(depth)?;
            members.retain(|(known, _)| *known != key);
            members.push((key, value));
            self.blanks();
            if self.takes(b'}') {
                return Some(Json::Object(members));
            }
            self.takes(b',').then_some(())?;
        }
    }

    fn digits(&mut self) -> usize {
        let start = self.at;
        while matches!(self.peek(), Some(b'0'..=b'9')) {
            self.at += 1;
        }
        self.at - start
    }

    // A number within the range of floats.
    fn number(&mut self) -> Option<Json> {
        let start = self.at;
        let is_signed = self.takes(b'-');
        let whole = self.at;
        let starts_with_zero = self.peek() == Some(b'0');
        let digits = self.digits();
        if digits == 0 || starts_with_zero && digits > 1 {
            return None;
        }
        let mut is_whole = !is_signed;
        if self.takes(b'.') {
            is_whole = false;
            (self.digits() > 0).then_some(())?;
        }
        if self.takes(b'e') || self.takes(b'E') {
            is_whole = false;
            let _ = self.takes(b'-') || self.takes(b'+');
            (self.digits() > 0).then_some(())?;
        }
        let float: f64 = self.text[start..self.at].parse().ok()?;
        let value = self.text[whole..self.at].parse().ok().filter(|_| is_whole);
        float.is_finite().then_some(Json::Number(value))
    }

    fn string(&mut self) -> Option<String> {
        self.at += 1;
        let mut text = String::new();
        loop {
            let start = self.at;
            while !matches!(self.peek()?, b'"' | b'\\' | 0..=0x1f) {
                self.at += 1;
            }
            text.push_str(&self.text[start..self.at]);
            if self.takes(b'"') {
                return Some(text);
            }
            self.takes(b'\\').then_some(())?;
            text.push(self.escaped()?);
        }
    }

    // What stands behind a backslash.
    fn escaped(&mut self) -> Option<char> {
        let byte = self.peek()?;
        self.at += 1;
        Some(match byte {
            b'"' | b'\\' | b'/' => byte.into(),
            b'b' => '\u{8}',
            b'f' => '\u{c}',
            b'n' => '\n',
            b'r' => '\r',
            b't' => '\t',
            b'u' => return self.unit(),
            _ => return None,
        })
    }

    // A character of one code unit, or of two that are a surrogate pair.
    fn unit(&mut self) -> Option<char> {
        let first = self.hexadecimal()?;
        if !(0xd800..0xe000).contains(&first) {
            return char::from_u32(first);
        }
        let second = if self.takes(b'\\') && self.takes(b'u') { self.hexadecimal()? } else { return None };
        let is_pair = first < 0xdc00 && (0xdc00..0xe000).contains(&second);
        char::from_u32(0x10000 + (first.wrapping_sub(0xd800) << 10) + second.wrapping_sub(0xdc00)).filter(|_| is_pair)
    }

    fn hexadecimal(&mut self) -> Option<u32> {
        let digits = self.text.get(self.at..self.at + 4)?;
        self.at += 4;
        let is_form = digits.bytes().all(|digit| digit.is_ascii_hexdigit());
        u32::from_str_radix(digits, 16).ok().filter(|_| is_form)
    }
}
