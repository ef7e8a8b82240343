//! JSON (RFC 8259).

/// A JSON value. No member of an object stands twice.
#[allow(dead_code)]
pub enum Value {
    Null,
    Bool(bool),
    Whole(u64),
    Real(f64),
    Text(String),
    List(Vec<Value>),
    Object(Members),
}

pub type Members = Vec<(String, Value)>;

impl Value {
    /// A member that is there and not null.
    pub fn get(&self, name: &str) -> Option<&Value> {
        let member = self.members()?.iter().find(|(key, _)| key == name)?;
        if matches!(member.1, Value::Null) { None } else { Some(&member.1) }
    }

    pub fn members(&self) -> Option<&Members> {
        if let Value::Object(members) = self { Some(members) } else { None }
    }

    pub fn text(&self) -> Option<&str> {
        if let Value::Text(text) = self { Some(text) } else { None }
    }

    pub fn whole(&self, low: u64, high: u64) -> Option<u64> {
        if let Value::Whole(number) = self { Some(*number).filter(|number| (low..=high).contains(number)) } else { None }
    }
}

/// A reader of a JSON text (RFC 8259).
struct Reader<'a> {
    text: &'a str,
    at: usize,
}

/// The value of a text, nested at most 127 deep.
pub fn parse(bytes: &[u8]) -> Option<Value> {
    let mut reader = Reader { text: std::str::from_utf8(bytes).ok()?, at: 0 };
    let value = reader.value(127)?;
    reader.skip_blanks();
    if reader.at == bytes.len() { Some(value) } else { None }
}

impl Reader<'_> {
    fn peek(&self) -> Option<u8> {
        self.text.as_bytes().get(self.at).copied()
    }

    fn skip_blanks(&mut self) {
        while matches!(self.peek(), Some(b' ' | b'\t' | b'\n' | b'\r')) {
            self.at += 1;
        }
    }

    /// Takes one of these bytes, if one comes next.
    fn take(&mut self, bytes: &[u8]) -> Option<u8> {
        let byte = self.peek().filter(|byte| bytes.contains(byte))?;
        self.at += 1;
        Some(byte)
    }

    fn word(&mut self, word: &str, value: Value) -> Option<Value> {
        self.at += if self.text[self.at..].starts_with(word) { word.len() } else { return None };
        Some(value)
    }

    fn value(&mut self, depth: usize) -> Option<Value> {
        self.skip_blanks();
        match self.peek()? {
            b'n' => self.word("null", Value::Null),
            b't' => self.word("true", Value::Bool(true)),
            b'f' => self.word("false", Value::Bool(false)),
            b'"' => Some(Value::Text(self.string()?)),
            b'[' if depth > 0 => {
                let mut values = Vec::new();
                self.items(b']', |reader| Some(values.push(reader.value(depth - 1)?)))?;
                Some(Value::List(values))
            }
            b'{' if depth > 0 => {
                let mut members = Vec::new();
                self.items(b'}', |reader| reader.member(depth - 1, &mut members))?;
                Some(Value::Object(members))
            }
            _ => self.number(),
        }
    }

    /// What stands between an opening byte and this closing one, separated by commas.
    fn items(&mut self, end: u8, mut item: impl FnMut(&mut Self) -> Option<()>) -> Option<()> {
        self.at += 1;
        self.skip_blanks();
        if self.take(&[end]).is_some() {
            return Some(());
        }
        loop {
            item(self)?;
            self.skip_blanks();
            if self.take(&[b',', end])? == end {
                return Some(());
            }
        }
    }

    /// Of a member that stands twice the last counts.
    fn member(&mut self, depth: usize, members: &mut Members) -> Option<()> {
        self.skip_blanks();
        let name = self.string()?;
        self.skip_blanks();
        self.take(b":")?;
        let value = self.value(depth)?;
        match members.iter_mut().find(|(other, _)| *other == name) {
            Some(member) => member.1 = value,
            None => members.push((name, value)),
        }
        Some(())
    }

    fn string(&mut self) -> Option<String> {
        self.take(b"\"")?;
        let mut string = String::new();
        loop {
            let start = self.at;
            while !matches!(self.peek()?, b'"' | b'\\' | 0..=0x1f) {
                self.at += 1;
            }
            string.push_str(&self.text[start..self.at]);
            match self.take(b"\"\\")? {
                b'"' => return Some(string),
                _ => string.push(self.escape()?),
            }
        }
    }

    fn escape(&mut self) -> Option<char> {
        Some(match self.take(b"\"\\/bfnrtu")? {
            b'b' => '\x08',
            b'f' => '\x0c',
            b'n' => '\n',
            b'r' => '\r',
            b't' => '\t',
            b'u' => {
                let mut units = vec![self.unit()?];
                if (0xd800..0xdc00).contains(&units[0]) {
                    self.take(b"\\").and_then(|_| self.take(b"u"))?;
                    units.push(self.unit()?);
                }
                return char::decode_utf16(units).next()?.ok();
            }
            byte => char::from(byte),
        })
    }

    fn unit(&mut self) -> Option<u16> {
        let digits = self.text.get(self.at..self.at + 4).filter(|digits| digits.bytes().all(|byte| byte.is_ascii_hexdigit()))?;
        self.at += 4;
        u16::from_str_radix(digits, 16).ok()
    }

    fn digits(&mut self) -> Option<()> {
        self.take(b"0123456789")?;
        while self.take(b"0123456789").is_some() {}
        Some(())
    }

    fn number(&mut self) -> Option<Value> {
        let start = self.at;
        self.take(b"-");
        if self.take(b"0").is_none() {
            self.digits()?;
        }
        if self.take(b".").is_some() {
            self.digits()?;
        }
        if self.take(b"eE").is_some() {
            self.take(b"+-");
            self.digits()?;
        }
        let numeral = &self.text[start..self.at];
        match numeral.parse() {
            Ok(number) => Some(Value::Whole(number)),
            Err(_) => numeral.parse().ok().filter(|real: &f64| real.is_finite()).map(Value::Real),
        }
    }
}
