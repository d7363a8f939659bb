//! The part of TOML that fare tables use: strings in double quotes without escapes, whole numbers,
//! arrays, `[name.name]` and `[[name]]`, comments.

pub enum Value<'a> {
    Text(&'a str),
    Number(u64),
    Array(Vec<Value<'a>>),
}

/// The keys of one header, in the order of the text. The first has no name.
pub struct Section<'a> {
    pub name: Vec<&'a str>,
    pub pairs: Vec<(&'a str, Value<'a>)>,
}

impl<'a> Section<'a> {
    pub fn find(&self, key: &str) -> Result<&Value<'a>, String> {
        self.pairs
            .iter()
            .find(|(name, _)| *name == key)
            .map(|(_, value)| value)
            .ok_or_else(|| format!("{key} is missing"))
    }

    pub fn number(&self, key: &str, least: u64, most: u64) -> Result<u32, String> {
        match self.find(key)? {
            Value::Number(number) if (least..=most).contains(number) => Ok(*number as u32),
            _ => Err(format!("{key} is out of range")),
        }
    }

    pub fn text(&self, key: &str) -> Result<&'a str, String> {
        self.find(key)?.text()
    }
}

impl<'a> Value<'a> {
    pub fn text(&self) -> Result<&'a str, String> {
        match self {
            Value::Text(text) => Ok(text),
            _ => Err("a string is wanted".into()),
        }
    }

    pub fn array(&self) -> Result<&[Value<'a>], String> {
        match self {
            Value::Array(values) => Ok(values),
            _ => Err("an array is wanted".into()),
        }
    }
}

/// The sections of a document: the first has no name.
pub fn document(text: &str) -> Result<Vec<Section<'_>>, String> {
    Reader { rest: text }.document()
}

struct Reader<'a> {
    rest: &'a str,
}

impl<'a> Reader<'a> {
    fn document(&mut self) -> Result<Vec<Section<'a>>, String> {
        let mut sections = vec![Section {
            name: Vec::new(),
            pairs: Vec::new(),
        }];
        loop {
            self.space();
            if self.rest.is_empty() {
                return Ok(sections);
            }
            if self.take("[[") {
                let name = self.name()?;
                self.want("]]")?;
                sections.push(Section {
                    name,
                    pairs: Vec::new(),
                });
            } else if self.take("[") {
                let name = self.name()?;
                self.want("]")?;
                sections.push(Section {
                    name,
                    pairs: Vec::new(),
                });
            } else {
                let key = self.key()?;
                self.space();
                self.want("=")?;
                let value = self.value()?;
                sections.last_mut().unwrap().pairs.push((key, value));
            }
        }
    }

    fn value(&mut self) -> Result<Value<'a>, String> {
        self.space();
        if self.take("[") {
            let mut values = Vec::new();
            self.space();
            while !self.take("]") {
                values.push(self.value()?);
                self.space();
                if !self.take(",") {
                    self.want("]")?;
                    break;
                }
                self.space();
            }
            return Ok(Value::Array(values));
        }
        if self.rest.starts_with('"') {
            return Ok(Value::Text(self.key()?));
        }
        let digits = self.part(|byte| byte.is_ascii_digit());
        digits
            .parse()
            .map(Value::Number)
            .map_err(|_| "no value".into())
    }

    fn name(&mut self) -> Result<Vec<&'a str>, String> {
        let mut name = vec![self.key()?];
        while self.take(".") {
            name.push(self.key()?);
        }
        Ok(name)
    }

    /// A bare key, or a string in double quotes.
    fn key(&mut self) -> Result<&'a str, String> {
        if self.take("\"") {
            let text = self.part(|byte| byte != b'"' && byte != b'\\' && byte != b'\n');
            self.want("\"")?;
            return Ok(text);
        }
        let key = self.part(|byte| byte.is_ascii_alphanumeric() || byte == b'_' || byte == b'-');
        if key.is_empty() {
            Err("no key".into())
        } else {
            Ok(key)
        }
    }

    fn space(&mut self) {
        loop {
            self.part(|byte| byte.is_ascii_whitespace());
            if !self.take("#") {
                return;
            }
            self.part(|byte| byte != b'\n');
        }
    }

    /// The longest beginning whose bytes are all wanted.
    fn part(&mut self, wanted: impl Fn(u8) -> bool) -> &'a str {
        let end = self
            .rest
            .bytes()
            .position(|byte| !wanted(byte))
            .unwrap_or(self.rest.len());
        let (part, rest) = self.rest.split_at(end);
        self.rest = rest;
        part
    }

    fn take(&mut self, word: &str) -> bool {
        let rest = self.rest.strip_prefix(word);
        self.rest = rest.unwrap_or(self.rest);
        rest.is_some()
    }

    fn want(&mut self, word: &str) -> Result<(), String> {
        if self.take(word) {
            Ok(())
        } else {
            Err(format!("{word} is wanted"))
        }
    }
}
