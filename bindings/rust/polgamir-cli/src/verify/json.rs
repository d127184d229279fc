//! As much of JSON as an exported table has: objects, lists, texts and whole numbers.

/// A value.
#[derive(Debug, Clone, PartialEq, Eq)]
pub enum Json {
    /// A whole number.
    Number(i64),
    /// A text, without its escapes undone.
    Text(String),
    /// A list.
    List(Vec<Json>),
    /// An object, in its order.
    Object(Vec<(String, Json)>),
    /// `true`, `false`, `null`, or a number that is not whole.
    Other(String),
}

impl Json {
    /// The value of a whole text.
    pub fn read(text: &str) -> Result<Json, String> {
        let mut reader = Reader { text, at: 0 };
        let value = reader.value(0)?;
        match reader.next() {
            None => Ok(value),
            Some(_) => Err(reader.error("nothing more")),
        }
    }

    /// A member of an object.
    pub fn get(&self, name: &str) -> Option<&Json> {
        match self {
            Json::Object(members) => members.iter().find_map(|(member, value)| (member == name).then_some(value)),
            _ => None,
        }
    }

    /// The whole numbers of a list.
    pub fn numbers(&self) -> Option<Vec<i64>> {
        let Json::List(list) = self else { return None };
        list.iter().map(|value| if let Json::Number(number) = value { Some(*number) } else { None }).collect()
    }
}

/// A text that is read from one end to the other.
struct Reader<'t> {
    text: &'t str,
    at: usize,
}

impl Reader<'_> {
    /// The next character that is no white space; it is not taken.
    fn next(&mut self) -> Option<char> {
        let rest = &self.text[self.at..];
        self.at += rest.len() - rest.trim_start().len();
        self.text[self.at..].chars().next()
    }

    fn error(&mut self, expected: &str) -> String {
        let found = self.next().map_or("the end".into(), |character| format!("`{character}`"));
        let line = 1 + self.text[..self.at].matches('\n').count();
        format!("line {line}: expected {expected}, found {found}")
    }

    fn take(&mut self, character: char) -> Result<(), String> {
        match self.next() {
            Some(found) if found == character => {
                self.at += found.len_utf8();
                Ok(())
            }
            _ => Err(self.error(&format!("`{character}`"))),
        }
    }

    fn value(&mut self, depth: usize) -> Result<Json, String> {
        match self.next() {
            _ if depth > 16 => Err(self.error("lists of less depth")),
            Some('{') => self.members(depth),
            Some('[') => self.list(depth),
            Some('"') => Ok(Json::Text(self.string()?)),
            Some(_) => self.word(),
            None => Err(self.error("a value")),
        }
    }

    fn members(&mut self, depth: usize) -> Result<Json, String> {
        let mut members = Vec::new();
        self.take('{')?;
        while self.next() != Some('}') {
            if !members.is_empty() {
                self.take(',')?;
            }
            self.next();
            let name = self.string()?;
            self.take(':')?;
            members.push((name, self.value(depth + 1)?));
        }
        self.take('}')?;
        Ok(Json::Object(members))
    }

    fn list(&mut self, depth: usize) -> Result<Json, String> {
        let mut list = Vec::new();
        self.take('[')?;
        while self.next() != Some(']') {
            if !list.is_empty() {
                self.take(',')?;
            }
            list.push(self.value(depth + 1)?);
        }
        self.take(']')?;
        Ok(Json::List(list))
    }

    fn string(&mut self) -> Result<String, String> {
        self.take('"')?;
        let begin = self.at;
        let mut escaped = false;
        for (place, character) in self.text[begin..].char_indices() {
            match character {
                _ if escaped => escaped = false,
                '\\' => escaped = true,
                '"' => {
                    self.at = begin + place + 1;
                    return Ok(self.text[begin..begin + place].into());
                }
                _ => {}
            }
        }
        self.at = self.text.len();
        Err(self.error("`\"`"))
    }

    fn word(&mut self) -> Result<Json, String> {
        let rest = &self.text[self.at..];
        let end = rest.find(|c: char| !(c.is_ascii_alphanumeric() || "+-.".contains(c))).unwrap_or(rest.len());
        let word = &rest[..end];
        if word.is_empty() {
            return Err(self.error("a value"));
        }
        let whole = word.trim_start_matches('-').chars().all(|c| c.is_ascii_digit());
        let value = match word.parse() {
            Ok(number) => Json::Number(number),
            Err(_) if whole => return Err(self.error("a whole number of 64 bits")),
            Err(_) => Json::Other(word.into()),
        };
        self.at += end;
        Ok(value)
    }
}
