//! A small reader of JSON, to look at what the command writes.

use std::collections::BTreeMap;

/// A value of JSON.
#[derive(Debug, Clone, PartialEq)]
pub enum Json {
    /// Nothing.
    Null,
    /// A number, as it is written.
    Number(String),
    /// A text.
    Text(String),
    /// A list.
    List(Vec<Json>),
    /// An object.
    Object(BTreeMap<String, Json>),
}

impl Json {
    /// The value of a whole text.
    pub fn read(text: &str) -> Json {
        let mut rest = Rest(text);
        let value = rest.value();
        rest.skip();
        assert!(rest.0.is_empty(), "left over: {}", rest.0);
        value
    }

    /// A member of an object.
    pub fn get(&self, name: &str) -> Option<&Json> {
        match self {
            Json::Object(members) => members.get(name),
            _ => None,
        }
    }

    /// A list.
    pub fn list(&self) -> &[Json] {
        match self {
            Json::List(list) => list,
            other => panic!("no list: {other:?}"),
        }
    }

    /// A number of any type.
    pub fn number<T: std::str::FromStr>(&self) -> T {
        match self {
            Json::Number(number) => number.parse().ok().expect("a number of this type"),
            other => panic!("no number: {other:?}"),
        }
    }
}

/// What is left of a text.
struct Rest<'t>(&'t str);

impl<'t> Rest<'t> {
    fn skip(&mut self) {
        self.0 = self.0.trim_start_matches([' ', '\n', '\r', '\t']);
    }

    /// Takes a sign, if it comes next.
    fn sign(&mut self, sign: char) -> bool {
        self.skip();
        let rest = self.0.strip_prefix(sign);
        self.0 = rest.unwrap_or(self.0);
        rest.is_some()
    }

    fn value(&mut self) -> Json {
        if self.sign('{') {
            return Json::Object(self.parts('}', |rest| {
                let Json::Text(name) = rest.value() else { panic!("no name") };
                assert!(rest.sign(':'), "no colon after {name}");
                (name, rest.value())
            }));
        }
        if self.sign('[') {
            return Json::List(self.parts(']', Rest::value));
        }
        if self.sign('"') {
            return Json::Text(self.text());
        }
        let end = self.0.find([',', ']', '}', '\n']).unwrap_or(self.0.len());
        let (number, rest) = self.0.split_at(end);
        self.0 = rest;
        if number == "null" {
            return Json::Null;
        }
        let size = number.strip_prefix('-').unwrap_or(number);
        let well = size == "0" || size.starts_with("0.") || size.starts_with(|first| ('1'..='9').contains(&first));
        assert!(well && number.parse::<f64>().is_ok(), "no number of JSON: {number}");
        Json::Number(number.into())
    }

    /// The parts of a list or of an object, up to the sign that ends it.
    fn parts<T, C: FromIterator<T>>(&mut self, end: char, part: impl Fn(&mut Rest<'t>) -> T) -> C {
        let mut parts = Vec::new();
        while !self.sign(end) {
            assert!(parts.is_empty() || self.sign(','), "no comma before {}", self.0);
            parts.push(part(self));
        }
        parts.into_iter().collect()
    }

    fn text(&mut self) -> String {
        let mut text = String::new();
        let mut characters = self.0.chars();
        loop {
            match characters.next().expect("the end of a text") {
                '"' => break,
                '\\' => match characters.next().expect("an escape") {
                    'u' => {
                        let digits: String = characters.by_ref().take(4).collect();
                        let code = u32::from_str_radix(&digits, 16).expect("four digits");
                        text.push(char::from_u32(code).expect("a character"));
                    }
                    other => text.push(other),
                },
                other => {
                    assert!(other >= ' ', "a control character in a text");
                    text.push(other);
                }
            }
        }
        self.0 = characters.as_str();
        text
    }
}
