//! JSON, as much of it as lines of answers need: texts written, values read.

/// A value; numbers as they are written.
#[derive(PartialEq, Debug)]
pub enum Json {
    Null,
    Bool(bool),
    Number(String),
    Text(String),
    List(Vec<Json>),
    Object(Vec<(String, Json)>),
}

impl Json {
    pub fn member(&self, name: &str) -> Option<&Json> {
        match self {
            Json::Object(members) => members.iter().find(|(known, _)| known == name).map(|(_, value)| value),
            _ => None,
        }
    }

    pub fn text(&self) -> Option<&str> {
        match self {
            Json::Text(text) => Some(text),
            _ => None,
        }
    }

    pub fn list(&self) -> Option<&[Json]> {
        match self {
            Json::List(list) => Some(list),
            _ => None,
        }
    }

    /// A number as it is written.
    pub fn number(&self) -> Option<&str> {
        match self {
            Json::Number(text) => Some(text),
            _ => None,
        }
    }
}

/// The text in quotes.
pub fn quoted(text: &str) -> String {
    let mut quoted = String::from("\"");
    for c in text.chars() {
        match c {
            '"' | '\\' => quoted.extend(['\\', c]),
            c if c.is_control() => quoted += &format!("\\u{:04x}", u32::from(c)),
            c => quoted.push(c),
        }
    }
    quoted + "\""
}

/// Values within values.
const DEEPEST: usize = 32;

/// The one object of a line.
pub fn parse(line: &str) -> Result<Json, String> {
    let mut reader = Reader { rest: line, whole: line.len() };
    let value = reader.value(DEEPEST)?;
    reader.blanks();
    match value {
        Json::Object(_) if reader.rest.is_empty() => Ok(value),
        Json::Object(_) => Err(reader.wrong("something behind the object")),
        _ => Err("no object".to_owned()),
    }
}

struct Reader<'a> {
    rest: &'a str,
    whole: usize,
}

impl Reader<'_> {
    fn wrong(&self, why: &str) -> String {
        format!("no JSON: {why} at byte {}", self.whole - self.rest.len())
    }

    fn blanks(&mut self) {
        self.rest = self.rest.trim_start_matches([' ', '\t', '\r', '\n']);
    }

    /// Whether the rest began with the text, which is passed.
    fn passes(&mut self, text: &str) -> bool {
        let behind = self.rest.strip_prefix(text);
        self.rest = behind.unwrap_or(self.rest);
        behind.is_some()
    }

    fn passes_sign(&mut self, sign: &str) -> bool {
        self.blanks();
        self.passes(sign)
    }

    fn value(&mut self, depth: usize) -> Result<Json, String> {
        if depth == 0 {
            return Err(self.wrong("too many values within values"));
        }
        self.blanks();
        match self.rest.chars().next() {
            Some('{') => self.members(depth - 1).map(Json::Object),
            Some('[') => self.items("[", "]", |reader| reader.value(depth - 1)).map(Json::List),
            Some('"') => self.text().map(Json::Text),
            Some('-' | '0'..='9') => self.number().map(Json::Number),
            _ if self.passes("null") => Ok(Json::Null),
            _ if self.passes("true") => Ok(Json::Bool(true)),
            _ if self.passes("false") => Ok(Json::Bool(false)),
            _ => Err(self.wrong("no value")),
        }
    }

    /// Items with commas between them, in brackets.
    fn items<A>(
        &mut self,
        open: &str,
        close: &str,
        mut item: impl FnMut(&mut Self) -> Result<A, String>,
    ) -> Result<Vec<A>, String> {
        let mut items = vec![];
        self.passes(open);
        if self.passes_sign(close) {
            return Ok(items);
        }
        loop {
            items.push(item(self)?);
            if self.passes_sign(close) {
                return Ok(items);
            }
            if !self.passes_sign(",") {
                return Err(self.wrong(&format!("neither , nor {close}")));
            }
        }
    }

    fn members(&mut self, depth: usize) -> Result<Vec<(String, Json)>, String> {
        let members = self.items("{", "}", |reader| {
            reader.blanks();
            let name = reader.text()?;
            if !reader.passes_sign(":") {
                return Err(reader.wrong("no :"));
            }
            Ok((name, reader.value(depth)?))
        })?;
        let twice = |i: usize| members[..i].iter().any(|(name, _)| *name == members[i].0);
        match (0..members.len()).find(|i| twice(*i)) {
            Some(i) => Err(format!("the member {} stands twice", crate::names::shown(&members[i].0))),
            None => Ok(members),
        }
    }

    fn number(&mut self) -> Result<String, String> {
        let length = self.rest.find(|c: char| !matches!(c, '0'..='9' | '-' | '+' | '.' | 'e' | 'E'));
        let (number, rest) = self.rest.split_at(length.unwrap_or(self.rest.len()));
        if !is_number(number) {
            return Err(self.wrong("no number"));
        }
        self.rest = rest;
        Ok(number.to_owned())
    }

    fn text(&mut self) -> Result<String, String> {
        if !self.passes("\"") {
            return Err(self.wrong("no \""));
        }
        let mut text = String::new();
        loop {
            let Some(c) = self.rest.chars().next().filter(|c| *c >= ' ') else {
                return Err(self.wrong("a text without end"));
            };
            self.rest = &self.rest[c.len_utf8()..];
            match c {
                '"' => return Ok(text),
                '\\' => text.push(self.escaped()?),
                c => text.push(c),
            }
        }
    }

    /// What stands behind a backslash.
    fn escaped(&mut self) -> Result<char, String> {
        let escapes = [("\"", '"'), ("\\", '\\'), ("/", '/'), ("b", '\x08'), ("f", '\x0c')];
        for (sign, c) in escapes.into_iter().chain([("n", '\n'), ("r", '\r'), ("t", '\t')]) {
            if self.passes(sign) {
                return Ok(c);
            }
        }
        let high = self.unit()?;
        let code = match high {
            0xd800..=0xdbff if self.passes("\\") => match self.unit()? {
                low @ 0xdc00..=0xdfff => 0x1_0000 + ((high - 0xd800) << 10) + (low - 0xdc00),
                _ => high,
            },
            _ => high,
        };
        char::from_u32(code).ok_or_else(|| self.wrong("no character"))
    }

    /// `u` and four hexadecimal digits.
    fn unit(&mut self) -> Result<u32, String> {
        let digits = self.rest.strip_prefix('u').and_then(|rest| rest.get(..4));
        let digits = digits.filter(|digits| digits.bytes().all(|byte| byte.is_ascii_hexdigit()));
        let unit = digits.and_then(|digits| u32::from_str_radix(digits, 16).ok());
        let unit = unit.ok_or_else(|| self.wrong("no escape"))?;
        self.rest = &self.rest[5..];
        Ok(unit)
    }
}

/// An integer without leading zeros, a fraction, an exponent.
fn is_number(text: &str) -> bool {
    let digits = |text: &str| !text.is_empty() && text.bytes().all(|byte| byte.is_ascii_digit());
    let (mantissa, exponent) = text.split_once(['e', 'E']).map_or((text, None), |(a, b)| (a, Some(b)));
    let (whole, fraction) = mantissa.split_once('.').map_or((mantissa, None), |(a, b)| (a, Some(b)));
    let whole = whole.strip_prefix('-').unwrap_or(whole);
    let exponent = exponent.map(|exponent| exponent.strip_prefix(['+', '-']).unwrap_or(exponent));
    digits(whole)
        && (whole == "0" || !whole.starts_with('0'))
        && fraction.is_none_or(digits)
        && exponent.is_none_or(digits)
}

#[cfg(test)]
mod tests {
    use super::{parse, quoted, Json};

    #[test]
    fn objects() {
        let line = r#" { "a" : [1, -2.5e3 ,[]] , "b":{"c":null},"d":"\u00e9\n\ud83d\ude00","e":true } "#;
        let object = parse(line).expect("an object");
        let number = |text: &str| Json::Number(text.to_owned());
        let list = [number("1"), number("-2.5e3"), Json::List(vec![])];
        assert_eq!(object.member("a").and_then(Json::list), Some(&list[..]));
        assert_eq!(object.member("b").and_then(|b| b.member("c")), Some(&Json::Null));
        assert_eq!(object.member("d").and_then(Json::text), Some("é\n😀"));
        assert_eq!(object.member("e"), Some(&Json::Bool(true)));
        assert_eq!(object.member("f"), None);
        assert_eq!(list[1].number(), Some("-2.5e3"));
    }

    #[test]
    fn no_objects() {
        let deep = "[".repeat(100_000);
        let lines =
            ["", "[1]", "{", "{}x", "{\"a\"}", "{\"a\":}", "{\"a\":01}", "{\"a\":1,}", "{\"a\":1 \"b\":2}", "nul"];
        let texts = [
            "{\"a\":\"",
            "{\"a\":\"\\x\"}",
            "{\"a\":\"\\ud800\"}",
            "{\"a\":\"\\ud800\\u0041\"}",
            "{\"a\":1.}",
            "{\"a\":\"\\u12\"}",
            "{\"a\":+1}",
        ];
        for line in lines.iter().chain(&texts).chain(&["{\"a\":1,\"a\":2}", "{\"a\":\"\u{1}\"}", deep.as_str()]) {
            assert!(parse(line).is_err(), "{line}");
        }
        assert_eq!(parse("{\"a\":x}"), Err("no JSON: no value at byte 5".to_owned()));
    }

    #[test]
    fn texts_go_back_in() {
        let text = "a \"b\" \\ \n \x7f é";
        let object = parse(&format!("{{\"a\":{}}}", quoted(text))).expect("an object");
        assert_eq!(object.member("a").and_then(Json::text), Some(text));
    }
}
