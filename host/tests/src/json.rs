//! A reader of the JSON that the acceptance cases use: whole numbers without a sign, no escapes
//! but the short ones.

use std::iter::Peekable;
use std::str::Chars;

#[derive(Clone, Debug, PartialEq)]
pub enum Json {
    Null,
    Flag(bool),
    Number(u64),
    Text(String),
    List(Vec<Json>),
    Object(Vec<(String, Json)>),
}

impl Json {
    pub fn parse(text: &str) -> Result<Json, String> {
        let mut parser = Parser { rest: text.chars().peekable() };
        let value = parser.value()?;
        match parser.token() {
            None => Ok(value),
            Some(c) => Err(format!("'{c}' behind the value")),
        }
    }

    /// A member of an object.
    pub fn get(&self, key: &str) -> Option<&Json> {
        match self {
            Json::Object(members) => members.iter().find(|(k, _)| k == key).map(|(_, v)| v),
            _ => None,
        }
    }

    pub fn list(&self) -> Result<&[Json], String> {
        match self {
            Json::List(list) => Ok(list),
            other => Err(format!("{other:?} is no list")),
        }
    }

    pub fn text(&self) -> Result<&str, String> {
        match self {
            Json::Text(text) => Ok(text),
            other => Err(format!("{other:?} is no text")),
        }
    }

    /// A number of the width asked for.
    pub fn number<N: TryFrom<u64>>(&self) -> Result<N, String> {
        match self {
            Json::Number(n) => N::try_from(*n).map_err(|_| format!("{n} is too large")),
            other => Err(format!("{other:?} is no number")),
        }
    }

    /// Bytes as hex.
    pub fn bytes(&self) -> Result<Vec<u8>, String> {
        let text = self.text()?;
        if !text.len().is_multiple_of(2) || !text.bytes().all(|c| c.is_ascii_hexdigit()) {
            return Err(format!("{text:?} is no hex"));
        }
        let digits = (0..text.len()).step_by(2).map(|at| &text[at..at + 2]);
        digits.map(|d| u8::from_str_radix(d, 16).map_err(|e| e.to_string())).collect()
    }
}

struct Parser<'a> {
    rest: Peekable<Chars<'a>>,
}

impl Parser<'_> {
    /// The next character that is no white space.
    fn token(&mut self) -> Option<char> {
        while self.rest.next_if(|c| c.is_ascii_whitespace()).is_some() {}
        self.rest.peek().copied()
    }

    fn expect(&mut self, expected: char) -> Result<(), String> {
        match self.token() {
            Some(c) if c == expected => {
                self.rest.next();
                Ok(())
            }
            other => Err(format!("'{expected}' expected, not {other:?}")),
        }
    }

    fn value(&mut self) -> Result<Json, String> {
        match self.token().ok_or("a value is missing")? {
            '{' => self.object(),
            '[' => self.list(),
            '"' => Ok(Json::Text(self.string()?)),
            '0'..='9' => self.number(),
            _ => self.word(),
        }
    }

    fn word(&mut self) -> Result<Json, String> {
        let mut word = String::new();
        while let Some(c) = self.rest.next_if(char::is_ascii_lowercase) {
            word.push(c);
        }
        match word.as_str() {
            "null" => Ok(Json::Null),
            "true" => Ok(Json::Flag(true)),
            "false" => Ok(Json::Flag(false)),
            _ => Err(format!("{word:?} is no value")),
        }
    }

    fn number(&mut self) -> Result<Json, String> {
        let mut number = 0u64;
        while let Some(c) = self.rest.next_if(char::is_ascii_digit) {
            let digit = u64::from(c as u8 - b'0');
            number = number
                .checked_mul(10)
                .and_then(|n| n.checked_add(digit))
                .ok_or("a number is too large")?;
        }
        Ok(Json::Number(number))
    }

    fn string(&mut self) -> Result<String, String> {
        self.expect('"')?;
        let mut text = String::new();
        loop {
            match self.rest.next().ok_or("a text does not end")? {
                '"' => return Ok(text),
                '\\' => text.push(match self.rest.next() {
                    Some('n') => '\n',
                    Some('t') => '\t',
                    Some('r') => '\r',
                    Some(c @ ('"' | '\\' | '/')) => c,
                    other => return Err(format!("escape {other:?}")),
                }),
                c => text.push(c),
            }
        }
    }

    /// Members up to `close`, with commas between them.
    fn members<T>(
        &mut self,
        close: char,
        mut member: impl FnMut(&mut Self) -> Result<T, String>,
    ) -> Result<Vec<T>, String> {
        let mut members = Vec::new();
        if self.token() != Some(close) {
            members.push(member(self)?);
            while self.token() == Some(',') {
                self.rest.next();
                members.push(member(self)?);
            }
        }
        self.expect(close)?;
        Ok(members)
    }

    fn list(&mut self) -> Result<Json, String> {
        self.expect('[')?;
        Ok(Json::List(self.members(']', Parser::value)?))
    }

    fn object(&mut self) -> Result<Json, String> {
        self.expect('{')?;
        Ok(Json::Object(self.members('}', |parser| {
            parser.token();
            let key = parser.string()?;
            parser.expect(':')?;
            Ok((key, parser.value()?))
        })?))
    }
}

#[cfg(test)]
mod tests {
    use super::*;

    #[test]
    fn values() {
        let json =
            Json::parse(r#" {"a":[1,"00ff",null,true], "b":{"c":"x\ny"}, "d":[]} "#).unwrap();
        assert_eq!(json.get("a").unwrap().list().unwrap()[0].number(), Ok(1u8));
        assert_eq!(json.get("a").unwrap().list().unwrap()[1].bytes(), Ok(vec![0, 255]));
        assert_eq!(json.get("b").unwrap().get("c").unwrap().text(), Ok("x\ny"));
        assert_eq!(json.get("d"), Some(&Json::List(Vec::new())));
        assert_eq!(json.get("e"), None);
    }

    #[test]
    fn faults() {
        for text in ["", "[1", "[1,]", "{\"a\"}", "\"a", "1 2", "-1", "nul", "99999999999999999999"]
        {
            assert!(Json::parse(text).is_err(), "{text}");
        }
        assert!(Json::Text("0g".into()).bytes().is_err());
        assert!(Json::Number(256).number::<u8>().is_err());
    }
}
