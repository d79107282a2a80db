//! Arguments `--key value` of the test programs.

use std::env;
use std::str::FromStr;

pub struct Arguments {
    given: Vec<(String, String)>,
}

impl Arguments {
    /// The program's arguments, each of which has to be one of the keys.
    pub fn read(keys: &[&str]) -> Result<Self, String> {
        let mut given = Vec::new();
        let mut arguments = env::args().skip(1);
        while let Some(argument) = arguments.next() {
            let key = argument.strip_prefix("--").filter(|key| keys.contains(key));
            let key = key.ok_or_else(|| format!("{argument}: one of {keys:?} is expected"))?;
            let value = arguments.next().ok_or_else(|| format!("{argument} has no value"))?;
            given.push((key.to_string(), value));
        }
        Ok(Arguments { given })
    }

    pub fn text(&self, key: &str) -> Option<&str> {
        self.given.iter().rev().find(|(k, _)| k == key).map(|(_, value)| value.as_str())
    }

    /// A key's number, or another one where it is not given.
    pub fn number<N: FromStr>(&self, key: &str, other: N) -> Result<N, String> {
        let Some(value) = self.text(key) else {
            return Ok(other);
        };
        value.parse().map_err(|_| format!("--{key} {value}: not a number"))
    }
}
