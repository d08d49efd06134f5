//! Values written as JSON: for `inspect --json` and for the data of a page. Nothing is read back.

use std::fmt;

#[derive(Clone, PartialEq, Debug)]
pub enum Json {
    Null,
    Flag(bool),
    Number(u64),
    Text(String),
    List(Vec<Json>),
    /// Fields in the order given.
    Object(Vec<(&'static str, Json)>),
}

impl Json {
    pub fn text(words: impl Into<String>) -> Json {
        Json::Text(words.into())
    }
    pub fn list<T>(items: impl IntoIterator<Item = T>, each: impl Fn(T) -> Json) -> Json {
        Json::List(items.into_iter().map(each).collect())
    }
    pub fn numbers<T: Into<u64>>(items: impl IntoIterator<Item = T>) -> Json {
        Json::list(items, |item| Json::Number(item.into()))
    }
}

impl From<u32> for Json {
    fn from(number: u32) -> Json {
        Json::Number(number.into())
    }
}

/// Signs that may not stand in a string, and `<`, so that the text can stand inside a page.
fn quoted(f: &mut fmt::Formatter, words: &str) -> fmt::Result {
    write!(f, "\"")?;
    for sign in words.chars() {
        match sign {
            '"' => write!(f, "\\\"")?,
            '\\' => write!(f, "\\\\")?,
            '\n' => write!(f, "\\n")?,
            '<' | '\u{0}'..='\u{1f}' => write!(f, "\\u{:04x}", u32::from(sign))?,
            _ => write!(f, "{sign}")?,
        }
    }
    write!(f, "\"")
}

impl fmt::Display for Json {
    fn fmt(&self, f: &mut fmt::Formatter) -> fmt::Result {
        match self {
            Json::Null => write!(f, "null"),
            Json::Flag(flag) => write!(f, "{flag}"),
            Json::Number(number) => write!(f, "{number}"),
            Json::Text(words) => quoted(f, words),
            Json::List(items) => {
                write!(f, "[")?;
                for (i, item) in items.iter().enumerate() {
                    write!(f, "{}{item}", if i == 0 { "" } else { "," })?;
                }
                write!(f, "]")
            }
            Json::Object(fields) => {
                write!(f, "{{")?;
                for (i, (name, value)) in fields.iter().enumerate() {
                    write!(f, "{}\"{name}\":{value}", if i == 0 { "" } else { "," })?;
                }
                write!(f, "}}")
            }
        }
    }
}

#[cfg(test)]
mod tests {
    use super::*;

    #[test]
    fn values_are_written() {
        let value = Json::Object(vec![
            ("a", Json::numbers([1u32, 2])),
            ("b", Json::text("<\"\\\n\u{1}é")),
            ("c", Json::List(vec![Json::Null, Json::Flag(true)])),
        ]);
        assert_eq!(value.to_string(), r#"{"a":[1,2],"b":"\u003c\"\\\n\u0001é","c":[null,true]}"#);
    }
}
