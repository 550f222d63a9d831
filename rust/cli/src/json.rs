//! JSON, written only.

use std::fmt;

#[derive(Clone, Debug, PartialEq)]
pub enum Json {
    Null,
    Truth(bool),
    Whole(i64),
    Decimal(f64),
    Text(String),
    List(Vec<Json>),
    Object(Vec<(&'static str, Json)>),
}

impl Json {
    pub fn text(text: impl Into<String>) -> Self {
        Json::Text(text.into())
    }

    pub fn count(count: usize) -> Self {
        Json::Whole(count as i64)
    }
}

impl fmt::Display for Json {
    fn fmt(&self, f: &mut fmt::Formatter) -> fmt::Result {
        match self {
            Json::Null => f.write_str("null"),
            Json::Truth(truth) => write!(f, "{truth}"),
            Json::Whole(number) => write!(f, "{number}"),
            Json::Decimal(number) if number.is_finite() => write!(f, "{number}"),
            Json::Decimal(_) => f.write_str("null"),
            Json::Text(text) => quoted(text, f),
            Json::List(items) => {
                f.write_str("[")?;
                separated(items.iter(), f, |item, f| write!(f, "{item}"))?;
                f.write_str("]")
            }
            Json::Object(fields) => {
                f.write_str("{")?;
                separated(fields.iter(), f, |(name, value), f| write!(f, "\"{name}\": {value}"))?;
                f.write_str("}")
            }
        }
    }
}

fn separated<T>(
    items: impl Iterator<Item = T>,
    f: &mut fmt::Formatter,
    write: impl Fn(T, &mut fmt::Formatter) -> fmt::Result,
) -> fmt::Result {
    for (index, item) in items.enumerate() {
        if index > 0 {
            f.write_str(", ")?;
        }
        write(item, f)?;
    }
    Ok(())
}

fn quoted(text: &str, f: &mut fmt::Formatter) -> fmt::Result {
    f.write_str("\"")?;
    for sign in text.chars() {
        match sign {
            '"' | '\\' => write!(f, "\\{sign}")?,
            '\n' => f.write_str("\\n")?,
            sign if sign < ' ' => write!(f, "\\u{:04x}", u32::from(sign))?,
            sign => write!(f, "{sign}")?,
        }
    }
    f.write_str("\"")
}

#[cfg(test)]
mod tests {
    use super::Json;

    #[test]
    fn signs_are_escaped() {
        let value = Json::Object(vec![
            ("file", Json::text("a \"b\"\\\n\u{1}")),
            ("list", Json::List(vec![Json::Whole(-1), Json::Null, Json::Decimal(0.5)])),
        ]);
        assert_eq!(value.to_string(), r#"{"file": "a \"b\"\\\n\u0001", "list": [-1, null, 0.5]}"#);
    }
}
