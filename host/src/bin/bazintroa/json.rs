//! JSON text. A number reads back to the same bits; those that JSON lacks are the texts "NaN",
//! "Infinity" and "-Infinity".

use std::fmt::{self, Write};

#[derive(Clone, Debug)]
pub enum Json {
    Null,
    Bool(bool),
    Count(usize),
    Number(f64),
    /// Without quotes, backslashes and line ends.
    Text(String),
    List(Vec<Json>),
    Object(Vec<(&'static str, Json)>),
}

impl Json {
    pub fn maybe(value: Option<f64>) -> Json {
        value.map_or(Json::Null, Json::Number)
    }

    pub fn numbers(values: &[f64]) -> Json {
        Json::List(values.iter().map(|&x| Json::Number(x)).collect())
    }

    fn write(&self, f: &mut fmt::Formatter<'_>, indent: usize) -> fmt::Result {
        match self {
            Json::Null => f.write_str("null"),
            Json::Bool(b) => write!(f, "{b}"),
            Json::Count(n) => write!(f, "{n}"),
            Json::Number(x) if x.is_nan() => f.write_str("\"NaN\""),
            Json::Number(x) if x.is_infinite() && *x > 0.0 => f.write_str("\"Infinity\""),
            Json::Number(x) if x.is_infinite() => f.write_str("\"-Infinity\""),
            // The shortest digits that read back to the same bits, -0.0 among them.
            Json::Number(x) => write!(f, "{x:?}"),
            Json::Text(text) => write!(f, "\"{text}\""),
            Json::List(items) => {
                f.write_char('[')?;
                let lines = items.iter().any(|item| matches!(item, Json::Object(_)));
                for (i, item) in items.iter().enumerate() {
                    if i > 0 {
                        f.write_str(if lines { "," } else { ", " })?;
                    }
                    if lines {
                        new_line(f, indent + 1)?;
                    }
                    item.write(f, indent + 1)?;
                }
                if lines {
                    new_line(f, indent)?;
                }
                f.write_char(']')
            }
            Json::Object(fields) => {
                f.write_char('{')?;
                for (i, (key, value)) in fields.iter().enumerate() {
                    if i > 0 {
                        f.write_char(',')?;
                    }
                    new_line(f, indent + 1)?;
                    write!(f, "\"{key}\": ")?;
                    value.write(f, indent + 1)?;
                }
                new_line(f, indent)?;
                f.write_char('}')
            }
        }
    }
}

fn new_line(f: &mut fmt::Formatter<'_>, indent: usize) -> fmt::Result {
    write!(f, "\n{:1$}", "", 2 * indent)
}

impl fmt::Display for Json {
    fn fmt(&self, f: &mut fmt::Formatter<'_>) -> fmt::Result {
        self.write(f, 0)
    }
}
