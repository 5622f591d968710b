//! Named values: as a line of JSON, as a row or as pairs of CSV, as words. docs/FORMATS.md has the names.

use super::failure::Failure;
use super::words::Given;
use std::borrow::Cow;
use std::fmt::Write;
use swarmtempo::{Command, Place, TICKS_PER_SECOND};

/// How rows are written.
#[derive(Clone, Copy, Debug, PartialEq, Eq)]
pub enum Rows {
    /// For people.
    Words,
    /// An object a line.
    Json,
    /// A heading, then a row a line.
    Csv,
}

impl Rows {
    /// By the words of a command.
    pub fn of(command: &str, given: &Given) -> Result<Rows, Failure> {
        match (given.flag("--json"), given.flag("--csv")) {
            (true, true) => Err(Failure::usage(command, "--json and --csv: give one of them")),
            (true, false) => Ok(Rows::Json),
            (false, true) => Ok(Rows::Csv),
            (false, false) => Ok(Rows::Words),
        }
    }
}

/// A value.
#[derive(Clone, Debug, PartialEq, Eq)]
pub enum Value {
    /// There is none.
    Nothing,
    /// Yes or no.
    Flag(bool),
    /// A number.
    Number(u64),
    /// A byte: in words it is hexadecimal.
    Byte(u8),
    /// A number with a point, already written.
    Decimal(String),
    /// Words.
    Text(Cow<'static, str>),
    /// Several values.
    All(Vec<Value>),
}

impl From<bool> for Value {
    fn from(flag: bool) -> Value {
        Value::Flag(flag)
    }
}

impl From<u64> for Value {
    fn from(number: u64) -> Value {
        Value::Number(number)
    }
}

impl From<u8> for Value {
    fn from(byte: u8) -> Value {
        Value::Byte(byte)
    }
}

impl From<&'static str> for Value {
    fn from(text: &'static str) -> Value {
        Value::Text(text.into())
    }
}

impl From<String> for Value {
    fn from(text: String) -> Value {
        Value::Text(text.into())
    }
}

impl<T: Into<Value>> From<Option<T>> for Value {
    fn from(value: Option<T>) -> Value {
        value.map_or(Value::Nothing, Into::into)
    }
}

impl Value {
    /// Several.
    pub fn all<T: Into<Value>>(values: impl IntoIterator<Item = T>) -> Value {
        Value::All(values.into_iter().map(Into::into).collect())
    }

    fn json(&self, out: &mut String) {
        match self {
            Value::Nothing => out.push_str("null"),
            Value::Flag(flag) => out.push_str(if *flag { "true" } else { "false" }),
            Value::Number(number) => digits(*number, out),
            Value::Byte(byte) => digits(u64::from(*byte), out),
            Value::Decimal(number) => out.push_str(number),
            Value::Text(text) => quoted(text, out),
            Value::All(values) => {
                out.push('[');
                for (i, value) in values.iter().enumerate() {
                    if i > 0 {
                        out.push(',');
                    }
                    value.json(out);
                }
                out.push(']');
            }
        }
    }

    fn csv(&self, out: &mut String) {
        match self {
            Value::Nothing => {}
            Value::Text(text) if text.contains([',', '"', '\n', '\r']) => {
                out.push('"');
                out.push_str(&text.replace('"', "\"\""));
                out.push('"');
            }
            Value::Text(text) => out.push_str(text),
            Value::All(values) => {
                for (i, value) in values.iter().enumerate() {
                    if i > 0 {
                        out.push(' ');
                    }
                    value.csv(out);
                }
            }
            _ => self.json(out),
        }
    }

    /// For people.
    pub fn words(&self) -> String {
        match self {
            Value::Nothing => "-".into(),
            Value::Flag(flag) => if *flag { "1" } else { "0" }.into(),
            Value::Byte(byte) => format!("${byte:02X}"),
            Value::Number(number) => number.to_string(),
            Value::Decimal(text) => text.clone(),
            Value::Text(text) => text.clone().into_owned(),
            Value::All(values) if values.is_empty() => "-".into(),
            Value::All(values) => {
                values.iter().map(Value::words).collect::<Vec<String>>().join(" ")
            }
        }
    }
}

/// A number in decimal digits.
fn digits(number: u64, out: &mut String) {
    // Into a String there is no error.
    let _ = write!(out, "{number}");
}

/// A text between quotes, as JSON has it. What could end a script of a page is written by its number.
pub fn quoted(text: &str, out: &mut String) {
    out.push('"');
    for c in text.chars() {
        match c {
            '"' => out.push_str("\\\""),
            '\\' => out.push_str("\\\\"),
            '\n' => out.push_str("\\n"),
            '\u{0}'..='\u{1F}' | '\u{7F}' | '<' | '>' | '&' | '\u{2028}' | '\u{2029}' => {
                out.push_str(&format!("\\u{:04x}", u32::from(c)));
            }
            _ => out.push(c),
        }
    }
    out.push('"');
}

/// Named values, in their order. Names are of small letters, digits and `_`.
#[derive(Clone, Debug, Default, PartialEq, Eq)]
pub struct Fields(pub Vec<(Cow<'static, str>, Value)>);

impl Fields {
    /// One more.
    pub fn put(
        &mut self,
        name: impl Into<Cow<'static, str>>,
        value: impl Into<Value>,
    ) -> &mut Self {
        self.0.push((name.into(), value.into()));
        self
    }

    /// Where and when an item is, under these names: its number, offset, line and VIA ticks.
    pub fn place(&mut self, names: [&'static str; 4], at: Option<&Place>) -> &mut Self {
        let [item, offset, line, via_ticks] = names;
        self.put(item, at.map(|at| at.item)).put(offset, at.map(|at| at.offset));
        self.put(line, at.and_then(|at| at.line)).put(via_ticks, at.map(|at| at.via_ticks))
    }

    /// An object, and a line end.
    pub fn json(&self, out: &mut String) {
        out.push('{');
        for (i, (name, value)) in self.0.iter().enumerate() {
            if i > 0 {
                out.push(',');
            }
            out.push('"');
            out.push_str(name);
            out.push_str("\":");
            value.json(out);
        }
        out.push_str("}\n");
    }

    /// The names.
    pub fn csv_head(&self, out: &mut String) {
        let names: Vec<&str> = self.0.iter().map(|(name, _)| &**name).collect();
        out.push_str(&names.join(","));
        out.push('\n');
    }

    /// The values.
    pub fn csv_row(&self, out: &mut String) {
        for (i, (_, value)) in self.0.iter().enumerate() {
            if i > 0 {
                out.push(',');
            }
            value.csv(out);
        }
        out.push('\n');
    }

    /// A row for each name and value; several values have a row each.
    pub fn csv_pairs(&self, out: &mut String) {
        out.push_str("field,value\n");
        for (name, value) in self.flat() {
            Value::Text(name).csv(out);
            out.push(',');
            value.csv(out);
            out.push('\n');
        }
    }

    /// With a name for each of several values: `cells[3]`.
    pub fn flat(&self) -> Vec<(Cow<'static, str>, Value)> {
        let mut all = Vec::new();
        for (name, value) in &self.0 {
            match value {
                Value::All(values) => {
                    let named = values.iter().enumerate();
                    all.extend(
                        named.map(|(i, value)| (Cow::from(format!("{name}[{i}]")), value.clone())),
                    );
                }
                value => all.push((name.clone(), value.clone())),
            }
        }
        all
    }
}

/// What a command names: its kind and, where it has one, its number.
pub fn target(fields: &mut Fields, command: Option<Command>) {
    use swarmtempo::Target;
    let (kind, index) = match command.map(|command| command.target) {
        Some(Target::Seconds(k)) => (Some("seconds"), Some(k)),
        Some(Target::Test) => (Some("test"), None),
        Some(Target::Protect) => (Some("protect"), None),
        Some(Target::Cell(cell)) => (Some("cell"), Some(cell)),
        None => (None, None),
    };
    fields.put("target", kind);
    fields.put("index", index.map(u64::from));
}

/// VIA ticks as seconds, to the microsecond, rounded down.
pub fn seconds(ticks: u64) -> String {
    let second = u64::from(TICKS_PER_SECOND);
    format!("{}.{:06}", ticks / second, ticks % second * 1_000_000 / second)
}

#[cfg(test)]
mod tests {
    use super::*;

    #[test]
    fn json_and_csv() {
        let mut fields = Fields::default();
        fields.put("a", 7u64).put("b", None::<u64>).put("c", "x,\"y\"\n</script>");
        fields.put("d", Value::all([true, false])).put("e", 0xA5u8);
        let mut out = String::new();
        fields.json(&mut out);
        let wanted =
            r#"{"a":7,"b":null,"c":"x,\"y\"\n\u003c/script\u003e","d":[true,false],"e":165}"#;
        assert_eq!(out.trim_end(), wanted);
        out.clear();
        fields.csv_head(&mut out);
        fields.csv_row(&mut out);
        assert_eq!(out, "a,b,c,d,e\n7,,\"x,\"\"y\"\"\n</script>\",true false,165\n");
        out.clear();
        fields.csv_pairs(&mut out);
        assert!(out.ends_with("\nd[0],true\nd[1],false\ne,165\n"), "{out}");
        assert_eq!(fields.0[4].1.words(), "$A5");
    }

    #[test]
    fn ticks_as_seconds() {
        assert_eq!(seconds(0), "0.000000");
        assert_eq!(seconds(783_359), "0.999998");
        assert_eq!(seconds(1_175_040), "1.500000");
    }
}
