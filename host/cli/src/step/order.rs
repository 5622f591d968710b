//! What the stepper is told, a line each.

use swarmtempo::text::LineError;

/// A command of the stepper.
#[derive(Clone, Copy, Debug, PartialEq, Eq)]
pub enum Order {
    /// So many items.
    Next(u64),
    /// Until an item is refused.
    Refusal,
    /// Until a cell is written: that one, or any.
    Cell(Option<u8>),
    /// To the end.
    End,
    /// The rows of so many items.
    Answers(u64),
    /// The state.
    State,
    /// How far it is.
    Where,
    /// The commands.
    Help,
    /// No more.
    Quit,
}

/// Their names.
const NAMES: [&str; 9] =
    ["next", "refusal", "cell", "end", "answers", "state", "where", "help", "quit"];

impl Order {
    /// Of a line; none where it has nothing but a comment.
    pub fn of(line: &str) -> Result<Option<Order>, LineError> {
        let text = line.split(';').next().unwrap_or("");
        let mut words = text.split_whitespace().peekable();
        let Some(word) = words.next() else {
            return Ok(None);
        };
        let wrong = |part: &str, message: String| {
            let before = &line[..part.as_ptr() as usize - line.as_ptr() as usize];
            LineError { column: before.chars().count() + 1, message }
        };
        let small = word.to_lowercase();
        let known = NAMES.iter().find(|name| **name == small || name[..1] == small);
        let Some(&name) = known else {
            let names = NAMES.join(", ");
            return Err(wrong(word, format!("`{word}` is no command: {names}")));
        };
        let counted = matches!(name, "next" | "cell" | "answers");
        let number = words
            .next_if(|_| counted)
            .map(|word| number(name, word).map_err(|message| wrong(word, message)));
        let number = number.transpose()?;
        if let Some(word) = words.next() {
            return Err(wrong(word, format!("`{word}` is too much after {name}")));
        }
        Ok(Some(match name {
            "next" => Order::Next(number.unwrap_or(1)),
            "refusal" => Order::Refusal,
            "cell" => Order::Cell(number.and_then(|cell| u8::try_from(cell).ok())),
            "end" => Order::End,
            "answers" => Order::Answers(number.unwrap_or(10)),
            "state" => Order::State,
            "where" => Order::Where,
            "help" => Order::Help,
            _ => Order::Quit,
        }))
    }
}

/// The number after a command's name.
fn number(name: &str, word: &str) -> Result<u64, String> {
    match word.parse() {
        Ok(256..) if name == "cell" => Err("cells are 0 to 255".to_string()),
        Ok(number) => Ok(number),
        Err(_) => Err(format!("{name} needs a number, not `{word}`")),
    }
}

#[cfg(test)]
mod tests {
    use super::*;

    #[test]
    fn orders() {
        for (line, order) in [
            ("", None),
            ("  ; remark", None),
            ("next", Some(Order::Next(1))),
            ("  N 12 ; remark", Some(Order::Next(12))),
            ("cell", Some(Order::Cell(None))),
            ("c 255", Some(Order::Cell(Some(255)))),
            ("Answers 3", Some(Order::Answers(3))),
            ("q", Some(Order::Quit)),
        ] {
            assert_eq!(Order::of(line), Ok(order), "{line}");
        }
        for (line, column) in
            [("fly", 1), (" ne 1", 2), ("next x", 6), ("c 256", 3), ("state 1", 7), ("n 1 2", 5)]
        {
            assert_eq!(Order::of(line).expect_err(line).column, column, "{line}");
        }
        // Each first letter is one command's.
        for (i, name) in NAMES.iter().enumerate() {
            assert!(NAMES[..i].iter().all(|other| other[..1] != name[..1]), "{name}");
        }
    }
}
