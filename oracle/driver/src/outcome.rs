//! What a job came to, and its one-line text.

use jobs::hex::hex;
use std::fmt::Write;

#[derive(Clone, Debug, PartialEq, Eq)]
pub enum Outcome {
    Refused {
        code: u8,
        place: usize,
    },
    Built(Built),
    /// A panic of the module, which document 01 has no number for.
    Panicked(String),
    /// An error of the module that stands for none of document 01's numbers.
    UnknownMessage {
        message: String,
        place: usize,
    },
}

/// How an answer was come by (document 02, No. 6).
#[derive(Clone, Copy, Debug, PartialEq, Eq)]
pub enum Mark {
    Raw,
    New,
    Old,
}

impl Mark {
    pub fn name(self) -> &'static str {
        match self {
            Mark::Raw => "raw",
            Mark::New => "new",
            Mark::Old => "old",
        }
    }
}

#[derive(Clone, Debug, PartialEq, Eq)]
pub struct Built {
    pub answers: Vec<u16>,
    /// The module doesn't tell them: they are worked out from the records and the answers.
    pub marks: Vec<Mark>,
    pub pool: Vec<u8>,
    pub bootstrap_count: u16,
    pub bootstraps: Vec<u8>,
    /// 0 means none.
    pub name_slot: u16,
    pub class_name: Option<Vec<u8>>,
    pub visits: u64,
}

impl Outcome {
    /// One line, without its newline.
    pub fn line(&self) -> String {
        match self {
            Outcome::Refused { code, place } => format!("refused {code} {place}"),
            Outcome::Built(b) => format!(
                "built answers {} pool {} bootstraps {} {} name {} class {} visits {}",
                count_and_answers(&b.answers, &b.marks),
                length_and_hex(&b.pool),
                b.bootstrap_count,
                length_and_hex(&b.bootstraps),
                b.name_slot,
                b.class_name
                    .as_deref()
                    .map_or("none".into(), length_and_hex),
                b.visits,
            ),
            Outcome::Panicked(message) => format!("panic {}", on_one_line(message)),
            Outcome::UnknownMessage { message, place } => {
                format!("unknown message at {place}: {}", on_one_line(message))
            }
        }
    }
}

fn count_and_answers(answers: &[u16], marks: &[Mark]) -> String {
    let mut text = answers.len().to_string();
    for (answer, mark) in answers.iter().zip(marks) {
        write!(text, " {answer} {}", mark.name()).unwrap();
    }
    text
}

/// `LENGTH HEX`, with `-` for no bytes.
fn length_and_hex(bytes: &[u8]) -> String {
    match bytes {
        [] => "0 -".into(),
        bytes => format!("{} {}", bytes.len(), hex(bytes)),
    }
}

fn on_one_line(message: &str) -> String {
    message.replace(['\n', '\r'], " ")
}

#[cfg(test)]
mod tests {
    use super::*;

    #[test]
    fn refusals_panics_and_unknown_messages_have_a_line_each() {
        let refused = Outcome::Refused { code: 4, place: 70 };
        assert_eq!(refused.line(), "refused 4 70");
        let panicked = Outcome::Panicked("two\nlines".into());
        assert_eq!(panicked.line(), "panic two lines");
        let message = "odd".to_owned();
        let unknown = Outcome::UnknownMessage { message, place: 3 };
        assert_eq!(unknown.line(), "unknown message at 3: odd");
    }

    fn built(answers: Vec<u16>, bytes: &[u8], class_name: Option<Vec<u8>>) -> Outcome {
        let marks = [Mark::Raw, Mark::New][..answers.len()].to_vec();
        Outcome::Built(Built {
            answers,
            marks,
            pool: bytes.to_vec(),
            bootstrap_count: 2,
            bootstraps: bytes.to_vec(),
            name_slot: 7,
            class_name,
            visits: 5,
        })
    }

    #[test]
    fn a_built_line_shows_every_field() {
        let line = built(vec![3, 65534], &[0, 0xaf], Some(vec![0x41])).line();
        let expected = "built answers 2 3 raw 65534 new pool 2 00af bootstraps 2 2 00af name 7 \
                        class 1 41 visits 5";
        assert_eq!(line, expected);
    }

    #[test]
    fn no_bytes_are_a_dash_and_no_class_is_none() {
        let expected = "built answers 0 pool 0 - bootstraps 2 0 - name 7 class 0 - visits 5";
        assert_eq!(built(vec![], &[], Some(vec![])).line(), expected);
        let expected = "built answers 0 pool 0 - bootstraps 2 0 - name 7 class none visits 5";
        assert_eq!(built(vec![], &[], None).line(), expected);
    }
}
