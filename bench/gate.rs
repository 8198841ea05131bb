//! The gate program in plain Rust: document 01, "List text and the gate program", with the stamp of document 02's request 7.
//! It reads lines from standard input, makes their calls on `plain.rs`, and prints what became of each, and the stamp at the end.

#[path = "plain.rs"]
mod plain;

use plain::{read_card_line, Refusal, Session, OBJECT_SIZE, STAMP_SIZE};
use std::io::{self, BufRead, BufWriter, Write};

const LINE_MOST: usize = 1_024;
const CARDS_MOST: usize = 1_024;

/// A line that is well formed.
enum Line {
    Card(u64),
    Open { mode: u8, date: u32, aid: Vec<u8> },
    Answer(Vec<u8>),
    Verdict { kind: u8, yes: u8, fascn: Vec<u8> },
}

/// The bytes of one or more pairs of upper-case hexadecimal digits.
fn read_hex(text: &[u8]) -> Option<Vec<u8>> {
    fn digit(byte: u8) -> Option<u8> {
        match byte {
            b'0'..=b'9' => Some(byte - b'0'),
            b'A'..=b'F' => Some(byte - b'A' + 10),
            _ => None,
        }
    }
    if text.is_empty() || !text.len().is_multiple_of(2) {
        return None;
    }
    let mut bytes = Vec::with_capacity(text.len() / 2);
    for pair in text.chunks_exact(2) {
        bytes.push(digit(pair[0])? << 4 | digit(pair[1])?);
    }
    Some(bytes)
}

/// The number of so many decimal digits.
fn read_digits(text: &[u8], count: usize) -> Option<u32> {
    if text.len() != count || !text.iter().all(u8::is_ascii_digit) {
        return None;
    }
    Some(text.iter().fold(0, |number, digit| number * 10 + u32::from(digit - b'0')))
}

/// Reads a line without its 0A.
fn read_line(line: &[u8]) -> Option<Line> {
    if line.len() > LINE_MOST {
        return None;
    }
    if line.starts_with(b"(card ") {
        return read_card_line(line).map(Line::Card);
    }
    let words = line.strip_prefix(b"(")?.strip_suffix(b")")?;
    let mut words = words.split(|&byte| byte == b' ');
    let line = match words.next()? {
        b"open" => Line::Open {
            mode: read_digits(words.next()?, 1)? as u8,
            date: read_digits(words.next()?, 8)?,
            aid: read_hex(words.next()?)?,
        },
        b"answer" => Line::Answer(read_hex(words.next()?)?),
        b"verdict" => Line::Verdict {
            kind: read_digits(words.next()?, 1)? as u8,
            yes: read_digits(words.next()?, 1)? as u8,
            fascn: read_hex(words.next()?)?,
        },
        _ => return None,
    };
    words.next().is_none().then_some(line)
}

struct Gate {
    session: Session,
    object: Vec<u8>,
    cards: Vec<u64>,
}

impl Gate {
    /// What becomes of a line; `None` is a bad one.
    fn take(&mut self, line: &[u8]) -> Option<Result<(), Refusal>> {
        Some(match read_line(line)? {
            Line::Card(_) if self.cards.len() == CARDS_MOST => return None,
            Line::Card(key) => {
                self.cards.push(key);
                Ok(())
            }
            Line::Open { mode, date, aid } => Session::open(mode, date, &aid).map(|session| self.session = session),
            Line::Answer(answer) => {
                // The command may be refused, where one is outstanding still; the answer is made all the same.
                let _ = self.session.command(&mut [0; 22]);
                self.session.answer(&mut self.object, &answer, &self.cards)
            }
            Line::Verdict { kind, yes, fascn } => self.session.verdict(kind, yes, &fascn),
        })
    }
}

fn main() -> io::Result<()> {
    let mut input = io::stdin().lock();
    let mut output = BufWriter::new(io::stdout().lock());
    let mut gate = Gate { session: Session::default(), object: vec![0; OBJECT_SIZE], cards: Vec::new() };

    let mut line = Vec::new();
    while input.read_until(b'\n', &mut line)? != 0 {
        let text = line.strip_suffix(b"\n").unwrap_or(&line);
        match gate.take(text) {
            Some(Ok(())) => output.write_all(b"(ok)\n")?,
            Some(Err(number)) => writeln!(output, "(refused {number})")?,
            None => output.write_all(b"(bad)\n")?,
        }
        line.clear();
    }

    let mut stamp = [0; STAMP_SIZE];
    match gate.session.stamp(&mut stamp) {
        Ok(()) => {
            output.write_all(b"(stamp ")?;
            for byte in stamp {
                write!(output, "{byte:02X}")?;
            }
            output.write_all(b")\n")?;
        }
        Err(number) => writeln!(output, "(refused {number})")?,
    }
    output.flush()
}
