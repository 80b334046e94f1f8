//! CSV rows as the crate `csv` reads them: without a head, of any length, their fields not trimmed.

#[derive(Clone, Copy, PartialEq)]
enum State {
    StartOfRow,
    StartOfField,
    InField,
    InQuotes,
    AfterQuote,
}

/// The rows that are left of some bytes.
pub struct Rows<'a> {
    rest: &'a [u8],
}

impl<'a> Rows<'a> {
    pub fn of(bytes: &'a [u8]) -> Rows<'a> {
        Rows { rest: bytes.strip_prefix(b"\xEF\xBB\xBF").unwrap_or(bytes) }
    }

    /// Reads the next row into these fields, where there is one.
    pub fn next(&mut self, row: &mut Row) -> bool {
        row.clear();
        let mut state = State::StartOfRow;
        while let Some((&octet, rest)) = self.rest.split_first() {
            self.rest = rest;
            match (state, octet) {
                (State::StartOfRow, b'\r' | b'\n') => {}
                (State::StartOfRow | State::StartOfField, b'"') => state = State::InQuotes,
                (State::InQuotes, b'"') => state = State::AfterQuote,
                (State::AfterQuote, b'"') => {
                    row.text.push(octet);
                    state = State::InQuotes;
                }
                (State::InQuotes, _) => row.text.push(octet),
                (_, b',') => {
                    row.end_field();
                    state = State::StartOfField;
                }
                (_, b'\r' | b'\n') => {
                    row.end_field();
                    return true;
                }
                _ => {
                    row.text.push(octet);
                    state = State::InField;
                }
            }
        }
        if state == State::StartOfRow {
            return false;
        }
        row.end_field();
        true
    }
}

/// The fields of a row, one behind the other.
#[derive(Default)]
pub struct Row {
    text: Vec<u8>,
    ends: Vec<usize>,
}

impl Row {
    pub fn len(&self) -> usize {
        self.ends.len()
    }

    /// The field of this number, from 0.
    pub fn field(&self, number: usize) -> &[u8] {
        let start = if number == 0 { 0 } else { self.ends[number - 1] };
        &self.text[start..self.ends[number]]
    }

    fn clear(&mut self) {
        self.text.clear();
        self.ends.clear();
    }

    fn end_field(&mut self) {
        self.ends.push(self.text.len());
    }
}
