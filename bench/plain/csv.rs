//! CSV records over bytes: commas, double quotes, any line ends.
use std::borrow::Cow;
use std::io::{self, Write};

pub struct Records<'a> {
    rest: &'a [u8],
}

impl<'a> Records<'a> {
    /// The records of a text, without the comment lines at its start.
    pub fn new(text: &'a [u8]) -> Self {
        let mut rest = text.strip_prefix(b"\xef\xbb\xbf").unwrap_or(text);
        while rest.first() == Some(&b'#') {
            let end = rest.iter().position(|&byte| byte == b'\n').map_or(rest.len(), |at| at + 1);
            rest = &rest[end..];
        }
        Records { rest }
    }

    /// Puts the next record into `fields`; false if there is none.
    pub fn next(&mut self, fields: &mut Vec<Cow<'a, [u8]>>) -> bool {
        fields.clear();
        while let Some(b'\n' | b'\r') = self.rest.first() {
            self.rest = &self.rest[1..];
        }
        if self.rest.is_empty() {
            return false;
        }
        loop {
            fields.push(self.field());
            match self.rest.first() {
                Some(b',') => self.rest = &self.rest[1..],
                _ => return true,
            }
        }
    }

    fn field(&mut self) -> Cow<'a, [u8]> {
        if self.rest.first() == Some(&b'"') {
            return self.quoted();
        }
        let end = self.rest.iter().position(|byte| matches!(byte, b',' | b'\n' | b'\r')).unwrap_or(self.rest.len());
        let (field, rest) = self.rest.split_at(end);
        self.rest = rest;
        Cow::Borrowed(field)
    }

    fn quoted(&mut self) -> Cow<'a, [u8]> {
        let mut text = Vec::new();
        self.rest = &self.rest[1..];
        loop {
            let end = self.rest.iter().position(|&byte| byte == b'"').expect("a closing quote");
            text.extend_from_slice(&self.rest[..end]);
            self.rest = &self.rest[end + 1..];
            if self.rest.first() != Some(&b'"') {
                return Cow::Owned(text);
            }
            text.push(b'"');
            self.rest = &self.rest[1..];
        }
    }
}

pub fn write_field(out: &mut impl Write, field: &[u8]) -> io::Result<()> {
    if !field.iter().any(|byte| matches!(byte, b',' | b'"' | b'\n' | b'\r')) {
        return out.write_all(field);
    }
    out.write_all(b"\"")?;
    for part in field.split_inclusive(|&byte| byte == b'"') {
        out.write_all(part)?;
        if part.last() == Some(&b'"') {
            out.write_all(b"\"")?;
        }
    }
    out.write_all(b"\"")
}
