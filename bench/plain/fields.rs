//! Structured fields (RFC 8941): dictionaries into values, and inner lists into their canonical text.

use crate::base64;
use std::borrow::Cow;

/// How many members, items or parameters a list may have.
const MOST: usize = 64;

#[derive(PartialEq)]
pub enum Bare<'a> {
    Integer(i64),
    /// In thousandths.
    Decimal(i64),
    Text(Cow<'a, str>),
    Token(&'a str),
    Bytes(Vec<u8>),
    Boolean(bool),
}

pub type Params<'a> = Vec<(&'a str, Bare<'a>)>;

pub struct Item<'a> {
    pub value: Bare<'a>,
    pub params: Params<'a>,
}

pub struct InnerList<'a> {
    pub items: Vec<Item<'a>>,
    pub params: Params<'a>,
}

pub enum Member<'a> {
    Item(Item<'a>),
    Inner(InnerList<'a>),
}

/// The value of a name.
pub fn named<'m, T>(members: &'m [(&str, T)], name: &str) -> Option<&'m T> {
    members.iter().find(|(known, _)| *known == name).map(|(_, value)| value)
}

// Keeps a member: one that comes again takes the place of the one before.
fn keep<'a, T>(members: &mut Vec<(&'a str, T)>, name: &'a str, value: T) -> Option<()> {
    if let Some(place) = members.iter().position(|(known, _)| *known == name) {
        members[place].1 = value;
    } else if members.len() == MOST {
        return None;
    } else {
        members.push((name, value));
    }
    Some(())
}

/// The members of a dictionary.
pub fn dictionary(field: &[u8]) -> Option<Vec<(&str, Member<'_>)>> {
    let text = std::str::from_utf8(field).ok().filter(|text| text.is_ascii())?;
    let mut reader = Reader { text, at: 0 };
    let mut members = Vec::with_capacity(4);
    reader.spaces();
    while reader.at < text.len() {
        let name = reader.key()?;
        let member = if reader.takes(b'=') { reader.member()? } else { Member::Item(Item { value: Bare::Boolean(true), params: reader.params()? }) };
        keep(&mut members, name, member)?;
        reader.blanks();
        if reader.at == text.len() {
            break;
        }
        if !reader.takes(b',') {
            return None;
        }
        reader.blanks();
        reader.peek()?;
    }
    Some(members)
}

struct Reader<'a> {
    text: &'a str,
    at: usize,
}

impl<'a> Reader<'a> {
    fn peek(&self) -> Option<u8> {
        self.text.as_bytes().get(self.at).copied()
    }

    fn takes(&mut self, byte: u8) -> bool {
        let found = self.peek() == Some(byte);
        self.at += usize::from(found);
        found
    }

    fn spaces(&mut self) {
        while self.takes(b' ') {}
    }

    fn blanks(&mut self) {
        while self.takes(b' ') || self.takes(b'\t') {}
    }

    // The bytes from here on of which each is such a one.
    fn run(&mut self, is_such: impl Fn(u8) -> bool) -> &'a str {
        let start = self.at;
        while self.peek().is_some_and(&is_such) {
            self.at += 1;
        }
        &self.text[start..self.at]
    }

    fn key(&mut self) -> Option<&'a str> {
        if !matches!(self.peek()?, b'a'..=b'z' | b'*') {
            return None;
        }
        Some(self.run(|byte| matches!(byte, b'a'..=b'z' | b'0'..=b'9' | b'_' | b'-' | b'.' | b'*')))
    }

    fn params(&mut self) -> Option<Params<'a>> {
        let mut params = Vec::new();
        while self.takes(b';') {
            self.spaces();
            let name = self.key()?;
            let value = if self.takes(b'=') { self.bare()? } else { Bare::Boolean(true) };
            keep(&mut params, name, value)?;
        }
        Some(params)
    }

    fn item(&mut self) -> Option<Item<'a>> {
        Some(Item { value: self.bare()?, params: self.params()? })
    }

    fn member(&mut self) -> Option<Member<'a>> {
        if !self.takes(b'(') {
            return Some(Member::Item(self.item()?));
        }
        let mut items = Vec::with_capacity(8);
        loop {
            self.spaces();
            if self.takes(b')') {
                return Some(Member::Inner(InnerList { items, params: self.params()? }));
            }
            if items.len() == MOST {
                return None;
            }
            items.push(self.item()?);
            if !matches!(self.peek()?, b' ' | b')') {
                return None;
            }
        }
    }

    fn bare(&mut self) -> Option<Bare<'a>> {
        match self.peek()? {
            b'"' => self.string(),
            b':' => self.binary(),
            b'?' => self.boolean(),
            b'-' | b'0'..=b'9' => self.number(),
            b'a'..=b'z' | b'A'..=b'Z' | b'*' => Some(Bare::Token(self.run(is_token_byte))),
            _ => None,
        }
    }

    fn string(&mut self) -> Option<Bare<'a>> {
        self.at += 1;
        let plain = self.run(|byte| (0x20..0x7f).contains(&byte) && byte != b'"' && byte != b'\\');
        if self.takes(b'"') {
            return Some(Bare::Text(Cow::Borrowed(plain)));
        }
        let mut told = plain.to_owned();
        while self.takes(b'\\') {
            told.push(char::from(self.peek().filter(|byte| matches!(byte, b'"' | b'\\'))?));
            self.at += 1;
            told.push_str(self.run(|byte| (0x20..0x7f).contains(&byte) && byte != b'"' && byte != b'\\'));
        }
        self.takes(b'"').then_some(Bare::Text(Cow::Owned(told)))
    }

    fn binary(&mut self) -> Option<Bare<'a>> {
        self.at += 1;
        let text = self.run(|byte| byte != b':');
        if !self.takes(b':') {
            return None;
        }
        Some(Bare::Bytes(base64::decode(text.as_bytes())?))
    }

    fn boolean(&mut self) -> Option<Bare<'a>> {
        self.at += 1;
        let value = self.takes(b'1');
        (value || self.takes(b'0')).then_some(Bare::Boolean(value))
    }

    fn number(&mut self) -> Option<Bare<'a>> {
        let sign = if self.takes(b'-') { -1 } else { 1 };
        let whole = self.run(|byte| byte.is_ascii_digit());
        if !self.takes(b'.') {
            return (1..=15).contains(&whole.len()).then(|| Some(Bare::Integer(sign * whole.parse::<i64>().ok()?)))?;
        }
        let part = self.run(|byte| byte.is_ascii_digit());
        if !(1..=12).contains(&whole.len()) || !(1..=3).contains(&part.len()) {
            return None;
        }
        Some(Bare::Decimal(sign * format!("{whole}{part:0<3}").parse::<i64>().ok()?))
    }
}

fn is_token_byte(byte: u8) -> bool {
    byte.is_ascii_alphanumeric() || b"!#$%&'*+-.^_`|~:/".contains(&byte)
}

fn write_bare(value: &Bare, out: &mut Vec<u8>) {
    match value {
        Bare::Integer(number) => out.extend_from_slice(number.to_string().as_bytes()),
        Bare::Decimal(thousandths) => {
            let sign = if *thousandths < 0 { "-" } else { "" };
            let (whole, part) = (thousandths.unsigned_abs() / 1000, format!("{:03}", thousandths.unsigned_abs() % 1000));
            let part = part.trim_end_matches('0');
            out.extend_from_slice(format!("{sign}{whole}.{}", if part.is_empty() { "0" } else { part }).as_bytes());
        }
        Bare::Text(text) => write_string(text, out),
        Bare::Token(token) => out.extend_from_slice(token.as_bytes()),
        Bare::Bytes(bytes) => {
            out.push(b':');
            base64::encode(bytes, out);
            out.push(b':');
        }
        Bare::Boolean(value) => out.extend_from_slice(if *value { b"?1" } else { b"?0" }),
    }
}

/// Puts the canonical text of a String behind others.
pub fn write_string(text: &str, out: &mut Vec<u8>) {
    out.push(b'"');
    for byte in text.bytes() {
        if matches!(byte, b'"' | b'\\') {
            out.push(b'\\');
        }
        out.push(byte);
    }
    out.push(b'"');
}

fn write_params(params: &Params, out: &mut Vec<u8>) {
    for (name, value) in params {
        out.push(b';');
        out.extend_from_slice(name.as_bytes());
        if *value != Bare::Boolean(true) {
            out.push(b'=');
            write_bare(value, out);
        }
    }
}

/// Puts the canonical text of an inner list behind others.
pub fn write_inner(list: &InnerList, out: &mut Vec<u8>) {
    out.push(b'(');
    for (place, item) in list.items.iter().enumerate() {
        if place > 0 {
            out.push(b' ');
        }
        write_bare(&item.value, out);
        write_params(&item.params, out);
    }
    out.push(b')');
    write_params(&list.params, out);
}
