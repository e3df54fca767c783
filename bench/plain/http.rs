//! Requests of HTTP/1 off a connection (RFC 9112), and replies onto it.

use std::borrow::Cow;
use std::io::{self, Read, Write};
use std::net::TcpStream;
use std::ops::Range;
use std::time::Duration;

const MOST_HEAD: usize = 16_384;
const MOST_BODY: usize = 65_536;
const MOST_FIELDS: usize = 64;
/// How long a peer may bring or take nothing.
const PATIENCE: Duration = Duration::from_secs(60);

/// Why a connection ends.
pub enum Fault {
    BadHead,
    TooLarge,
    Coded,
    /// The peer is gone, or was silent for too long.
    Gone,
}

// What a head says, with places in the bytes of its request.
struct Head {
    method: Range<usize>,
    target: Range<usize>,
    fields: Vec<(Range<usize>, Range<usize>)>,
    length: usize,
    body: usize,
    last: bool,
}

/// A request, as it lies in the bytes that came.
pub struct Request<'a> {
    pub method: &'a str,
    pub target: &'a str,
    pub body: &'a [u8],
    /// The connection closes behind the reply.
    pub last: bool,
    bytes: &'a [u8],
    fields: &'a [(Range<usize>, Range<usize>)],
}

impl<'a> Request<'a> {
    /// The value of a field, its lines joined where there are several.
    pub fn field(&self, name: &str) -> Option<Cow<'a, [u8]>> {
        let bytes = self.bytes;
        let mut lines =
            self.fields.iter().filter(|(known, _)| bytes[known.clone()].eq_ignore_ascii_case(name.as_bytes())).map(|(_, value)| &bytes[value.clone()]);
        let mut joined = Cow::Borrowed(lines.next()?);
        for line in lines {
            let all = joined.to_mut();
            all.extend_from_slice(b", ");
            all.extend_from_slice(line);
        }
        Some(joined)
    }
}

/// A connection with room for the largest request.
pub struct Connection {
    stream: TcpStream,
    room: Box<[u8]>,
    start: usize,
    end: usize,
    head: Option<Head>,
}

impl Connection {
    pub fn new(stream: TcpStream) -> io::Result<Connection> {
        stream.set_nodelay(true)?;
        stream.set_read_timeout(Some(PATIENCE))?;
        stream.set_write_timeout(Some(PATIENCE))?;
        Ok(Connection { stream, room: vec![0; MOST_HEAD + MOST_BODY].into_boxed_slice(), start: 0, end: 0, head: None })
    }

    fn read_more(&mut self) -> Result<usize, Fault> {
        if self.end == self.room.len() {
            self.room.copy_within(self.start..self.end, 0);
            (self.start, self.end) = (0, self.end - self.start);
        }
        loop {
            match self.stream.read(&mut self.room[self.end..]) {
                Ok(count) => {
                    self.end += count;
                    return Ok(count);
                }
                Err(error) if error.kind() == io::ErrorKind::Interrupted => {}
                Err(_) => return Err(Fault::Gone),
            }
        }
    }

    // The head of the next request, or nothing where the connection ended before it.
    fn next_head(&mut self) -> Result<Option<Head>, Fault> {
        loop {
            let held = &self.room[self.start..self.end];
            if !held.is_empty() {
                let most = held.len().min(MOST_HEAD);
                if let Some(head) = read_head(&held[..most])? {
                    return Ok(Some(head));
                }
                if most == MOST_HEAD {
                    return Err(Fault::TooLarge);
                }
            }
            if self.read_more()? == 0 {
                return if self.start == self.end { Ok(None) } else { Err(Fault::Gone) };
            }
        }
    }

    /// The next request, or nothing where the connection ended before it. It lies there until `answer`.
    pub fn next_request(&mut self) -> Result<Option<Request<'_>>, Fault> {
        let Some(head) = self.next_head()? else {
            return Ok(None);
        };
        while self.end - self.start < head.body + head.length {
            if self.read_more()? == 0 {
                return Err(Fault::Gone);
            }
        }
        let head = self.head.insert(head);
        let bytes = &self.room[self.start..self.start + head.body + head.length];
        Ok(Some(Request {
            method: std::str::from_utf8(&bytes[head.method.clone()]).map_err(|_| Fault::BadHead)?,
            target: std::str::from_utf8(&bytes[head.target.clone()]).map_err(|_| Fault::BadHead)?,
            body: &bytes[head.body..],
            last: head.last,
            bytes,
            fields: &head.fields,
        }))
    }

    /// Writes the reply to the request that came last, which is done with then.
    pub fn answer(&mut self, reply: &[u8]) -> io::Result<()> {
        if let Some(head) = self.head.take() {
            self.start += head.body + head.length;
        }
        if self.start == self.end {
            (self.start, self.end) = (0, 0);
        }
        self.stream.write_all(reply)
    }
}

// A line without its end, and where the next one begins.
fn line_at(bytes: &[u8], start: usize) -> Option<(Range<usize>, usize)> {
    let end = start + bytes[start..].iter().position(|byte| *byte == b'\n')?;
    let stripped = if end > start && bytes[end - 1] == b'\r' { end - 1 } else { end };
    Some((start..stripped, end + 1))
}

fn is_token_byte(byte: u8) -> bool {
    byte.is_ascii_alphanumeric() || b"!#$%&'*+-.^_`|~".contains(&byte)
}

// The head that the bytes begin with, or nothing where it isn't whole.
fn read_head(bytes: &[u8]) -> Result<Option<Head>, Fault> {
    let mut at = 0;
    let line = loop {
        let Some((line, next)) = line_at(bytes, at) else {
            return Ok(None);
        };
        at = next;
        if !line.is_empty() {
            break line;
        }
    };
    let (method, target, is_old) = request_line(bytes, line)?;
    let mut head = Head { method, target, fields: Vec::with_capacity(16), length: 0, body: 0, last: is_old };
    let mut has_length = false;
    loop {
        let Some((line, next)) = line_at(bytes, at) else {
            return Ok(None);
        };
        at = next;
        if line.is_empty() {
            head.body = at;
            return Ok(Some(head));
        }
        if head.fields.len() == MOST_FIELDS {
            return Err(Fault::TooLarge);
        }
        let (name, value) = field_line(bytes, line)?;
        note_field(&mut head, &mut has_length, &bytes[name.clone()], &bytes[value.clone()])?;
        head.fields.push((name, value));
    }
}

// The method, the target, and whether the version is 1.0.
fn request_line(bytes: &[u8], line: Range<usize>) -> Result<(Range<usize>, Range<usize>, bool), Fault> {
    let text = &bytes[line.clone()];
    let mut spaces = text.iter().enumerate().filter(|(_, byte)| **byte == b' ').map(|(place, _)| place);
    let (Some(first), Some(second), None) = (spaces.next(), spaces.next(), spaces.next()) else {
        return Err(Fault::BadHead);
    };
    let is_old = match &text[second + 1..] {
        b"HTTP/1.1" => false,
        b"HTTP/1.0" => true,
        _ => return Err(Fault::BadHead),
    };
    let (method, target) = (&text[..first], &text[first + 1..second]);
    if method.is_empty() || target.is_empty() || !method.iter().all(|byte| is_token_byte(*byte)) || !target.iter().all(|byte| (0x21..0x7f).contains(byte)) {
        return Err(Fault::BadHead);
    }
    Ok((line.start..line.start + first, line.start + first + 1..line.start + second, is_old))
}

fn field_line(bytes: &[u8], line: Range<usize>) -> Result<(Range<usize>, Range<usize>), Fault> {
    let text = &bytes[line.clone()];
    let colon = text.iter().position(|byte| *byte == b':').ok_or(Fault::BadHead)?;
    if colon == 0 || !text[..colon].iter().all(|byte| is_token_byte(*byte)) {
        return Err(Fault::BadHead);
    }
    if text.iter().any(|byte| *byte == 0x7f || (*byte < 0x20 && *byte != b'\t')) {
        return Err(Fault::BadHead);
    }
    let value = &text[colon + 1..];
    let front = value.iter().take_while(|byte| matches!(byte, b' ' | b'\t')).count();
    let back = value[front..].iter().rev().take_while(|byte| matches!(byte, b' ' | b'\t')).count();
    Ok((line.start..line.start + colon, line.start + colon + 1 + front..line.end - back))
}

// What a field says of the body and of the connection.
fn note_field(head: &mut Head, has_length: &mut bool, name: &[u8], value: &[u8]) -> Result<(), Fault> {
    if name.eq_ignore_ascii_case(b"content-length") {
        if *has_length || value.is_empty() || !value.iter().all(u8::is_ascii_digit) {
            return Err(Fault::BadHead);
        }
        *has_length = true;
        head.length = std::str::from_utf8(value).ok().and_then(|digits| digits.parse().ok()).filter(|length| *length <= MOST_BODY).ok_or(Fault::TooLarge)?;
    } else if name.eq_ignore_ascii_case(b"transfer-encoding") || name.eq_ignore_ascii_case(b"content-encoding") {
        return Err(Fault::Coded);
    } else if name.eq_ignore_ascii_case(b"connection") {
        head.last |= value.split(|byte| *byte == b',').any(|element| element.trim_ascii().eq_ignore_ascii_case(b"close"));
    }
    Ok(())
}

/// A status with its phrase.
pub type Status = &'static str;

/// Puts a reply together. Where it has a body, that is JSON.
pub fn write_reply(status: Status, body: Option<&[u8]>, extra: &str, last: bool, out: &mut Vec<u8>) {
    out.extend_from_slice(b"HTTP/1.1 ");
    out.extend_from_slice(status.as_bytes());
    out.extend_from_slice(b"\r\n");
    if body.is_some() {
        out.extend_from_slice(b"Content-Type: application/json\r\n");
    }
    out.extend_from_slice(b"Cache-Control: no-store\r\n");
    out.extend_from_slice(extra.as_bytes());
    if last {
        out.extend_from_slice(b"Connection: close\r\n");
    }
    let body = body.unwrap_or_default();
    out.extend_from_slice(b"Content-Length: ");
    out.extend_from_slice(body.len().to_string().as_bytes());
    out.extend_from_slice(b"\r\n\r\n");
    out.extend_from_slice(body);
}
