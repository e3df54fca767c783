//! A load on an authorization server: signed requests over many connections at once, one thread a connection.
//!
//!     client CONFIG ADDRESS CONNECTIONS REQUESTS grants KEY RIGHT
//!     client CONFIG ADDRESS CONNECTIONS REQUESTS introspections KEY VALUE
//!     client CONFIG ADDRESS CONNECTIONS REQUESTS introspections-with-nonces KEY VALUE
//!
//! Each of CONNECTIONS sends REQUESTS requests that the setup's key with the id KEY signs, each once the reply to the one before is there: grant requests for
//! RIGHT, or questions about the token VALUE, which are the same request again and again, or have a nonce each. All are signed before the clock begins to run,
//! so that the client takes little of the processors. A connection that the server closes behind a reply is opened anew. Each reply has to have the status 200,
//! and to hand out a token, or to say that the token is active; else the client says what came and ends with status 1. Printed are the requests, the seconds
//! from the first to the last, and the requests of a second.
#![allow(dead_code)]

mod base64;
mod chacha20;
mod json;
mod setup;
mod sha256;

use chacha20::ChaCha20;
use setup::{Key, Setup};
use std::io::{self, Read, Write};
use std::net::TcpStream;
use std::sync::Barrier;
use std::time::{Duration, Instant, SystemTime};
use std::{env, process, thread};

const USAGE: &str = "usage: client CONFIG ADDRESS CONNECTIONS REQUESTS (grants KEY RIGHT | introspections[-with-nonces] KEY VALUE)";
const PATIENCE: Duration = Duration::from_secs(60);

/// What is sent, and what each reply has to have in its body.
struct Kind<'a> {
    path: &'static str,
    body: String,
    has_nonce: bool,
    key: &'a Key,
    told: &'static str,
}

fn kind_of<'a>(setup: &'a Setup, words: &[String]) -> Option<Kind<'a>> {
    let [kind, id, value] = words else {
        return None;
    };
    let key = &setup.keys[setup.place_of(id)?];
    match kind.as_str() {
        "grants" => {
            let body = format!("{{\"access_token\":{{\"access\":[\"{value}\"]}},\"client\":\"{id}\"}}");
            Some(Kind { path: "/gnap", body, has_nonce: true, key, told: "{\"access_token\":" })
        }
        "introspections" | "introspections-with-nonces" => {
            let body = format!("{{\"access_token\":\"{value}\",\"resource_server\":\"{id}\"}}");
            Some(Kind { path: "/introspect", body, has_nonce: kind != "introspections", key, told: "\"active\":true" })
        }
        _ => None,
    }
}

fn base64_text(bytes: &[u8]) -> String {
    let mut text = Vec::new();
    base64::encode(bytes, &mut text);
    String::from_utf8(text).expect("base64 is ASCII")
}

// The bytes of a signed request.
fn signed(setup: &Setup, kind: &Kind, created: u64, random: &mut ChaCha20) -> Vec<u8> {
    let (path, body, id) = (kind.path, &kind.body, &kind.key.id);
    let digest = format!("sha-256=:{}:", base64_text(&sha256::sha256(body.as_bytes())));
    let nonce = if kind.has_nonce { format!(";nonce=\"{}\"", String::from_utf8_lossy(&random.draw()[..22])) } else { String::new() };
    let params = format!("(\"@method\" \"@target-uri\" \"content-digest\");created={created};keyid=\"{id}\"{nonce};tag=\"gnap\"");
    let base = format!("\"@method\": POST\n\"@target-uri\": {}{path}\n\"content-digest\": {digest}\n\"@signature-params\": {params}", setup.base);
    let code = base64_text(&kind.key.secret.sign(base.as_bytes()));
    let host = setup.base.rsplit('/').next().unwrap_or_default();
    let length = body.len();
    format!(
        "POST {path} HTTP/1.1\r\nHost: {host}\r\nContent-Type: application/json\r\nContent-Length: {length}\r\nContent-Digest: {digest}\r\n\
         Signature-Input: sig1={params}\r\nSignature: sig1=:{code}:\r\n\r\n{body}"
    )
    .into_bytes()
}

fn connect(address: &str) -> io::Result<TcpStream> {
    let stream = TcpStream::connect(address)?;
    stream.set_nodelay(true)?;
    stream.set_read_timeout(Some(PATIENCE))?;
    Ok(stream)
}

fn fault(text: String) -> io::Error {
    io::Error::new(io::ErrorKind::InvalidData, text)
}

fn number_behind(head: &str, name: &str) -> Option<usize> {
    head.split(name).nth(1)?.split("\r\n").next()?.trim().parse().ok()
}

// Reads one reply into the room, and tells whether the connection closes behind it.
fn read_reply(stream: &mut TcpStream, room: &mut [u8], told: &str) -> io::Result<bool> {
    let mut held = 0;
    loop {
        let count = stream.read(&mut room[held..])?;
        held += count;
        let text = String::from_utf8_lossy(&room[..held]);
        if count == 0 {
            return Err(fault(format!("no whole reply: {text}")));
        }
        let Some((head, body)) = text.split_once("\r\n\r\n") else {
            continue;
        };
        let length = number_behind(head, "\r\nContent-Length: ").ok_or_else(|| fault(format!("no length: {head}")))?;
        if body.len() < length {
            continue;
        }
        if !head.starts_with("HTTP/1.1 200 ") || body.len() > length || !body.contains(told) {
            return Err(fault(format!("not the reply: {text}")));
        }
        return Ok(head.contains("\r\nConnection: close"));
    }
}

// Sends the requests one after another.
fn send_all(address: &str, requests: &[Vec<u8>], told: &str, first: TcpStream) -> io::Result<()> {
    let (mut stream, mut room, mut is_closed) = (first, vec![0; 65_536], false);
    for request in requests {
        if is_closed {
            stream = connect(address)?;
        }
        stream.write_all(request)?;
        is_closed = read_reply(&mut stream, &mut room, told)?;
    }
    Ok(())
}

// The requests of one connection. Those that have no nonce are all the same.
fn requests_of(setup: &Setup, kind: &Kind, count: usize) -> io::Result<Vec<Vec<u8>>> {
    let created = SystemTime::now().duration_since(SystemTime::UNIX_EPOCH).map_or(0, |since| since.as_secs());
    let mut random = ChaCha20::from_system()?;
    if kind.has_nonce {
        return Ok((0..count).map(|_| signed(setup, kind, created, &mut random)).collect());
    }
    Ok(vec![signed(setup, kind, created, &mut random); count])
}

// How long all took together, from when each was ready.
fn load(setup: &Setup, address: &str, kind: &Kind, connections: usize, count: usize) -> io::Result<Duration> {
    let ready = Barrier::new(connections + 1);
    thread::scope(|scope| {
        let threads: Vec<_> = (0..connections)
            .map(|_| {
                scope.spawn(|| {
                    let made = requests_of(setup, kind, count).and_then(|requests| Ok((requests, connect(address)?)));
                    ready.wait();
                    let (requests, stream) = made?;
                    send_all(address, &requests, kind.told, stream)
                })
            })
            .collect();
        ready.wait();
        let begin = Instant::now();
        let ends: Vec<io::Result<()>> = threads.into_iter().map(|thread| thread.join().expect("no thread panics")).collect();
        let took = begin.elapsed();
        ends.into_iter().collect::<io::Result<()>>()?;
        Ok(took)
    })
}

fn run(words: &[String]) -> Result<(), String> {
    let [config, address, connections, count, what @ ..] = words else {
        return Err(USAGE.to_owned());
    };
    let setup = Setup::open(config)?;
    let kind = kind_of(&setup, what).ok_or(USAGE)?;
    let connections: usize = connections.parse().map_err(|_| USAGE)?;
    let count: usize = count.parse().map_err(|_| USAGE)?;
    let took = load(&setup, address, &kind, connections, count).map_err(|error| error.to_string())?.as_secs_f64();
    let all = connections * count;
    println!("{all} requests, {took:.6} seconds, {:.0} a second", all as f64 / took);
    Ok(())
}

fn main() {
    let words: Vec<String> = env::args().skip(1).collect();
    if let Err(fault) = run(&words) {
        eprintln!("{fault}");
        process::exit(1);
    }
}
