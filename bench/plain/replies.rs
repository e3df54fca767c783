//! The bodies of replies: compact JSON, the members of each object in the order of their names.

use crate::json::write_text;
use crate::setup::Setup;
use crate::state::{Active, Drawn, Issued};

const WAIT: &str = "5";

fn put(piece: &str, out: &mut Vec<u8>) {
    out.extend_from_slice(piece.as_bytes());
}

fn put_number(number: u64, out: &mut Vec<u8>) {
    put(&number.to_string(), out);
}

fn put_rights<'r>(rights: impl Iterator<Item = &'r String>, out: &mut Vec<u8>) {
    out.push(b'[');
    for (place, right) in rights.enumerate() {
        if place > 0 {
            out.push(b',');
        }
        write_text(right, out);
    }
    out.push(b']');
}

// A value by which something is managed at an endpoint of this server; all but the brace at the end.
fn put_managed(value: &Drawn, setup: &Setup, endpoint: &str, out: &mut Vec<u8>) {
    put("{\"access_token\":{\"value\":\"", out);
    out.extend_from_slice(value);
    put("\"},\"uri\":\"", out);
    put(&setup.base, out);
    put(endpoint, out);
    out.push(b'"');
}

fn put_token(token: &Issued, setup: &Setup, out: &mut Vec<u8>) {
    put("{\"access\":", out);
    put_rights(token.rights.iter(), out);
    put(",\"expires_in\":", out);
    put_number(token.seconds, out);
    if token.bearer {
        put(",\"flags\":[\"bearer\"]", out);
    }
    if let Some(label) = &token.label {
        put(",\"label\":", out);
        write_text(label, out);
    }
    put(",\"manage\":", out);
    put_managed(&token.values.manage, setup, "/token", out);
    put("},\"value\":\"", out);
    out.extend_from_slice(&token.values.value);
    put("\"}", out);
}

/// A grant with its tokens.
pub fn granted(setup: &Setup, tokens: &[Issued], in_array: bool, door: &Drawn, instance: Option<&str>, out: &mut Vec<u8>) {
    put("{\"access_token\":", out);
    if in_array {
        out.push(b'[');
    }
    for (place, token) in tokens.iter().enumerate() {
        if place > 0 {
            out.push(b',');
        }
        put_token(token, setup, out);
    }
    if in_array {
        out.push(b']');
    }
    put(",\"continue\":", out);
    put_managed(door, setup, "/continue", out);
    put(",\"wait\":", out);
    put(WAIT, out);
    out.push(b'}');
    if let Some(id) = instance {
        put(",\"instance_id\":", out);
        write_text(id, out);
    }
    out.push(b'}');
}

/// What a resource server that serves such rights is told of a token.
pub fn introspected(setup: &Setup, serves: &[String], active: &Option<Active>, out: &mut Vec<u8>) {
    let Some(active) = active else {
        return put("{\"active\":false}", out);
    };
    put("{\"access\":", out);
    put_rights(active.rights.iter().filter(|right| serves.contains(right)), out);
    put(",\"active\":true,\"exp\":", out);
    put_number(active.end, out);
    if active.bearer {
        put(",\"flags\":[\"bearer\"]", out);
    }
    put(",\"iat\":", out);
    put_number(active.issued, out);
    put(",\"instance_id\":", out);
    write_text(&setup.keys[active.client].id, out);
    put(",\"iss\":\"", out);
    put(&setup.base, out);
    put("/gnap\"", out);
    if !active.bearer {
        put(",\"key\":", out);
        write_text(&setup.keys[active.client].id, out);
    }
    out.push(b'}');
}

pub fn error(code: &str, out: &mut Vec<u8>) {
    put("{\"error\":{\"code\":\"", out);
    put(code, out);
    put("\"}}", out);
}
