//! Signatures of requests (RFC 9421 with `hmac-sha256`, as RFC 9635, section 7.3.1, asks for them) and digests of bodies (RFC 9530).

use crate::fields::{self, Bare, InnerList, Item, Member, Params};
use crate::http::Request;
use crate::setup::Setup;
use crate::sha256::{same, sha256};
use std::borrow::Cow;

/// How far the moment of a signature may be from now, in seconds.
pub const MOST_SECONDS: u64 = 300;
const TAG: &str = "gnap";

/// Who signed, and what the signature tells of itself.
pub struct Signer {
    /// The place of the key in the setup.
    pub key: usize,
    pub created: i64,
    pub nonce: Option<String>,
}

/// The signer of a request, where its signature and its digest are right.
pub fn verify(request: &Request, setup: &Setup, now: u64) -> Option<Signer> {
    let (input, signature) = (request.field("signature-input")?, request.field("signature")?);
    let (inputs, signatures) = (fields::dictionary(&input)?, fields::dictionary(&signature)?);
    let (label, list) = tagged(&inputs)?;
    let Member::Item(Item { value: Bare::Bytes(code), .. }) = fields::named(&signatures, label)? else {
        return None;
    };
    let created = match fields::named(&list.params, "created")? {
        Bare::Integer(created) => *created,
        _ => return None,
    };
    if (created - now as i64).unsigned_abs() > MOST_SECONDS || !is_lasting(&list.params, now) || !is_of_algorithm(&list.params) {
        return None;
    }
    let key = setup.place_of(text_of(&list.params, "keyid")?)?;
    let authorization = request.field("authorization");
    if !is_covered(list, !request.body.is_empty(), authorization.is_some()) {
        return None;
    }
    let base = base_of(request, list, &setup.base)?;
    if !same(&setup.keys[key].secret.sign(&base), code) || !is_digest_right(request) {
        return None;
    }
    Some(Signer { key, created, nonce: text_of(&list.params, "nonce").map(str::to_owned) })
}

// The one list with the tag, and its label.
fn tagged<'m, 'a>(inputs: &'m [(&'a str, Member<'a>)]) -> Option<(&'a str, &'m InnerList<'a>)> {
    let mut found = inputs.iter().filter_map(|(label, member)| match member {
        Member::Inner(list) if text_of(&list.params, "tag") == Some(TAG) => Some((*label, list)),
        _ => None,
    });
    let first = found.next()?;
    found.next().is_none().then_some(first)
}

fn text_of<'m>(params: &'m Params, name: &str) -> Option<&'m str> {
    match fields::named(params, name) {
        Some(Bare::Text(text)) => Some(text),
        _ => None,
    }
}

fn is_lasting(params: &Params, now: u64) -> bool {
    match fields::named(params, "expires") {
        None => true,
        Some(Bare::Integer(expires)) => now as i64 <= *expires,
        Some(_) => false,
    }
}

fn is_of_algorithm(params: &Params) -> bool {
    fields::named(params, "alg").is_none() || text_of(params, "alg") == Some("hmac-sha256")
}

fn covers(list: &InnerList, name: &str) -> bool {
    list.items.iter().any(|item| matches!(&item.value, Bare::Text(text) if text == name))
}

fn is_covered(list: &InnerList, has_body: bool, has_authorization: bool) -> bool {
    covers(list, "@method")
        && covers(list, "@target-uri")
        && (!has_body || covers(list, "content-digest"))
        && (!has_authorization || covers(list, "authorization"))
}

// The signature base, where each component is known and none comes twice.
fn base_of(request: &Request, list: &InnerList, base: &str) -> Option<Vec<u8>> {
    let mut text = Vec::with_capacity(512);
    for (place, item) in list.items.iter().enumerate() {
        let Bare::Text(name) = &item.value else {
            return None;
        };
        if !item.params.is_empty() || list.items[..place].iter().any(|earlier| earlier.value == item.value) {
            return None;
        }
        fields::write_string(name, &mut text);
        text.extend_from_slice(b": ");
        write_component(request, name, base, &mut text)?;
        text.push(b'\n');
    }
    text.extend_from_slice(b"\"@signature-params\": ");
    fields::write_inner(list, &mut text);
    Some(text)
}

fn write_component(request: &Request, name: &str, base: &str, text: &mut Vec<u8>) -> Option<()> {
    let target = request.target;
    let query = target.find('?').unwrap_or(target.len());
    match name {
        "@method" => text.extend_from_slice(request.method.as_bytes()),
        "@target-uri" => {
            text.extend_from_slice(base.as_bytes());
            text.extend_from_slice(target.as_bytes());
        }
        "@authority" => text.extend_from_slice(base.split_once("://")?.1.as_bytes()),
        "@scheme" => text.extend_from_slice(base.split_once(':')?.0.as_bytes()),
        "@path" => text.extend_from_slice(if query == 0 { b"/" } else { target[..query].as_bytes() }),
        "@query" => text.extend_from_slice(if query == target.len() { b"?" } else { target[query..].as_bytes() }),
        _ if name.starts_with('@') || name.bytes().any(|byte| byte.is_ascii_uppercase()) => return None,
        _ => text.extend_from_slice(&request.field(name)?),
    }
    Some(())
}

// Whether the `content-digest` that is there fits the body, and it is there where a body is. SHA-256 alone is known.
fn is_digest_right(request: &Request) -> bool {
    let Some(field) = request.field("content-digest") else {
        return request.body.is_empty();
    };
    is_digest(&field, request.body) == Some(true)
}

fn is_digest(field: &Cow<[u8]>, body: &[u8]) -> Option<bool> {
    let digests = fields::dictionary(field)?;
    match fields::named(&digests, "sha-256")? {
        Member::Item(Item { value: Bare::Bytes(digest), .. }) => Some(*digest == sha256(body)),
        _ => None,
    }
}
