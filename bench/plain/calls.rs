//! The bodies of grant requests and introspections, as they are read. Rights are references.

use crate::json::{self, Value};
use crate::state::Ask;

const MOST_ASKS: usize = 8;
const MOST_RIGHTS: usize = 16;
const MOST_RIGHT: usize = 256;
const MOST_LABEL: usize = 64;
const MOST_TEXT: usize = 4_096;

/// A grant request.
pub struct GrantRequest {
    pub asks: Vec<Ask>,
    pub in_array: bool,
    pub wants_subject: bool,
    pub client: String,
    pub by_object: bool,
    pub has_double_flag: bool,
}

/// A question about a token.
pub struct Question {
    pub value: String,
    pub bearer: Option<bool>,
    pub server: String,
    pub wanted: Option<Vec<String>>,
}

fn body(text: &[u8]) -> Option<Value<'_>> {
    json::read(text).filter(|value| matches!(value, Value::Object(_)) && value.has_whole_numbers())
}

fn rights(value: Option<&Value>) -> Option<Vec<String>> {
    let items = value?.items()?;
    let rights: Vec<String> =
        items.iter().map(|item| item.text().filter(|text| (1..=MOST_RIGHT).contains(&text.len())).map(str::to_owned)).collect::<Option<_>>()?;
    (1..=MOST_RIGHTS).contains(&rights.len()).then_some(rights)
}

// Which flag is asked for, and whether one stands twice.
fn flags(value: Option<&Value>) -> Option<(bool, bool)> {
    let Some(value) = value else {
        return Some((false, false));
    };
    let flags: Vec<&str> = value.items()?.iter().map(Value::text).collect::<Option<_>>()?;
    let is_double = flags.iter().enumerate().any(|(place, flag)| flags[..place].contains(flag));
    Some((flags.contains(&"bearer"), is_double))
}

// A token that is asked for, and whether a flag of it stands twice.
fn ask(value: &Value, in_array: bool) -> Option<(Ask, bool)> {
    let rights = rights(value.member("access"))?;
    let label = match value.member("label") {
        None if in_array => return None,
        None => None,
        Some(label) => Some(label.text().filter(|text| (1..=MOST_LABEL).contains(&text.len()))?.into()),
    };
    let (bearer, is_double) = flags(value.member("flags"))?;
    Some((Ask { label, rights: rights.into(), bearer }, is_double))
}

fn asks(value: Option<&Value>) -> Option<(Vec<(Ask, bool)>, bool)> {
    match value {
        None => Some((Vec::new(), false)),
        Some(Value::Array(items)) => {
            let asks: Vec<(Ask, bool)> = items.iter().map(|item| ask(item, true)).collect::<Option<_>>()?;
            let is_double = asks.iter().enumerate().any(|(place, (one, _))| asks[..place].iter().any(|(other, _)| other.label == one.label));
            ((1..=MOST_ASKS).contains(&asks.len()) && !is_double).then_some((asks, true))
        }
        Some(value) => Some((vec![ask(value, false)?], false)),
    }
}

// Whether an identifier of the user is asked for.
fn subject(value: Option<&Value>) -> Option<bool> {
    let Some(value) = value else {
        return Some(false);
    };
    let formats: Vec<&str> = value.member("sub_id_formats")?.items()?.iter().map(Value::text).collect::<Option<_>>()?;
    Some(formats.contains(&"opaque"))
}

// The key that a member names, and whether by an object.
fn named_key(value: Option<&Value>) -> Option<(String, bool)> {
    let value = value?;
    match value {
        Value::Text(id) => Some((id.to_string(), false)),
        _ => Some((value.member("key")?.text()?.to_owned(), true)),
    }
}

fn is_short(asks: &[Ask]) -> bool {
    asks.iter().flat_map(|ask| ask.rights.iter()).map(|right| right.len() + 3).sum::<usize>() < MOST_TEXT
}

/// The grant request of a body, where that is one.
pub fn grant_request(text: &[u8]) -> Option<GrantRequest> {
    let value = body(text)?;
    let (asks, in_array) = asks(value.member("access_token"))?;
    let wants_subject = subject(value.member("subject"))?;
    let (client, by_object) = named_key(value.member("client"))?;
    let has_double_flag = asks.iter().any(|(_, is_double)| *is_double);
    let asks: Vec<Ask> = asks.into_iter().map(|(ask, _)| ask).collect();
    if (asks.is_empty() && !wants_subject) || !is_short(&asks) {
        return None;
    }
    Some(GrantRequest { asks, in_array, wants_subject, client, by_object, has_double_flag })
}

// Whether a bearer token is asked about, where either kind is.
fn binding(value: Option<&Value>) -> Option<Option<bool>> {
    let Some(proof) = value else {
        return Some(None);
    };
    match proof.text()? {
        "httpsig" => Some(Some(false)),
        "bearer" => Some(Some(true)),
        _ => None,
    }
}

/// The question of a body, where that is one.
pub fn question(text: &[u8]) -> Option<Question> {
    let body = body(text)?;
    let value = body.member("access_token")?.text()?.to_owned();
    let bearer = binding(body.member("proof"))?;
    let (server, _) = named_key(body.member("resource_server"))?;
    let wanted = match body.member("access") {
        None => None,
        access => Some(rights(access)?),
    };
    Some(Question { value, bearer, server, wanted })
}
