//! The setup: this server's base, and the keys with what each may do.

use crate::base64;
use crate::json::{self, Value};
use crate::sha256::HmacKey;
use std::collections::HashMap;

pub enum Role {
    /// A client, with the rights that it gets at once.
    Client {
        auto: Vec<String>,
    },
    /// A resource server, with the rights that it serves.
    Server {
        serves: Vec<String>,
    },
    Front,
}

pub struct Key {
    pub id: String,
    pub role: Role,
    pub secret: HmacKey,
}

pub struct Setup {
    pub base: String,
    pub keys: Vec<Key>,
    places: HashMap<String, usize>,
}

fn texts(value: Option<&Value>) -> Option<Vec<String>> {
    value?.items()?.iter().map(|item| item.text().map(str::to_owned)).collect()
}

fn key_of(value: &Value) -> Option<Key> {
    let secret = base64::decode(value.member("secret")?.text()?.as_bytes())?;
    let role = match value.member("role")?.text()? {
        "client" => Role::Client { auto: texts(value.member("auto"))? },
        "server" => Role::Server { serves: texts(value.member("serves"))? },
        "front" => Role::Front,
        _ => return None,
    };
    (16..=64).contains(&secret.len()).then(|| Some(Key { id: value.member("id")?.text()?.to_owned(), role, secret: HmacKey::new(&secret) }))?
}

impl Setup {
    /// The setup of a text. Rights in it are references.
    pub fn read(text: &[u8]) -> Option<Setup> {
        let value = json::read(text)?;
        let keys: Vec<Key> = value.member("keys")?.items()?.iter().map(key_of).collect::<Option<_>>()?;
        let places: HashMap<String, usize> = keys.iter().enumerate().map(|(place, key)| (key.id.clone(), place)).collect();
        (places.len() == keys.len()).then(|| Some(Setup { base: value.member("base")?.text()?.to_owned(), keys, places }))?
    }

    /// That of the file with this path.
    pub fn open(path: &str) -> Result<Setup, String> {
        let text = std::fs::read(path).map_err(|error| format!("{path}: {error}"))?;
        Setup::read(&text).ok_or(format!("{path}: no setup"))
    }

    /// The place of the key with this id.
    pub fn place_of(&self, id: &str) -> Option<usize> {
        self.places.get(id).copied()
    }
}
