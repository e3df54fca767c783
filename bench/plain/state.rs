//! The grants and tokens that live, by the values that name them, and the nonces that are remembered.

use crate::chacha20::ChaCha20;
use crate::setup::{Role, Setup};
use crate::signatures::MOST_SECONDS;
use std::collections::{BTreeMap, BTreeSet, HashMap};
use std::sync::Arc;

const GRANT_SECONDS: u64 = 2_592_000;
const TOKEN_SECONDS: u64 = 3_600;
const MOST_GRANTS: usize = 65_536;
const MOST_TOKENS: usize = 65_536;

/// A drawn value.
pub type Drawn = [u8; 32];
pub type Rights = Arc<[String]>;

/// What is asked for in a grant request as one token.
pub struct Ask {
    pub label: Option<Arc<str>>,
    pub rights: Rights,
    pub bearer: bool,
}

/// The values of a token that is to be issued.
#[derive(Clone, Copy)]
pub struct TokenValues {
    pub value: Drawn,
    pub manage: Drawn,
}

impl TokenValues {
    pub fn draw(random: &mut ChaCha20) -> TokenValues {
        TokenValues { value: random.draw(), manage: random.draw() }
    }
}

/// The values of a grant that is to be opened: those of its tokens, and the continuation value.
pub struct GrantValues {
    pub tokens: Vec<TokenValues>,
    pub door: Drawn,
}

impl GrantValues {
    pub fn draw(tokens: usize, random: &mut ChaCha20) -> GrantValues {
        GrantValues { tokens: (0..tokens).map(|_| TokenValues::draw(random)).collect(), door: random.draw() }
    }
}

/// A token as it is handed out.
pub struct Issued {
    pub values: TokenValues,
    pub label: Option<Arc<str>>,
    pub rights: Rights,
    pub bearer: bool,
    pub seconds: u64,
}

/// What a resource server is told of a live token.
pub struct Active {
    pub rights: Rights,
    pub client: usize,
    pub bearer: bool,
    pub issued: u64,
    pub end: u64,
}

/// The mark of a signed call: its key, its nonce and its moment.
pub struct Mark<'a> {
    pub key: usize,
    pub nonce: &'a str,
    pub created: u64,
}

#[derive(Clone, Copy, PartialEq, Debug)]
pub enum Refusal {
    Client,
    Denied,
    Continuation,
    Rotation,
    Access,
}

struct Token {
    grant: u64,
    client: usize,
    label: Option<Arc<str>>,
    rights: Rights,
    bearer: bool,
    manage: Drawn,
    issued: u64,
    end: u64,
}

struct Grant {
    client: usize,
    door: Drawn,
    end: u64,
    tokens: Vec<Drawn>,
}

pub struct State {
    now: u64,
    opened: u64,
    grants: HashMap<u64, Grant>,
    grant_ends: BTreeSet<(u64, u64)>,
    doors: HashMap<Drawn, u64>,
    tokens: HashMap<Drawn, Token>,
    token_ends: BTreeSet<(u64, Drawn)>,
    managed: HashMap<Drawn, Drawn>,
    /// Of each key its nonces.
    nonces: Vec<HashMap<Arc<str>, u64>>,
    nonce_ends: BTreeMap<u64, Vec<(usize, Arc<str>)>>,
}

impl State {
    /// Without grants, for so many keys.
    pub fn new(keys: usize) -> State {
        State {
            now: 0,
            opened: 0,
            grants: HashMap::new(),
            grant_ends: BTreeSet::new(),
            doors: HashMap::new(),
            tokens: HashMap::new(),
            token_ends: BTreeSet::new(),
            managed: HashMap::new(),
            nonces: (0..keys).map(|_| HashMap::new()).collect(),
            nonce_ends: BTreeMap::new(),
        }
    }

    // Time goes on, never back, and what has ended goes.
    fn advance(&mut self, now: u64) {
        if now <= self.now {
            return;
        }
        self.now = now;
        while let Some(&(_, grant)) = self.grant_ends.first().filter(|(end, _)| *end <= now) {
            self.end_grant(grant);
        }
        while let Some(&(_, value)) = self.token_ends.first().filter(|(end, _)| *end <= now) {
            self.end_token(&value);
        }
        while let Some(entry) = self.nonce_ends.first_entry().filter(|entry| *entry.key() < now) {
            for (key, nonce) in entry.remove() {
                self.nonces[key].remove(&nonce);
            }
        }
    }

    fn passes(&self, mark: &Mark) -> Result<(), Refusal> {
        if self.now > mark.created + MOST_SECONDS || self.nonces[mark.key].contains_key(mark.nonce) {
            return Err(Refusal::Client);
        }
        Ok(())
    }

    // Refuses a mark that is too old or was used, and remembers one that wasn't.
    fn use_mark(&mut self, mark: &Mark) -> Result<(), Refusal> {
        self.passes(mark)?;
        let (nonce, end): (Arc<str>, u64) = (mark.nonce.into(), mark.created + MOST_SECONDS);
        self.nonces[mark.key].insert(nonce.clone(), end);
        self.nonce_ends.entry(end).or_default().push((mark.key, nonce));
        Ok(())
    }

    fn end_token(&mut self, value: &Drawn) {
        if let Some(token) = self.tokens.remove(value) {
            self.token_ends.remove(&(token.end, *value));
            self.managed.remove(&token.manage);
            if let Some(grant) = self.grants.get_mut(&token.grant) {
                grant.tokens.retain(|known| known != value);
            }
        }
    }

    fn end_grant(&mut self, id: u64) {
        if let Some(grant) = self.grants.remove(&id) {
            self.grant_ends.remove(&(grant.end, id));
            self.doors.remove(&grant.door);
            for value in grant.tokens {
                self.end_token(&value);
            }
        }
    }

    fn issue(&mut self, grant: u64, client: usize, grant_end: u64, ask: &Ask, values: TokenValues) -> Issued {
        let end = (self.now + TOKEN_SECONDS).min(grant_end);
        let token =
            Token { grant, client, label: ask.label.clone(), rights: ask.rights.clone(), bearer: ask.bearer, manage: values.manage, issued: self.now, end };
        self.token_ends.insert((end, values.value));
        self.managed.insert(values.manage, values.value);
        self.tokens.insert(values.value, token);
        Issued { values, label: ask.label.clone(), rights: ask.rights.clone(), bearer: ask.bearer, seconds: end - self.now }
    }

    /// Opens a grant that is approved at once, where the client gets all rights that it asks for. Where an identifier of the user is asked for nothing is
    /// granted at once.
    pub fn begin(&mut self, setup: &Setup, now: u64, mark: &Mark, asks: &[Ask], subject: bool, values: &GrantValues) -> Result<Vec<Issued>, Refusal> {
        self.advance(now);
        self.use_mark(mark)?;
        let Role::Client { auto } = &setup.keys[mark.key].role else {
            return Err(Refusal::Client);
        };
        if subject || !asks.iter().all(|ask| ask.rights.iter().all(|right| auto.contains(right))) {
            return Err(Refusal::Denied);
        }
        if self.grants.len() >= MOST_GRANTS || self.tokens.len() + asks.len() > MOST_TOKENS {
            return Err(Refusal::Denied);
        }
        self.opened += 1;
        let (id, end) = (self.opened, self.now + GRANT_SECONDS);
        let tokens = asks.iter().zip(&values.tokens).map(|(ask, drawn)| self.issue(id, mark.key, end, ask, *drawn)).collect();
        self.grant_ends.insert((end, id));
        self.doors.insert(values.door, id);
        self.grants.insert(id, Grant { client: mark.key, door: values.door, end, tokens: values.tokens.iter().map(|drawn| drawn.value).collect() });
        Ok(tokens)
    }

    /// What a resource server is told of a value: nothing where it names no live token that suits it.
    pub fn introspect(
        &mut self,
        setup: &Setup,
        now: u64,
        server: usize,
        value: &[u8],
        bearer: Option<bool>,
        wanted: Option<&[String]>,
    ) -> Result<Option<Active>, Refusal> {
        self.advance(now);
        let Role::Server { serves } = &setup.keys[server].role else {
            return Err(Refusal::Client);
        };
        if wanted.is_some_and(|wanted| !wanted.iter().all(|right| serves.contains(right))) {
            return Err(Refusal::Access);
        }
        let token = match self.tokens.get(value) {
            Some(token)
                if bearer.is_none_or(|bearer| bearer == token.bearer)
                    && wanted.is_none_or(|wanted| wanted.iter().all(|right| token.rights.contains(right))) =>
            {
                token
            }
            _ => return Ok(None),
        };
        if !token.rights.iter().any(|right| serves.contains(right)) {
            return Ok(None);
        }
        Ok(Some(Active { rights: token.rights.clone(), client: token.client, bearer: token.bearer, issued: token.issued, end: token.end }))
    }

    /// Exchanges the token that a management value names.
    pub fn rotate(&mut self, now: u64, mark: &Mark, manage: &[u8], values: TokenValues) -> Result<Issued, Refusal> {
        self.advance(now);
        self.use_mark(mark)?;
        let value = *self.managed.get(manage).ok_or(Refusal::Rotation)?;
        if self.tokens[&value].client != mark.key {
            return Err(Refusal::Client);
        }
        let old = self.tokens.remove(&value).ok_or(Refusal::Rotation)?;
        self.token_ends.remove(&(old.end, value));
        self.managed.remove(&old.manage);
        let grant = self.grants.get_mut(&old.grant).ok_or(Refusal::Rotation)?;
        for known in grant.tokens.iter_mut().filter(|known| **known == value) {
            *known = values.value;
        }
        let end = grant.end;
        let ask = Ask { label: old.label, rights: old.rights, bearer: old.bearer };
        Ok(self.issue(old.grant, old.client, end, &ask, values))
    }

    /// Ends the grant that a continuation value names.
    pub fn cancel(&mut self, now: u64, mark: &Mark, door: &[u8]) -> Result<(), Refusal> {
        self.advance(now);
        self.passes(mark)?;
        let id = *self.doors.get(door).ok_or(Refusal::Continuation)?;
        if self.grants[&id].client != mark.key {
            return Err(Refusal::Client);
        }
        self.end_grant(id);
        Ok(())
    }
}
