//! The service over HTTP: routes, and workers that serve connections.

use crate::chacha20::ChaCha20;
use crate::http::{write_reply, Connection, Fault, Request, Status};
use crate::setup::{Role, Setup};
use crate::state::{GrantValues, Mark, Refusal, State};
use crate::{calls, replies, signatures};
use std::net::TcpListener;
use std::sync::{Arc, Mutex};
use std::thread;
use std::time::{Duration, SystemTime};

const ON_A_CONNECTION: usize = 1_000;
const MOST_NONCE: usize = 64;
const CHALLENGE: &str = "WWW-Authenticate: GNAP\r\n";

const OK: Status = "200 OK";
const BAD_REQUEST: Status = "400 Bad Request";
const UNAUTHORIZED: Status = "401 Unauthorized";
const NOT_FOUND: Status = "404 Not Found";
const NOT_ALLOWED: Status = "405 Method Not Allowed";
const TOO_LARGE: Status = "413 Payload Too Large";
const NOT_IMPLEMENTED: Status = "501 Not Implemented";

/// What all workers share.
struct Server {
    setup: Setup,
    state: Mutex<State>,
}

/// The status of a reply whose body was put together, or the code of an error.
type Answer = Result<Status, (Status, &'static str)>;

const INVALID_REQUEST: (Status, &str) = (BAD_REQUEST, "invalid_request");
const INVALID_CLIENT: (Status, &str) = (UNAUTHORIZED, "invalid_client");
const INVALID_SERVER: (Status, &str) = (UNAUTHORIZED, "invalid_resource_server");

fn refused(refusal: Refusal) -> (Status, &'static str) {
    match refusal {
        Refusal::Client => INVALID_CLIENT,
        Refusal::Denied => (BAD_REQUEST, "request_denied"),
        Refusal::Continuation => (UNAUTHORIZED, "invalid_continuation"),
        Refusal::Rotation => (BAD_REQUEST, "invalid_rotation"),
        Refusal::Access => (BAD_REQUEST, "invalid_access"),
    }
}

impl Server {
    fn begin(&self, request: &Request, now: u64, random: &mut ChaCha20, body: &mut Vec<u8>) -> Answer {
        let signer = signatures::verify(request, &self.setup, now).ok_or(INVALID_CLIENT)?;
        let nonce = signer.nonce.as_deref().filter(|nonce| (1..=MOST_NONCE).contains(&nonce.len())).ok_or(INVALID_CLIENT)?;
        let created = u64::try_from(signer.created).map_err(|_| INVALID_CLIENT)?;
        let key = &self.setup.keys[signer.key];
        if !matches!(key.role, Role::Client { .. }) {
            return Err(INVALID_CLIENT);
        }
        let asked = calls::grant_request(request.body).ok_or(INVALID_REQUEST)?;
        if asked.client != key.id {
            return Err(INVALID_CLIENT);
        }
        if asked.has_double_flag {
            return Err((BAD_REQUEST, "invalid_flag"));
        }
        let values = GrantValues::draw(asked.asks.len(), random);
        let mark = Mark { key: signer.key, nonce, created };
        let tokens = self.state.lock().unwrap().begin(&self.setup, now, &mark, &asked.asks, asked.wants_subject, &values).map_err(refused)?;
        replies::granted(&self.setup, &tokens, asked.in_array, &values.door, asked.by_object.then_some(key.id.as_str()), body);
        Ok(OK)
    }

    fn introspect(&self, request: &Request, now: u64, body: &mut Vec<u8>) -> Answer {
        let signer = signatures::verify(request, &self.setup, now).ok_or(INVALID_SERVER)?;
        let key = &self.setup.keys[signer.key];
        let Role::Server { serves } = &key.role else {
            return Err(INVALID_SERVER);
        };
        let asked = calls::question(request.body).ok_or(INVALID_REQUEST)?;
        if asked.server != key.id {
            return Err(INVALID_SERVER);
        }
        let active = self
            .state
            .lock()
            .unwrap()
            .introspect(&self.setup, now, signer.key, asked.value.as_bytes(), asked.bearer, asked.wanted.as_deref())
            .map_err(refused)?;
        replies::introspected(&self.setup, serves, &active, body);
        Ok(OK)
    }

    // Puts the reply to a request together.
    fn answer(&self, request: &Request, last: bool, random: &mut ChaCha20, body: &mut Vec<u8>, reply: &mut Vec<u8>) {
        let path = request.target.split('?').next().unwrap_or_default();
        let answer = match (path, request.method) {
            ("/gnap", "POST") => self.begin(request, seconds(), random, body),
            ("/introspect", "POST") => self.introspect(request, seconds(), body),
            ("/gnap" | "/introspect", _) => return write_reply(NOT_ALLOWED, None, "Allow: POST\r\n", last, reply),
            _ => return write_reply(NOT_FOUND, None, "", last, reply),
        };
        let status = answer.unwrap_or_else(|(status, code)| {
            replies::error(code, body);
            status
        });
        write_reply(status, Some(body), if status == UNAUTHORIZED { CHALLENGE } else { "" }, last, reply);
    }

    fn serve(&self, mut connection: Connection, random: &mut ChaCha20) {
        let (mut body, mut reply) = (Vec::with_capacity(1_024), Vec::with_capacity(2_048));
        for served in 1..=ON_A_CONNECTION {
            body.clear();
            reply.clear();
            let last = match connection.next_request() {
                Ok(None) | Err(Fault::Gone) => return,
                Ok(Some(request)) => {
                    let last = request.last || served == ON_A_CONNECTION;
                    self.answer(&request, last, random, &mut body, &mut reply);
                    last
                }
                Err(fault) => {
                    write_reply(status_of(fault), None, "", true, &mut reply);
                    true
                }
            };
            if connection.answer(&reply).is_err() || last {
                return;
            }
        }
    }

    fn work(&self, listener: &TcpListener, quota: u32) {
        let mut random = ChaCha20::from_system().expect("the system gives random bytes");
        for _ in 0..quota {
            let stream = loop {
                match listener.accept() {
                    Ok((stream, _)) => break stream,
                    Err(_) => thread::sleep(Duration::from_millis(10)),
                }
            };
            if let Ok(connection) = Connection::new(stream) {
                self.serve(connection, &mut random);
            }
        }
    }
}

fn status_of(fault: Fault) -> Status {
    match fault {
        Fault::TooLarge => TOO_LARGE,
        Fault::Coded => NOT_IMPLEMENTED,
        Fault::BadHead | Fault::Gone => BAD_REQUEST,
    }
}

fn seconds() -> u64 {
    SystemTime::now().duration_since(SystemTime::UNIX_EPOCH).map_or(0, |since| since.as_secs())
}

/// Serves the setup of a file at an address, by so many workers, each for so many connections.
pub fn serve(config: &str, listen: &str, workers: u32, quota: u32) -> Result<(), String> {
    let setup = Setup::open(config)?;
    let listener = Arc::new(TcpListener::bind(listen).map_err(|error| format!("{listen}: {error}"))?);
    let server = Arc::new(Server { state: Mutex::new(State::new(setup.keys.len())), setup });
    let threads: Vec<_> = (0..workers)
        .map(|_| {
            let (server, listener) = (server.clone(), listener.clone());
            thread::spawn(move || server.work(&listener, quota))
        })
        .collect();
    for thread in threads {
        thread.join().map_err(|_| "a worker failed")?;
    }
    Ok(())
}
