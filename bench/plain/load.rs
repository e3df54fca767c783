//! The calls of `gnap load`, at one state and without HTTP.
//!
//! Grant i is the share of thread i mod the number of threads: it is opened, its token asked about, the token rotated, and the old one and the new one asked
//! about; where i is even it is ended, and the new token asked about once more. The client's calls have nonces, that are remembered as they are over HTTP.

use crate::chacha20::ChaCha20;
use crate::setup::Setup;
use crate::state::{Ask, Drawn, GrantValues, Mark, Refusal, State, TokenValues};
use std::sync::Mutex;
use std::thread;

const MOMENT: u64 = 1_000_000;
const SETUP: &str = r#"{"base":"https://as.example","front":"https://front.example","keys":[
    {"id":"c1","role":"client","secret":"c2VjcmV0LWtleS1vZi1jMQ==","auto":["photos"],"ask":["mail"]},
    {"id":"r1","role":"server","secret":"c2VjcmV0LWtleS1vZi1yMQ==","serves":["photos","mail"]}]}"#;

/// How many replies said that a token is active, that there is none, and that a grant was ended.
#[derive(Default)]
struct Tally {
    active: u64,
    inactive: u64,
    cancelled: u64,
}

/// A thread's part.
struct Share<'a> {
    setup: &'a Setup,
    state: &'a Mutex<State>,
    client: usize,
    server: usize,
    random: ChaCha20,
    tally: Tally,
}

impl Share<'_> {
    fn ask_about(&mut self, value: &Drawn) -> Result<(), Refusal> {
        let active = self.state.lock().unwrap().introspect(self.setup, MOMENT, self.server, value, None, None)?;
        *if active.is_some() { &mut self.tally.active } else { &mut self.tally.inactive } += 1;
        Ok(())
    }

    fn mark<'n>(&self, nonce: &'n str) -> Mark<'n> {
        Mark { key: self.client, nonce, created: MOMENT }
    }

    fn put_through(&mut self, grant: u64) -> Result<(), Refusal> {
        let asks = [Ask { label: None, rights: vec!["photos".to_owned()].into(), bearer: false }];
        let values = GrantValues::draw(1, &mut self.random);
        let opened = self.state.lock().unwrap().begin(self.setup, MOMENT, &self.mark(&format!("{grant}-1")), &asks, false, &values)?;
        let first = opened[0].values;
        self.ask_about(&first.value)?;
        let drawn = TokenValues::draw(&mut self.random);
        let rotated = self.state.lock().unwrap().rotate(MOMENT, &self.mark(&format!("{grant}-3")), &first.manage, drawn)?.values;
        self.ask_about(&first.value)?;
        self.ask_about(&rotated.value)?;
        if grant % 2 == 0 {
            self.state.lock().unwrap().cancel(MOMENT, &self.mark(&format!("{grant}-6")), &values.door)?;
            self.tally.cancelled += 1;
            self.ask_about(&rotated.value)?;
        }
        Ok(())
    }
}

// The tally of one thread's part.
fn put_part(setup: &Setup, state: &Mutex<State>, grants: u64, start: u64, workers: u64, worker: u64) -> Result<Tally, Refusal> {
    let mut seed = [0; 32];
    seed[..8].copy_from_slice(&start.to_le_bytes());
    let (client, server) = (setup.place_of("c1").unwrap(), setup.place_of("r1").unwrap());
    let mut share = Share { setup, state, client, server, random: ChaCha20::new(&seed, worker), tally: Tally::default() };
    for grant in (worker..grants).step_by(workers as usize) {
        share.put_through(grant)?;
    }
    Ok(share.tally)
}

fn put_load(grants: u64, start: u64, workers: u64) -> Result<Tally, Refusal> {
    let setup = Setup::read(SETUP.as_bytes()).expect("it is a setup");
    let state = Mutex::new(State::new(setup.keys.len()));
    let (setup, state) = (&setup, &state);
    thread::scope(|scope| {
        let threads: Vec<_> = (0..workers).map(|worker| scope.spawn(move || put_part(setup, state, grants, start, workers, worker))).collect();
        threads.into_iter().map(|thread| thread.join().expect("no thread panics")).try_fold(Tally::default(), |all, part| {
            let part = part?;
            Ok(Tally { active: all.active + part.active, inactive: all.inactive + part.inactive, cancelled: all.cancelled + part.cancelled })
        })
    })
}

/// Puts so many grants through by so many threads, and prints what `gnap load` prints. `start` begins the key of ChaCha20, of which each thread has a stream.
pub fn load(grants: u64, start: u64, workers: u64) -> Result<(), String> {
    let tally = put_load(grants, start, workers).map_err(|refusal| format!("refused: {refusal:?}"))?;
    println!("grants {grants} active {} inactive {} cancelled {}", tally.active, tally.inactive, tally.cancelled);
    Ok(())
}
