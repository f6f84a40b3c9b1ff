//! The state that tests/reference/README.md describes, with the library's keys and sessions.

use super::guarded::{Guarded, Lending};
use super::library::{self, RawKey, RawSession, NO_SESSION};
use crate::cases::Buffers;
use crate::model::{answer, Configuration};
use crate::script::{fill, Call};

pub struct State {
    pub key: RawKey,
    pub session: RawSession,
    pub memory: Guarded,
    pub wire: Guarded,
}

/// What a call returned.
pub struct Reply {
    /// The numbers that are printed.
    pub numbers: Vec<u64>,
    /// Whether the returned structs are right, as far as that can be told without the model. A refused call must return the
    /// key or session that was passed. Where there is no key to return, after an accepted open and a refused finish or
    /// abandon, it must be the key with 0 as its seal. After a refused open it must be a session that is refused. The
    /// spare number of check's result must be 0.
    pub structs_right: bool,
}

impl State {
    pub fn new(buffers: Buffers, lending: Lending) -> State {
        State {
            key: library::fresh(),
            session: NO_SESSION,
            memory: Guarded::new(buffers.memory, lending),
            wire: Guarded::new(buffers.wire, lending),
        }
    }

    /// Makes the call; returns `None` if nothing is printed.
    pub fn run(&mut self, call: &Call) -> Option<Reply> {
        match *call {
            Call::New => (self.key, self.session) = (library::fresh(), NO_SESSION),
            Call::Unseal => self.key = self.key.unsealed(),
            Call::Reseal => self.key.words[0] = library::fresh().words[0],
            Call::FillMemory { pattern } => fill(self.memory.all_mut(), pattern),
            Call::FillWire { pattern } => fill(self.wire.all_mut(), pattern),
            Call::SetMemory { at, count, byte } => self.memory.slice_mut(at, count).fill(byte),
            Call::SetWire { at, count, byte } => self.wire.slice_mut(at, count).fill(byte),
            _ => return Some(self.reply(call)),
        }
        None
    }

    /// Makes a call of the C API.
    fn reply(&mut self, call: &Call) -> Reply {
        match *call {
            Call::Configure { memory, ref configuration } => self.configure(memory, configuration),
            Call::Send { memory, wire, offset, data_length } => self.send(memory, wire, offset, data_length),
            Call::Receive { memory, wire, offset, data_length } => self.receive(memory, wire, offset, data_length),
            Call::Check => self.check(),
            Call::Open { memory, offset, data_length } => self.open(memory, offset, data_length),
            Call::Packet { memory, at, count } => self.packet(memory, at, count),
            Call::Finish => self.finish(),
            Call::Abandon => self.abandon(),
            _ => unreachable!("the other lines set the state and print nothing"),
        }
    }

    /// Keeps the key that a call returned.
    fn with_key(&mut self, key: RawKey, numbers: Vec<u64>) -> Reply {
        let given = std::mem::replace(&mut self.key, key);
        Reply { structs_right: numbers[0] == answer::DONE || given == key, numbers }
    }

    /// Keeps the session that a call returned.
    fn with_session(&mut self, session: RawSession, numbers: Vec<u64>) -> Reply {
        let given = std::mem::replace(&mut self.session, session);
        Reply { structs_right: numbers[0] == answer::DONE || given == session, numbers }
    }

    fn configure(&mut self, memory: u64, configuration: &Configuration) -> Reply {
        let done = library::configure(self.key, &self.memory.lend(0, memory), configuration);
        self.with_key(done.key, vec![done.answer])
    }

    fn send(&mut self, memory: u64, wire: u64, offset: u64, data_length: u64) -> Reply {
        let done =
            library::send(self.key, &self.memory.lend(0, memory), &mut self.wire.lend(0, wire), offset, data_length);
        self.with_key(done.key, vec![done.answer, done.taken, done.written])
    }

    fn receive(&mut self, memory: u64, wire: u64, offset: u64, data_length: u64) -> Reply {
        let done =
            library::receive(self.key, &mut self.memory.lend(0, memory), &self.wire.lend(0, wire), offset, data_length);
        self.with_key(done.key, vec![done.answer, done.taken, done.written])
    }

    fn check(&mut self) -> Reply {
        let done = library::check(self.key);
        let numbers = [&[done.answer], &done.error.numbers()[..]].concat();
        let reply = self.with_key(done.key, numbers);
        Reply { structs_right: reply.structs_right && done.spare == 0, ..reply }
    }

    /// The key becomes the returned one. An accepted open also returns a session, which is kept; otherwise the caller's own
    /// stays.
    fn open(&mut self, memory: u64, offset: u64, data_length: u64) -> Reply {
        let done = library::open(self.key, &self.memory.lend(0, memory), offset, data_length);
        let given = std::mem::replace(&mut self.key, done.key);
        let structs_right = if done.answer == answer::DONE {
            self.session = done.session;
            done.key == given.unsealed()
        } else {
            done.key == given && library::finish(done.session).answer == answer::NOT_A_SESSION
        };
        Reply { numbers: vec![done.answer], structs_right }
    }

    fn packet(&mut self, memory: u64, at: u64, count: u64) -> Reply {
        let done = library::packet(self.session, &mut self.memory.lend(0, memory), &self.wire.lend(at, count));
        self.with_session(done.session, vec![done.answer, done.taken, done.written])
    }

    /// An accepted finish returns the key and a struct that is no session; both are kept.
    fn finish(&mut self) -> Reply {
        let done = library::finish(self.session);
        let key_right = done.answer == answer::DONE || done.key == self.session.unsealed_key();
        if done.answer == answer::DONE {
            self.key = done.key;
        }
        let reply = self.with_session(done.session, vec![done.answer]);
        Reply { structs_right: reply.structs_right && key_right, ..reply }
    }

    /// A refused abandon returns no session: the caller's own stays.
    fn abandon(&mut self) -> Reply {
        let done = library::abandon(self.session);
        let structs_right = done.answer == answer::DONE || done.key == self.session.unsealed_key();
        if done.answer == answer::DONE {
            (self.key, self.session) = (done.key, NO_SESSION);
        }
        Reply { numbers: vec![done.answer], structs_right }
    }
}
