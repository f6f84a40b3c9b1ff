//! Cases: lists of calls in the notation of tests/reference/README.md. A case does not say what its calls must return:
//! the model does.

pub mod random;
pub mod settled;

use crate::model::{Configuration, Domain, Entry, Layout, Rule, Signature};
use crate::script::{Call, BUFFER_SIZE};

/// The sizes of a case's two buffers, in bytes.
#[derive(Clone, Copy, PartialEq, Eq)]
pub struct Buffers {
    pub memory: usize,
    pub wire: usize,
}

impl Buffers {
    /// The sizes that README.md names.
    pub const REPLAY: Buffers = Buffers { memory: BUFFER_SIZE, wire: BUFFER_SIZE };
}

/// A list of calls, which starts from the state that README.md describes.
#[derive(Clone)]
pub struct Case {
    pub name: String,
    /// In a few cases the buffers are larger than README.md's, and these can only be run live.
    pub buffers: Buffers,
    pub calls: Vec<Call>,
}

impl Case {
    /// Makes a case that begins with a fresh key and patterns in both buffers, so that it can also follow another case.
    pub fn named(name: impl Into<String>) -> Case {
        let calls = vec![Call::New, Call::FillMemory { pattern: 1 }, Call::FillWire { pattern: 2 }];
        Case { name: name.into(), buffers: Buffers::REPLAY, calls }
    }

    pub fn then(mut self, call: Call) -> Case {
        self.calls.push(call);
        self
    }

    pub fn then_all(mut self, calls: impl IntoIterator<Item = Call>) -> Case {
        self.calls.extend(calls);
        self
    }

    pub fn text(&self) -> String {
        self.calls.iter().map(|call| call.text() + "\n").collect()
    }
}

#[derive(Clone, Copy, Debug, PartialEq, Eq)]
pub enum Direction {
    Send,
    Receive,
}

/// The transfer that a case is about. Its methods make the calls that belong to it.
#[derive(Clone)]
pub struct Plan {
    pub memory: u64,
    pub configuration: Configuration,
    pub offset: u64,
    pub data_length: u64,
}

impl Plan {
    pub fn signature(&self) -> &Signature {
        &self.configuration.signature
    }

    pub fn block_size(&self) -> Option<usize> {
        Rule::send(self.signature()).block_size()
    }

    pub fn wire_stream(&self) -> u64 {
        self.signature().wire.stream_length(self.data_length) as u64
    }

    /// The length of the stream that a transfer in this direction reads.
    pub fn input_stream(&self, direction: Direction) -> u64 {
        self.input_domain(direction).stream_length(self.data_length) as u64
    }

    pub fn input_domain(&self, direction: Direction) -> &Domain {
        match direction {
            Direction::Send => &self.signature().memory,
            Direction::Receive => &self.signature().wire,
        }
    }

    pub fn configure(&self) -> Call {
        Call::Configure { memory: self.memory, configuration: Box::new(self.configuration) }
    }

    pub fn send(&self) -> Call {
        Call::Send { memory: self.memory, wire: self.wire_stream(), offset: self.offset, data_length: self.data_length }
    }

    pub fn receive(&self) -> Call {
        Call::Receive {
            memory: self.memory,
            wire: self.wire_stream(),
            offset: self.offset,
            data_length: self.data_length,
        }
    }

    pub fn transfer(&self, direction: Direction) -> Call {
        match direction {
            Direction::Send => self.send(),
            Direction::Receive => self.receive(),
        }
    }

    pub fn open(&self) -> Call {
        Call::Open { memory: self.memory, offset: self.offset, data_length: self.data_length }
    }

    /// Returns a call of each kind that takes a key.
    pub fn calls_on_key(&self) -> [Call; 5] {
        [self.configure(), self.send(), self.receive(), Call::Check, self.open()]
    }

    pub fn packet(&self, at: u64, count: u64) -> Call {
        Call::Packet { memory: self.memory, at, count }
    }

    /// Returns calls that put a valid input stream in its place. A signed one is made by a transfer in the other
    /// direction, whose other side is unsigned. The buffer that this transfer read is then filled anew, so that the
    /// transfer under test changes it.
    pub fn prepare(&self, direction: Direction) -> Vec<Call> {
        if !self.input_domain(direction).signed() {
            return Vec::new();
        }
        let mut making = self.clone();
        making.configuration.signature.attribute_flags = 0;
        match direction {
            Direction::Send => {
                making.configuration.signature.wire = Domain::default();
                vec![making.configure(), making.receive(), Call::FillWire { pattern: 4 }]
            }
            Direction::Receive => {
                making.configuration.signature.memory = Domain::default();
                vec![making.configure(), making.send(), Call::FillMemory { pattern: 3 }]
            }
        }
    }

    /// Returns a call that sets one byte of the input stream.
    pub fn set_input(&self, direction: Direction, at: u64, byte: u8) -> Call {
        match direction {
            Direction::Send => {
                let place = self.configuration.layout.places().nth((self.offset + at) as usize);
                Call::SetMemory { at: place.expect("the stream lies in the layout") as u64, count: 1, byte }
            }
            Direction::Receive => Call::SetWire { at, count: 1, byte },
        }
    }
}

pub fn list_layout(entries: &[Entry]) -> Layout {
    repeated_layout(entries, 1)
}

pub fn repeated_layout(entries: &[Entry], repeat: u32) -> Layout {
    let mut layout = Layout { used: entries.len() as u32, repeat, ..Layout::default() };
    layout.entries[..entries.len()].copy_from_slice(entries);
    layout
}

pub fn entry(start: u64, count: u32, skip: u32) -> Entry {
    Entry { start, count, skip }
}
