//! The calls of a case as data, their notation (see tests/reference/README.md), and the state on which the model runs
//! them.

use crate::model::{answer, Configuration, Domain, Entry, Key, Layout, Session, Signature, Totals, ENTRY_LIMIT};

/// The size of each of the two buffers that README.md names.
pub const BUFFER_SIZE: usize = 16_384;

#[derive(Clone, Debug, PartialEq, Eq)]
pub enum Call {
    New,
    Unseal,
    Reseal,
    FillMemory { pattern: u64 },
    FillWire { pattern: u64 },
    SetMemory { at: u64, count: u64, byte: u8 },
    SetWire { at: u64, count: u64, byte: u8 },
    Configure { memory: u64, configuration: Box<Configuration> },
    Send { memory: u64, wire: u64, offset: u64, data_length: u64 },
    Receive { memory: u64, wire: u64, offset: u64, data_length: u64 },
    Check,
    Open { memory: u64, offset: u64, data_length: u64 },
    Packet { memory: u64, at: u64, count: u64 },
    Finish,
    Abandon,
}

impl Call {
    pub fn letter(&self) -> char {
        match self {
            Call::New => 'N',
            Call::Unseal => 'Z',
            Call::Reseal => 'Y',
            Call::FillMemory { .. } => 'M',
            Call::FillWire { .. } => 'W',
            Call::SetMemory { .. } => 'm',
            Call::SetWire { .. } => 'w',
            Call::Configure { .. } => 'C',
            Call::Send { .. } => 'S',
            Call::Receive { .. } => 'R',
            Call::Check => 'K',
            Call::Open { .. } => 'O',
            Call::Packet { .. } => 'B',
            Call::Finish => 'F',
            Call::Abandon => 'A',
        }
    }

    /// The numbers after the letter.
    pub fn numbers(&self) -> Vec<u64> {
        match *self {
            Call::New | Call::Unseal | Call::Reseal | Call::Check | Call::Finish | Call::Abandon => vec![],
            Call::FillMemory { pattern } | Call::FillWire { pattern } => vec![pattern],
            Call::SetMemory { at, count, byte } | Call::SetWire { at, count, byte } => vec![at, count, byte.into()],
            Call::Configure { memory, ref configuration } => configure_numbers(memory, configuration),
            Call::Send { memory, wire, offset, data_length } | Call::Receive { memory, wire, offset, data_length } => {
                vec![memory, wire, offset, data_length]
            }
            Call::Open { memory, offset, data_length } => vec![memory, offset, data_length],
            Call::Packet { memory, at, count } => vec![memory, at, count],
        }
    }

    /// Returns the call with this letter and these numbers, if there is one.
    pub fn from_numbers(letter: char, numbers: &[u64]) -> Option<Call> {
        Some(match (letter, numbers) {
            ('N', []) => Call::New,
            ('Z', []) => Call::Unseal,
            ('Y', []) => Call::Reseal,
            ('M', &[pattern]) => Call::FillMemory { pattern },
            ('W', &[pattern]) => Call::FillWire { pattern },
            ('m', &[at, count, byte]) => Call::SetMemory { at, count, byte: byte.try_into().ok()? },
            ('w', &[at, count, byte]) => Call::SetWire { at, count, byte: byte.try_into().ok()? },
            ('C', numbers) => configure_from_numbers(numbers)?,
            ('S', &[memory, wire, offset, data_length]) => Call::Send { memory, wire, offset, data_length },
            ('R', &[memory, wire, offset, data_length]) => Call::Receive { memory, wire, offset, data_length },
            ('K', []) => Call::Check,
            ('O', &[memory, offset, data_length]) => Call::Open { memory, offset, data_length },
            ('B', &[memory, at, count]) => Call::Packet { memory, at, count },
            ('F', []) => Call::Finish,
            ('A', []) => Call::Abandon,
            _ => return None,
        })
    }

    pub fn text(&self) -> String {
        let numbers = self.numbers().into_iter().map(|number| format!(" {number:x}"));
        std::iter::once(self.letter().to_string()).chain(numbers).collect()
    }

    /// Whether the call stays inside buffers of these sizes.
    pub fn fits(&self, memory_size: u64, wire_size: u64) -> bool {
        let within = |at: u64, count: u64, size: u64| at.checked_add(count).is_some_and(|end| end <= size);
        match *self {
            Call::SetMemory { at, count, .. } => within(at, count, memory_size),
            Call::SetWire { at, count, .. } => within(at, count, wire_size),
            Call::Configure { memory, .. } | Call::Open { memory, .. } => memory <= memory_size,
            Call::Send { memory, wire, .. } | Call::Receive { memory, wire, .. } => {
                memory <= memory_size && wire <= wire_size
            }
            Call::Packet { memory, at, count } => memory <= memory_size && within(at, count, wire_size),
            _ => true,
        }
    }
}

fn domain_numbers(domain: &Domain) -> [u64; 8] {
    [
        domain.kind.into(),
        domain.block_size.into(),
        domain.guard_type.into(),
        domain.reference_tag.into(),
        domain.seed.into(),
        domain.application_tag.into(),
        domain.flags.into(),
        domain.edition.into(),
    ]
}

fn domain_from_numbers(numbers: &[u64]) -> Option<Domain> {
    Some(Domain {
        kind: numbers[0].try_into().ok()?,
        block_size: numbers[1].try_into().ok()?,
        guard_type: numbers[2].try_into().ok()?,
        reference_tag: numbers[3].try_into().ok()?,
        seed: numbers[4].try_into().ok()?,
        application_tag: numbers[5].try_into().ok()?,
        flags: numbers[6].try_into().ok()?,
        edition: numbers[7].try_into().ok()?,
    })
}

/// `m D D attribute check copy used repeat k E..`, without the zero entries at the end.
fn configure_numbers(memory: u64, configuration: &Configuration) -> Vec<u64> {
    let (signature, layout) = (&configuration.signature, &configuration.layout);
    let listed = layout.entries.iter().rposition(|entry| *entry != Entry::default()).map_or(0, |last| last + 1);
    let mut numbers = vec![memory];
    numbers.extend(domain_numbers(&signature.memory));
    numbers.extend(domain_numbers(&signature.wire));
    numbers.push(signature.attribute_flags.into());
    numbers.extend([signature.check_mask, signature.copy_mask].map(u64::from));
    numbers.extend([layout.used, layout.repeat].map(u64::from));
    numbers.push(listed as u64);
    for entry in &layout.entries[..listed] {
        numbers.extend([entry.start, entry.count.into(), entry.skip.into()]);
    }
    numbers
}

fn configure_from_numbers(numbers: &[u64]) -> Option<Call> {
    let (head, entries) = numbers.split_at_checked(23)?;
    let listed = entries.len() / 3;
    if listed > ENTRY_LIMIT || entries.len() % 3 != 0 || head[22] != listed as u64 {
        return None;
    }
    let signature = Signature {
        memory: domain_from_numbers(&head[1..9])?,
        wire: domain_from_numbers(&head[9..17])?,
        attribute_flags: head[17].try_into().ok()?,
        check_mask: head[18].try_into().ok()?,
        copy_mask: head[19].try_into().ok()?,
    };
    let (used, repeat) = (head[20].try_into().ok()?, head[21].try_into().ok()?);
    let mut layout = Layout { used, repeat, ..Layout::default() };
    for (entry, numbers) in layout.entries.iter_mut().zip(entries.chunks_exact(3)) {
        let (count, skip) = (numbers[1].try_into().ok()?, numbers[2].try_into().ok()?);
        *entry = Entry { start: numbers[0], count, skip };
    }
    let configuration = Box::new(Configuration { layout, signature });
    Some(Call::Configure { memory: head[0], configuration })
}

/// Fills a buffer with pattern s of README.md.
pub fn fill(buffer: &mut [u8], pattern: u64) {
    let mut x = pattern as u32;
    for byte in buffer {
        x = x.wrapping_mul(1_103_515_245).wrapping_add(12_345);
        *byte = (x / 65_536 % 256) as u8;
    }
}

/// The digest of README.md.
pub fn digest(buffer: &[u8]) -> u64 {
    buffer.iter().fold(1, |d, &byte| (d * 257 + u64::from(byte)) % 4_294_967_291)
}

/// The state that README.md describes, with the model in place of the library.
pub struct Machine {
    pub key: Key,
    /// Whether the key has its seal. Without it the struct is no key.
    pub sealed: bool,
    pub session: Option<Session>,
    pub memory: Vec<u8>,
    pub wire: Vec<u8>,
    /// The session's memory as it was after open or the last accepted packet.
    left: Vec<u8>,
}

impl Machine {
    pub fn new(memory_size: usize, wire_size: usize) -> Machine {
        let (memory, wire) = (vec![0; memory_size], vec![0; wire_size]);
        Machine { key: Key::default(), sealed: true, session: None, memory, wire, left: Vec::new() }
    }

    pub fn fits(&self, call: &Call) -> bool {
        call.fits(self.memory.len() as u64, self.wire.len() as u64)
    }

    /// Demand 3 "supposes that the same memory is lent with every accepted packet, that nobody else writes it from open
    /// on". Of a packet for which that is false, nothing is promised.
    pub fn keeps_premise(&self, call: &Call) -> bool {
        let (Call::Packet { memory, at, count }, Some(session)) = (call, &self.session) else {
            return true;
        };
        let lent = &self.memory[..*memory as usize];
        let bytes = &self.wire[*at as usize..(at + count) as usize];
        session.judge_packet(lent, bytes) != answer::DONE || self.left == lent
    }

    /// Makes the call, and returns the numbers that are printed after its letter; `None` if nothing is printed.
    pub fn run(&mut self, call: &Call) -> Option<Vec<u64>> {
        match *call {
            Call::New => (self.key, self.sealed, self.session) = (Key::default(), true, None),
            Call::Unseal => self.sealed = false,
            Call::Reseal => self.sealed = true,
            Call::FillMemory { pattern } => fill(&mut self.memory, pattern),
            Call::FillWire { pattern } => fill(&mut self.wire, pattern),
            Call::SetMemory { at, count, byte } => self.memory[at as usize..][..count as usize].fill(byte),
            Call::SetWire { at, count, byte } => self.wire[at as usize..][..count as usize].fill(byte),
            _ => return Some(self.answer(call)),
        }
        None
    }

    /// Makes a call of the C API.
    fn answer(&mut self, call: &Call) -> Vec<u64> {
        match *call {
            Call::Configure { .. } | Call::Open { .. } if !self.sealed => vec![answer::NOT_A_KEY],
            Call::Send { .. } | Call::Receive { .. } if !self.sealed => {
                three_numbers(Totals::refused(answer::NOT_A_KEY))
            }
            Call::Check if !self.sealed => vec![answer::NOT_A_KEY, 0, 0, 0, 0, 0],
            Call::Configure { memory, ref configuration } => {
                vec![self.key.configure(&self.memory[..memory as usize], configuration)]
            }
            Call::Send { memory, wire, offset, data_length } => {
                let (lent, wire) = (&self.memory[..memory as usize], &mut self.wire[..wire as usize]);
                three_numbers(self.key.send(lent, wire, offset, data_length))
            }
            Call::Receive { memory, wire, offset, data_length } => {
                let (lent, wire) = (&mut self.memory[..memory as usize], &self.wire[..wire as usize]);
                three_numbers(self.key.receive(lent, wire, offset, data_length))
            }
            Call::Check => [&[answer::DONE], &self.key.check()[..]].concat(),
            Call::Open { memory, offset, data_length } => vec![self.open(memory, offset, data_length)],
            Call::Packet { memory, at, count } => three_numbers(self.packet(memory, at, count)),
            Call::Finish => vec![self.end(Session::finish)],
            Call::Abandon => vec![self.end(|session| Ok(session.abandon()))],
            _ => unreachable!("the other lines set the state and print nothing"),
        }
    }

    /// Open: if accepted, the session is kept, and the key becomes the returned one, which has no seal.
    fn open(&mut self, memory: u64, offset: u64, data_length: u64) -> u64 {
        match self.key.open(&self.memory[..memory as usize], offset, data_length) {
            Ok(session) => {
                self.left = self.memory[..memory as usize].to_vec();
                (self.sealed, self.session) = (false, Some(session));
                answer::DONE
            }
            Err(refusal) => refusal,
        }
    }

    fn packet(&mut self, memory: u64, at: u64, count: u64) -> Totals {
        let Some(session) = &mut self.session else {
            return Totals::refused(answer::NOT_A_SESSION);
        };
        let lent = &mut self.memory[..memory as usize];
        let totals = session.packet(lent, &self.wire[at as usize..][..count as usize]);
        if totals.answer == answer::DONE {
            self.left.copy_from_slice(lent);
        }
        totals
    }

    /// Finish and abandon: if accepted, the key becomes the returned one, and the session has ended.
    fn end(&mut self, call: impl Fn(&Session) -> Result<Key, u64>) -> u64 {
        match self.session.as_ref().map_or(Err(answer::NOT_A_SESSION), call) {
            Ok(key) => {
                (self.key, self.sealed, self.session) = (key, true, None);
                answer::DONE
            }
            Err(refusal) => refusal,
        }
    }
}

fn three_numbers(totals: Totals) -> Vec<u64> {
    vec![totals.answer, totals.taken, totals.written]
}

#[cfg(test)]
mod tests {
    use super::*;
    use crate::cases::{random, settled};

    #[test]
    fn calls_come_back_from_their_text() {
        let random = (0..300).map(|number| random::case(1, number));
        for call in settled::cases().into_iter().chain(random).flat_map(|case| case.calls) {
            let text = call.text();
            let mut words = text.split(' ');
            let letter = words.next().and_then(|word| word.chars().next()).expect("a line has a letter");
            let numbers: Result<Vec<u64>, _> = words.map(|word| u64::from_str_radix(word, 16)).collect();
            let numbers = numbers.expect("numbers are hexadecimal");
            assert_eq!(Call::from_numbers(letter, &numbers), Some(call), "{text}");
        }
    }

    /// The generator is that of the C standard's example, which returns 16838, 5758 and 10113 for seed 1.
    #[test]
    fn a_pattern_is_that_of_the_c_standards_generator() {
        let mut buffer = [0; 3];
        fill(&mut buffer, 1);
        assert_eq!(buffer, [16_838u16, 5_758, 10_113].map(|number| (number % 256) as u8));
        let mut same = [0; 3];
        fill(&mut same, (1 << 32) + 1);
        assert_eq!(same, buffer);
    }

    #[test]
    fn digests_by_hand() {
        assert_eq!(digest(&[]), 1);
        assert_eq!(digest(&[5]), 257 + 5);
        assert_eq!(digest(&[0, 0, 0, 0]), 257u64.pow(4) - 4_294_967_291);
    }

    /// A packet after another packet keeps the premise. A packet after a written memory byte breaks it.
    #[test]
    fn a_written_memory_breaks_the_premise() {
        let layout = Layout { entries: [Entry { start: 0, count: 4, skip: 0 }; ENTRY_LIMIT], used: 1, repeat: 1 };
        let configuration = Box::new(Configuration { layout, ..Configuration::default() });
        let packet = Call::Packet { memory: 8, at: 0, count: 1 };
        let mut machine = Machine::new(8, 8);
        machine.run(&Call::FillWire { pattern: 1 });
        machine.run(&Call::Configure { memory: 8, configuration });
        machine.run(&Call::Open { memory: 8, offset: 0, data_length: 4 });
        machine.run(&packet);
        assert!(machine.keeps_premise(&packet));
        machine.run(&Call::SetMemory { at: 7, count: 1, byte: 0xFF });
        assert!(!machine.keeps_premise(&packet));
    }
}
