//! Hostile cases: calls with structs that no call ever made. They are random bits, random bits after a right seal, or
//! valid structs with a few bits changed. Which answer such a call returns is left to the library, except where
//! docs/RULES.md says it. The call must return, must change nothing that it may not write, and must refuse a wrong
//! seal.

mod damage;

use super::guarded::Lending;
use super::library::{self, RawKey, RawSession, NO_SESSION};
use super::state::{Reply, State};
use super::trial::Fault;
use crate::cases::random::plans;
use crate::cases::{entry, list_layout, Buffers, Direction, Plan};
use crate::model::{answer, Configuration, Domain, Signature, CHECKSUM, EDITION_2, GUARD_ERROR, REFERENCE_ERROR};
use crate::paper::case_a_domain;
use crate::rng::Rng;
use crate::script::{Call, BUFFER_SIZE};
use crate::shrink::{drop_runs, shrink};
use damage::{ChangedWord, Damage, Inverted, WRONG_SEALS};

#[derive(Clone)]
pub struct HostileCase {
    pub name: String,
    /// The calls that make a valid key and a valid session.
    setup: Vec<Call>,
    damage: Damage,
    /// The calls that are made with the damaged key and session.
    calls: Vec<Call>,
    promise: Promise,
}

/// What docs/RULES.md says of calls with the damaged structs.
#[derive(Clone, Copy)]
enum Promise {
    Nothing,
    /// Each call refuses the struct, as no key or no session.
    Refused,
    /// No call refuses the struct as no key or no session.
    Accepted,
    /// Check returns these numbers.
    Error([u64; 5]),
}

impl HostileCase {
    pub fn random(seed: u64, number: u64) -> HostileCase {
        let mut rng = Rng::of_case(seed, number);
        let plan = plans::plan(&mut rng);
        let setup = setup(&mut rng, &plan);
        let calls = (0..rng.between(1, 6)).flat_map(|_| some_calls(&mut rng, &plan)).filter(fits).collect();
        let name = format!("hostile case {number} of seed {seed}");
        HostileCase { name, setup, damage: Damage::Random(rng), calls, promise: Promise::Nothing }
    }

    /// Returns cases that make each call with each wrong seal in an otherwise valid struct.
    pub fn wrong_seals() -> Vec<HostileCase> {
        let mut rng = Rng::new(1);
        let plan = plans::plan(&mut rng);
        let (setup, calls) = (setup(&mut rng, &plan), every_call(&plan));
        let case = |wrong| HostileCase {
            name: format!("wrong seals {wrong}"),
            setup: setup.clone(),
            damage: Damage::WrongSeals(wrong),
            calls: calls.clone(),
            promise: Promise::Nothing,
        };
        (0..WRONG_SEALS).map(case).collect()
    }

    /// Returns cases with hand-made numbers in structs that are otherwise valid. Without an error, a set of differing
    /// bytes other than 0 makes the struct no key, or no session, and so does a spare number of a session. With an
    /// error, any number is taken as its set.
    pub fn hand_made_sets() -> Vec<HostileCase> {
        let sets = [1, 0xC0, 0x100, 1 << 31, u32::MAX];
        sets.into_iter().flat_map(|bits| [refused_structs(bits), error_of_key(bits), error_of_session(bits)]).collect()
    }

    /// Returns cases with hand-made editions in structs that are otherwise valid. In a configured key, a number to
    /// which answer 20 applies makes the struct no key, or no session. Any other number is used as it is.
    pub fn hand_made_editions() -> Vec<HostileCase> {
        // Edition 1 becomes 0, then 2, at size 8, then 3, and then larger numbers with the same low byte.
        let refused = [1, 3, 2, 0x100, 0x1_0000, 1 << 31].map(refused_editions).concat();
        // Edition 0, which the domains of a fresh key and the unsigned domain have here, becomes this number.
        let ignored = [1, 2, 3, 1 << 31, u32::MAX].map(|bits| [ignored_edition(bits), edition_of_fresh_key(bits)]);
        [refused, ignored.concat(), vec![other_edition(), edition_2_at_520()]].concat()
    }

    /// Returns the number of calls made, or what one of them did that it must not.
    pub fn run(&self, lending: Lending) -> Result<usize, Fault> {
        if !self.setup.iter().chain(&self.calls).all(fits) {
            return Ok(0);
        }
        let mut state = self.valid_structs(lending);
        let seals = Seals::of(&state);
        self.damage.apply(&mut state);
        for call in &self.calls {
            let before = Before::of(&state);
            let Some(reply) = state.run(call) else {
                continue;
            };
            let judged = judge(call, &seals, &before, &reply, &state).and_then(|()| self.promise.judge(call, &reply));
            judged.map_err(|words| Fault {
                words: words.to_string(),
                more: format!("answer of {}: {:?}", call.text(), reply.numbers),
            })?;
        }
        Ok(self.calls.len())
    }

    /// Makes the calls of the setup. They leave a configured key and an open session, except in a case made small.
    fn valid_structs(&self, lending: Lending) -> State {
        let mut state = State::new(Buffers::REPLAY, lending);
        for call in &self.setup {
            state.run(call);
        }
        state
    }

    /// Returns the case made as small as possible while it still shows its fault. The changed words are drawn here, in
    /// the parent process, where the library must not fail. So it is first seen whether it fails in the setup. A case
    /// with a promise is not made smaller, as the promise is about its damage as a whole.
    pub fn shrunk(&self, lending: Lending, shows: impl Fn(&HostileCase) -> bool) -> HostileCase {
        let bare = HostileCase { calls: Vec::new(), ..self.with_words(&[]) };
        let mut case =
            if shows(&bare) { bare } else { self.with_words(&self.damage.drawn(self.valid_structs(lending))) };
        if !matches!(case.promise, Promise::Nothing) {
            return case;
        }
        loop {
            let before = case.text();
            case.calls = shrink(&case.calls, |calls| shows(&HostileCase { calls: calls.to_vec(), ..case.clone() }));
            case = case.with_words(&drop_runs(case.damage.words(), |words| shows(&case.with_words(words))));
            case.setup = shrink(&case.setup, |setup| shows(&HostileCase { setup: setup.to_vec(), ..case.clone() }));
            if case.text() == before {
                return case;
            }
        }
    }

    fn with_words(&self, words: &[ChangedWord]) -> HostileCase {
        HostileCase { damage: Damage::Words(words.to_vec()), ..self.clone() }
    }

    pub fn text(&self) -> String {
        let words = self.damage.words().iter().map(ChangedWord::text);
        let lines = self.setup.iter().map(Call::text).chain(words).chain(self.calls.iter().map(Call::text));
        lines.map(|line| line + "\n").collect()
    }
}

impl Promise {
    /// Returns what the call did against the promise, if anything.
    fn judge(&self, call: &Call, reply: &Reply) -> Result<(), &'static str> {
        match self {
            Promise::Refused if reply.numbers[0] != refusal(call) => {
                Err("a struct was accepted that docs/RULES.md says is no key or no session")
            }
            Promise::Accepted if reply.numbers[0] == refusal(call) => {
                Err("a struct was refused that docs/RULES.md says is a key or a session")
            }
            Promise::Error(error)
                if *call == Call::Check && reply.numbers != [&[answer::DONE], &error[..]].concat() =>
            {
                Err("check does not return the numbers in the struct")
            }
            _ => Ok(()),
        }
    }
}

/// The transfer of the hand-made cases, a receive of one block of 8 bytes: case A's domain with checksum guards.
fn one_block() -> Plan {
    let wire = Domain { guard_type: CHECKSUM, ..case_a_domain() };
    let signature = Signature { wire, check_mask: 0xFF, ..Signature::default() };
    let layout = list_layout(&[entry(0, 8, 0)]);
    Plan { memory: 8, configuration: Configuration { layout, signature }, offset: 0, data_length: 8 }
}

/// The error of this block if all bytes of wire are zeros: the checksum is 0xFFFF, and both of its bytes differ.
fn error_of_zeros(bits: u32) -> Promise {
    Promise::Error([GUARD_ERROR, 0xFFFF, 0, 0, u64::from(0xC0 ^ bits)])
}

fn hand_made(name: &str, setup: Vec<Call>, inverted: Vec<Inverted>, calls: Vec<Call>, promise: Promise) -> HostileCase {
    HostileCase { name: name.to_string(), setup, damage: Damage::Inverted(inverted), calls, promise }
}

/// Neither struct has an error. The key gets a set, and so does the session, or it gets a spare number.
fn refused_structs(bits: u32) -> HostileCase {
    let plan = one_block();
    let setup = vec![plan.configure(), plan.open(), Call::Reseal];
    let of_session = if bits.is_multiple_of(2) { Inverted::session_set(bits) } else { Inverted::session_spare(bits) };
    let inverted = vec![Inverted::key_set(bits), of_session];
    hand_made("hand-made set without an error", setup, inverted, every_call(&plan), Promise::Refused)
}

/// The key has an error, in whose set these bits are inverted.
fn error_of_key(bits: u32) -> HostileCase {
    let plan = one_block();
    let setup = vec![plan.configure(), plan.receive()];
    let calls = vec![plan.receive(), plan.configure(), Call::Check];
    hand_made("hand-made set of a key's error", setup, vec![Inverted::key_set(bits)], calls, error_of_zeros(bits))
}

/// The session has an error, in whose set these bits are inverted. Abandon puts it in the key.
fn error_of_session(bits: u32) -> HostileCase {
    let plan = one_block();
    let setup = vec![plan.configure(), plan.open(), plan.packet(0, 16)];
    let calls = vec![plan.packet(0, 0), Call::Abandon, Call::Check];
    let inverted = vec![Inverted::session_set(bits)];
    hand_made("hand-made set of a session's error", setup, inverted, calls, error_of_zeros(bits))
}

/// A transfer of two blocks of this size between two sides that both have case A's domain, and so edition 1.
fn two_blocks(block_size: u32) -> Plan {
    let domain = Domain { block_size, ..case_a_domain() };
    let signature = Signature { memory: domain, wire: domain, check_mask: 0xFF, ..Signature::default() };
    let data_length = 2 * u64::from(block_size);
    let memory = domain.stream_length(data_length) as u64;
    let layout = list_layout(&[entry(0, memory as u32, 0)]);
    Plan { memory, configuration: Configuration { layout, signature }, offset: 0, data_length }
}

/// One domain of a configured key and of its session gets an edition to which answer 20 applies.
fn refused_editions(bits: u32) -> [HostileCase; 2] {
    let plan = two_blocks(8);
    let setup = vec![plan.configure(), plan.open(), Call::Reseal];
    [Inverted::memory_edition(bits), Inverted::wire_edition(bits)].map(|inverted| {
        let (setup, calls) = (setup.clone(), every_call(&plan));
        hand_made("hand-made edition", setup, inverted.to_vec(), calls, Promise::Refused)
    })
}

/// Both domains get edition 2, at a block size that is not a multiple of 512.
fn edition_2_at_520() -> HostileCase {
    let plan = two_blocks(520);
    let setup = vec![plan.configure(), plan.open(), Call::Reseal];
    let bits = case_a_domain().edition ^ EDITION_2;
    let inverted = [Inverted::memory_edition(bits), Inverted::wire_edition(bits)].concat();
    hand_made("hand-made edition 2 at 520", setup, inverted, every_call(&plan), Promise::Refused)
}

/// The wire's domain gets edition 2, at a block size that allows it. Both the key and the session then count by it.
/// The wire's tags are 0xFFFFFFFF and 0, by edition 1. By edition 2 the second is 1, and its last byte differs.
fn other_edition() -> HostileCase {
    let plan = two_blocks(1_024);
    let mut setup = plan.prepare(Direction::Receive);
    setup.extend([plan.configure(), plan.open(), Call::Reseal]);
    let inverted = Inverted::wire_edition(case_a_domain().edition ^ EDITION_2).to_vec();
    let by_packets = [plan.packet(0, 1_500), plan.packet(1_500, plan.wire_stream() - 1_500), Call::Finish];
    let calls = [&[plan.receive(), Call::Check][..], &by_packets, &[Call::Check]].concat();
    let error = Promise::Error([REFERENCE_ERROR, 1, 0, 1_032, 0x01]);
    hand_made("hand-made edition that is valid", setup, inverted, calls, error)
}

/// The memory's domain is unsigned, so its edition is ignored.
fn ignored_edition(bits: u32) -> HostileCase {
    let plan = one_block();
    let setup = vec![plan.configure(), plan.open(), Call::Reseal];
    let inverted = Inverted::memory_edition(bits).to_vec();
    hand_made("hand-made edition of an unsigned side", setup, inverted, every_call(&plan), Promise::Accepted)
}

/// A key that was never configured has no domain to which an answer applies. There is no session.
fn edition_of_fresh_key(bits: u32) -> HostileCase {
    let plan = one_block();
    let [of_memory, of_wire] = [Inverted::memory_edition(bits)[0], Inverted::wire_edition(bits)[0]];
    let calls = vec![Call::Check, plan.send(), plan.receive(), plan.open(), plan.configure(), plan.send()];
    hand_made("hand-made edition of a fresh key", vec![], vec![of_memory, of_wire], calls, Promise::Accepted)
}

fn fits(call: &Call) -> bool {
    call.fits(BUFFER_SIZE as u64, BUFFER_SIZE as u64)
}

/// Returns the calls for a configured key, perhaps with an error in its slot, and a session with some bytes accepted.
fn setup(rng: &mut Rng, plan: &Plan) -> Vec<Call> {
    let mut calls = vec![Call::FillMemory { pattern: rng.number() }, Call::FillWire { pattern: rng.number() }];
    calls.extend(plan.prepare(Direction::Receive));
    let taken = rng.below(plan.wire_stream() + 1);
    calls.extend([plan.configure(), plan.open(), plan.packet(0, taken), Call::Reseal]);
    if rng.percent(30) {
        calls.extend([Call::FillWire { pattern: 9 }, plan.receive()]);
    }
    calls
}

/// Returns some call. An open is mostly followed by a line that restores the seal, so that the key is used further.
fn some_calls(rng: &mut Rng, plan: &Plan) -> Vec<Call> {
    let call = some_call(rng, plan);
    if matches!(call, Call::Open { .. }) && rng.percent(80) {
        vec![call, Call::Reseal]
    } else {
        vec![call]
    }
}

fn some_call(rng: &mut Rng, plan: &Plan) -> Call {
    let stream = plan.wire_stream();
    match rng.below(12) {
        0 => plans::damaged(rng, plan).configure(),
        1 => plan.send(),
        2 => plan.receive(),
        3 | 4 => plans::boundary_call(rng, plan),
        5 => Call::Check,
        6 => plan.open(),
        7 | 8 => plan.packet(rng.below(9), rng.below(stream + 1)),
        9 => Call::Packet { memory: rng.below(0x400), at: 0, count: rng.below(0x400) },
        10 => Call::Finish,
        _ => Call::Abandon,
    }
}

fn every_call(plan: &Plan) -> Vec<Call> {
    let on_session = [plan.packet(0, 0), Call::Finish, Call::Abandon];
    plan.calls_on_key().into_iter().chain(on_session).collect()
}

/// The seals, which are the first words, of a valid key and a valid session.
struct Seals {
    key: u64,
    /// `None` if the setup was made so small that it opens no session.
    session: Option<u64>,
}

impl Seals {
    fn of(state: &State) -> Seals {
        let session = (state.session != NO_SESSION).then_some(state.session.words[0]);
        Seals { key: library::fresh().words[0], session }
    }
}

/// The state before a call.
struct Before {
    key: RawKey,
    session: RawSession,
    memory: Vec<u8>,
    wire: Vec<u8>,
}

impl Before {
    fn of(state: &State) -> Before {
        let State { key, session, ref memory, ref wire } = *state;
        Before { key, session, memory: memory.all().to_vec(), wire: wire.all().to_vec() }
    }

    /// Whether the key or session that is passed to the call has the right seal, as far as that is known.
    fn has_right_seal(&self, call: &Call, seals: &Seals) -> bool {
        if needs_session(call) {
            seals.session.is_none_or(|seal| self.session.words[0] == seal)
        } else {
            self.key.words[0] == seals.key
        }
    }
}

/// Returns what the call did that it must not, if anything.
fn judge(call: &Call, seals: &Seals, before: &Before, reply: &Reply, state: &State) -> Result<(), &'static str> {
    let answer = reply.numbers[0];
    let other_answers = [answer::EDITION, answer::NOT_A_KEY, answer::NOT_A_SESSION];
    let known = answer <= answer::NOT_CONFIGURED || other_answers.contains(&answer);
    let (writable_memory, writable_wire) = if answer == answer::DONE { writable(call) } else { (0, 0) };
    let (memory, wire) = (state.memory.all(), state.wire.all());
    let rules = [
        (known, "the answer is not one of the numbered answers"),
        (
            before.has_right_seal(call, seals) || answer == refusal(call),
            "a struct without the right seal was not refused as such",
        ),
        (reply.structs_right, "a call returned another struct than it must"),
        (state.memory.guards_are_intact(), "bytes outside the memory changed"),
        (state.wire.guards_are_intact(), "bytes outside the wire changed"),
        (memory[writable_memory..] == before.memory[writable_memory..], "memory changed that must not"),
        (wire[writable_wire..] == before.wire[writable_wire..], "wire changed that must not"),
    ];
    match rules.into_iter().find(|(holds, _)| !holds) {
        Some((_, fault)) => Err(fault),
        None => Ok(()),
    }
}

/// Returns the answer of a call to a struct that is no key, or no session.
fn refusal(call: &Call) -> u64 {
    if needs_session(call) {
        answer::NOT_A_SESSION
    } else {
        answer::NOT_A_KEY
    }
}

fn needs_session(call: &Call) -> bool {
    matches!(call, Call::Packet { .. } | Call::Finish | Call::Abandon)
}

/// Returns how many bytes of memory and of wire an accepted call may write.
fn writable(call: &Call) -> (usize, usize) {
    match *call {
        Call::Send { wire, .. } => (0, wire as usize),
        Call::Receive { memory, .. } | Call::Packet { memory, .. } => (memory as usize, 0),
        _ => (0, 0),
    }
}

#[cfg(test)]
mod tests {
    use super::*;

    /// A made-up fault: a finish when word 47 of the session is damaged.
    fn shows(case: &HostileCase) -> bool {
        case.text().contains("session word 47 is") && case.calls.contains(&Call::Finish)
    }

    #[test]
    fn only_the_cause_is_left() {
        let drawn = (0..400).map(|number| HostileCase::random(1, number).shrunk(Lending::InPlace, |_| false));
        let failing: Vec<HostileCase> = drawn.filter(shows).collect();
        assert!(failing.len() > 20);
        for case in failing {
            let text = case.shrunk(Lending::InPlace, shows).text();
            assert!(
                text.starts_with("session word 47 is") && text.ends_with("\nF\n") && text.lines().count() == 2,
                "{text}"
            );
        }
    }
}
