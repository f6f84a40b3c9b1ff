//! Runs a case on the library and on the model, and compares them after each call.

use super::guarded::Lending;
use super::library;
use super::state::State;
use super::trial::Fault;
use crate::cases::Case;
use crate::model::{answer, check_numbers, BlockError};
use crate::script::{Call, Machine};

/// Returns the number of calls made, or the first difference.
pub fn run(case: &Case, lending: Lending) -> Result<usize, Fault> {
    let mut model = Machine::new(case.buffers.memory, case.buffers.wire);
    let mut state = State::new(case.buffers, lending);
    for (made, call) in case.calls.iter().enumerate() {
        if !model.fits(call) || !model.keeps_premise(call) {
            return Ok(made);
        }
        if let Some((expected, found)) = compare_call(&mut model, &mut state, call) {
            let more = format!("expected of {}: {expected}\nfound: {found}", call.text());
            return Err(Fault { words: "the library differs from the model".to_string(), more });
        }
    }
    Ok(case.calls.len())
}

/// Makes one call on both sides, and compares everything that can be seen after it. Returns what was expected and what
/// was found, if they differ.
fn compare_call(model: &mut Machine, state: &mut State, call: &Call) -> Option<(String, String)> {
    let (expected, reply) = (model.run(call), state.run(call));
    let (expected, reply) = (expected?, reply?);
    let differs = |expected: &str, found: &str| Some((expected.to_string(), found.to_string()));
    if reply.numbers != expected {
        return differs(&format!("{expected:?}"), &format!("{:?}", reply.numbers));
    }
    if !reply.structs_right {
        return differs("the key and the session that the header describes", "others");
    }
    if !state.memory.guards_are_intact() || !state.wire.guards_are_intact() {
        return differs("no byte outside the buffers changes", "a guard byte changed");
    }
    compare_bytes("memory", &model.memory, state.memory.all())
        .or_else(|| compare_bytes("wire", &model.wire, state.wire.all()))
        .or_else(|| compare_slots(model, state))
}

fn compare_bytes(what: &str, model: &[u8], library: &[u8]) -> Option<(String, String)> {
    if model == library {
        return None;
    }
    let at = model.iter().zip(library).position(|(expected, found)| expected != found)?;
    Some((format!("{what} byte {at:x} is {:02x}", model[at]), format!("{:02x}", library[at])))
}

/// Compares the recorded errors. They are read from copies: the key's by check, the session's by abandon and check.
fn compare_slots(model: &Machine, state: &State) -> Option<(String, String)> {
    let of_key = model.sealed.then(|| compare_slot("the key's", model.key.slot, &library::check(state.key))).flatten();
    of_key.or_else(|| {
        let session = model.session.as_ref()?;
        let abandoned = library::abandon(state.session);
        if abandoned.answer != answer::DONE {
            return Some(("abandon is always accepted".to_string(), abandoned.answer.to_string()));
        }
        compare_slot("the session's", session.recorded(), &library::check(abandoned.key))
    })
}

fn compare_slot(whose: &str, slot: Option<BlockError>, checked: &library::CheckResult) -> Option<(String, String)> {
    let expected = check_numbers(slot);
    let found = checked.error.numbers();
    if checked.answer == answer::DONE && expected == found {
        return None;
    }
    Some((format!("{whose} slot {expected:?}"), format!("answer {}, {found:?}", checked.answer)))
}
