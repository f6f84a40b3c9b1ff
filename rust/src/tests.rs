//! Tests that need the crate's inside: structs of another version, which nobody else can make, and the library's own
//! texts and version.

use crate::ffi::texts;
use crate::*;

const START: LayoutOffset = LayoutOffset(0);
const BAD_BLOCK: [u8; 16] = [1; 16];

fn configuration() -> Configuration {
    let wire = T10Dif {
        block_size: 8,
        guard: Guard::Crc,
        seed: Seed::Zero,
        application_tag: 0,
        reference_tag: 0,
        remap: false,
        edition: Edition::default(),
        escape: Escape::Never,
    };
    Configuration {
        layout: Layout::contiguous(8),
        signature: Signature {
            memory: Domain::None,
            wire: wire.into(),
            check: Mask::ALL,
            copy: Copying::Automatic,
        },
    }
}

fn configured(memory: &[u8]) -> Key {
    let mut key = Key::new();
    key.configure(memory, &configuration()).unwrap();
    key
}

fn has_error(mut key: Key) -> bool {
    key.check().unwrap().is_some()
}

fn checked(error: ffi::Error) -> ffi::CheckResult {
    let mut checked = ffi::check(Key::new().raw);
    checked.error = error;
    checked
}

fn guard_error() -> ffi::Error {
    ffi::Error {
        error_type: ffi::ERROR_GUARD,
        actual: 0,
        expected: 1,
        offset: 0,
        differing: 0x40,
    }
}

#[test]
fn a_key_of_another_version_is_refused_and_keeps_its_error() {
    let mut memory = [0; 8];
    let mut key = configured(&memory);
    key.receive(&mut memory, &BAD_BLOCK, START, 8).unwrap();
    key.raw.seal += 1; // the lowest byte is the struct version
    assert_eq!(key.check(), Err(Refusal::NotAKey));
    assert_eq!(key.configure(&memory, &configuration()), Err(Refusal::NotAKey));
    assert_eq!(key.send(&memory, &mut [0; 16], START, 8), Err(Refusal::NotAKey));
    assert_eq!(key.receive(&mut memory, &BAD_BLOCK, START, 8), Err(Refusal::NotAKey));
    let mut refused = key.open(&memory, START, 8).unwrap_err();
    assert_eq!(refused.refusal, Refusal::NotAKey);
    refused.key.raw.seal -= 1;
    assert!(has_error(refused.key));
}

#[test]
fn a_session_of_another_version_is_refused_and_not_lost() {
    let mut memory = [0; 8];
    let mut session = configured(&memory).open(&memory, START, 8).unwrap();
    session.packet(&mut memory, &BAD_BLOCK).unwrap();
    session.raw.seal += 1;
    assert_eq!(session.packet(&mut memory, &[]), Err(Refusal::NotASession));
    let refused = session.finish().unwrap_err();
    assert_eq!(refused.refusal, Refusal::NotASession);
    let mut refused = refused.session.abandon().unwrap_err();
    assert_eq!(refused.refusal, Refusal::NotASession);
    refused.session.raw.seal -= 1;
    assert!(has_error(refused.session.abandon().unwrap()));
}

#[test]
fn an_error_of_an_unknown_type_is_not_taken_for_another() {
    let mut error = ffi::check(Key::new().raw).error;
    assert_eq!(BlockError::of(&checked(error)), Ok(None));
    error.error_type = 4;
    assert_eq!(BlockError::of(&checked(error)), Err(Refusal::Unknown(4)));
}

#[test]
fn a_mask_of_more_than_eight_bits_is_not_cut() {
    let differing_of = |differing| {
        let error = BlockError::of(&checked(ffi::Error {
            differing,
            ..guard_error()
        }));
        error.map(|error| error.unwrap().differing)
    };
    assert_eq!(differing_of(0x40), Ok(Mask(0x40)));
    assert_eq!(differing_of(0xFF), Ok(Mask(0xFF)));
    assert_eq!(differing_of(0x140), Err(Refusal::Unknown(0x140)));
}

#[test]
fn a_mask_has_bit_7_for_byte_0() {
    let bytes = |mask: Mask| (0..100).filter(|&byte| mask.contains(byte)).collect::<Vec<_>>();
    assert_eq!(bytes(Mask::NONE), []);
    assert_eq!(bytes(Mask(0x81)), [0, 7]);
    assert_eq!(bytes(Mask::ALL), [0, 1, 2, 3, 4, 5, 6, 7]);
    for (tag, mask) in [
        (Tag::Guard, Mask::GUARD),
        (Tag::Application, Mask::APPLICATION),
        (Tag::Reference, Mask::REFERENCE),
    ] {
        assert_eq!(bytes(mask), tag.bytes().collect::<Vec<_>>());
    }
}

#[test]
fn the_library_has_the_crates_version() {
    assert_eq!(texts::version(), env!("CARGO_PKG_VERSION"));
}

#[test]
fn the_library_has_the_crates_words_for_refusals() {
    assert_eq!(texts::answer_text(ffi::ANSWER_DONE), "done");
    for refusal in refusal::NAMED {
        assert_eq!(texts::answer_text(refusal.number()), refusal.to_string());
    }
    let named = (0..2000).filter(|&answer| texts::answer_text(answer) != "unknown answer");
    assert_eq!(named.count(), 1 + refusal::NAMED.len());
}

#[test]
fn the_library_has_the_crates_words_for_errors() {
    let numbers = [0, 0x1F, 0x9CD9, 0xFFFF, 0x1_0000, u32::MAX];
    for error_type in [ffi::ERROR_GUARD, ffi::ERROR_REFERENCE, ffi::ERROR_APPLICATION] {
        for (actual, expected) in numbers.iter().flat_map(|&a| numbers.map(|b| (a, b))) {
            for (offset, differing) in [0, 1560, u32::MAX].iter().flat_map(|&o| (0..256).map(move |d| (o, d))) {
                let error = ffi::Error {
                    error_type,
                    actual,
                    expected,
                    offset,
                    differing,
                };
                let block_error = BlockError::of(&checked(error)).unwrap().unwrap();
                assert_eq!(texts::error_text(error), block_error.to_string());
            }
        }
    }
}
