//! The rule book's cases, through the crate.

mod common;

use common::{case_a, configuration, configured, signed, totals, DATA, START, WIRE};
use garoalva::*;

fn received(configuration: &Configuration, wire: &[u8]) -> Option<BlockError> {
    let mut memory = [0xAA; 16];
    let mut key = configured(&memory, configuration);
    assert_eq!(key.receive(&mut memory, wire, START, 16), totals(32, 16));
    assert_eq!(memory[..8], wire[..8]);
    assert_eq!(memory[8..], wire[16..24]);
    key.check().unwrap()
}

fn damaged() -> [u8; 32] {
    let mut wire = WIRE;
    wire[23] = 2;
    wire
}

fn escaped() -> ([u8; 32], Configuration) {
    let mut wire = WIRE;
    wire[8..12].copy_from_slice(&[0xDE, 0xAD, 0xFF, 0xFF]);
    let domain = T10Dif {
        escape: Escape::Application,
        ..signed()
    };
    (wire, configuration(Layout::contiguous(16), Domain::None, domain.into()))
}

#[test]
fn case_a_sends_the_fields_and_nothing_past_the_stream() {
    let mut wire = [0xEE; 40];
    let mut key = configured(&DATA, &case_a());
    assert_eq!(key.send(&DATA, &mut wire, START, 16), totals(16, 32));
    assert_eq!(wire[..32], WIRE);
    assert_eq!(wire[32..], [0xEE; 8]);
    assert_eq!(key.check(), Ok(None));
}

#[test]
fn case_b_has_no_error() {
    assert_eq!(received(&case_a(), &WIRE), None);
}

#[test]
fn case_c_is_a_guard_error() {
    let error = BlockError {
        tag: Tag::Guard,
        actual: 0x9CD9,
        expected: 0,
        offset: 16,
        differing: Mask::GUARD,
    };
    assert_eq!(received(&case_a(), &damaged()), Some(error));
}

#[test]
fn case_d_leaves_the_guard_out() {
    let mut configuration = case_a();
    configuration.signature.check = Mask::APPLICATION | Mask::REFERENCE;
    assert_eq!(received(&configuration, &damaged()), None);
}

#[test]
fn case_h_has_no_error() {
    let (wire, configuration) = escaped();
    assert_eq!(received(&configuration, &wire), None);
}

#[test]
fn case_h_without_the_escape_is_a_guard_error() {
    let (wire, _) = escaped();
    let error = BlockError {
        tag: Tag::Guard,
        actual: 0x8BB7,
        expected: 0xDEAD,
        offset: 0,
        differing: Mask::GUARD,
    };
    assert_eq!(received(&case_a(), &wire), Some(error));
}

#[test]
fn a_wire_that_was_never_written_has_no_error_under_an_escape() {
    let escapes = [
        (Escape::Never, Some(Tag::Guard)),
        (Escape::Application, None),
        (Escape::ApplicationAndReference, None),
    ];
    for guard in [Guard::Crc, Guard::Checksum] {
        for (escape, tag) in escapes {
            let domain = T10Dif {
                guard,
                escape,
                ..signed()
            };
            let configuration = configuration(Layout::contiguous(16), Domain::None, domain.into());
            let error = received(&configuration, &[0xFF; 32]);
            assert_eq!(error.map(|error| error.tag), tag, "{guard:?}, {escape:?}");
        }
    }
}

#[test]
fn case_i_leaves_the_application_tag_out() {
    let (wire, mut configuration) = escaped();
    configuration.signature.check = Mask::GUARD | Mask::REFERENCE;
    assert_eq!(received(&configuration, &wire), None);
}

#[test]
fn a_wrong_reference_tag_is_said_in_words() {
    let mut wire = WIRE;
    wire[31] = 9;
    let error = received(&case_a(), &wire).unwrap();
    assert_eq!(error.tag, Tag::Reference);
    assert_eq!(
        error.to_string(),
        "bad reference tag in the block at byte 16 of the input stream: \
         its field says 0x00000009, the rule gives 0x00000000; checked byte 3 of the reference tag differs"
    );
}

#[test]
fn a_half_masked_application_tag_is_told_from_a_wrong_one() {
    let mut wire = WIRE;
    wire[10..12].copy_from_slice(&[0x56, 0x78]);
    let error = BlockError {
        tag: Tag::Application,
        actual: 0x1234,
        expected: 0x5678,
        offset: 0,
        differing: Mask::APPLICATION,
    };
    let words = "bad application tag in the block at byte 0 of the input stream: \
                 its field says 0x5678, the rule gives 0x1234; ";
    assert_eq!(received(&case_a(), &wire), Some(error));
    assert_eq!(
        error.to_string(),
        format!("{words}checked bytes 0 and 1 of the application tag differ")
    );

    let mut half_masked = case_a();
    half_masked.signature.check = Mask::GUARD | Mask(0x10) | Mask::REFERENCE;
    let error = BlockError {
        differing: Mask(0x10),
        ..error
    };
    assert_eq!(received(&half_masked, &wire), Some(error));
    assert_eq!(
        error.to_string(),
        format!("{words}checked byte 1 of the application tag differs")
    );
}

#[test]
fn a_later_tag_adds_no_differing_byte() {
    let mut wire = WIRE;
    wire[9] ^= 1; // the second byte of the guard,
    wire[10..16].fill(0); // and all of the tags after it
    let error = received(&case_a(), &wire).unwrap();
    assert_eq!((error.tag, error.differing), (Tag::Guard, Mask(0x40)));
}

#[test]
fn checksums_differ_by_seed_on_zeros_alone() {
    let fields = [
        ([0; 8], Seed::Zero, [0xFF, 0xFF]),
        ([0; 8], Seed::Ones, [0x00, 0x00]),
        ([0, 1, 0, 2, 0, 3, 0, 4], Seed::Zero, [0xFF, 0xF5]),
        ([0, 1, 0, 2, 0, 3, 0, 4], Seed::Ones, [0xFF, 0xF5]),
        ([0xFF, 0xFF, 0, 1, 0, 0, 0, 0], Seed::Zero, [0xFF, 0xFE]),
    ];
    for (memory, seed, guard) in fields {
        let domain = T10Dif {
            guard: Guard::Checksum,
            seed,
            ..signed()
        };
        let mut key = configured(
            &memory,
            &configuration(Layout::contiguous(8), Domain::None, domain.into()),
        );
        let mut wire = [0; 16];
        assert_eq!(key.send(&memory, &mut wire, START, 8), totals(8, 16));
        assert_eq!(wire[8..10], guard);
    }
}

/// Sends blocks, receives them again without an error, and returns their reference tags.
fn tags_sent(blocks: usize, domain: T10Dif) -> Vec<u32> {
    let block = domain.block_size as usize;
    let length = (blocks * block) as u64;
    let mut memory = vec![7; blocks * block];
    let layout = Layout::contiguous(length as u32);
    let mut key = configured(&memory, &configuration(layout, Domain::None, domain.into()));
    let mut wire = vec![0; blocks * (block + 8)];
    key.send(&memory, &mut wire, START, length).unwrap();
    key.receive(&mut memory, &wire, START, length).unwrap();
    assert_eq!(key.check(), Ok(None));
    wire.chunks(block + 8)
        .map(|unit| u32::from_be_bytes(unit[block + 4..].try_into().unwrap()))
        .collect()
}

#[test]
fn the_second_edition_counts_sectors_and_wraps() {
    let domain = |block_size, edition| T10Dif {
        block_size,
        reference_tag: 0xFFFF_FFFC,
        edition,
        ..signed()
    };
    assert_eq!(
        tags_sent(3, domain(4096, Edition::First)),
        [0xFFFF_FFFC, 0xFFFF_FFFD, 0xFFFF_FFFE]
    );
    assert_eq!(tags_sent(3, domain(4096, Edition::Second)), [0xFFFF_FFFC, 4, 12]);
    assert_eq!(
        tags_sent(3, domain(1536, Edition::Second)),
        [0xFFFF_FFFC, 0xFFFF_FFFF, 2]
    );
    assert_eq!(tags_sent(2, domain(512, Edition::Second)), [0xFFFF_FFFC, 0xFFFF_FFFD]);
    let unmapped = T10Dif {
        remap: false,
        ..domain(4096, Edition::Second)
    };
    assert_eq!(tags_sent(2, unmapped), [0xFFFF_FFFC; 2]);
}

#[test]
fn unlike_editions_generate_the_reference_tag() {
    let side = |edition| {
        Domain::T10Dif(T10Dif {
            block_size: 512,
            edition,
            ..signed()
        })
    };
    for (edition, tag) in [(Edition::First, [0xFF; 4]), (Edition::Second, [0xAA; 4])] {
        let configuration = configuration(Layout::contiguous(520), side(edition), side(Edition::Second));
        let mut memory = [0; 520];
        let mut key = configured(&memory, &configuration);
        key.receive(&mut memory, &[0xAA; 520], START, 512).unwrap();
        assert_eq!(memory[512..516], [0xAA; 4]);
        assert_eq!(memory[516..], tag);
    }
}

#[test]
fn case_j_walks_entries_then_repeats() {
    let entry = |start, count, skip| Entry {
        start: MemoryOffset(start),
        count,
        skip,
    };
    let layout = Layout::new(&[entry(0, 512, 4), entry(1028, 8, 0)], 2);
    let mut memory = [0; 1044];
    memory[1028] = 1;
    memory[516] = 2;
    let mut key = configured(&memory, &configuration(layout, Domain::None, Domain::None));
    let mut wire = [0; 1040];
    assert_eq!(key.send(&memory, &mut wire, START, 1040), totals(1040, 1040));
    assert_eq!((wire[512], wire[520]), (1, 2));
}

#[test]
fn a_given_copy_mask_keeps_a_damaged_guard() {
    let mut configuration = configuration(Layout::contiguous(32), signed().into(), signed().into());
    configuration.signature.copy = Copying::Given(Mask::GUARD);
    let mut memory = [0; 32];
    let mut key = configured(&memory, &configuration);
    assert_eq!(key.receive(&mut memory, &damaged(), START, 16), totals(32, 32));
    assert_eq!(memory, damaged());
    configuration.signature.copy = Copying::Given(Mask::NONE);
    key.configure(&memory, &configuration).unwrap();
    assert_eq!(key.receive(&mut memory, &damaged(), START, 16), totals(32, 32));
    assert_eq!(memory[24..26], [0x9C, 0xD9]);
}

#[test]
fn the_first_error_stays_until_check() {
    let mut memory = [0; 16];
    let mut key = configured(&memory, &case_a());
    key.receive(&mut memory, &damaged(), START, 16).unwrap();
    let mut other = WIRE;
    other[0] = 1;
    key.receive(&mut memory, &other, START, 16).unwrap();
    key.configure(&memory, &case_a()).unwrap();
    assert_eq!(key.check().unwrap().map(|error| error.offset), Some(16));
    assert_eq!(key.check(), Ok(None));
}
