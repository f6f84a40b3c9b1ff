//! Every refusal that this crate's types can lead to, and that a refused call changes nothing.

mod common;

use std::error::Error;

use common::{case_a, configuration, configured, signed, totals, DATA, START, WIRE};
use garoalva::*;

fn refused(memory: &[u8], configuration: &Configuration) -> Option<Refusal> {
    let mut key = Key::new();
    let refusal = key.configure(memory, configuration).err();
    let after = key.send(memory, &mut [0; 64], START, 0).err();
    assert_eq!(after, refusal.and(Some(Refusal::NotConfigured)));
    refusal
}

fn refused_layout(entries: &[(u64, u32, u32)], repeat: u32, memory_length: usize) -> Option<Refusal> {
    let entries: Vec<Entry> = entries
        .iter()
        .map(|&(start, count, skip)| Entry {
            start: MemoryOffset(start),
            count,
            skip,
        })
        .collect();
    let configuration = configuration(Layout::new(&entries, repeat), Domain::None, Domain::None);
    refused(&vec![0; memory_length], &configuration)
}

fn blocks_of(block_size: u32) -> Domain {
    Domain::T10Dif(T10Dif { block_size, ..signed() })
}

#[test]
fn bad_block_sizes() {
    for (size, refusal) in [
        (8, None),
        (4160, None),
        (4168, Some(Refusal::BadDomain)),
        (12, Some(Refusal::BadDomain)),
        (0, Some(Refusal::BadDomain)),
    ] {
        let layout = Layout::contiguous(16);
        assert_eq!(
            refused(&DATA, &configuration(layout, Domain::None, blocks_of(size))),
            refusal
        );
        assert_eq!(
            refused(&DATA, &configuration(layout, blocks_of(size), Domain::None)),
            refusal
        );
    }
}

#[test]
fn the_second_edition_needs_whole_sectors() {
    assert_eq!(Edition::default(), Edition::First);
    for (block_size, refusal) in [
        (8, Some(Refusal::Edition)),
        (512, None),
        (520, Some(Refusal::Edition)),
        (4096, None),
        (4160, Some(Refusal::Edition)),
        (4608, Some(Refusal::BadDomain)),
    ] {
        for remap in [false, true] {
            let domain = T10Dif {
                block_size,
                remap,
                edition: Edition::Second,
                ..signed()
            };
            let layout = Layout::contiguous(16);
            let on_wire = configuration(layout, Domain::None, domain.into());
            let in_memory = configuration(layout, domain.into(), Domain::None);
            assert_eq!(refused(&DATA, &on_wire), refusal, "{block_size}");
            assert_eq!(refused(&DATA, &in_memory), refusal, "{block_size}");
        }
    }
}

#[test]
fn an_escape_with_the_tag_that_escapes() {
    for escape in [Escape::Never, Escape::Application, Escape::ApplicationAndReference] {
        let domain = T10Dif {
            application_tag: 0xFFFF,
            escape,
            ..signed()
        };
        let refusal = (escape != Escape::Never).then_some(Refusal::EscapeTag);
        let configuration = configuration(Layout::contiguous(16), Domain::None, domain.into());
        assert_eq!(refused(&DATA, &configuration), refusal);
    }
}

#[test]
fn a_copy_mask_without_two_signatures() {
    let mut one_sided = case_a();
    one_sided.signature.copy = Copying::Given(Mask::ALL);
    assert_eq!(refused(&DATA, &one_sided), Some(Refusal::CopyMask));
}

#[test]
fn different_block_sizes() {
    let mut different = configuration(Layout::contiguous(16), blocks_of(8), blocks_of(16));
    assert_eq!(refused(&DATA, &different), Some(Refusal::BlockSizes));
    different.signature.copy = Copying::Given(Mask::ALL);
    assert_eq!(refused(&DATA, &different), Some(Refusal::CopyMask));
}

#[test]
fn malformed_layouts() {
    let malformed = Some(Refusal::MalformedLayout);
    let places: Vec<_> = (0..17).map(|start| (start, 1, 0)).collect();
    assert_eq!(refused_layout(&[], 1, 17), malformed);
    assert_eq!(refused_layout(&places[..16], 1, 17), None);
    assert_eq!(refused_layout(&places, 1, 17), malformed);
    assert_eq!(refused_layout(&places[..1], 0, 17), malformed);
    assert_eq!(refused_layout(&[(0, 0, 1)], 1, 17), malformed);
    assert_eq!(refused_layout(&[(0, 1, 0)], 1024, 1024), None);
    assert_eq!(refused_layout(&[(0, 1, 0)], 1025, 1025), malformed);
}

#[test]
fn cases_k_and_l_and_sums_that_would_wrap() {
    assert_eq!(refused_layout(&[(0, 512, 4), (1028, 8, 0)], 2, 1044), None);
    assert_eq!(
        refused_layout(&[(0, 512, 4), (1028, 8, 0)], 2, 1043),
        Some(Refusal::OutsideMemory)
    );
    assert_eq!(
        refused_layout(&[(0, 512, 4), (1027, 8, 0)], 2, 1044),
        Some(Refusal::Overlap)
    );
    assert_eq!(refused_layout(&[(u64::MAX, 1, 0)], 1, 16), Some(Refusal::OutsideMemory));
    assert_eq!(
        refused_layout(&[(0, 8, u32::MAX)], 1024, 16),
        Some(Refusal::OutsideMemory)
    );
}

#[test]
fn memory_of_another_length() {
    assert_eq!(refused(&vec![0; 16_777_216], &case_a()), None);
    assert_eq!(refused(&vec![0; 16_777_217], &case_a()), Some(Refusal::MemoryLength));
    let mut key = configured(&DATA, &case_a());
    let mut wire = [0xEE; 32];
    assert_eq!(key.send(&[0; 17], &mut wire, START, 16), Err(Refusal::MemoryLength));
    assert_eq!(wire, [0xEE; 32]);
    assert_eq!(key.receive(&mut [], &WIRE, START, 16), Err(Refusal::MemoryLength));
    let refused = key.open(&[0; 15], START, 16).unwrap_err();
    assert_eq!(refused.refusal, Refusal::MemoryLength);
    let mut session = refused.key.open(&DATA, START, 16).unwrap();
    assert_eq!(session.packet(&mut [0; 15], &WIRE), Err(Refusal::MemoryLength));
    assert_eq!(session.packet(&mut [0; 16], &WIRE), totals(32, 16));
}

#[test]
fn lengths_that_do_not_fit() {
    let mut key = configured(&DATA, &case_a());
    let mut wire = [0xEE; 32];
    let mut answer = |offset, length| key.send(&DATA, &mut wire, LayoutOffset(offset), length);
    assert_eq!(answer(0, 12), Err(Refusal::PartialBlock));
    assert_eq!(answer(8, 16), Err(Refusal::PastLayout));
    assert_eq!(answer(17, 0), Err(Refusal::PastLayout));
    assert_eq!(answer(0, u64::MAX - 7), Err(Refusal::PastLayout));
    assert_eq!(answer(u64::MAX, 8), Err(Refusal::PastLayout));
    assert_eq!(answer(16, 0), totals(0, 0));
    assert_eq!(key.send(&DATA, &mut wire[..31], START, 16), Err(Refusal::ShortWire));
    assert_eq!(wire, [0xEE; 32]);
    let mut memory = [0xAA; 16];
    assert_eq!(
        key.receive(&mut memory, &WIRE[..31], START, 16),
        Err(Refusal::ShortWire)
    );
    assert_eq!(memory, [0xAA; 16]);
    let refused = key.open(&memory, START, 12).unwrap_err();
    assert_eq!(refused.refusal, Refusal::PartialBlock);
    assert_eq!(
        refused.key.open(&memory, START, 24).unwrap_err().refusal,
        Refusal::PastLayout
    );
}

#[test]
fn packets_too_long_and_a_finish_too_early() {
    let mut memory = [0xAA; 16];
    let mut session = configured(&memory, &case_a()).open(&memory, START, 16).unwrap();
    assert_eq!(session.packet(&mut memory, &WIRE[..9]), totals(9, 8));
    assert_eq!(session.packet(&mut memory, &WIRE[..24]), Err(Refusal::LongPacket));
    assert_eq!(memory[8..], [0xAA; 8]);
    let early = session.finish().unwrap_err();
    assert_eq!(early.refusal, Refusal::BytesToCome);
    session = early.session;
    assert_eq!(session.packet(&mut memory, &WIRE[9..]), totals(32, 16));
    assert_eq!(memory, DATA);
    assert_eq!(session.finish().unwrap().check(), Ok(None));
}

#[test]
fn a_key_that_was_never_configured() {
    let mut key = Key::new();
    let mut memory = DATA;
    assert_eq!(key.check(), Ok(None));
    assert_eq!(key.send(&DATA, &mut [0; 32], START, 16), Err(Refusal::NotConfigured));
    assert_eq!(key.receive(&mut memory, &WIRE, START, 16), Err(Refusal::NotConfigured));
    assert_eq!(key.open(&DATA, START, 16).unwrap_err().refusal, Refusal::NotConfigured);
}

#[test]
fn a_refused_configure_leaves_the_old_configuration() {
    let mut key = configured(&DATA, &case_a());
    let bad = configuration(Layout::contiguous(16), Domain::None, blocks_of(12));
    assert_eq!(key.configure(&DATA, &bad), Err(Refusal::BadDomain));
    let mut wire = [0; 32];
    assert_eq!(key.send(&DATA, &mut wire, START, 16), totals(16, 32));
    assert_eq!(wire, WIRE);
}

#[test]
fn a_refused_open_returns_its_key() {
    let mut memory = DATA;
    let mut damaged = WIRE;
    damaged[0] ^= 1;
    let mut key = configured(&memory, &case_a());
    key.receive(&mut memory, &damaged, START, 16).unwrap();
    let refused = key.open(&memory, START, 12).unwrap_err();
    assert_eq!(refused.refusal, Refusal::PartialBlock);
    let mut session = refused.key.open(&memory, START, 16).unwrap();
    assert_eq!(session.packet(&mut memory, &WIRE), totals(32, 16));
    let mut key = session.finish().unwrap();
    assert_eq!(key.check().unwrap().map(|error| error.offset), Some(0));
    assert_eq!(memory, DATA);
}

fn receive_by_packets(key: Key, memory: &mut [u8], packets: &[&[u8]], data_length: u64) -> Result<Key, Refusal> {
    let mut session = key.open(memory, START, data_length)?;
    for packet in packets {
        session.packet(memory, packet)?;
    }
    Ok(session.finish()?)
}

#[test]
fn refused_opens_and_ends_become_refusals() {
    let mut memory = DATA;
    let mut refusal = |packets: &[&[u8]], data_length| {
        receive_by_packets(configured(&DATA, &case_a()), &mut memory, packets, data_length).err()
    };
    assert_eq!(refusal(&[&WIRE], 12), Some(Refusal::PartialBlock));
    assert_eq!(refusal(&[&WIRE[..9]], 16), Some(Refusal::BytesToCome));
    assert_eq!(refusal(&[&WIRE[..9], &WIRE], 16), Some(Refusal::LongPacket));
    assert_eq!(refusal(&[&WIRE[..9], &WIRE[9..]], 16), None);
}

/// Returns what an error says, and what each of its sources says.
fn words(error: Box<dyn Error + Send + Sync>) -> Vec<String> {
    let first: &dyn Error = &*error;
    std::iter::successors(Some(first), |&error| error.source())
        .map(ToString::to_string)
        .collect()
}

#[test]
fn refused_opens_and_ends_have_a_refusal_as_source() {
    let open = Key::new().open(&DATA, START, 16).unwrap_err();
    let source = open.source().and_then(|source| source.downcast_ref());
    assert_eq!(source, Some(&Refusal::NotConfigured));
    assert_eq!(words(open.into()), ["open was refused", "the key was never configured"]);
    let session = configured(&DATA, &case_a()).open(&DATA, START, 16).unwrap();
    let early = session.finish().unwrap_err();
    let source = early.source().and_then(|source| source.downcast_ref());
    assert_eq!(source, Some(&Refusal::BytesToCome));
    assert_eq!(
        words(early.into()),
        ["the session did not end", "not all wire bytes have arrived"]
    );
}

#[test]
fn refusals_have_numbers_and_words() {
    assert_eq!(Refusal::NotConfigured.number(), 14);
    assert_eq!(Refusal::Edition.number(), 20);
    assert_eq!(Refusal::NotConfigured.to_string(), "the key was never configured");
    assert_eq!(Refusal::Unknown(77).number(), 77);
    assert_eq!(
        Refusal::Unknown(77).to_string(),
        "the linked library returned 77, which this crate does not know"
    );
}
