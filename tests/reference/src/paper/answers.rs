//! The table of numbered answers on both sides of each boundary, and what the error slot keeps. The answers are written
//! here by hand, as the table has them.

use super::*;

pub const PARTS: [fn(&mut Findings); 7] = [domains, editions, signatures, layouts, transfers, packets, slot];

/// Answers 1 and 2, for the wire domain.
fn domains(findings: &mut Findings) {
    let a = case_a_domain();
    let ignored = Domain { kind: 0, block_size: 12, guard_type: 9, seed: 1, application_tag: 0xFFFF, flags: 6, ..a };
    let table = [
        ("kind 2", Domain { kind: 2, ..a }, 1),
        ("kind 0 with bad numbers", ignored, 0),
        ("block size 7", Domain { block_size: 7, ..a }, 1),
        ("guard type 1", Domain { guard_type: 1, ..a }, 0),
        ("guard type 2", Domain { guard_type: 2, ..a }, 1),
        ("seed 0xFFFF", Domain { seed: 0xFFFF, ..a }, 0),
        ("seed 1", Domain { seed: 1, ..a }, 1),
        ("flags 5", Domain { flags: 5, ..a }, 0),
        ("flags 6", Domain { flags: 6, ..a }, 1),
        ("flags 7", Domain { flags: 7, ..a }, 1),
        ("flags 8", Domain { flags: 8, ..a }, 1),
        ("remap alone with tag 0xFFFF", Domain { flags: 1, application_tag: 0xFFFF, ..a }, 0),
        ("flag 2 with tag 0xFFFF", Domain { flags: 2, application_tag: 0xFFFF, ..a }, 2),
        ("flag 4 with tag 0xFFFF", Domain { flags: 4, application_tag: 0xFFFF, ..a }, 2),
        ("flag 2 with tag 0xFFFE", Domain { flags: 2, application_tag: 0xFFFE, ..a }, 0),
    ];
    for (what, domain, answer) in table {
        findings.compare(what, answer, configuration(signature(domain)).judge(8));
    }
}

/// Answer 20 (paper 02, request 11): "An edition other than 1 or 2, or edition 2 with a size that isn't a multiple of
/// 512". Each row is done with remap and without, on the wire and in memory. In a domain of kind 0 it never applies.
fn editions(findings: &mut Findings) {
    let table = [
        (8, 0, 20),
        (8, 1, 0),
        (8, 2, 20),
        (8, 3, 20),
        (512, 0, 20),
        (512, 1, 0),
        (512, 2, 0),
        (512, 3, 20),
        (512, 0xFFFF_FFFF, 20),
        (504, 2, 20),
        (520, 1, 0),
        (520, 2, 20),
        (1_024, 2, 0),
        (1_536, 2, 0),
        (4_096, 2, 0),
        (4_160, 1, 0),
        (4_160, 2, 20),
    ];
    for (block_size, edition, answer) in table {
        for flags in [0, REMAP] {
            let domain = Domain { block_size, edition, flags, ..case_a_domain() };
            let in_memory = Signature { memory: domain, ..Signature::default() };
            let ignored = Domain { kind: 0, ..domain };
            let what = format!("size {block_size}, edition {edition}, flags {flags}");
            findings.compare(&what, answer, configuration(signature(domain)).judge(8));
            findings.compare(&what, answer, configuration(in_memory).judge(8));
            findings.compare(&format!("{what}, kind 0"), 0, configuration(signature(ignored)).judge(8));
        }
    }
}

fn configuration(signature: Signature) -> Configuration {
    let layout = list_layout(&[Entry { start: 0, count: 8, skip: 0 }]);
    Configuration { layout, signature }
}

/// Answers 3 and 4, and 1 before 20 before 2 before 3 before 4.
fn signatures(findings: &mut Findings) {
    let (a, none) = (case_a_domain(), Domain::default());
    let wide = Domain { block_size: 16, ..a };
    let escape = Domain { flags: 2, application_tag: 0xFFFF, ..a };
    let edition = Domain { edition: 3, ..a };
    let table = [
        (a, a, 0, 0),
        (a, a, 1, 0),
        (a, a, 2, 1),
        (none, none, 1, 3),
        (none, a, 1, 3),
        (a, none, 1, 3),
        (a, wide, 1, 3),
        (a, wide, 0, 4),
        (a, Domain { kind: 0, ..wide }, 0, 0),
        (escape, Domain { kind: 2, ..a }, 1, 1),
        (escape, none, 2, 1),
        (escape, none, 1, 2),
        (wide, escape, 0, 2),
        (edition, Domain { kind: 2, ..a }, 0, 1),
        (Domain { kind: 2, ..a }, edition, 0, 1),
        (edition, none, 2, 1),
        (none, Domain { block_size: 12, ..edition }, 0, 1),
        (edition, escape, 0, 20),
        (escape, edition, 0, 20),
        (none, Domain { edition: 0, ..escape }, 0, 20),
        (edition, none, 1, 20),
        (edition, wide, 1, 20),
        (wide, edition, 0, 20),
    ];
    for (memory, wire, attribute_flags, answer) in table {
        let signature = Signature { memory, wire, attribute_flags, ..Signature::default() };
        findings.compare(&format!("{signature:?}"), answer, configuration(signature).judge(8));
    }
    let beyond = Configuration::default().judge(MEMORY_LIMIT + 1);
    findings.compare("8 before all others", 8, beyond);
    findings.compare("8 before 20", 8, configuration(signature(edition)).judge(MEMORY_LIMIT + 1));
    let without_layout = Configuration { signature: signature(edition), ..Configuration::default() };
    findings.compare("20 before 5", 20, without_layout.judge(8));
    findings.compare("20 before 6", 20, configuration(signature(edition)).judge(7));
    findings.compare("memory at its limit", 0, configuration(signature(a)).judge(MEMORY_LIMIT));
}

/// Entries as start, count and skip; the repeat count; the answer.
type LayoutRow = (&'static [(u64, u32, u32)], u32, u64);

/// Answers 5 to 7 over 64 bytes of memory, and 5 before 6 before 7.
fn layouts(findings: &mut Findings) {
    let table: [LayoutRow; 17] = [
        (&[], 1, 5),
        (&[(0, 1, 0)], 0, 5),
        (&[(0, 0, 0)], 1, 5),
        (&[(0, 64, 0)], 1, 0),
        (&[(0, 65, 0)], 1, 6),
        (&[(0, 1, 0)], 64, 0),
        (&[(0, 1, 0)], 65, 6),
        (&[(0, 1, 0)], 1_024, 6),
        (&[(0, 1, 0)], 1_025, 5),
        (&[(u64::MAX, 1, 0)], 1, 6),
        (&[(u64::MAX - 7, 16, 0)], 1, 6),
        (&[(0, 1, u32::MAX)], 1, 0),
        (&[(0, 1, u32::MAX)], 2, 6),
        (&[(0, 8, 0), (8, 8, 0)], 1, 0),
        (&[(0, 8, 0), (7, 8, 0)], 1, 7),
        (&[(0, 8, 0), (0, 8, 0), (64, 1, 0)], 1, 6),
        (&[(64, 1, 0), (0, 0, 0)], 1, 5),
    ];
    for (entries, repeat, answer) in table {
        let entries: Vec<Entry> = entries.iter().map(|&(start, count, skip)| Entry { start, count, skip }).collect();
        let layout = Layout { repeat, ..list_layout(&entries) };
        let configuration = Configuration { layout, ..Configuration::default() };
        findings.compare(&format!("{repeat} times {entries:?}"), answer, configuration.judge(64));
    }
    let seventeen = Layout { used: 17, ..list_layout(&[Entry { start: 0, count: 1, skip: 0 }; 16]) };
    let configuration = Configuration { layout: seventeen, ..Configuration::default() };
    findings.compare("17 entries", 5, configuration.judge(64));
}

/// Answers 14, 8, 9, 10 and 11, in this order. A row has the memory length, wire length, offset, data length and answer
/// of a transfer with case A's key for 16 bytes.
fn transfers(findings: &mut Findings) {
    let table = [
        (16, 32, 0, 16, 0),
        (15, 0, 17, 7, 8),
        (17, 32, 0, 16, 8),
        (16, 0, 17, 7, 9),
        (16, 32, 0, 17, 9),
        (16, 0, 1, 16, 10),
        (16, 64, 0, 24, 10),
        (16, 0, 16, 0, 0),
        (16, 0, 17, 0, 10),
        (16, 31, 0, 16, 11),
        (16, 33, 0, 16, 0),
    ];
    for (memory, wire, offset, data_length, answer) in table {
        let what = format!("memory {memory}, wire {wire}, offset {offset}, data length {data_length}");
        let (mut memory, mut wire) = (vec![0; memory], vec![0; wire]);
        let mut key = key(16, signature(case_a_domain()));
        findings.compare(&what, answer, key.send(&memory, &mut wire, offset, data_length).answer);
        findings.compare(&what, answer, key.receive(&mut memory, &wire, offset, data_length).answer);
        let opened = key.open(&memory, offset, data_length).err().unwrap_or(0);
        findings.compare(&what, if answer == 11 { 0 } else { answer }, opened);
    }
    let fresh = Key::default().open(&[], u64::MAX, u64::MAX).err();
    findings.compare("never configured", Some(14), fresh);
}

/// Answers 8 and 12 in this order, and 13.
fn packets(findings: &mut Findings) {
    let opened = key(16, signature(case_a_domain())).open(&[0; 16], 0, 16);
    let mut session = opened.expect("the paper's transfer is accepted");
    let mut packet = |memory: usize, bytes: &[u8]| {
        let totals = session.packet(&mut vec![0; memory], bytes);
        (totals.answer, totals.taken, totals.written, session.finish().err())
    };
    findings.compare("packet too long, wrong memory", (8, 0, 0, Some(13)), packet(15, &[0; 33]));
    findings.compare("packet too long", (12, 0, 0, Some(13)), packet(16, &[0; 33]));
    findings.compare("all but one byte", (0, 31, 16, Some(13)), packet(16, &[0; 31]));
    findings.compare("refused after that", (12, 0, 0, Some(13)), packet(16, &[0; 2]));
    findings.compare("the last byte", (0, 32, 16, None), packet(16, &[0]));
    findings.compare("one more", (12, 0, 0, None), packet(16, &[0]));
    findings.compare("an empty one", (0, 32, 16, None), packet(16, &[]));
}

/// "the first bad block's first bad field, in the order guard, application, reference", kept until it is checked. The
/// fifth number (paper 02, request 6) has the bits of the reported field alone. Bytes BA stand in place of 00 00, 12 34
/// and 00 00 00 00, so all bytes of the second block's field differ: 128 + 64 for the guard, 32 + 16 for the
/// application tag, 15 for the reference tag. In the first block only the reference tag's last byte differs, which is
/// 1.
fn slot(findings: &mut Findings) {
    let mut wire = CASE_A_WIRE;
    wire[24..].fill(0xBA);
    let with_mask = |check_mask: u8| check_of(&wire, Signature { check_mask, ..signature(case_a_domain()) });
    findings.compare("guard first", [1, 0, 0xBABA, 16, 192], with_mask(0xFF));
    findings.compare("then application", [3, 0x1234, 0xBABA, 16, 48], with_mask(0x3F));
    findings.compare("its first byte alone", [3, 0x1234, 0xBABA, 16, 32], with_mask(0x2F));
    findings.compare("then reference", [2, 0, 0xBABA_BABA, 16, 15], with_mask(0x0F));
    findings.compare("its middle bytes alone", [2, 0, 0xBABA_BABA, 16, 6], with_mask(0x06));
    wire[15] = 0xFE;
    let earlier = [2, 0xFFFF_FFFF, 0xFFFF_FFFE, 0, 1];
    findings.compare("an earlier block first", earlier, check_of(&wire, signature(case_a_domain())));
    let mut key = key(16, signature(case_a_domain()));
    key.receive(&mut [0; 16], &wire, 0, 16);
    wire[0] = 0x77;
    key.receive(&mut [0; 16], &wire, 0, 16);
    key.configure(&[0; 8], &configuration(signature(case_a_domain())));
    findings.compare("kept through a transfer and configure", earlier, key.check());
    findings.compare("emptied by check", [0; 5], key.check());
    findings.compare("check on a key never configured", [0; 5], Key::default().check());
}
