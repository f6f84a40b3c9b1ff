//! The model against the numbers that the rule book, SBC-3 and RFC 1071 print.

mod answers;

use crate::cases::list_layout;
use crate::model::*;
use std::fmt::Debug;

/// The comparisons made so far.
#[derive(Default)]
pub struct Findings {
    pub compared: usize,
    pub differences: Vec<String>,
}

impl Findings {
    /// Compares a number of the papers with the model's.
    fn compare<T: PartialEq + Debug>(&mut self, what: &str, paper: T, model: T) {
        self.compared += 1;
        if paper != model {
            self.differences.push(format!("{what}: the paper has {paper:X?}, the model {model:X?}"));
        }
    }
}

/// Compares all numbers of the papers.
pub fn findings() -> Findings {
    let mut findings = Findings::default();
    let parts: [fn(&mut Findings); 18] = [
        sbc_3,
        rfc_1071,
        cases_a_to_d,
        cases_e_to_g,
        wrong_guards_of_e_to_g,
        cases_h_and_i,
        escaped_blocks,
        escaped_output,
        cases_j_to_l,
        case_m,
        case_n,
        differing_in_j_to_n,
        sizes,
        tags_of_edition_2,
        tags_read_by_the_other_edition,
        copying_by_edition,
        reasonable_errors,
        huge_lengths,
    ];
    for part in parts.iter().chain(&answers::PARTS) {
        part(&mut findings);
    }
    findings
}

const CASE_A_DATA: [u8; 16] = [0, 0, 0, 0, 0, 0, 0, 1, 0, 0, 0, 0, 0, 0, 0, 0];

const CASE_A_WIRE: [u8; 32] = [
    0x00, 0x00, 0x00, 0x00, 0x00, 0x00, 0x00, 0x01, 0x8B, 0xB7, 0x12, 0x34, 0xFF, 0xFF, 0xFF, 0xFF, //
    0x00, 0x00, 0x00, 0x00, 0x00, 0x00, 0x00, 0x00, 0x00, 0x00, 0x12, 0x34, 0x00, 0x00, 0x00, 0x00,
];

/// "block 8, CRC, seed 0, tag 0x1234, reference 0xFFFFFFFF, remap". 01 counts reference tags as edition 1 does.
pub fn case_a_domain() -> Domain {
    Domain {
        kind: T10_DIF,
        block_size: 8,
        guard_type: CRC,
        reference_tag: 0xFFFF_FFFF,
        seed: 0,
        application_tag: 0x1234,
        flags: REMAP,
        edition: EDITION_1,
    }
}

/// "Unless a case names them: check mask 0xFF, attribute flag 0, memory unsigned."
fn signature(wire: Domain) -> Signature {
    Signature { wire, check_mask: 0xFF, ..Signature::default() }
}

/// A key over one entry of `length` bytes of memory.
fn key(length: usize, signature: Signature) -> Key {
    let layout = list_layout(&[Entry { start: 0, count: length as u32, skip: 0 }]);
    let mut key = Key::default();
    assert_eq!(key.configure(&vec![0; length], &Configuration { layout, signature }), answer::DONE);
    key
}

/// Receives two blocks of 8 bytes from this wire, and returns what check then returns.
fn check_of(wire: &[u8], signature: Signature) -> [u64; 5] {
    let mut key = key(16, signature);
    assert_eq!(key.receive(&mut [0; 16], wire, 0, 16).answer, answer::DONE);
    key.check()
}

/// The CRCs that SBC-3 prints for 32 bytes, with seed 0.
fn sbc_3(findings: &mut Findings) {
    let counting = std::array::from_fn(|at| at as u8);
    let mut two_set = [0; 32];
    two_set[..2].fill(0xFF);
    let vectors: [(&str, [u8; 32], u16); 5] = [
        ("SBC-3, all 00", [0x00; 32], 0x0000),
        ("SBC-3, all FF", [0xFF; 32], 0xA293),
        ("SBC-3, 00 01 .. 1F", counting, 0x0224),
        ("SBC-3, FF FF 00 ..", two_set, 0x21B8),
        ("SBC-3, FF FE .. E0", counting.map(|byte| 0xFF - byte), 0xA0B7),
    ];
    for (what, data, guard) in vectors {
        findings.compare(what, guard, crc_guard(0, &data));
    }
}

fn rfc_1071(findings: &mut Findings) {
    let data = [0x00, 0x01, 0xF2, 0x03, 0xF4, 0xF5, 0xF6, 0xF7];
    findings.compare("RFC 1071, sum", 0xDDF2, ones_complement_sum(0, &data));
    findings.compare("RFC 1071, checksum", 0x220D, checksum_guard(0, &data));
}

/// Case A's wire, of which "second block ends in 02".
fn case_c_wire() -> [u8; 32] {
    let mut wire = CASE_A_WIRE;
    wire[23] = 0x02;
    wire
}

/// Case C's error with the fifth number of paper 02, request 6. The guard's bytes are 9C D9 by rule, and 00 00 was
/// found: both differ and both are checked. They are the first two of the eight, so bits 7 and 6 are set: 128 + 64 =
/// 192.
const CASE_C_ERROR: [u64; 5] = [1, 0x9CD9, 0, 16, 192];

/// 01's cases, and the lines that paper 02, request 6, prints: "case A "0 0 0 0 0"; case C "1 40153 0 16 192"".
fn cases_a_to_d(findings: &mut Findings) {
    let domain = case_a_domain();
    let mut wire = [0; 32];
    let totals = key(16, signature(domain)).send(&CASE_A_DATA, &mut wire, 0, 16);
    findings.compare("A, wire", CASE_A_WIRE, wire);
    findings.compare("A, totals", Totals { answer: 0, taken: 16, written: 32 }, totals);
    findings.compare("B", [0; 5], check_of(&CASE_A_WIRE, signature(domain)));
    let damaged = case_c_wire();
    findings.compare("C", CASE_C_ERROR, check_of(&damaged, signature(domain)));
    let line_of = |wire: &[u8]| check_of(wire, signature(domain)).map(|number| number.to_string()).join(" ");
    findings.compare("A, the small program's line", "0 0 0 0 0", &line_of(&CASE_A_WIRE));
    findings.compare("C, the small program's line", "1 40153 0 16 192", &line_of(&damaged));
    let with_mask = |check_mask: u8| check_of(&damaged, Signature { check_mask, ..signature(domain) });
    findings.compare("D", [0; 5], with_mask(0x3F));
    // With one guard bit of D's mask set, the guard is bad again, and the other byte differs unchecked.
    findings.compare("D with the guard's first byte checked", [1, 0x9CD9, 0, 16, 128], with_mask(0xBF));
    findings.compare("D with the guard's second byte checked", [1, 0x9CD9, 0, 16, 64], with_mask(0x7F));
}

fn cases_e_to_g(findings: &mut Findings) {
    let words = [0x00, 0x01, 0x00, 0x02, 0x00, 0x03, 0x00, 0x04];
    findings.compare("E, seed 0", 0xFFFF, checksum_guard(0, &[0; 8]));
    findings.compare("E, seed 0xFFFF", 0, checksum_guard(0xFFFF, &[0; 8]));
    findings.compare("F, seed 0", 0xFFF5, checksum_guard(0, &words));
    findings.compare("F, seed 0xFFFF", 0xFFF5, checksum_guard(0xFFFF, &words));
    findings.compare("G", 0xFFFE, checksum_guard(0, &[0xFF, 0xFF, 0x00, 0x01, 0, 0, 0, 0]));
}

/// Receives blocks with the data of cases E to G, of which a guard is right or that of another of these cases. The
/// fifth number (paper 02, request 6) follows from the two guards that 01 prints: 0xFFFF and 0 differ in both bytes,
/// which is 128 + 64. 0xFFF5, 0xFFFE and 0xFFFF have the same first byte, so of these each two differ in the second
/// alone: 64.
fn wrong_guards_of_e_to_g(findings: &mut Findings) {
    let (zeros, words) = ([0; 8], [0x00, 0x01, 0x00, 0x02, 0x00, 0x03, 0x00, 0x04]);
    let wrapping = [0xFF, 0xFF, 0x00, 0x01, 0x00, 0x00, 0x00, 0x00];
    let table = [
        ("E, seed 0, right", 0, zeros, 0xFFFF, [0; 5]),
        ("E, seed 0xFFFF, right", 0xFFFF, zeros, 0, [0; 5]),
        ("E, seed 0, guard of the other seed", 0, zeros, 0, [1, 0xFFFF, 0, 0, 192]),
        ("E, seed 0xFFFF, guard of the other seed", 0xFFFF, zeros, 0xFFFF, [1, 0, 0xFFFF, 0, 192]),
        ("F, seed 0, right", 0, words, 0xFFF5, [0; 5]),
        ("F, seed 0xFFFF, right", 0xFFFF, words, 0xFFF5, [0; 5]),
        ("F, G's guard", 0, words, 0xFFFE, [1, 0xFFF5, 0xFFFE, 0, 64]),
        ("G, right", 0, wrapping, 0xFFFE, [0; 5]),
        ("G, F's guard", 0, wrapping, 0xFFF5, [1, 0xFFFE, 0xFFF5, 0, 64]),
        ("G, E's guard", 0, wrapping, 0xFFFF, [1, 0xFFFE, 0xFFFF, 0, 64]),
    ];
    for (what, seed, data, guard, error) in table {
        let domain = Domain { guard_type: CHECKSUM, seed, ..case_a_domain() };
        let field = [&u16::to_be_bytes(guard)[..], &CASE_A_WIRE[10..16]].concat();
        let mut key = key(8, signature(domain));
        key.receive(&mut [0; 8], &[&data[..], &field].concat(), 0, 8);
        findings.compare(what, error, key.check());
    }
}

/// Case A's wire with "first block's application field FF FF and its guard wrong". Its reference field is FF FF FF FF.
fn case_h_wire() -> [u8; 32] {
    let mut wire = CASE_A_WIRE;
    wire[8..12].copy_from_slice(&[0x00, 0x00, 0xFF, 0xFF]);
    wire
}

/// Case A's domain with an escape flag.
fn case_a_with(escape: u32) -> Domain {
    Domain { flags: REMAP | escape, ..case_a_domain() }
}

/// "Case H becomes no error; I stays" (paper 02, request 2).
fn cases_h_and_i(findings: &mut Findings) {
    let escape = signature(case_a_with(APPLICATION_ESCAPE));
    findings.compare("H", [0; 5], check_of(&case_h_wire(), escape));
    findings.compare("I", [0; 5], check_of(&case_h_wire(), Signature { check_mask: 0xCF, ..escape }));
}

/// "Under flags 2 and 4 all three fields of an escaped block are skipped" (paper 02, request 2), on case H's wire. The
/// error of a block that is not escaped is case C's, or that of the wrong guard: 0x8BB7 is computed, 0 is found. Both
/// of its bytes differ, so the fifth number (request 6) is 128 + 64. If the guard is not checked, it is the application
/// tag's, which 01 prints for H: 0x1234 is computed, 0xFFFF is found, and both bytes differ, which is 32 + 16.
fn escaped_blocks(findings: &mut Findings) {
    let by_application = signature(case_a_with(APPLICATION_ESCAPE));
    let by_both = signature(case_a_with(BOTH_ESCAPE));
    let wrong_guard = [1, 0x8BB7, 0, 0, 192];
    let wire = case_h_wire();
    let without_flag = |check_mask: u8| check_of(&wire, Signature { check_mask, ..signature(case_a_domain()) });
    findings.compare("H without its flag", wrong_guard, without_flag(0xFF));
    findings.compare("I without its flag", wrong_guard, without_flag(0xCF));
    findings.compare("H without its flag, tags checked", [3, 0x1234, 0xFFFF, 0, 48], without_flag(0x3F));
    findings.compare("the same, first byte alone", [3, 0x1234, 0xFFFF, 0, 32], without_flag(0x2F));
    findings.compare("the same, second byte alone", [3, 0x1234, 0xFFFF, 0, 16], without_flag(0x1F));
    findings.compare("H without its flag, reference tag checked", [0; 5], without_flag(0x0F));
    findings.compare("H with flag 4", [0; 5], check_of(&wire, by_both));
    let mut wrong_reference = wire;
    wrong_reference[15] = 0xFE;
    findings.compare("H, reference tag wrong", [0; 5], check_of(&wrong_reference, by_application));
    findings.compare("H with flag 4, reference tag wrong", wrong_guard, check_of(&wrong_reference, by_both));
    let mut nearly = wire;
    nearly[11] = 0xFE;
    let mut both_damaged = wire;
    both_damaged[23] = 0x02;
    for (flag, signature) in [(2, by_application), (4, by_both)] {
        let nearly = check_of(&nearly, signature);
        findings.compare(&format!("flag {flag}, application field FF FE"), wrong_guard, nearly);
        let later = check_of(&both_damaged, signature);
        findings.compare(&format!("flag {flag}, C's error after H's block"), CASE_C_ERROR, later);
    }
}

/// "Copying and generating don't change" (paper 02, request 2): an escaped block's field is copied as it was found, or
/// generated as for any block.
fn escaped_output(findings: &mut Findings) {
    for escape in [APPLICATION_ESCAPE, BOTH_ESCAPE] {
        let both = Signature { memory: case_a_with(escape), ..signature(case_a_with(escape)) };
        let sent_with_copy_mask = |copy_mask: u8| {
            let mut wire = [0; 32];
            let signature = Signature { attribute_flags: COPY_MASK_GIVEN, copy_mask, ..both };
            key(32, signature).send(&case_h_wire(), &mut wire, 0, 16);
            wire
        };
        findings.compare("an escaped block's field copied", case_h_wire(), sent_with_copy_mask(0xFF));
        findings.compare("an escaped block's field generated", CASE_A_WIRE, sent_with_copy_mask(0x00));
    }
}

/// "entries (0, 512, 4), (1028, 8, 0), repeat 2", with this start in the second entry.
fn case_j_with(second_start: u64) -> Configuration {
    let entries = [Entry { start: 0, count: 512, skip: 4 }, Entry { start: second_start, count: 8, skip: 0 }];
    let layout = Layout { repeat: 2, ..list_layout(&entries) };
    Configuration { layout, signature: signature(case_a_domain()) }
}

fn cases_j_to_l(findings: &mut Findings) {
    let case_j = case_j_with(1_028);
    let places: Vec<usize> = case_j.layout.places().collect();
    findings.compare("J, answer", 0, case_j.judge(1_044));
    findings.compare("J, total", 1_040, case_j.layout.total());
    findings.compare("J, places in all", 1_040, places.len());
    findings.compare("J, layout byte 512", 1_028, places[512]);
    findings.compare("J, layout byte 520", 516, places[520]);
    findings.compare("K", 6, case_j.judge(1_043));
    findings.compare("L", 7, case_j_with(1_027).judge(1_044));
}

/// Receives the wire in packets of these lengths, and returns the bytes written after each.
fn written_totals(signature: Signature, memory_length: usize, wire: &[u8], packets: &[usize]) -> Vec<u64> {
    let mut memory = vec![0xEE; memory_length];
    let data_length = 16;
    let opened = key(memory_length, signature).open(&memory, 0, data_length);
    let mut session = opened.expect("the paper's transfer is accepted");
    let mut rest = wire;
    let mut written = Vec::new();
    for &length in packets {
        let (packet, left) = rest.split_at(length);
        written.push(session.packet(&mut memory, packet).written);
        rest = left;
    }
    written
}

fn case_m(findings: &mut Findings) {
    let written = written_totals(signature(case_a_domain()), 16, &CASE_A_WIRE, &[0, 9, 0, 7, 16]);
    findings.compare("M", vec![0, 8, 8, 8, 16], written);
}

fn case_n(findings: &mut Findings) {
    let signature = Signature { memory: case_a_domain(), check_mask: 0xFF, ..Signature::default() };
    let written = written_totals(signature, 32, &CASE_A_DATA, &[8, 1]);
    findings.compare("N", vec![16, 17], written);
}

/// The fifth number of check (paper 02, request 6) with the keys of cases J to N. Where 01 prints no damage, C's wire
/// is received, and neither J's layout nor M's packets enter C's five numbers. K's and L's keys were refused a
/// configuration, and "Check on a key never configured" has all zeros. In N the wire is unsigned, so nothing is
/// checked.
fn differing_in_j_to_n(findings: &mut Findings) {
    for (what, second_start, length, error) in
        [("J", 1_028, 1_044, CASE_C_ERROR), ("K", 1_028, 1_043, [0; 5]), ("L", 1_027, 1_044, [0; 5])]
    {
        let (mut key, mut memory) = (Key::default(), vec![0; length]);
        key.configure(&memory, &case_j_with(second_start));
        key.receive(&mut memory, &case_c_wire(), 508, 16);
        findings.compare(&format!("{what}, C's wire received"), error, key.check());
    }
    let unsigned_wire = Signature { memory: case_a_domain(), check_mask: 0xFF, ..Signature::default() };
    let table = [
        ("M", signature(case_a_domain()), &CASE_A_WIRE[..], [0; 5]),
        ("M, C's wire", signature(case_a_domain()), &case_c_wire(), CASE_C_ERROR),
        ("N", unsigned_wire, &CASE_A_DATA, [0; 5]),
    ];
    for (what, signature, wire, error) in table {
        let mut memory = [0; 32];
        let opened = key(memory.len(), signature).open(&memory, 0, 16);
        let mut session = opened.expect("the paper's transfer is accepted");
        let (first, rest) = wire.split_at(9);
        for packet in [&[], first, &[], &rest[..7], &rest[7..]] {
            session.packet(&mut memory, packet);
        }
        let finished = session.finish().map(|mut key| key.check());
        findings.compare(&format!("{what}, check after finish"), Ok(error), finished);
    }
}

fn sizes(findings: &mut Findings) {
    for (block_size, answer) in [(4_160, 0), (4_168, 1), (12, 1), (0, 1)] {
        let domain = Domain { block_size, ..case_a_domain() };
        let layout = list_layout(&[Entry { start: 0, count: 1, skip: 0 }]);
        let configuration = Configuration { layout, signature: signature(domain) };
        findings.compare(&format!("block size {block_size}"), answer, configuration.judge(1));
    }
}

/// Sends three blocks of zeros, and returns their reference tags.
fn reference_tags(domain: Domain) -> [u32; 3] {
    let (size, unit) = (domain.block_size as usize, domain.block_size as usize + FIELD_SIZE);
    let (memory, mut wire) = (vec![0; 3 * size], vec![0; 3 * unit]);
    key(memory.len(), signature(domain)).send(&memory, &mut wire, 0, 3 * size as u64);
    std::array::from_fn(|block| {
        let end = (block + 1) * unit;
        u32::from_be_bytes(std::array::from_fn(|at| wire[end - 4 + at]))
    })
}

/// "edition 2 adds i × (block size / 512) under remap" (paper 02, request 11), from case A's tag and from the tag 16.
/// The sums are worked out by hand, modulo 4,294,967,296.
fn tags_of_edition_2(findings: &mut Findings) {
    let (a, remap) = (0xFFFF_FFFF, REMAP);
    let table = [
        (512, EDITION_2, remap, [a, 0, 1], [16, 17, 18]),
        (1_024, EDITION_2, remap, [a, 1, 3], [16, 18, 20]),
        (1_536, EDITION_2, remap, [a, 2, 5], [16, 19, 22]),
        (4_096, EDITION_2, remap, [a, 7, 15], [16, 24, 32]),
        (4_096, EDITION_1, remap, [a, 0, 1], [16, 17, 18]),
        (4_096, EDITION_2, 0, [a; 3], [16; 3]),
    ];
    for (block_size, edition, flags, from_a, from_16) in table {
        let what = format!("tags of edition {edition} at {block_size}, flags {flags}");
        let domain = Domain { block_size, edition, flags, ..case_a_domain() };
        findings.compare(&what, from_a, reference_tags(domain));
        findings.compare(&what, from_16, reference_tags(Domain { reference_tag: 16, ..domain }));
    }
}

/// "Both editions stay, chosen per domain" (paper 02, request 11): three blocks of 1,024 zeros with tags that count by
/// 1 or by 2 from 16 on, read by either edition. Block 1 begins at byte 1,032, and its tag is 17 or 18: only the last
/// of the eight bytes differs. The CRC of zeros is 0.
fn tags_read_by_the_other_edition(findings: &mut Findings) {
    let table = [
        (1, EDITION_1, [0; 5]),
        (2, EDITION_1, [2, 17, 18, 1_032, 1]),
        (1, EDITION_2, [2, 18, 17, 1_032, 1]),
        (2, EDITION_2, [0; 5]),
    ];
    for (step, edition, error) in table {
        let block = |i: u8| [vec![0; 1_024], vec![0x00, 0x00, 0x12, 0x34, 0, 0, 0, 16 + i * step]].concat();
        let wire = [block(0), block(1), block(2)].concat();
        let domain = Domain { block_size: 1_024, edition, reference_tag: 16, ..case_a_domain() };
        let mut key = key(3_072, signature(domain));
        key.receive(&mut [0; 3_072], &wire, 0, 3_072);
        findings.compare(&format!("tags that count by {step}, edition {edition}"), error, key.check());
    }
}

/// "Automatic copying of the reference tag also needs equal editions" (paper 02, request 11). A block of 512 zeros has
/// the wrong tags 0xABCD and 5. They are copied, or the reference tag is generated. It is then case A's, as the block
/// is the first. A given copy mask copies both tags.
fn copying_by_edition(findings: &mut Findings) {
    let field = [0x00, 0x00, 0xAB, 0xCD, 0x00, 0x00, 0x00, 0x05];
    let generated = [0x00, 0x00, 0xAB, 0xCD, 0xFF, 0xFF, 0xFF, 0xFF];
    let input = [vec![0; 512], field.to_vec()].concat();
    for (memory, wire, automatic) in [(1, 1, field), (1, 2, generated), (2, 1, generated), (2, 2, field)] {
        for flags in [0, REMAP] {
            let domain = |edition: u32| Domain { block_size: 512, edition, flags, ..case_a_domain() };
            let both = Signature { memory: domain(memory), ..signature(domain(wire)) };
            let given = Signature { attribute_flags: COPY_MASK_GIVEN, copy_mask: 0xFF, ..both };
            for (signature, copied) in [(both, automatic), (given, field)] {
                let mut output = vec![0; 520];
                key(520, signature).send(&input, &mut output, 0, 512);
                let what = format!("editions {memory} and {wire}, attribute flags {}", signature.attribute_flags);
                findings.compare(&what, &copied[..], &output[512..]);
            }
        }
    }
}

/// "Errors that look reasonable", each on case A's and C's numbers.
fn reasonable_errors(findings: &mut Findings) {
    let damaged = case_c_wire();
    let both = Signature { memory: case_a_domain(), ..signature(case_a_domain()) };
    let mut wire = [0; 32];
    key(32, both).send(&damaged, &mut wire, 0, 16);
    findings.compare("a copied guard over damaged data", damaged, wire);
    let fresh_guard = Signature { attribute_flags: COPY_MASK_GIVEN, copy_mask: 0x3F, ..both };
    key(32, fresh_guard).send(&damaged, &mut wire, 0, 16);
    findings.compare("a generated guard over it", [0x9C, 0xD9], [wire[24], wire[25]]);
    let half_masked = Signature { check_mask: 0x80, ..signature(case_a_domain()) };
    findings.compare("reported values are not masked", [1, 0x9CD9, 0, 16, 128], check_of(&damaged, half_masked));
    let moved = [&[0xEE; 5], &CASE_A_DATA[..]].concat();
    key(21, signature(case_a_domain())).send(&moved, &mut wire, 5, 16);
    findings.compare("the layout offset doesn't enter the reference tag", CASE_A_WIRE, wire);
}

/// Data lengths whose memory stream, in blocks of 8 with their fields, has 2^64 bytes or slightly more.
fn huge_lengths(findings: &mut Findings) {
    let key = key(32, Signature { memory: case_a_domain(), ..Signature::default() });
    for (data_length, answer) in [(1 << 63, 10), ((1 << 63) + 8, 10), (u64::MAX - 7, 10), (u64::MAX, 9)] {
        let opened = key.open(&[0; 32], 0, data_length).err();
        findings.compare(&format!("length {data_length:X}"), Some(answer), opened);
    }
}

#[cfg(test)]
mod tests {
    #[test]
    fn the_model_has_the_papers_numbers() {
        let findings = super::findings();
        assert!(findings.compared > 100);
        assert_eq!(findings.differences, Vec::<String>::new());
    }
}
